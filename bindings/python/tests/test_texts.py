"""What the package writes of data and reads of texts, and what it says of data that are wrong."""

import importlib.util
import pickle
import unittest
from pathlib import Path

from rudlayog import Cut, Forecast, Limit, Plan, Refusal, Route, Setup, Store, Stretch
from rudlayog._data import Columns, columns, octets, rows
from rudlayog.forecasts import forecast_octets
from rudlayog.plans import plan_octets, request_octets
from rudlayog.setups import setup_octets

SETUP = """[[store]]
id = "SCI"
size = 4
type = "bounded"
channel = 0
start = 0

[[store]]
id = "HK"
size = 3
type = "circular"
channel = 1
start = 2

[[route]]
apid = 100
service = 3
subtype = 25
store = "HK"

[[limit]]
channel = 1
blocks = 1
"""
STORES = [Store("SCI", 4), Store("HK", 3, "circular", 1, 2)]
ROUTES = [Route(100, 3, 25, "HK")]
LIMITS = [Limit(1, 1)]
FORECAST = "step,window,SCI,HK\n1,2,5,1\n2,3,3,0\n"
PLAN = "mmplan 2\nstores SCI HK\ndump 1 2 0\ndump 2 2 1\nloss 3\nstretch SCI 1 2\ncount 1 channels\nbound -3\nend\n"


class Frame:
    """What a data frame has that is asked for: its columns, the values of one, and perhaps an index."""

    def __init__(self, named, names=None, index=None):
        self._named = named
        self.columns = names or list(named)
        if index is not None:
            self.index = index

    def __getitem__(self, name):
        return self._named[name]


class Steps(list):
    """The index of a data frame that is called step."""

    name = "step"


class Counted:
    """A number of another kind than int."""

    def __init__(self, value):
        self._value = value

    def __index__(self):
        return self._value


def refused(test, call, *given):
    """The text of the library's refusal of a call."""
    with test.assertRaises(Refusal) as caught:
        call(*given)
    return caught.exception.text()


def wrong(test, call, *given):
    """What is said of data that are wrong."""
    with test.assertRaises(ValueError) as caught:
        call(*given)
    test.assertNotIsInstance(caught.exception, Refusal)
    return str(caught.exception)


class Setups(unittest.TestCase):
    def test_written(self):
        self.assertEqual(Setup.of(STORES, ROUTES, LIMITS).text(), SETUP)
        self.assertEqual(bytes(Setup.of(STORES, ROUTES, LIMITS)), SETUP.encode())

    def test_read(self):
        self.assertEqual(Setup.read(SETUP), Setup.of(STORES, ROUTES, LIMITS))
        self.assertEqual(Setup.read("\ufeff" + SETUP), Setup.of(STORES, ROUTES, LIMITS))
        self.assertEqual(Setup.read(SETUP).text(), SETUP)

    def test_read_as_the_library_reads(self):
        # docs/FORMATS.md, 'Setup': the first fault of each.
        for change, words in (
            (("[[store]]", "stores = 1\n[[store]]"), "28 SetupField row 0 name unknown"),
            (('type = "bounded"\n', ""), "28 SetupField row 1 name type"),
            (("size = 3", "size = 3.0"), "28 SetupField row 2 name size"),
            (("channel = 0", "channel = 8"), "33 Limit name channel"),
            (("size = 4", "size = 4\nspeed = 1"), "28 SetupField row 1 name unknown"),
            (('"HK"', '"SCI"'), "28 SetupField row 2 name repeated"),
            (("[[store]]", "[[store"), "27 SetupText"),
        ):
            self.assertEqual(refused(self, Setup.read, SETUP.replace(*change, 1)), words)

    def test_arrivals_during_dumps(self):
        text = 'arrivals = "during"\n' + SETUP
        during = Setup.of(STORES, ROUTES, LIMITS, arrivals="during")
        self.assertEqual((during.text(), Setup.read(text)), (text, during))
        self.assertEqual(Setup.read('arrivals = "before"\n' + SETUP), Setup.of(STORES, ROUTES, LIMITS))
        self.assertNotEqual(during, Setup.of(STORES, ROUTES, LIMITS))
        self.assertEqual(pickle.loads(pickle.dumps(during)), during)
        self.assertEqual(during.holding({"SCI": 3}).text(), text.replace("start = 0", "start = 3"))
        self.assertEqual((during.to_dict()["arrivals"], setup_octets(during.to_dict()).decode()), ("during", text))
        self.assertNotIn("arrivals", Setup.of(STORES).to_dict())
        for value in ('"while"', "1", '["during"]'):
            text = f"arrivals = {value}\n" + SETUP
            self.assertEqual(refused(self, Setup.read, text), "28 SetupField row 0 name arrivals")

    def test_frozen(self):
        setup = Setup(list(STORES))
        self.assertEqual({setup: 1}[Setup.of(STORES)], 1)
        self.assertIs(bytes(setup), bytes(setup))
        self.assertEqual(pickle.dumps(setup), pickle.dumps(Setup.of(STORES)))

    def test_of_dicts_columns_and_frames(self):
        named = {
            "id": ["SCI", "HK"],
            "size": [4, 3],
            "type": ["bounded", "circular"],
            "channel": [0, 1],
            "start": [0, 2],
        }
        wanted = tuple(STORES)
        self.assertEqual(Setup.of(rows(named)).stores, wanted)
        self.assertEqual(Setup.of(named).stores, wanted)
        self.assertEqual(Setup.of(Frame(named)).stores, wanted)
        self.assertEqual(setup_octets(Frame(named)), bytes(Setup.of(STORES)))
        self.assertEqual(setup_octets([{"id": "SCI", "size": 4}]), bytes(Setup.of(STORES[:1])))
        self.assertEqual(setup_octets(Setup.read(SETUP).to_dict()).decode(), SETUP)

    def test_what_is_no_setup_is_left_to_the_library(self):
        self.assertEqual(setup_octets({"stores": 1}), b"stores = 1\n")
        self.assertEqual(
            setup_octets({"store": [{"id": 'a"\n', "size": True}]}), b'[[store]]\nid = "a\\"\\n"\nsize = true\n'
        )
        self.assertEqual(setup_octets(b"\xff"), b"\xff")

    def test_tables_in_frames(self):
        named = {
            "id": ["SCI", "HK"],
            "size": [4, 3],
            "type": ["bounded", "circular"],
            "channel": [0, 1],
            "start": [0, 2],
        }
        for stores in (named, Frame(named)):
            given = {
                "store": stores,
                "route": Frame({"apid": [100], "service": [3], "subtype": [25], "store": ["HK"]}),
                "limit": [{"channel": 1, "blocks": 1}],
            }
            self.assertEqual(setup_octets(given).decode(), SETUP)

    def test_faults_of_data(self):
        named = {"id": ["SCI", "HK"], "size": [4, 3]}
        for change, words in (
            ({"size": [4, 3.5]}, "column size, row 2 of the Stores: 3.5 is no whole number"),
            ({"size": [4, None]}, "column size, row 2 of the Stores: None is no whole number"),
            ({"start": [0, float("nan")]}, "column start, row 2 of the Stores: nan is no whole number"),
            ({"channel": ["0", 0]}, "column channel, row 1 of the Stores: '0' is no whole number"),
            ({"id": ["SCI", 7]}, "column id, row 2 of the Stores: 7 is no text"),
            (
                {"window": [1, 2]},
                "row 1 of the Stores has a column window, and there can be id, size, type, channel, start",
            ),
            ({"size": [4]}, "column size has 1 rows, and column id has 2"),
        ):
            for table in ({**named, **change}, Frame({**named, **change})):
                self.assertEqual(wrong(self, Setup.of, table), words)
        self.assertEqual(wrong(self, Setup.of, [STORES[0], {"id": "HK"}]), "row 2 of the Stores has no column size")
        self.assertEqual(
            wrong(self, Setup.of, [STORES[0], ROUTES[0]]),
            f"row 2 of the table is {ROUTES[0]!r}, and has no columns with names",
        )
        self.assertEqual(wrong(self, Setup.of, 7), "7 is no table")
        self.assertEqual(
            wrong(self, bytes, Setup.of([Store("SCI", None)])), "column size, row 1 of store: None is no whole number"
        )
        self.assertEqual(wrong(self, setup_octets, {"store": None}), "None is no table")

    def test_holding(self):
        held = Setup.of(STORES, ROUTES, LIMITS).holding({"SCI": 3})
        self.assertEqual([store.start for store in held.stores], [3, 2])
        self.assertEqual((held.routes, held.limits), (tuple(ROUTES), tuple(LIMITS)))
        self.assertEqual(held.text(), SETUP.replace("start = 0", "start = 3"))
        self.assertEqual(held.holding({"SCI": 0}).text(), SETUP)
        self.assertEqual(
            Setup.of([Store("A%d", 4)]).holding({"A%d": 1}).text(),
            SETUP.split("\n\n")[0].replace("SCI", "A%d").replace("start = 0", "start = 1") + "\n",
        )
        self.assertEqual(wrong(self, held.holding, {"XX": 1}), "the setup has no store XX")
        self.assertEqual(wrong(self, held.holding, {"HK": 1.5}), "store HK: 1.5 is no whole number")


class Forecasts(unittest.TestCase):
    def setUp(self):
        self.forecast = Forecast.of([2, 3], {"SCI": [5, 3], "HK": [1, 0]})

    def test_written_and_read(self):
        self.assertEqual(self.forecast.text(), FORECAST)
        self.assertEqual(Forecast.read(FORECAST), self.forecast)
        self.assertEqual(Forecast.read(b"\xef\xbb\xbf" + FORECAST.replace("\n", "\r\n").encode()), self.forecast)
        self.assertEqual(Forecast.read('"step",window,SCI,"HK"\n\n1,2,5,1\n"2",3,3,0'), self.forecast)

    def test_read_as_the_library_reads(self):
        # docs/FORMATS.md, 'Forecast': the first fault of each.
        for text, words in (
            ("window,SCI\n1,2\n", "30 Header"),
            ("step,window\n1,2\n", "30 Header"),
            ("step,window,sci\n1,2,3\n", "30 Header"),
            ("step,window,SCI,SCI\n1,2,3,3\n", "30 Header"),
            ("step,window," + ",".join(f"S{k}" for k in range(17)) + "\n", "30 Header"),
            ("\n", "30 Header"),
            (b"\xff\n", "30 Header"),
            ("step,window,SCI\n", "33 Limit name steps"),
            ("step,window,SCI\n1,2\n", "29 ForecastText"),
            ("step,window,SCI\n1,2, 7\n", "31 Cell row 1 column 3"),
            ("step,window,SCI\n1,1_0 ,7\n", "31 Cell row 1 column 2"),
            ("step,window,SCI\n1,2,7\n2,2,+3\n", "31 Cell row 2 column 3"),
            ("step,window,SCI\n1,2,07\n", "31 Cell row 1 column 3"),
            ("step,window,SCI\n3,2,7\n1,2,7\n2,2,7\n", "32 StepNumber row 1"),
            ("step,window,SCI\n1,1000001,7\n", "33 Limit name window"),
            ("step,window,limit:0,SCI\n1,2,3,7\n", "30 Header"),
            ("step,window,SCI,limit:1,limit:1\n1,2,7,3,3\n", "30 Header"),
            ("step,window,SCI,limit:8\n1,2,7,3\n", "30 Header"),
            ("step,window,SCI,limit:0\n1,2,7,03\n", "31 Cell row 1 column 4"),
            ("step,window,SCI,limit:0\n1,2,7,1000001\n", "33 Limit name limit"),
        ):
            self.assertEqual(refused(self, Forecast.read, text), words, text)

    def test_of_tables(self):
        named = {"step": [1, 2], "window": [2, Counted(3)], "SCI": [5, 3], "HK": [1, 0]}
        for table in (named, rows(named), Frame(named)):
            self.assertEqual(Forecast.table(table), self.forecast)
            self.assertEqual(forecast_octets(table).decode(), FORECAST)
        arrivals = {"step": [2, 1], "SCI": [3, 5], "HK": [0, 1]}
        for table in (arrivals, rows(arrivals), Frame(arrivals)):
            self.assertEqual(Forecast.of([2, 3], table), self.forecast)
        self.assertEqual(Forecast((2, 3), {"SCI": [5, 3], "HK": [1, 0]}), self.forecast)

    def test_steps_in_any_order(self):
        named = {"HK": [0, 1], "step": [2, 1], "window": [3, 2], "SCI": [3, 5]}
        wanted = Forecast.of([2, 3], {"HK": [1, 0], "SCI": [5, 3]})
        for table in (
            named,
            rows(named),
            Frame(named),
            Frame({name: named[name] for name in ("HK", "window", "SCI")}, index=Steps([2, 1])),
        ):
            self.assertEqual(Forecast.table(table), wanted)
        backwards = {name: column[::-1] for name, column in self.forecast.to_dict().items()}
        self.assertEqual(Forecast.table(backwards), self.forecast)

    def test_steps_that_are_wrong(self):
        for steps, words, found in (
            ([1, 3], "32 StepNumber row 2", "the step 3, where 2 is to be"),
            ([3, 1], "32 StepNumber row 1", "the step 3, where 2 is to be"),
            ([2, 2], "32 StepNumber row 1", "the step 2, where 1 is to be"),
            ([1, 1], "32 StepNumber row 2", "the step 1, where 2 is to be"),
            ([0, 1], "32 StepNumber row 1", "the step 0, where 1 is to be"),
            ([1, 1.5], "32 StepNumber row 2", "the step 1.5"),
            ([1, None], "32 StepNumber row 2", "the step None"),
            (["1", 2], "32 StepNumber row 1", "the step '1'"),
        ):
            for make, table in (
                (Forecast.table, {"step": steps, "window": [2, 3], "SCI": [5, 3]}),
                (Plan.of, {"step": steps, "SCI": [5, 3]}),
            ):
                with self.assertRaises(Refusal) as caught:
                    make(table)
                refusal = caught.exception
                self.assertEqual((refusal.text(), refusal.found), (words, found))
                self.assertEqual(
                    (refusal.expected, str(refusal)),
                    ("the number of the next step, where the first is 1", f"{refusal.words()}; found {found}"),
                )

    def test_faults_of_data(self):
        named = {"window": [2, 3], "SCI": [5, 3]}
        for change, words in (
            ({"SCI": [5, 3.5]}, "column SCI, row 2: 3.5 is no whole number"),
            ({"SCI": [float("nan"), 3]}, "column SCI, row 1: nan is no whole number"),
            ({"window": [2, None]}, "column window, row 2: None is no whole number"),
            ({"SCI": [5, "3"]}, "column SCI, row 2: '3' is no whole number"),
            ({"SCI": [True, 3]}, "column SCI, row 1: True is no whole number"),
            ({"SCI": [5]}, "column SCI has 1 rows, and column window has 2"),
            ({"SCI": {0: 5, 1: 3}}, "column SCI: {0: 5, 1: 3} is no list of values"),
            ({"SCI": "53"}, "column SCI: '53' is no list of values"),
            ({"SCI": {3, 5}}, "column SCI: {3, 5} is no list of values"),
            ({"SCI": 5}, "column SCI: 5 is no list of values"),
        ):
            for table in ({**named, **change}, Frame({**named, **change})):
                self.assertEqual(wrong(self, Forecast.table, table), words)
        frame = Frame(named)
        self.assertEqual(
            wrong(self, Forecast.table, {"window": [2, 3], "SCI": frame}), f"column SCI: {frame!r} is no list of values"
        )
        self.assertEqual(
            wrong(self, Forecast.table, Frame(named, ["window", "SCI", "SCI"])), "there are two columns SCI"
        )
        self.assertEqual(
            wrong(self, Forecast.table, {"SCI": [1]}),
            "a forecast has a column window, and here are only the columns SCI",
        )
        self.assertEqual(
            wrong(self, Forecast.table, [{"window": 1, "SCI": 2}, {"window": 1}]),
            "column SCI is in row 1, and not in row 2",
        )
        self.assertEqual(
            wrong(self, Forecast.table, [{"window": 1}, {"window": 1, "SCI": 2}]),
            "column SCI is in row 2, and not in row 1",
        )
        self.assertEqual(
            wrong(self, Forecast.table, [(1, 2)]), "row 1 of the table is (1, 2), and has no columns with names"
        )
        self.assertEqual(wrong(self, Forecast.table, 7), "7 is no table")
        self.assertEqual(
            wrong(self, Forecast.of, [1, 2], {"SCI": [1]}), "column SCI has 1 rows, and column window has 2"
        )
        self.assertEqual(wrong(self, Forecast.of, [1.5], {"SCI": [1]}), "column window, row 1: 1.5 is no whole number")
        # The row is the one that is given, in whatever order the steps are.
        self.assertEqual(
            wrong(self, Forecast.table, {"step": [2, 1], "window": [2, 3], "SCI": [None, 3]}),
            "column SCI, row 1: None is no whole number",
        )

    def test_having(self):
        for windows, arrivals, text in (
            ([7, 8], None, "1,7,5,1\n2,8,3,0\n"),
            (None, {"HK": [9, 4]}, "1,2,5,9\n2,3,3,4\n"),
            ([7, 8], {"HK": [9, 4]}, "1,7,5,9\n2,8,3,4\n"),
            (None, {"HK": [9, 4], "SCI": [6, 1]}, "1,2,6,9\n2,3,1,4\n"),
            (None, {"step": [2, 1], "SCI": [6, 1]}, "1,2,1,1\n2,3,6,0\n"),
            ([7], {"HK": [9], "SCI": [6]}, "1,7,6,9\n"),
            (None, None, "1,2,5,1\n2,3,3,0\n"),
        ):
            for _ in range(2):
                self.assertEqual(self.forecast.having(windows, arrivals).text(), "step,window,SCI,HK\n" + text)
        self.assertEqual(
            Forecast.of([2], {"A%d": [5]}).having(arrivals={"A%d": [1]}).text(), "step,window,A%d\n1,2,1\n"
        )
        self.assertEqual(wrong(self, self.forecast.having, None, {"XX": [1, 1]}), "the forecast has no store XX")
        self.assertEqual(wrong(self, self.forecast.having, [1]), "column SCI has 2 rows, and column window has 1")
        self.assertEqual(
            wrong(self, self.forecast.having, None, {"HK": [1]}), "column HK has 1 rows, and column window has 2"
        )
        self.assertEqual(self.forecast.text(), FORECAST)

    def test_limits(self):
        text = "step,window,SCI,HK,limit:0,limit:3\n1,2,5,1,1,9\n2,3,3,0,0,4\n"
        named = {"limit:0": [1, 0], "limit:3": [9, 4]}
        limited = Forecast.of([2, 3], {"SCI": [5, 3], "HK": [1, 0]}, named)
        self.assertEqual((limited.text(), Forecast.read(text)), (text, limited))
        self.assertEqual(limited.limits["limit:3"], (9, 4))
        self.assertEqual(Forecast.table(limited.to_dict()), limited)
        self.assertEqual(limited.to_dict(), {**self.forecast.to_dict(), **named})
        self.assertNotEqual(limited, self.forecast)
        self.assertEqual(pickle.loads(pickle.dumps(limited)), limited)
        self.assertEqual(limited.after(1).text(), "step,window,SCI,HK,limit:0,limit:3\n1,3,3,0,0,4\n")
        self.assertEqual(limited.having([4, 5]).text(), text.replace("1,2,5", "1,4,5").replace("2,3,3", "2,5,3"))
        for _ in range(2):
            self.assertEqual(
                limited.having(limits={"limit:0": [7, 8]}).text(),
                text.replace("1,1,9", "1,7,9").replace("0,0,4", "0,8,4"),
            )
            changed = limited.having([4, 5], {"HK": [6, 6]}, {"limit:3": [2, 2]})
            self.assertEqual(changed.text(), "step,window,SCI,HK,limit:0,limit:3\n1,4,5,6,1,2\n2,5,3,6,0,2\n")
        self.assertEqual(
            wrong(self, limited.having, None, None, {"limit:1": [1, 1]}), "the forecast has no column limit:1"
        )
        self.assertEqual(
            wrong(self, Forecast.of, [1], {"SCI": [1]}, {"limit:0": [1, 2]}),
            "column limit:0 has 2 rows, and column window has 1",
        )

    def test_sizes(self):
        text = "step,window,SCI,HK,limit:0,size:SCI,size:HK\n1,2,5,1,1,9,0\n2,3,3,0,0,4,7\n"
        limits, sizes = {"limit:0": [1, 0]}, {"size:SCI": [9, 4], "size:HK": [0, 7]}
        sized = Forecast.of([2, 3], {"SCI": [5, 3], "HK": [1, 0]}, limits, sizes)
        self.assertEqual((sized.text(), Forecast.read(text)), (text, sized))
        self.assertEqual(sized.sizes["size:HK"], (0, 7))
        self.assertEqual((list(sized.arrivals), list(sized.limits)), (["SCI", "HK"], ["limit:0"]))
        self.assertEqual(Forecast.table(sized.to_dict()), sized)
        self.assertEqual(sized.to_dict(), {**self.forecast.to_dict(), **limits, **sizes})
        self.assertEqual(pickle.loads(pickle.dumps(sized)), sized)
        self.assertEqual(sized.after(1).text(), "step,window,SCI,HK,limit:0,size:SCI,size:HK\n1,3,3,0,0,4,7\n")
        for _ in range(2):
            other = text.replace("9,0\n", "9,8\n").replace("4,7\n", "4,6\n")
            self.assertEqual(sized.having(sizes={"size:HK": [8, 6]}).text(), other)
            changed = sized.having([4, 5], {"HK": [6, 6]}, {"limit:0": [2, 2]}, {"size:SCI": [3, 1]})
            header = "step,window,SCI,HK,limit:0,size:SCI,size:HK"
            self.assertEqual(changed.text(), f"{header}\n1,4,5,6,2,3,0\n2,5,3,6,2,1,7\n")
        alone = Forecast.of([2, 3], {"SCI": [5, 3]}, sizes={"size:SCI": [1, 2]})
        self.assertEqual(alone.text(), "step,window,SCI,size:SCI\n1,2,5,1\n2,3,3,2\n")
        words = wrong(self, sized.having, None, None, None, {"size:XX": [1, 1]})
        self.assertEqual(words, "the forecast has no column size:XX")
        words = wrong(self, Forecast.of, [1], {"SCI": [1]}, None, {"size:SCI": [1, 2]})
        self.assertEqual(words, "column size:SCI has 2 rows, and column window has 1")

    def test_sizes_read_as_the_library_reads(self):
        # docs/FORMATS.md, 'Forecast': the first fault of each.
        for text, words in (
            ("step,window,SCI,HK,size:HK,size:SCI\n1,2,5,1,1,1\n", "30 Header"),
            ("step,window,SCI,size:SCI,limit:0\n1,2,5,1,1\n", "30 Header"),
            ("step,window,SCI,size:SCI,size:SCI\n1,2,5,1,1\n", "30 Header"),
            ("step,window,SCI,size:HK\n1,2,5,1\n", "30 Header"),
            ("step,window,SCI,size:\n1,2,5,1\n", "30 Header"),
            ("step,window,SCI,size:SCI\n1,2,5,x\n", "31 Cell row 1 column 4"),
            ("step,window,SCI,size:SCI\n1,2,5,1000001\n", "33 Limit name size"),
            ("step,window,SCI,size:SCI\n1,2,5\n", "29 ForecastText"),
        ):
            self.assertEqual(refused(self, Forecast.read, text), words, text)

    def test_frozen(self):
        again = Forecast.of([2, 3], {"SCI": [5, 3], "HK": [1, 0]})
        self.assertEqual({self.forecast: 1}[again], 1)
        self.assertNotEqual(self.forecast, Forecast.of([2, 3], {"HK": [1, 0], "SCI": [5, 3]}))
        with self.assertRaises(TypeError):
            self.forecast.arrivals["SCI"] = (1, 1)
        with self.assertRaises(AttributeError):
            self.forecast.windows = (1, 1)
        given = {"SCI": [5, 3]}
        forecast = Forecast((2, 3), given)
        given["SCI"][0] = 7
        self.assertEqual(forecast.arrivals["SCI"], (5, 3))
        self.assertEqual(hash(forecast.arrivals), hash(Forecast.of([0, 0], {"SCI": [5, 3]}).arrivals))

    def test_pickled(self):
        fresh = pickle.dumps(self.forecast)
        self.forecast.text()
        self.assertEqual(pickle.dumps(self.forecast), fresh)
        self.assertEqual(pickle.loads(fresh), self.forecast)

    def test_to_tables(self):
        self.assertEqual(self.forecast.to_dict(), {"step": [1, 2], "window": [2, 3], "SCI": [5, 3], "HK": [1, 0]})
        self.assertEqual(self.forecast.to_frame(Frame).columns, ["step", "window", "SCI", "HK"])
        self.assertEqual(self.forecast.after(0), self.forecast)
        self.assertEqual(self.forecast.after(1), Forecast.of([3], {"SCI": [3], "HK": [0]}))
        for step in (-1, 3):
            with self.assertRaises(ValueError):
                self.forecast.after(step)


class Plans(unittest.TestCase):
    def test_read(self):
        plan = Plan(PLAN)
        self.assertEqual(plan.stores, ("SCI", "HK"))
        self.assertEqual(plan.dumps, ((2, 0), (2, 1)))
        self.assertEqual(plan.by_store, {"SCI": (2, 2), "HK": (0, 1)})
        self.assertEqual(plan.loss, 3)
        self.assertEqual(plan.cut, Cut((Stretch("SCI", 1, 2),), (1,), -3))
        self.assertEqual(plan.to_dict(), {"step": [1, 2], "SCI": [2, 2], "HK": [0, 1]})
        self.assertEqual(plan.to_frame(Frame).columns, ["step", "SCI", "HK"])
        self.assertEqual(repr(plan), "<Plan of 2 steps for SCI, HK: loses 3>")
        self.assertIsNone(plan._repr_svg_())
        with self.assertRaises(TypeError):
            plan.by_store["SCI"] = (0, 0)

    def test_written(self):
        plan = Plan(PLAN)
        for table in (plan.to_dict(), Frame(plan.to_dict())):
            self.assertEqual(Plan.of(table, plan.loss, plan.cut), plan)
            self.assertEqual(Plan.of(table, plan.loss, plan.cut).text, PLAN)
        self.assertEqual(
            plan_octets([{"SCI": 1}, {"SCI": 2}]), b"mmplan 1\nstores SCI\ndump 1 1\ndump 2 2\nloss 0\nbound 0\nend\n"
        )

    def test_steps_in_any_order(self):
        plan = Plan(PLAN)
        backwards = {name: column[::-1] for name, column in plan.to_dict().items()}
        for table in (backwards, rows(backwards), Frame(backwards)):
            self.assertEqual(Plan.of(table, plan.loss, plan.cut), plan)

    def test_faults_of_data(self):
        self.assertEqual(wrong(self, Plan.of, {"SCI": [1, 2.5]}), "column SCI, row 2: 2.5 is no whole number")
        self.assertEqual(wrong(self, Plan.of, {"SCI": [1]}, 1.5), "loss: 1.5 is no whole number")
        self.assertEqual(wrong(self, Plan.of, {"SCI": [1]}, 1, Cut((), (), None)), "bound: None is no whole number")

    def test_read_as_the_library_reads(self):
        # docs/FORMATS.md, 'Plan text': the first line that breaks the format.
        for text, words in (
            ("refused 28 SetupField\n", "34 PlanText line 1"),
            ("\u00e9\n", "34 PlanText line 1"),
            (PLAN.replace("HK", "hk"), "34 PlanText line 2"),
            (PLAN.replace("dump 2 2 1", "dump 2 2 1_0"), "34 PlanText line 4"),
            (PLAN.replace("loss 3", "loss"), "34 PlanText line 5"),
            (PLAN.replace("loss 3", "loss 3 4"), "34 PlanText line 5"),
            (PLAN.replace("loss 3", "loss +3"), "34 PlanText line 5"),
            (PLAN.replace("loss 3\n", ""), "34 PlanText line 5"),
            (PLAN.replace("bound", "bond"), "34 PlanText line 8"),
            (PLAN[:-1], "34 PlanText line 9"),
            (
                "mmplan 1\nstores SCI\n"
                + "".join(f"dump {step} 0\n" for step in range(1, 258))
                + "loss 0\nbound 0\nend\n",
                "34 PlanText line 259",
            ),
            ("mmplan 1\nstores SCI SCI\ndump 1 0 0\nloss 0\nbound 0\nend\n", "35 Shape"),
        ):
            plan = Plan(text)
            for read in (lambda: plan.loss, lambda: plan.cut, plan.to_dict):
                self.assertEqual(refused(self, read), words, text)
            self.assertEqual(repr(plan), f"<Plan of a text of {len(bytes(plan))} octets that is no plan text>")

    def test_pickled(self):
        plan = Plan(PLAN)
        fresh = pickle.dumps(plan)
        self.assertEqual((plan.loss, len(plan.dumps), plan.cut.bound), (3, 2, -3))
        self.assertEqual(pickle.dumps(plan), fresh)
        self.assertEqual(pickle.loads(fresh), plan)

    def test_requests(self):
        self.assertEqual(request_octets([bytes([0x18, 0x64]), b"\xff"]), b"1864\nFF\n")
        self.assertEqual(request_octets([bytearray([0x18, 0x64]), memoryview(b"\xff")]), b"1864\nFF\n")
        with self.assertRaisesRegex(TypeError, "packet 2 is '1864', and not the octets of a packet"):
            request_octets([b"\x18", "1864"])
        self.assertEqual(request_octets("1864\n"), b"1864\n")


@unittest.skipUnless(importlib.util.find_spec("pandas"), "pandas is not installed")
class DataFrames(unittest.TestCase):
    def setUp(self):
        import pandas

        self.pandas, self.forecast, self.plan = pandas, Forecast.of([2, 3], {"SCI": [5, 3], "HK": [1, 0]}), Plan(PLAN)

    def test_in_any_order(self):
        frame = self.forecast.to_frame(self.pandas.DataFrame)
        for given in (
            frame,
            frame[::-1],
            frame.set_index("step"),
            frame.set_index("step")[::-1],
            frame[::-1].to_dict("list"),
            frame[::-1].to_dict("records"),
        ):
            self.assertEqual(Forecast.table(given), self.forecast)
        frame = self.plan.to_frame(self.pandas.DataFrame)
        for given in (frame, frame[::-1], frame.set_index("step")[::-1]):
            self.assertEqual(Plan.of(given, self.plan.loss, self.plan.cut), self.plan)

    def test_faults(self):
        frame = self.forecast.to_frame(self.pandas.DataFrame)
        self.assertEqual(wrong(self, Forecast.table, frame.to_dict()), "column step: {0: 1, 1: 2} is no list of values")
        self.assertEqual(Forecast.table(frame.astype({"HK": float})), self.forecast)
        self.assertEqual(
            wrong(self, Forecast.table, frame.assign(HK=[1.5, 0.0])), "column HK, row 1: 1.5 is no whole number"
        )
        self.assertEqual(
            wrong(self, Forecast.table, frame.astype({"HK": str})), "column HK, row 1: '1' is no whole number"
        )
        self.assertEqual(
            wrong(self, Forecast.table, self.pandas.concat([frame, frame["HK"]], axis=1)), "there are two columns HK"
        )
        self.assertEqual(
            wrong(self, Forecast.table, frame.join(frame["HK"].head(1), rsuffix="2")),
            "column HK2, row 2: nan is no whole number",
        )
        self.assertEqual(refused(self, Forecast.table, frame.iloc[[1]]), "32 StepNumber row 1")

    def test_setups(self):
        frame = self.pandas.DataFrame(Setup.of(STORES).to_dict()["store"])
        self.assertEqual(Setup.of(frame), Setup.of(STORES))
        self.assertEqual(setup_octets({"store": frame}), bytes(Setup.of(STORES)))


class Texts(unittest.TestCase):
    def test_octets(self):
        self.assertEqual(octets(""), b"")
        self.assertEqual(octets("a\n"), b"a\n")
        self.assertEqual(octets(bytearray(b"a")), b"a")
        self.assertEqual(octets(memoryview(b"a")), b"a")
        self.assertEqual(octets(__file__).decode(), Path(__file__).read_text(encoding="utf-8"))
        with self.assertRaises(FileNotFoundError):
            octets("no such file")

    def test_columns(self):
        self.assertEqual(columns([]), {})
        self.assertEqual(columns([{"a": 1, "b": 2}, {"b": 4, "a": 3}]), {"a": (1, 3), "b": (2, 4)})
        self.assertEqual(repr(Columns({"a": (1,)})), "{'a': (1,)}")


class Refusals(unittest.TestCase):
    WORDS = "31 Cell row 2 column 3: expected a number; write it out: so; or so"

    def test_read(self):
        refusal = Refusal.read(self.WORDS)
        self.assertEqual((refusal.number, refusal.name, refusal.row, refusal.column), (31, "Cell", 2, 3))
        self.assertEqual((refusal.line, refusal.field), (None, None))
        self.assertEqual((refusal.expected, refusal.advice), ("a number", "write it out: so; or so"))
        self.assertEqual(refusal.fields, {"row": 2, "column": 3})
        self.assertEqual(refusal.text(), "31 Cell row 2 column 3")
        self.assertEqual(str(refusal), self.WORDS)

    def test_fields(self):
        for text in ("28 SetupField row 0 name unknown", "33 Limit name steps", "34 PlanText line 9", "0 NoMemory"):
            self.assertEqual(Refusal.read(f"{text}: expected a; b").text(), text)

    def test_pickled(self):
        again = pickle.loads(pickle.dumps(Refusal.read(self.WORDS, "x")))
        self.assertEqual((str(again), again.row, again.found), (f"{self.WORDS}; found x", 2, "x"))


if __name__ == "__main__":
    unittest.main()
