"""The calls, on the examples of the repository and on texts that are refused. The answers that are wanted stand in
docs/FORMATS.md and in the pages of the examples."""

import concurrent.futures
import ctypes
import dataclasses
import doctest
import inspect
import os
import pickle
import re
import shutil
import tempfile
import typing
import unittest
from pathlib import Path

import rudlayog
from interrupting import interrupted_by
from rudlayog import (
    Cut,
    Forecast,
    Plan,
    Refusal,
    Replies,
    Setup,
    Store,
    Stretch,
    Worth,
    _library,
    ask,
    chart,
    check,
    plan,
    read,
    sensitivity,
    table,
)
from rudlayog.memory import STORE_KINDS

EXAMPLES = Path(__file__).resolve().parents[3] / "examples"
FIRST = EXAMPLES / "first_run"
MISSION = EXAMPLES / "mission"
PLANNED = [FIRST, MISSION, *(EXAMPLES / name for name in ("tight", "channel_limit", "during", "bank_off", "deadline"))]
# How many plans are made while a handler plans too.
HANDLED_PLANS = int(os.environ.get("HANDLED_PLANS", "5000"))
SETUP = '[[store]]\nid = "SCI"\nsize = 4\ntype = "bounded"\nchannel = 0\n'
FORECAST = "step,window,SCI\n1,2,3\n2,2,3\n3,0,4\n"


def files(folder):
    return folder / "setup.toml", folder / "forecast.csv"


class Planning(unittest.TestCase):
    def test_examples(self):
        for folder in PLANNED:
            made = plan(*files(folder))
            self.assertEqual(bytes(made), (folder / "plan.txt").read_bytes())
            verdict = check(*files(folder), made)
            self.assertTrue(verdict)
            self.assertEqual((verdict.kind, verdict.loss, verdict.line), ("least", made.loss, f"least {made.loss}"))
            self.assertEqual(made.cut.bound, made.loss)

    def test_charts(self):
        for folder in (FIRST, MISSION, EXAMPLES / "tight"):
            drawn = chart(*files(folder), folder / "plan.txt")
            self.assertEqual(drawn.svg, (folder / "chart.svg").read_text())
            self.assertEqual(drawn._repr_svg_(), drawn.svg)
            self.assertEqual(plan(*files(folder))._repr_svg_(), drawn.svg)
        with tempfile.TemporaryDirectory() as room:
            drawn.save(os.path.join(room, "chart.svg"))
            self.assertEqual(Path(room, "chart.svg").read_text(), drawn.svg)

    def test_tables(self):
        # docs/FORMATS.md, 'The table of a plan', has the one of the first run.
        made = table(*files(FIRST), FIRST / "plan.txt")
        header = "step,window,store,arrived,lost,dumped,held"
        self.assertEqual(made.text, f"{header}\n1,2,SCI,3,0,2,1\n2,2,SCI,3,0,2,2\n3,0,SCI,4,2,0,4\n")
        # examples/during/README.md has these numbers, step by step.
        during = table(*files(EXAMPLES / "during"), EXAMPLES / "during" / "plan.txt")
        self.assertEqual(during.text, f"{header}\n1,0,CAM,6,0,0,6\n2,30,CAM,40,6,30,10\n3,0,CAM,4,4,0,10\n")
        self.assertEqual(made.to_dict()["held"], [1, 2, 4])
        self.assertEqual(made.to_frame(dict)["store"], ["SCI", "SCI", "SCI"])
        with tempfile.TemporaryDirectory() as room:
            made.save(os.path.join(room, "plan.csv"))
            self.assertEqual(Path(room, "plan.csv").read_text(), made.text)
        whole = table(*files(MISSION), MISSION / "plan.txt").to_dict()
        self.assertEqual(sum(whole["lost"]), Plan(MISSION / "plan.txt").loss)

    def test_sensitivity(self):
        # docs/FORMATS.md, 'What each number is worth', has the table of the first run.
        first = sensitivity(*files(FIRST))
        self.assertEqual(first[1], Worth("window", "", 2, now=2, next=1, most=2, without=2))
        self.assertEqual(first[-1], Worth("size", "SCI", None, now=4, next=1, most=2, without=5))
        # docs/PLANNING.md, 'What a wider pass would save': no pass helps but from step 6 to step 21.
        day = sensitivity(*files(EXAMPLES / "two_passes"))
        self.assertEqual([worth.step for worth in day if worth.item == "window" and worth.most], list(range(6, 22)))
        # Of 6 blocks 2 are lost, 2 leave (the limit), and of 2 + 4 then 2 are lost; what leaves in step 2 comes too
        # late.
        by_step = sensitivity(SETUP, Forecast.of([3, 4], {"SCI": [6, 4]}, limits={"limit:0": [2, 1]}))
        self.assertEqual(by_step[-2], Worth("limit", "0", 1, now=2, next=1, most=1, without=2))
        self.assertEqual(by_step[-1], Worth("limit", "0", 2, now=1, next=0, most=0, without=0))
        # Of 6 blocks 2 are lost, 3 leave, and of 1 + 4 then 3 are lost; in step 1 the setup's size of 4 counts.
        sized = sensitivity(SETUP, Forecast.of([3, 4], {"SCI": [6, 4]}, sizes={"size:SCI": [4, 2]}))
        self.assertEqual(sized[-2], Worth("size", "SCI", 1, now=4, next=0, most=0, without=3))
        self.assertEqual(sized[-1], Worth("size", "SCI", 2, now=2, next=1, most=2, without=2))

    def test_data_in_place_of_texts(self):
        setup = Setup.of([Store("SCI", 4)])
        wanted = bytes(plan(SETUP, FORECAST))
        for forecast in (
            Forecast.of([2, 2, 0], {"SCI": [3, 3, 4]}),
            {"window": [2, 2, 0], "SCI": [3, 3, 4]},
            [{"window": 2, "SCI": 3}, {"window": 2, "SCI": 3}, {"window": 0, "SCI": 4}],
        ):
            self.assertEqual(bytes(plan(setup, forecast)), wanted)
            self.assertEqual(
                bytes(plan({"store": [{"id": "SCI", "size": 4, "type": "bounded", "channel": 0}]}, forecast)), wanted
            )

    def test_rows_in_any_order(self):
        # The plan of a table whose rows stand backwards is that of the same table.
        made = plan(*files(MISSION))
        table = {name: column[::-1] for name, column in Forecast.read(MISSION / "forecast.csv").to_dict().items()}
        self.assertEqual(plan(MISSION / "setup.toml", table), made)
        backwards = {name: column[::-1] for name, column in made.to_dict().items()}
        self.assertEqual(Plan.of(backwards, made.loss, made.cut), made)
        self.assertEqual(check(*files(MISSION), backwards).loss, made.loss)

    def test_read_and_written_again(self):
        for folder in PLANNED:
            setup, forecast = Setup.read(folder / "setup.toml"), Forecast.read(folder / "forecast.csv")
            made = plan(setup, forecast)
            self.assertEqual(bytes(made), (folder / "plan.txt").read_bytes())
            self.assertEqual(Plan.of(made.to_dict(), made.loss, made.cut), made)

    def test_words_in_another_order(self):
        setup, forecast = Setup.of([Store("SCI", 4)]), Forecast.of([2], {"SCI": [3]})
        made = plan(setup, forecast)
        order = "; the order is setup, forecast, plan"
        for call, given, words in (
            (plan, (forecast, setup), "the setup is a Forecast"),
            (check, (setup, made, forecast), "the forecast is a Plan"),
            (chart, (setup, forecast, setup), "the plan is a Setup"),
            (ask, (forecast, ""), "the setup is a Forecast"),
            (rudlayog.Memory, (made,), "the setup is a Plan"),
        ):
            with self.assertRaisesRegex(TypeError, words + order):
                call(*given)

    def test_verdicts(self):
        # A store of 4 blocks with 3, 3 and 4 arrivals and windows 2, 2, 0: at least 2 blocks are lost, and the cut shows
        # it.
        dumps = {"SCI": [2, 2, 0]}
        whole = Cut((Stretch("SCI", 1, 3),), (), 2)
        given = (SETUP, FORECAST)
        self.assertEqual(check(*given, Plan.of(dumps, 2, whole)).line, "least 2")
        self.assertEqual(check(*given, Plan.of({"SCI": [3, 2, 0]}, 2, whole)).step, 1)
        wrong = check(*given, Plan.of({"SCI": [2, 1, 0]}, 2, whole))
        self.assertEqual((wrong.kind, wrong.loss, bool(wrong)), ("loss is", 3, False))
        bound = check(*given, Plan.of(dumps, 2, Cut(whole.stretches, (), 1)))
        self.assertEqual((bound.kind, bound.bound), ("bound is", 2))
        weak = check(*given, Plan.of(dumps, 2))
        self.assertEqual((weak.kind, weak.loss, weak.bound), ("not shown", 2, 0))
        stretch = check(*given, Plan.of(dumps, 2, Cut((Stretch("SCI", 1, 4),), (), 2)))
        self.assertEqual((stretch.kind, stretch.place), ("bad stretch", 1))
        count = check(*given, Plan.of(dumps, 2, Cut(whole.stretches, (3,), 2)))
        self.assertEqual((count.kind, count.place), ("bad count", 1))


class Refusing(unittest.TestCase):
    def refused(self, call, *given):
        with self.assertRaises(Refusal) as caught:
            call(*given)
        return caught.exception

    def test_places(self):
        for change, text in (
            (("[[store]]", "[[store"), "27 SetupText"),
            (("[[store]]", "stores = 1\n[[store]]"), "28 SetupField row 0 name unknown"),
            (("size = 4", 'size = "4"'), "28 SetupField row 1 name size"),
            (("size = 4", "size = 0"), "33 Limit name size"),
        ):
            refusal = self.refused(plan, SETUP.replace(*change), FORECAST)
            self.assertEqual(refusal.text(), text)
        for change, text in (
            (("step,", "steps,"), "30 Header"),
            (("1,2,3", "1,2"), "29 ForecastText"),
            (("1,2,3", "1,2,03"), "31 Cell row 1 column 3"),
            (("1,2,3", "2,2,3"), "32 StepNumber row 1"),
            (("2,2,3", "2,1000001,3"), "33 Limit name window"),
        ):
            refusal = self.refused(plan, SETUP, FORECAST.replace(*change))
            self.assertEqual(refusal.text(), text)

    def test_plan_texts(self):
        text = bytes(plan(SETUP, FORECAST))
        for call in (check, chart):
            refusal = self.refused(call, SETUP, FORECAST, text.replace(b"dump 1 2", b"dump 1 02"))
            self.assertEqual((refusal.number, refusal.name, refusal.line), (34, "PlanText", 3))
            self.assertEqual(self.refused(call, SETUP, FORECAST, text.replace(b"SCI", b"HK")).text(), "35 Shape")

    def test_words(self):
        refusal = self.refused(plan, SETUP.replace("size = 4", 'size = "4"'), FORECAST)
        self.assertEqual((refusal.row, refusal.field), (1, "size"))
        self.assertTrue(refusal.expected.startswith("the keys that docs/FORMATS.md lists"))
        self.assertTrue(refusal.advice)
        self.assertEqual(
            refusal.words(), f"28 SetupField row 1 name size: expected {refusal.expected}; {refusal.advice}"
        )
        self.assertEqual(str(pickle.loads(pickle.dumps(refusal))), str(refusal))

    def test_what_was_found(self):
        # docs/FORMATS.md, 'Hints'.
        for call, given, found in (
            (
                plan,
                (SETUP.replace("size = 4", 'size = "4"'), FORECAST),
                'table 1 of store, "SCI", has size = "4"; a whole number is expected; write it without quotes',
            ),
            (
                plan,
                (SETUP, FORECAST.replace("1,2,3", "1,2,03")),
                'row 1 has "03" in the column "SCI", where a whole number is expected; it is line 2 of the file, whose '
                "header is line 1",
            ),
            (plan, (FORECAST, SETUP), "the files are in another order; name the setup first, then the forecast"),
            (
                plan,
                (SETUP, {"window": [2], "SCI": [-1]}),
                'row 1 has "-1" in the column "SCI", where a whole number is expected; it is line 2 of the file, whose '
                "header is line 1",
            ),
            (check, (SETUP, {"window": [2], "HK": [1]}, ""), 'column 3 of the header is "HK", and "SCI" is expected'),
            (
                chart,
                (SETUP, FORECAST, "refused 28 SetupField\n"),
                "the file holds the line of a refusal, and no plan; plan again",
            ),
            (ask, (SETUP.replace("= 4", "= 0"), ""), 'table 1 of store, "SCI", has size = 0; 1 to 1000000 can be'),
            (
                rudlayog.Memory,
                (SETUP.replace("= 4", "= 0"),),
                'table 1 of store, "SCI", has size = 0; 1 to 1000000 can be',
            ),
            (
                Setup.read,
                (SETUP.replace("bounded", "round"),),
                'table 1 of store, "SCI", has the type "round"; "circular" and "bounded" can be',
            ),
            (
                Forecast.read,
                ("step,window,SCI\n3,2,7\n",),
                'the step is "3" in line 2 of the file, whose header is line 1; it is to be 1',
            ),
        ):
            refusal = self.refused(call, *given)
            self.assertEqual((refusal.found, str(refusal)), (found, f"{refusal.words()}; found {found}"))

    def test_words_of_every_refusal(self):
        for number in range(59):
            words = _library.told(_library.rudlayog_words, _library.RefusedAt(number=number)).decode()
            self.assertTrue(words.startswith(f"{number} "), words)
        self.assertEqual(_library.told(_library.rudlayog_words, _library.RefusedAt(number=59)), b"")
        self.assertEqual(_library.told(_library.rudlayog_words, _library.RefusedAt(number=1, place=6)), b"")
        self.assertEqual(_library.told(_library.rudlayog_words, _library.RefusedAt(number=1, place=5, name=20)), b"")


class Asking(unittest.TestCase):
    FOLDER = EXAMPLES / "requests"

    def test_example(self):
        replies = ask(self.FOLDER / "setup.toml", self.FOLDER / "requests.hex")
        self.assertEqual(replies.text, (self.FOLDER / "answers.txt").read_text())
        self.assertFalse(replies.all_done)
        self.assertEqual("\n".join(replies.lines) + "\n", replies.text)

    def test_packets(self):
        text = (self.FOLDER / "requests.hex").read_text().splitlines()
        whole = [line for line in text if len(line) % 2 == 0 and line]
        packets = [bytes.fromhex(line) for line in whole if all(digit in "0123456789abcdefABCDEF" for digit in line)]
        lines = "".join(packet.hex() + "\n" for packet in packets)
        self.assertEqual(ask(self.FOLDER / "setup.toml", packets), ask(self.FOLDER / "setup.toml", lines))

    def test_packets_in_words(self):
        # docs/PACKETS.md, 'Packets in words'.
        packet = bytes.fromhex("1864C0010004200F120007")
        told = read([packet])
        self.assertEqual((told.all_done, told), (True, read(packet.hex() + "\n")))
        self.assertEqual(
            told.lines,
            (
                "1 telecommand apid 100 count 1 length 4 acknowledgement 0 service 15 subtype 18 source 7",
                "  report the status of each store",
            ),
        )
        self.assertEqual(read("xx\n"), Replies(False, "1 refused 49 HexLine\n"))

    def test_nothing_asked(self):
        replies = ask(SETUP, "")
        self.assertEqual((replies.all_done, replies.text, replies.lines), (True, "", ()))


class Buffers(unittest.TestCase):
    def call(self, room):
        setup, forecast = SETUP.encode(), FORECAST.encode()
        out, answer = ctypes.create_string_buffer(b"\xa5" * 1024, 1024), _library.Answer()
        _library.rudlayog_plan(setup, len(setup), forecast, len(forecast), out, room, answer)
        return out.raw, answer

    def test_exactly_those_octets_or_none(self):
        text = bytes(plan(SETUP, FORECAST))
        for room in (0, 1, len(text) - 1, len(text), len(text) + 1, 1024):
            out, answer = self.call(room)
            self.assertEqual(answer.length, len(text))
            if room < len(text):
                self.assertEqual((answer.status, out), (_library.TOO_SMALL, b"\xa5" * 1024))
            else:
                self.assertEqual((answer.status, out), (_library.WRITTEN, text + b"\xa5" * (1024 - len(text))))

    def test_a_text_longer_than_the_buffer(self):
        setup, forecast = SETUP.encode(), FORECAST.encode()
        _library._rooms[:] = [ctypes.create_string_buffer(16)]
        text = _library.told(_library.rudlayog_plan, setup, len(setup), forecast, len(forecast))
        self.assertEqual(text, bytes(plan(SETUP, FORECAST)))

    def test_many_stores_and_steps(self):
        many = Setup.of([Store(f"STORE-{k:02}", 1_000_000, start=k) for k in range(16)])
        table = {"window": [1_000_000] * 256, **{store.id: [999_000 + k for k in range(256)] for store in many.stores}}
        made = plan(many, table)
        self.assertLessEqual(len(bytes(made)), _library.PLAN_ROOM)
        self.assertTrue(check(many, table, made))

    def test_threads(self):
        wanted = bytes(plan(*files(MISSION)))
        with concurrent.futures.ThreadPoolExecutor(8) as pool:
            made = list(pool.map(lambda _: bytes(plan(*files(MISSION))), range(64)))
        self.assertEqual(set(made), {wanted})

    def test_a_handler_that_plans(self):
        # Each text is that of its own call, though a signal handler plans while another call has not ended.
        given = [(f"{SETUP}start = {held}\n", FORECAST) for held in (0, 1, 2)]
        wanted = [bytes(plan(*pair)) for pair in given]
        self.assertEqual(len(set(wanted)), 3)
        wrong, handled = [], []

        with interrupted_by(lambda: handled.append(bytes(plan(*given[2])) == wanted[2])):
            for turn in range(HANDLED_PLANS):
                if bytes(plan(*given[turn % 2])) != wanted[turn % 2]:
                    wrong.append(turn)
        self.assertEqual((wrong, all(handled)), ([], True))
        self.assertTrue(handled)

    def test_constants_of_the_header(self):
        header = (Path(__file__).resolve().parents[2] / "c" / "rudlayog.h").read_text()
        told = {name: int(value) for name, value in re.findall(r"\bRUDLAYOG_(\w+) = (\d+)", header)}
        for name in (
            "WRITTEN",
            "TOO_SMALL",
            "REFUSED",
            "CLOSED",
            "OPEN",
            "END",
            "PLAN_ROOM",
            "LINE_ROOM",
            "INSTRUCTIONS",
            "BLOCK",
            "PACKET",
            "DONE",
            "ROW",
        ):
            self.assertEqual(getattr(_library, name), told[name], name)
        for name in ("NO_MEMORY", "SHORT", "HEADER", "STEP_NUMBER", "PLAN_TEXT", "HEX_LINE"):
            self.assertEqual(getattr(_library, name), told[f"REFUSAL_{name}"], name)
        self.assertEqual(_library.LEAST, (told["LEAST"], told["LEAST_IN_ORDER"]))
        self.assertEqual(
            [told["CIRCULAR"], told["BOUNDED"]], [STORE_KINDS.index("circular"), STORE_KINDS.index("bounded")]
        )
        # The room for words does for each refusal, at any place.
        far = {"row": 2**32 - 1, "column": 2**32 - 1, "line": 2**64 - 1}
        for number in range(59):
            for place in range(6):
                refused = _library.RefusedAt(number=number, place=place, name=6, **far)
                self.assertLessEqual(len(_library.told(_library.rudlayog_words, refused)), told["WORDS_ROOM"])

    def test_version(self):
        self.assertEqual(rudlayog.version(), rudlayog.__version__)


class Documented(unittest.TestCase):
    def test_each_public_member_has_a_docstring(self):
        for name in rudlayog.__all__:
            public = getattr(rudlayog, name)
            if typing.get_origin(public) is typing.Union:
                continue
            self.assertTrue(inspect.getdoc(public), name)
            if not inspect.isclass(public):
                continue
            for member, value in vars(public).items():
                named_in_the_class = dataclasses.is_dataclass(public) and member in {
                    field.name for field in dataclasses.fields(public)
                }
                if not member.startswith("_") and not named_in_the_class:
                    self.assertTrue(inspect.getdoc(getattr(value, "func", value)), f"{name}.{member}")
            for field in dataclasses.fields(public) if dataclasses.is_dataclass(public) else ():
                self.assertIn(f"`{field.name}`", public.__doc__, f"{name}.{field.name}")


def page_tests(page):
    """The blocks of a page, each run in a folder in which the examples are seen."""
    earlier = os.getcwd()

    def enter(_):
        room = tempfile.mkdtemp()
        os.symlink(EXAMPLES, os.path.join(room, "examples"))
        os.chdir(room)

    def leave(_):
        room = os.getcwd()
        os.chdir(earlier)
        shutil.rmtree(room)

    for place, block in enumerate(re.findall(r"^```python\n(.*?)^```$", page.read_text(), re.MULTILINE | re.DOTALL), 1):
        test = doctest.DocTestParser().get_doctest(block, {}, f"README.md, block {place}", str(page), 0)
        yield doctest.DocTestCase(test, setUp=enter, tearDown=leave)


def load_tests(_loader, tests, _pattern):
    tests.addTests(doctest.DocTestSuite(rudlayog))
    tests.addTests(doctest.DocTestSuite(rudlayog.memory))
    tests.addTests(doctest.DocTestSuite(rudlayog.reports))
    tests.addTests(doctest.DocTestSuite(rudlayog.requests))
    tests.addTests(page_tests(Path(__file__).resolve().parents[1] / "README.md"))
    return tests


if __name__ == "__main__":
    unittest.main()
