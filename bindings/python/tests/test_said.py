"""What is said: errors, warnings and hints of missions and studies, the forms of files, and what is shown of objects."""

import csv
import io
import os
import subprocess
import sys
import tempfile
import unittest
import warnings
import xml.etree.ElementTree as xml
import zipfile
from datetime import timedelta
from pathlib import Path

import rudlayog
from rudlayog import Cut, Forecast, Plan, Setup, Store, Stretch, plan
from rudlayog.mission import Mission, MissionError, MissionWarning, Observation, Pass, Station
from rudlayog.pictures import above_one_another, chart_of
from rudlayog.study import Variant, each_pass_lost, grid, lost, rated, scaled, study
from test_changes import at, day

WEEK = Path(__file__).resolve().parents[3] / "examples" / "mars_week" / "mission.toml"
PACKAGE = Path(rudlayog.__file__).resolve().parents[1]
SVG = "{http://www.w3.org/2000/svg}"
SHEET = "{http://schemas.openxmlformats.org/spreadsheetml/2006/main}"


def run_words(*words):
    ran = subprocess.run(
        [sys.executable, "-B", "-m", "rudlayog", *map(str, words)],
        capture_output=True,
        check=False,
        env={**os.environ, "PYTHONPATH": str(PACKAGE)},
    )
    return ran.returncode, ran.stdout.decode(), ran.stderr.decode()


def rows_of(octets):
    """The rows of a workbook's sheet, as texts."""
    with zipfile.ZipFile(io.BytesIO(octets)) as file:
        for name in file.namelist():
            xml.fromstring(file.read(name))
        sheet = xml.fromstring(file.read("xl/worksheets/sheet1.xml"))
    return [["".join(cell.itertext()) for cell in row] for row in sheet.iter(f"{SHEET}row")]


class Errors(unittest.TestCase):
    def test_no_error_of_another_kind(self):
        made = day().plan()
        for call, words in (
            (lambda: study(day(), 5), "variants, by their names"),
            (lambda: study(day(), "lost"), "variants, by their names"),
            (lambda: study(day(), [5]), "a Variant, or a name and changes"),
            (lambda: study(5, {}), "a Mission, or a setup and a forecast"),
            (lambda: study("mission.toml", {}), "a Mission, or a setup and a forecast"),
            (lambda: day().between(holds=5), "what stores hold"),
            (lambda: day().between(holds={5: 3}), "one of the stores A"),
            (lambda: made.at(at(9), holds=5), "what stores hold"),
            (lambda: day().to_csv([1]), "one of stores"),
            (lambda: Mission.read(5), "the path of a TOML file"),
            (lambda: Mission.of(b"x", []), "a table"),
            (lambda: Mission.of(5, 5), "a table"),
            (lambda: made.problem.when("x"), "a whole number"),
            (lambda: day().changed(rated(2, of=5)), "a list of names"),
            (lambda: list(grid(x=5)), "values with their changes"),
        ):
            with self.subTest(words=words), self.assertRaisesRegex(MissionError, words):
                call()
        for call in (lambda: Setup.read(None), lambda: Forecast.read(3.5), lambda: Plan(5)):
            with self.assertRaisesRegex(ValueError, "is no text"):
                call()

    def test_a_file_that_is_not_there(self):
        for call in (lambda: plan("none.toml", "none.csv"), lambda: Setup.read("none.toml")):
            for kind in (ValueError, FileNotFoundError):
                with self.assertRaisesRegex(kind, "'none.toml': there is no such file; a str without a line end"):
                    call()

    def test_bytes_a_second_are_eight_times_as_many_bits(self):
        for written, meant in (
            ("80 kB/s", "640 kbit/s"),
            ("2 MB/s", "16 Mbit/s"),
            ("1 MiB/s", "8.388608 Mbit/s"),
            ("100 B/s", "800 bit/s"),
            ("2 KBps", "16 kbit/s"),
        ):
            with self.assertRaisesRegex(MissionError, f"expected bits a second: {meant}, where a byte has 8"):
                Pass("S", at(6), at(7), written)

    def test_more_than_256_steps(self):
        # 130 passes of a minute, 10 s apart: their own begins and ends are not to be one moment
        begin = day().begin
        passes = [
            Pass("S", begin + k * timedelta(seconds=70), begin + k * timedelta(seconds=70, microseconds=0) + timedelta(minutes=1), 80)
            for k in range(130)
        ]
        with self.assertRaises(MissionError) as raised:
            day(passes=passes, observations=()).plan()
        words = str(raised.exception)
        self.assertRegex(words, "or let events that are near be at one moment")
        for k in range(1, 131):
            self.assertNotRegex(words, rf"\(S {k} begins\) and [^(]*\(S {k} ends\)")
        # 129 passes that follow one another at once: no two events can be one
        passes = [
            Pass("S", begin + k * timedelta(minutes=5), begin + (k + 1) * timedelta(minutes=5), 80) for k in range(260)
        ]
        with self.assertRaises(MissionError) as raised:
            day(passes=passes, observations=()).plan()
        self.assertTrue(str(raised.exception).endswith("expected at most 256: plan in parts (horizon=)"))

    def test_horizons(self):
        for horizon in (0, timedelta(0)):
            for call in (lambda: day().plan(horizon=horizon), lambda: study(day(), {}, horizon=horizon)):
                with self.assertRaisesRegex(MissionError, "longer than nothing"):
                    call()
        for call in (lambda: day().plan(horizon=1e-7), lambda: study(day(), {"x": scaled(1)}, horizon=1e-7)):
            # a day in 10,000 parts is 8.64 s
            with self.assertRaisesRegex(MissionError, "expected at least 0:00:09, which makes 10,000 parts"):
                call()

    def test_a_channel_above_its_link(self):
        # packets of 1,000 octets: 10 of them a second are 80 kbit/s
        for link, channel, is_odd in (
            ("80 kbit/s", "10.1 blocks/s", True),
            ("80 kbit/s", "10 blocks/s", False),
            ("10 blocks/s", "81 kbit/s", True),
            ("10 blocks/s", "80 kbit/s", False),
        ):
            with warnings.catch_warnings(record=True) as odd:
                warnings.simplefilter("always")
                day(passes=[Pass("S", at(6), at(7), link, {0: channel})])
            self.assertEqual([each.category for each in odd], [MissionWarning] * is_odd, (link, channel))


class Shown(unittest.TestCase):
    def test_in_at_most_300_characters(self):
        mission = Mission.read(WEEK)
        made, problem = mission.plan(), mission.problem()
        margin = mission.margin()
        found = study(mission, {"x" * 900: lost(*(one.name for one in mission.passes))}, progress=False)
        steps = 200
        for one in (
            margin.growth, margin.shrink.point, problem, problem.setup, problem.forecast, problem.forecast.arrivals,
            problem.unit, made.plan.cut, made.plan.by_store, made.steps[5], made.timeline()[0], made.passes()[0],
            found, found[0], found.base, Variant("x" * 900, (lost("y" * 900),)), lost("x" * 900),
            Cut(tuple(Stretch("A", step, step) for step in range(1, steps)), tuple(range(steps)), 0),
            rudlayog.table(problem.setup, problem.forecast, made.plan),
            rudlayog.chart(problem.setup, problem.forecast, made.plan),
            rudlayog.check(problem.setup, problem.forecast, made.plan),
            Pass("S" * 900, at(6), at(7), 80), Station("S" * 900, 80), Observation("A", at(6), at(7), 9, name="x" * 900),
        ):  # fmt: skip
            self.assertLessEqual(len(repr(one)), 300, type(one))
        self.assertEqual(repr(Store("A", 3)), "Store(id='A', size=3, type='bounded', channel=0, start=0)")


class Files(unittest.TestCase):
    def test_what_is_no_name(self):
        with self.assertRaisesRegex(MissionError, "expected the name of a file"):
            day().plan().timeline().save(5)
        with self.assertRaisesRegex(MissionError, "chunk: found a; expected a whole number"):
            study(day(), {}, chunk="a")

    def test_the_form_is_that_of_the_ending(self):
        with tempfile.TemporaryDirectory() as room:
            path = Path(room, "mission.toml")
            day().save(path)
            made = day().plan()
            table = {
                "plan": None,
                "passes": made.passes().text(),
                "timeline": made.timeline().text(),
                "study": study(day(), each_pass_lost(day()), progress=False).text(),
                "sensitivity": day().sensitivity().text(),
                "margin": day().margin().text(),
            }
            for command, text in table.items():
                for ending in (".csv", ".html", ".xlsx", ".svg", ".md", ".txt"):
                    with self.subTest(command=command, ending=ending):
                        file = Path(room, f"{command}{ending}")
                        status, out, said = run_words(path, command, "--output", file)
                        self.assertEqual(out, "")
                        wanted = {".svg": command not in ("passes", "timeline"), ".md": command == "passes"}
                        if not wanted.get(ending, ending != ".txt" or command == "plan"):
                            self.assertEqual((status, file.exists()), (1, False))
                            self.assertIn("expected a name that ends in", said)
                            continue
                        self.assertEqual((status, said), (0, ""))
                        octets = file.read_bytes()
                        if ending == ".xlsx" and text is not None:
                            rows = list(csv.reader(io.StringIO(text)))
                            found = rows_of(octets)
                            self.assertEqual((found[0], len(found)), (rows[0], len(rows)))
                            self.assertEqual([row[0] for row in found], [row[0] for row in rows])
                        elif ending == ".csv" and text is not None:
                            self.assertEqual(octets.decode(), text)
                        elif ending == ".html":
                            self.assertTrue(octets.startswith(b"<!doctype html>"))
                            self.assertIn(b"<table>", octets)
                        elif ending == ".svg":
                            self.assertEqual(xml.fromstring(octets).tag, f"{SVG}svg")
            rows = list(csv.reader(io.StringIO(Path(room, "plan.csv").read_text())))
            self.assertEqual(rows[0], ["begin", "end", "A"])
            self.assertEqual(sum(int(row[2]) for row in rows[1:]), 50_000)
            self.assertEqual(Path(room, "plan.txt").read_text(), made.plan.text)
            # nothing is planned where the name is refused
            status, out, said = run_words(path, "study", "--output", Path(room, "study.ods"))
            self.assertEqual((status, out), (1, ""))
            self.assertIn("expected a name that ends in .svg, .png, .pdf, .csv, .html or .xlsx", said)
            # what is saved follows its name too
            for one in (made.passes(), made.timeline(), day().sensitivity()):
                one.save(Path(room, "saved.xlsx"))
                self.assertEqual(rows_of(Path(room, "saved.xlsx").read_bytes())[0], list(one.to_dict()))
                with self.assertRaisesRegex(MissionError, "a name that ends in"):
                    one.save(Path(room, "saved.ods"))

    def test_numbers_stay_numbers(self):
        cells = rudlayog._files.workbook_of({"a": [1, 2.5, None, True], "b": ["<&>", "1", "é\n", at(6)]})
        with zipfile.ZipFile(io.BytesIO(cells)) as file:
            sheet = xml.fromstring(file.read("xl/worksheets/sheet1.xml"))
        kinds = [[cell.get("t") for cell in row] for row in sheet.iter(f"{SHEET}row")]
        self.assertEqual(kinds[1:], [[None, "inlineStr"], [None, "inlineStr"], [None, "inlineStr"], ["b", "inlineStr"]])
        self.assertEqual(rows_of(cells)[1:], [["1", "<&>"], ["2.5", "1"], ["", "é "], ["1", at(6)]])

    def test_statuses(self):
        with tempfile.TemporaryDirectory() as room:
            path = Path(room, "mission.toml")
            day().save(path)
            status, out, said = run_words(path, "study", "--sizes", "0")
            self.assertEqual((status, out), (1, ""))
            self.assertIn("a factor above 0", said)
            status, out, said = run_words(path, "study", "--horizon", "0")
            self.assertEqual((status, out), (1, ""))
            self.assertIn("longer than nothing", said)
            # each variant is refused: the table says so, and so does the status
            status, out, said = run_words(path, "study", "--sizes", "0.5", "--quiet")
            self.assertEqual(status, 1)
            self.assertIn("at most its size", out)
            self.assertIn("no variant can be planned; the first: ", said)
            self.assertEqual(run_words(path, "study", "--sizes", "0.5", "--lost", "--quiet")[0], 0)
            for word in ("--help", "-h"):
                status, out, said = run_words(word)
                self.assertEqual((status, said, out[:6]), (0, "", "usage:"))

    def test_pictures_in_megabytes(self):
        found = study(day(), each_pass_lost(day()), progress=False)
        words = ["".join(each.itertext()) for each in xml.fromstring(found.plot(matplotlib=False, unit="MB").svg)]
        # 50 MB less the 36 MB of one pass
        self.assertEqual(words.count("14.000"), 2)
        self.assertIn("MB lost", words)
        self.assertIn("as it is: 0.000", words)
        self.assertIn("14,000", found.plot(matplotlib=False).svg)
        with tempfile.TemporaryDirectory() as room:
            path = Path(room, "mission.toml")
            day().save(path)
            run_words(path, "study", "--mb", "--quiet", "--output", Path(room, "s.svg"))
            drawn = Path(room, "s.svg").read_text()
            self.assertIn("MB lost", drawn)
        problem = tuple(day().problem())
        with self.assertRaisesRegex(ValueError, "counts in blocks"):
            study(problem, {"x": scaled(2)}, progress=False).plot(unit="MB")
        with self.assertRaisesRegex(ValueError, "blocks or MB"):
            found.plot(unit="GB")


class Parts(unittest.TestCase):
    def test_a_chart_claims_no_more_than_its_part(self):
        # nothing is lost in the first half of the day, and 64 MB of the 100 MB that come in the second one
        mission = day(
            passes=[Pass("S", at(6), at(7), "80 kbit/s"), Pass("S", at(18), at(19), "80 kbit/s")],
            observations=[Observation("A", at(hour), at(hour + 1), volume="50 MB") for hour in (14, 20)],
        )
        made = mission.plan(horizon=720)
        self.assertEqual(len(made.parts), 2)
        heads = [
            next("".join(each.itertext()) for each in xml.fromstring(chart).iter(f"{SVG}text") if each.get("class") == "h")
            for chart in made.charts()
        ]
        lost_in = [sum(sum(step.lost.values()) for step in made.steps if (step.end <= made.flown[0][0].times[-1]) == first) for first in (True, False)]
        self.assertRegex(heads[0], rf"^In this part, which looks further ahead, {lost_in[0]:,} of [0-9,]+ blocks are lost$")
        self.assertRegex(
            heads[1],
            rf"^In this part {lost_in[1]:,} of [0-9,]+ blocks are lost, and from what the part before leaves no plan loses "
            "fewer$",
        )
        for chart in made.charts()[:1]:
            self.assertNotIn("no plan loses fewer", chart)
        whole = mission.plan()
        self.assertRegex(whole.charts()[0], "blocks are lost, and no plan loses fewer")
        self.assertEqual(whole.charts()[0], chart_of(whole.problem, whole.plan))
        both = xml.fromstring(above_one_another(made.charts()))
        self.assertEqual(len(both), 2)
        with tempfile.TemporaryDirectory() as room:
            path = Path(room, "mission.toml")
            mission.save(path)
            self.assertEqual(run_words(path, "plan", "--horizon", 720, "--output", Path(room, "p.svg"))[0], 0)
            self.assertEqual(Path(room, "p.svg").read_text(), above_one_another(made.charts()))


if __name__ == "__main__":
    unittest.main()
