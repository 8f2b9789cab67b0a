"""The sheet for operations in its forms, its page with the chart, and the command."""

import csv
import io
import os
import re
import shutil
import subprocess
import sys
import tempfile
import unittest
import unittest.mock
import xml.etree.ElementTree as xml
from dataclasses import dataclass
from html.parser import HTMLParser
from pathlib import Path

import rudlayog
from made_missions import made_mission
from rudlayog.mission import Mission, MissionError
from rudlayog.pictures import chart_of

EXAMPLES = Path(__file__).resolve().parents[3] / "examples"
WEEK = EXAMPLES / "mars_week" / "mission.toml"
PACKAGE = Path(rudlayog.__file__).resolve().parents[1]


class Balanced(HTMLParser):
    """Reads a page, and notes what is not closed."""

    def __init__(self):
        super().__init__()
        self.open, self.tables, self.texts = [], 0, []

    def handle_starttag(self, tag, attributes):
        if tag not in ("meta", "rect", "path", "line"):
            self.open.append(tag)
        self.tables += tag == "table"

    def handle_startendtag(self, tag, attributes):
        pass

    def handle_endtag(self, tag):
        if tag in ("rect", "path", "line"):
            return
        assert self.open.pop() == tag, tag

    def handle_data(self, data):
        self.texts.append(data)


class Sheets(unittest.TestCase):
    @classmethod
    def setUpClass(cls):
        cls.mission = Mission.read(WEEK)
        cls.made = cls.mission.plan()
        cls.sheet = cls.made.passes()

    def test_rows_follow_one_another(self):
        # what a store holds before a pass is what it held after the last one, with what has come, less what was lost
        for store in self.mission.stores:
            rows = [row for row in self.sheet if row.store == store.id]
            self.assertEqual([row.name for row in rows], [one.name for one in self.mission.passes])
            for row in rows:
                self.assertLessEqual(row.minutes, (row.end - row.begin).total_seconds() / 60 + 1e-9)
                self.assertAlmostEqual(row.mb, row.blocks * 1000 / 1e6)
        for one in self.mission.passes:
            minutes = sum(row.minutes for row in self.sheet if row.name == one.name)
            self.assertLessEqual(minutes, (one.end - one.begin).total_seconds() / 60 + 1e-6)
        self.assertEqual(sum(row.lost for row in self.sheet), self.made.loss)

    def test_csv(self):
        records = list(csv.DictReader(io.StringIO(self.sheet.text())))
        self.assertEqual(len(records), 14 * 7)
        self.assertEqual(sum(int(record["blocks"]) for record in records), sum(row.blocks for row in self.sheet))
        self.assertEqual(records[0]["begin"], "2031-03-03T03:40:00Z")

    def test_markdown(self):
        table, *words, ages = self.sheet.markdown().split("\n\n")
        lines = table.splitlines()
        self.assertEqual(len(lines), 2 + 14 * 7)
        self.assertEqual({line.count("|") for line in lines}, {13})
        said = " ".join(words)
        self.assertIn(f"{self.made.loss:,} are lost ({self.made.loss_mb:,.3f} MB)", said)
        self.assertIn("No plan in these steps loses fewer", said)
        self.assertIn("may grow by", said)
        self.assertIn("Rounding to whole packets may cost at most", said)
        self.assertEqual(len(ages.splitlines()), 2 + 7)

    def test_frame(self):
        try:
            import pandas
        except ImportError:
            self.skipTest("no pandas")
        frame = self.sheet.to_frame(pandas.DataFrame)
        self.assertEqual(int(frame["blocks"].sum()), sum(row.blocks for row in self.sheet))
        self.assertEqual(str(frame["begin"].dt.tz), "UTC")
        # a mission of data frames is the mission of the file
        passes = pandas.read_csv(WEEK.parent / "passes.csv", parse_dates=["begin", "end"])
        observations = pandas.read_csv(WEEK.parent / "observations.csv")
        again = Mission.of(
            self.mission.stores,
            passes,
            observations,
            self.mission.stations,
            begin=self.mission.begin,
            end=self.mission.end,
            packet=1000,
        )
        self.assertEqual(again.problem().forecast, self.mission.problem().forecast)

    def test_page(self):
        page = self.sheet.html()
        reader = Balanced()
        reader.feed(page)
        self.assertEqual(reader.open, [])
        # all passes, each of them, the timeline, and the ages
        self.assertEqual(reader.tables, 1 + 14 + 2)
        self.assertIn("No plan in these steps loses fewer", page)
        self.assertIn("Before more is lost, all that arrives may grow by", page)
        self.assertIn("2031-03-03 03:40", page)
        for one in self.mission.passes:
            self.assertTrue(any(text.startswith(f"{one.name}, ") for text in reader.texts), one.name)
        with tempfile.TemporaryDirectory() as room:
            for name in ("sheet.html", "sheet.md", "sheet.csv"):
                self.sheet.save(Path(room, name))
                self.assertGreater(Path(room, name).stat().st_size, 1000)
            with self.assertRaises(MissionError):
                self.sheet.save(Path(room, "sheet.doc"))

    def test_the_chart_has_the_time_on_its_axis(self):
        (chart,) = self.made.charts()
        root = xml.fromstring(chart)
        words = ["".join(text.itertext()) for text in root.iter("{http://www.w3.org/2000/svg}text")]
        self.assertIn("UTC", words)
        self.assertNotIn("step", words)
        self.assertIn("03-04", words)
        # where a pass begins its window is drawn: the first of them 220 minutes into seven days
        windows = next(
            path.get("d") for path in root.iter("{http://www.w3.org/2000/svg}path") if path.get("class") == "p"
        )
        width = float(re.search(r"<rect class='o' x='180' y='\d+' width='(\d+)'", chart)[1])
        self.assertAlmostEqual(float(re.match(r"M([\d.]+)", windows)[1]), 180 + width * 220 / (7 * 24 * 60), delta=0.02)

    def test_charts_of_made_missions(self):
        for number in range(40):
            for problem, made in made_mission(number).plan().parts:
                root = xml.fromstring(chart_of(problem, made))
                for path in root.iter("{http://www.w3.org/2000/svg}path"):
                    for place in re.findall(r"[MH](-?[\d.]+)", path.get("d")):
                        self.assertTrue(-1 <= float(place) <= 1100, place)

    @unittest.skipUnless(shutil.which("chromium"), "no chromium")
    def test_the_page_is_drawn(self):
        with tempfile.TemporaryDirectory() as room:
            page, drawn = Path(room, "sheet.html"), Path(room, "sheet.pdf")
            self.sheet.save(page)
            words = [
                "chromium",
                "--headless",
                "--no-sandbox",
                "--disable-gpu",
                f"--user-data-dir={room}/profile",
                f"--print-to-pdf={drawn}",
                page.as_uri(),
            ]
            subprocess.run(words, check=True, capture_output=True, timeout=120)
            self.assertTrue(drawn.read_bytes().startswith(b"%PDF"))


@dataclass(frozen=True)
class Worth:
    """A row of the library's sensitivity."""

    item: str
    name: str
    step: int | None
    now: int
    next: int
    most: int
    without: int


class Sensitivities(unittest.TestCase):
    def test_with_the_time_of_each_step(self):
        rows = [Worth("window", "", 2, 5, 1, 3, 0), Worth("size", "CAM", None, 9, 0, 0, 4)]
        with unittest.mock.patch.object(rudlayog, "sensitivity", lambda setup, forecast: rows, create=True):
            found = Mission.read(WEEK).sensitivity()
        lines = found.text().splitlines()
        # the first event after midnight is the first strip of the camera
        self.assertEqual(lines[1], "window,,2,2031-03-03T01:10:00Z,2031-03-03T01:50:00Z,5,1,3,0")
        self.assertEqual(lines[2], "size,CAM,,,,9,0,0,4")
        self.assertEqual(found.to_dict()["most"], [3, 0])
        self.assertIn("<td>CAM</td>", found._repr_html_())
        xml.fromstring(found.plot().svg)

    def test_a_library_without(self):
        if not hasattr(rudlayog, "sensitivity"):
            with self.assertRaisesRegex(MissionError, "has no sensitivity"):
                Mission.read(WEEK).sensitivity()


class Command(unittest.TestCase):
    def run_words(self, *words, status=0, folder=None):
        ran = subprocess.run(
            [sys.executable, "-B", "-m", "rudlayog", *map(str, words)],
            capture_output=True,
            text=True,
            check=False,
            env={**os.environ, "PYTHONPATH": str(PACKAGE)},
            cwd=folder,
        )
        self.assertEqual(ran.returncode, status, ran.stderr)
        return ran.stdout, ran.stderr

    def test_plan_passes_and_study(self):
        made = Mission.read(WEEK).plan()
        self.assertEqual(self.run_words(WEEK)[0], made.passes().markdown())
        self.assertEqual(self.run_words(WEEK, "plan")[0], made.plan.text)
        self.assertEqual(self.run_words("plan", WEEK)[0], made.plan.text)
        rows = list(csv.DictReader(io.StringIO(self.run_words(WEEK, "study", "--quiet")[0])))
        self.assertEqual(len(rows), 14)
        self.assertEqual({row["least"] for row in rows}, {"True"})
        rows = list(
            csv.DictReader(
                io.StringIO(
                    self.run_words(
                        WEEK, "study", "--sizes", "1.25", "--arrivals", "0.9", "--arrivals", "1.1", "--rates", "2"
                    )[0]
                )
            )
        )
        self.assertEqual([row["variant"] for row in rows][-3:], ["arrivals x 0.9", "arrivals x 1.1", "rates x 2"])
        self.assertEqual(len(rows), 10)

    def test_output(self):
        with tempfile.TemporaryDirectory() as room:
            for words, name, begin in (
                ((), "a.html", "<!doctype"),
                (("passes",), "a.csv", "pass,"),
                (("plan",), "a.txt", "mmplan"),
                (("plan",), "a.svg", "<svg"),
                (("study",), "s.svg", "<"),
            ):
                self.assertEqual(self.run_words(WEEK, *words, "--output", Path(room, name))[0], "")
                self.assertTrue(Path(room, name).read_text().startswith(begin), name)
            self.assertEqual(
                sorted(path.name for path in Path(room).iterdir()), ["a.csv", "a.html", "a.svg", "a.txt", "s.svg"]
            )
            copy = Path(room, "mission.toml")
            copy.write_text(
                WEEK.read_text()
                .replace('"passes.csv"', f'"{WEEK.parent}/passes.csv"')
                .replace('"observations.csv"', f'"{WEEK.parent}/observations.csv"')
            )
            before = copy.read_text()
            self.run_words(copy, "plan", "--output", copy, status=1)
            self.assertEqual(copy.read_text(), before)
            self.run_words(copy, "passes", "--output", Path(room, "a.doc"), status=1)
            self.run_words(copy, "--output", Path(room, "no folder", "a.md"), status=1)

    def test_statuses(self):
        self.assertIn("usage:", self.run_words("--help")[0])
        self.assertEqual(self.run_words("-h")[1], "")
        self.assertIn("usage:", self.run_words(status=2)[1])
        self.assertIn("usage:", self.run_words(WEEK, "fly", status=2)[1])
        self.assertIn(rudlayog.__version__, self.run_words("--version")[0])
        self.assertIn("no.toml", self.run_words("no.toml", status=1)[1])
        self.assertIn("256", self.run_words(WEEK, "--step", "10", status=1)[1])
        self.assertIn("minutes", self.run_words(WEEK, "--step", "ten", status=1)[1])
        self.assertEqual(self.run_words(WEEK, "plan", "--step", "60")[0][:6], "mmplan")
        if not hasattr(rudlayog, "sensitivity"):
            self.assertIn("has no sensitivity", self.run_words(WEEK, "sensitivity", status=1)[1])
        with tempfile.TemporaryDirectory() as room:
            Path(room, "m.toml").write_text(
                'begin = 2031-03-03T00:00:00Z\nend = 2031-03-04T00:00:00Z\n[[store]]\nid = "small letters"\nsize = '
                '9999\n'
            )
            out, said = self.run_words("m.toml", "plan", status=1, folder=room)
            self.assertEqual((out, said[:30]), ("", "rudlayog: m.toml, line 4, id: "))
            self.assertIn("expected an identifier", said)


if __name__ == "__main__":
    unittest.main()
