"""The planner's page with a session in it, and the command that opens it."""

import contextlib
import io
import json
import os
import re
import tempfile
import unittest
import unittest.mock
from datetime import datetime, timedelta, timezone
from pathlib import Path

from rudlayog import Setup, Store
from rudlayog.page import main, open_page, page, page_file

SETUP = b'[[store]]\nid = "SCI"\nsize = 4\ntype = "bounded"\nchannel = 0\n'
FORECAST = b"step,window,SCI\n1,2,3\n"
EMPTY = '<p>a page</p><script type="application/json" id="session">null</script>'


class Pages(unittest.TestCase):
    def setUp(self) -> None:
        self.folder = Path(self.enterContext(tempfile.TemporaryDirectory()))
        self.file = self.folder / "page.html"
        self.file.write_text(EMPTY)
        self.enterContext(unittest.mock.patch.dict(os.environ, {"RUDLAYOG_PAGE": str(self.file)}))

    def session(self, document: str) -> dict[str, object]:
        found = re.fullmatch(r'<p>a page</p><script type="application/json" id="session">(.*)</script>', document)
        assert found is not None
        return dict(json.loads(found[1]))

    def test_a_page_without_texts_is_as_it_is(self) -> None:
        self.assertEqual(page(), EMPTY)

    def test_texts_and_times_stand_in_the_session(self) -> None:
        begins = datetime(2026, 11, 27, 8, 0, tzinfo=timezone(timedelta(hours=2)))
        said = self.session(page(SETUP, FORECAST, begins=begins, minutes=10, stations={1: "Kiruna"}))
        self.assertEqual((said["rudlayog"], said["setup"], said["forecast"]), (1, SETUP.decode(), FORECAST.decode()))
        self.assertEqual((said["begins"], said["minutes"], said["stations"]), ("2026-11-27 06:00", 10, {"1": "Kiruna"}))
        self.assertNotIn("given", said)

    def test_a_begin_keeps_its_seconds(self) -> None:
        begins = datetime(2026, 11, 27, 6, 0, tzinfo=timezone.utc)
        for more, text in ((timedelta(0), "06:00"), (timedelta(seconds=30), "06:00:30"),
            (timedelta(milliseconds=250), "06:00:00.250000")):
            said = self.session(page(SETUP, FORECAST, begins=begins + more))
            self.assertEqual(said["begins"], f"2026-11-27 {text}")

    def test_data_a_plan_and_a_text_that_would_end_the_element(self) -> None:
        setup = Setup.of([Store("SCI", size=4)])
        document = page(setup, {"window": [2], "SCI": [3]}, b"mmplan 1</script>\xff\n")
        self.assertEqual(document.count("</script>"), 1)
        said = self.session(document)
        self.assertEqual(said["setup"], bytes(setup).decode())
        self.assertEqual(bytes(said["given"]), b"mmplan 1</script>\xff\n")  # type: ignore[call-overload]

    def test_what_is_refused(self) -> None:
        with self.assertRaisesRegex(ValueError, "go together"):
            page(SETUP)
        with self.assertRaisesRegex(ValueError, "no time zone"):
            page(SETUP, FORECAST, begins=datetime(2026, 11, 27))
        self.file.write_text("another page")
        with self.assertRaisesRegex(ValueError, "no page of this version"):
            page(SETUP, FORECAST)
        self.file.unlink()
        with self.assertRaisesRegex(FileNotFoundError, "bindings/page/test makes it|looked for"):
            page()

    def test_the_browser_opens_the_file(self) -> None:
        with unittest.mock.patch("webbrowser.open", return_value=True) as opened:
            file = open_page(EMPTY, self.folder / "mine.html")
            opened.assert_called_once_with(file.as_uri())
            self.assertEqual(file.read_text(), EMPTY)
        with unittest.mock.patch("webbrowser.open", return_value=False), self.assertRaisesRegex(
            OSError, "no browser opens"):
            open_page(EMPTY, self.folder / "mine.html")

    def test_the_command(self) -> None:
        for name, octets in (("setup.toml", SETUP), ("forecast.csv", FORECAST)):
            (self.folder / name).write_bytes(octets)
        words = [str(self.folder / "setup.toml"), str(self.folder / "forecast.csv")]
        self.assertEqual(main([*words, "--output", str(self.folder / "out.html")]), 0)
        self.assertEqual(self.session((self.folder / "out.html").read_text())["setup"], SETUP.decode())
        said = io.StringIO()
        with contextlib.redirect_stderr(said):
            self.assertEqual(main([str(self.folder / "none.toml"), words[1]]), 1)
            with self.assertRaises(SystemExit) as ended:
                main(words[:1])
        self.assertEqual(ended.exception.code, 2)
        self.assertIn("none.toml", said.getvalue())

    def test_the_page_of_bindings_has_one_session(self) -> None:
        made = Path(__file__).resolve().parents[2] / "page" / "out" / "rudlayog.html"
        if not made.is_file():
            self.skipTest("the page is not made")
        with unittest.mock.patch.dict(os.environ, {"RUDLAYOG_PAGE": str(made)}):
            self.assertEqual(page_file(), made)
            self.assertNotEqual(page(SETUP, FORECAST), page())


if __name__ == "__main__":
    unittest.main()
