"""Tests how a browser shows the pages of `wire_up-report`. They are skipped where no Chromium is.

Where WIRE_UP_PAGES names a folder, it gets a picture of each page at each width, light and dark.
"""
import os
import subprocess
import sys
import tempfile
import unittest
from pathlib import Path

from tests import support
from tests.support import Word, report_support
from tests.support.browser import Browser, find_browser
from tests.support.needs import alone, needs_program


# The widths at which each page is looked at, in pixels, with the height of a screen of each.
SCREENS = {400: 800, 1000: 700, 2000: 1100}
SCHEMES = ("light", "dark")
# The part of a printed sheet (A4) that is written on, in pixels.
SHEET = (718, 1045)
# The letters of a diagram of two lanes have at least so many pixels on the narrowest screen.
LEAST_LETTERS = 9
# What is asked in the page.
MEASURE = support.TOP / "tests" / "support" / "measure.js"
# How wide the picture of README.md is, in pixels, and its greatest size in bytes.
PICTURE = support.TOP / "docs" / "report.png"
PICTURE_WIDTH, PICTURE_BYTES = 960, 150_000
# The first screen of README.md, in lines.
FIRST_SCREEN = 24


@alone
class BrowserCase(unittest.TestCase):
    """A test with a browser, which shows one page after another."""

    browser: Browser

    @classmethod
    def setUpClass(cls) -> None:
        cls.browser = Browser()
        cls.addClassCleanup(cls.browser.close)

    def load(self, page: Path) -> None:
        """Shows a page, of which can be asked what MEASURE has."""
        self.browser.load(page)
        self.browser.ask(report_support.read(MEASURE))

    def ask(self, call: str) -> list[str]:
        """What a function of MEASURE finds."""
        found: list[str] = self.browser.ask(call)
        return found


@needs_program
@report_support.for_each_plan
class PagesTest(BrowserCase, report_support.PlanCase):
    """A browser shows the page of each plan without a fault: no text is over another or cut for
    nothing, no line goes over a label, the verdict is seen first, and all can be read, light and
    dark."""

    def check(self, name: str) -> None:
        page = report_support.make_page(name).page
        self.load(page)
        said = []
        for scheme in SCHEMES:
            self.browser.prefer(scheme)
            for width, height in SCREENS.items():
                self.browser.resize(width, height)
                found = self.list_faults(width, height)
                said += [f"at {width}, {scheme}: {fault}" for fault in found]
                self.keep(f"{name}-{width}-{scheme}.png")
        self.assertEqual(said, [])
        self.assertEqual(self.browser.list_faults(), [])
        self.check_printed()

    def check_printed(self) -> None:
        """Tests the page on a printed sheet."""
        self.browser.show_printed(True)
        self.browser.resize(*SHEET)
        said = self.ask(f"measureSheet({SHEET[1]})")
        self.browser.show_printed(False)
        self.assertEqual(said, [])

    def list_faults(self, width: int, height: int) -> list[str]:
        """What is wrong with the page as it is shown now."""
        found = self.ask(f"measurePage({width})") + self.ask("measureColours()")
        few = self.ask(f"measureFew({LEAST_LETTERS})")
        return found + few + self.ask(f"measureFold({height})")

    def keep(self, name: str) -> None:
        """Writes a picture of what is shown, if pictures are to be kept."""
        room = os.environ.get("WIRE_UP_PAGES", "")
        if room:
            os.makedirs(room, exist_ok=True)
            self.browser.take_picture(Path(room, name))


# Functions, with a change to a page that each must find, and what it must say.
FAULTS = (
    ("measurePage(1000)", "document.body.style.minWidth = '1500px'", "the page is"),
    (
        "measurePage(1000)",
        "document.querySelector('.race').setAttribute('points', '16,72 125,72')",
        "the race goes over 1 put card",
    ),
    (
        "measurePage(1000)",
        "document.querySelector('polyline').setAttribute('class', 'arrow'); "
        "document.querySelector('polyline').setAttribute('points', '16,72 125,72')",
        "an arrow goes over 1 put card",
    ),
    ("measureSheet(300)", "document.querySelector('section').style.breakInside = 'avoid'", "SEC"),
    ("measureColours()", "document.querySelector('h1').style.color = '#999'", "h1 "),
    ("measureFold(700)", "document.body.style.paddingTop = '700px'", "header h1 ends"),
    ("measureFew(9)", "document.querySelector('svg text').style.fontSize = '8px'", "letters of"),
    ("measureFew(8)", "document.querySelector('figure svg').style.minWidth = '1200px'", "two l"),
)


class MeasureTest(BrowserCase):
    """What is wrong with a page is found."""

    def test_what_is_wrong(self) -> None:
        page = report_support.make_page("early-get").page
        self.browser.resize(1000, 700)
        for call, change, said in FAULTS:
            with self.subTest(change):
                self.load(page)
                self.assertEqual(self.ask(call), [])
                self.browser.ask(f"{change}; 0")
                found = self.ask(call)
                self.assertTrue(any(text.startswith(said) for text in found), found)


class PointingTest(BrowserCase):
    """While one points at a call of a diagram, all is lit that surely comes before it."""

    def point(self, plan: str, diagram: str) -> dict[str, set[str]]:
        """Points at each call of a diagram. Answers what is lit, by the call's class."""
        self.load(report_support.make_page(plan).page)
        self.browser.resize(1000, 2000)
        self.every = set(self.ask(f"findLit('{diagram}')"))
        found: dict[str, set[str]] = {}
        for item in self.browser.ask(f"findCalls('{diagram}')"):
            self.browser.point_at(item["x"], item["y"])
            found[item["of"]] = set(self.ask(f"findLit('{diagram}')"))
            self.assertIn(item["of"], found[item["of"]])
        self.browser.point_at(0, 0)
        self.assertEqual(set(self.ask(f"findLit('{diagram}')")), self.every)
        return found

    def test_a_race(self) -> None:
        lit = self.point("early-get", "diagram-1")
        self.assertEqual(lit, {"c0": {"c0", "c2"}, "c1": {"c1"}, "c2": {"c2"}})

    def test_a_wire_up(self) -> None:
        lit = self.point("ordered-get", "diagram")
        self.assertEqual(max(lit.values(), key=len), self.every)
        self.assertEqual(min(map(len, lit.values())), 1)


def measure_picture(path: Path) -> tuple[int, int]:
    """The width of a picture in pixels, and its size in bytes; 0 and 0 if it is none."""
    data = path.read_bytes()
    is_picture = data.startswith(b"\x89PNG\r\n\x1a\n")
    return (int.from_bytes(data[16:20], "big"), len(data)) if is_picture else (0, 0)


@alone
class PictureTest(unittest.TestCase):
    """README.md shows the picture of a report first, and it can be made again."""

    def check(self, path: Path) -> None:
        """Tests the width and the size of a picture."""
        width, size = measure_picture(path)
        self.assertEqual(width, PICTURE_WIDTH)
        self.assertLess(size, PICTURE_BYTES)

    def test_it_is_shown_first(self) -> None:
        text = report_support.read(support.TOP / "README.md")
        first = "\n".join(text.split("\n")[:FIRST_SCREEN])
        self.assertIn("](docs/report.png)", first)
        self.check(PICTURE)

    @needs_program
    def test_it_can_be_made(self) -> None:
        find_browser()
        maker = support.TOP / "packaging" / "picture.py"
        with tempfile.TemporaryDirectory(prefix="wire-up-report-") as room:
            made = Path(room, "made.png")
            command: list[Word] = [sys.executable, maker, support.program(), made]
            ran = subprocess.run(command, capture_output=True, text=True, check=False)
            self.assertEqual(ran.returncode, 0, ran.stderr)
            self.check(made)


if __name__ == "__main__":
    unittest.main()
