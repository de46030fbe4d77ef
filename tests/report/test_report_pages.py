"""Tests the pages that `wire_up-report` writes.

They are whole, and nothing of a plan stands in one as other than text.
"""
import html.parser
import re
import unittest
from pathlib import Path

from tests.support import report_support
from tests.support.needs import needs_program


# A page of the longest plan is no longer than this, in characters.
MOST = 400_000
ELEMENTS = frozenset(
    "html head meta title style body header section div h1 h2 h3 p span a b ol ul li table tr th "
    "td details summary pre code strong figure figcaption dl dt dd svg g line circle rect polygon "
    "polyline text label input".split()
)
GROUP_COUNT = re.compile(r'<h2>\d+\. .*<span class="count">([\d,]+) (?:race|finding)')


class PageReader(html.parser.HTMLParser):
    """Reads a page: its elements, its links, and the text of each line of the plan."""

    def __init__(self, text: str) -> None:
        super().__init__()
        self.elements: set[str] = set()
        self.ids: set[str] = set()
        self.links: list[str] = []
        # Attributes that a plan may have brought in, and ids that stand twice.
        self.wrong: list[str] = []
        self.lines: dict[str, str] = {}
        self.titles: dict[str, str | None] = {}
        self.line = ""
        self.feed(text)

    def handle_starttag(self, tag: str, attrs: list[tuple[str, str | None]]) -> None:
        """Notes an element and its attributes."""
        found = {name: value or "" for name, value in attrs}
        self.elements.add(tag)
        self.links += [found["href"]] if "href" in found else []
        loaded = ("src", "style", "xlink:href")
        self.wrong += [
            each_name for each_name in found if each_name.startswith("on") or each_name in loaded
        ]
        if "id" in found:
            self.wrong += [found["id"]] if found["id"] in self.ids else []
            self.ids.add(found["id"])
        if tag == "div":
            self.begin_line(found)

    def begin_line(self, found: dict[str, str]) -> None:
        """Notes which line of the plan begins, if one does."""
        name = found.get("id", "")
        self.line = name.removeprefix("line-") if name.startswith("line-") else ""
        self.titles[self.line] = found.get("title")

    def handle_endtag(self, tag: str) -> None:
        """Notes the end of a line of the plan."""
        self.line = "" if tag == "div" else self.line

    def handle_data(self, data: str) -> None:
        """Notes the text of a line of the plan."""
        if self.line:
            self.lines[self.line] = self.lines.get(self.line, "") + data

    def list_wrong_lines(self, path: Path) -> list[str]:
        """The numbers of lines of the plan that are shown otherwise than they are."""
        lines = path.read_bytes().decode("utf-8", "replace").split("\n")
        shown = {line: text.removeprefix(line) for line, text in self.lines.items()}
        shown.update(
            {each_title: title for each_title, title in self.titles.items() if each_title and title}
        )
        return [
            each_text
            for each_text, text in shown.items()
            if text != clean(lines[int(each_text) - 1])
        ]

    def list_lost_links(self) -> list[str]:
        """The links that lead nowhere, or out of the page."""
        return [link for link in self.links if not link.startswith("#") or link[1:] not in self.ids]


def clean(line: str) -> str:
    """A line without the characters that HTML can't have."""
    return "".join(text if text >= " " or text == "\t" else "\ufffd" for text in line)


@needs_program
@report_support.for_each_plan
class PagesTest(report_support.PlanCase):
    """The page of each plan."""

    def check(self, name: str) -> None:
        made, path = report_support.make_page(name), report_support.find_plan(name)
        checked = report_support.run_checker("check", *report_support.list_options(name), path)
        said = (made.ran.returncode, made.ran.stdout, made.ran.stderr)
        self.assertEqual(said, (checked.returncode, "", ""))
        text = report_support.read(made.page)
        self.assertLess(len(text), MOST)
        self.check_elements(PageReader(text), path)
        self.check_count(text, checked.stdout.count("\n") - 1)

    def check_elements(self, page: PageReader, path: Path) -> None:
        """Tests that each link leads somewhere, and that nothing was brought in by the plan."""
        self.assertEqual(page.list_lost_links(), [])
        self.assertEqual(page.wrong, [])
        self.assertLessEqual(page.elements, ELEMENTS)
        self.assertTrue(page.lines)
        self.assertEqual(page.list_wrong_lines(path), [])

    def check_count(self, text: str, count: int) -> None:
        """Tests that the groups have so many findings together."""
        self.assertEqual(
            sum(int(found.replace(",", "")) for found in GROUP_COUNT.findall(text)), count
        )


if __name__ == "__main__":
    unittest.main()
