"""Tests of docs/crates.svg: it shows the crates of crates.txt, and what each stands on."""
import re
import shutil
import subprocess
import sys
import tempfile
import unittest
from dataclasses import dataclass
from pathlib import Path
from xml.etree import ElementTree

from tests.support import TOP


SVG = "{http://www.w3.org/2000/svg}"
PROGRAM = Path("build", "crates_picture.py")
PICTURE = Path("docs", "crates.svg")

Uses = dict[str, set[str]]


@dataclass(frozen=True)
class Box:
    """The box of a crate in the picture, in pixels."""

    name: str
    left: float
    top: float
    width: float
    height: float

    def overlaps(self, other: "Box") -> bool:
        """Whether two boxes have a pixel in common."""
        return (self.left < other.left + other.width and other.left < self.left + self.width
                and self.top < other.top + other.height and other.top < self.top + self.height)


def read_table() -> Uses:
    """The crates of crates.txt, each with the crates of the table that it uses."""
    with open(TOP / "crates.txt", encoding="utf-8") as file:
        lines = [line for line in file.read().splitlines() if line and not line.startswith("#")]
    parts = [line.partition(":") for line in lines]
    names = {name for name, _, _ in parts}
    return {name: set(uses.split()) & names for name, _, uses in parts}


def read_picture() -> ElementTree.Element:
    """The picture, as it is in docs/."""
    return ElementTree.parse(TOP / PICTURE).getroot()


def boxes_of(picture: ElementTree.Element) -> list[Box]:
    """The boxes of crates: each is a rectangle, and behind it a text that isn't of a layer."""
    parts = list(picture)
    found = []
    for shape, text in zip(parts, parts[1:]):
        if shape.tag == f"{SVG}rect" and text.tag == f"{SVG}text" and not text.get("class"):
            sizes = [float(shape.get(word, "0")) for word in ("x", "y", "width", "height")]
            found.append(Box(str(text.text), *sizes))
    return found


def lines_of(picture: ElementTree.Element) -> list[tuple[str, str]]:
    """The uses that lines show, by the titles of the lines."""
    titles = [str(element.text) for element in picture.iterfind(f"{SVG}path/{SVG}title")]
    found = [re.fullmatch(r"(\w+) uses (\w+)", title) for title in titles]
    return [(hit.group(1), hit.group(2)) for hit in found if hit]


def close(uses: Uses) -> Uses:
    """What each crate uses, itself or by others."""
    reached = {name: set(used) for name, used in uses.items()}
    for _ in uses:
        reached = {name: used.union(*(reached[text] for text in used))
                   for name, used in reached.items()}
    return reached


class CratesPicture(unittest.TestCase):
    """The picture in docs/ beside crates.txt."""

    def test_picture_is_up_to_date(self) -> None:
        done = subprocess.run([sys.executable, PROGRAM, "--check"], cwd=TOP, check=False,
                              stdout=subprocess.PIPE, text=True)
        self.assertEqual((done.returncode, done.stdout), (0, ""))

    def test_each_crate_has_one_box(self) -> None:
        names = [box.name for box in boxes_of(read_picture())]
        self.assertEqual(sorted(names), sorted(read_table()))

    def test_boxes_are_apart_and_within_the_picture(self) -> None:
        picture = read_picture()
        boxes = boxes_of(picture)
        width, height = float(picture.get("width", "0")), float(picture.get("height", "0"))
        self.assertLessEqual(width, 900)
        for number, box in enumerate(boxes):
            self.assertFalse(
                [each_box.name for each_box in boxes[:number] if each_box.overlaps(box)], box.name
            )
            self.assertGreaterEqual(min(box.left, box.top), 0, box.name)
            self.assertLessEqual(box.left + box.width, width, box.name)
            self.assertLessEqual(box.top + box.height, height, box.name)

    def test_names_fit_into_their_boxes(self) -> None:
        for box in boxes_of(read_picture()):
            self.assertLessEqual(len(box.name) * 7.3, box.width, box.name)

    def test_crates_stand_above_those_that_they_use(self) -> None:
        tops = {box.name: box.top for box in boxes_of(read_picture())}
        for name, used in read_table().items():
            for text in used:
                self.assertLess(tops[name], tops[text], f"{name} uses {text}")

    def test_lines_show_all_uses_and_no_other(self) -> None:
        table = read_table()
        drawn: Uses = {name: set() for name in table}
        for user, used in lines_of(read_picture()):
            self.assertIn(used, table[user])
            drawn[user].add(used)
        self.assertEqual(close(drawn), close(table))

    def test_old_picture_is_told(self) -> None:
        with tempfile.TemporaryDirectory() as room:
            top = Path(room)
            for path in (PROGRAM, PICTURE):
                (top / path).parent.mkdir(parents=True)
                shutil.copy(TOP / path, top / path)
            (top / "crates.txt").write_text("# Base: all\nlow:\nhigh: low\n", encoding="utf-8")
            done = subprocess.run([sys.executable, PROGRAM, "--check"], cwd=top, check=False,
                                  stdout=subprocess.PIPE, text=True)
            self.assertEqual(done.returncode, 1)
            self.assertIn("crates.svg isn't that of crates.txt", done.stdout)


if __name__ == "__main__":
    unittest.main()
