"""Tests how names of lanes are cut, and how arrows go round labels."""
import unittest

from wire_up_tools.report.arrow_line import find_arrow_lines
from wire_up_tools.report.diagram import Diagram, Item, Lane, Link, Part, Row
from wire_up_tools.report.layout import label_lane, lay_out, list_labels
from wire_up_tools.report.phrases import cut_middle
from wire_up_tools.report.race_line import is_free


def make_diagram() -> Diagram:
    """Three lanes: an arrow from the first to the last would go over a label of the second."""
    lanes = [Lane(f"{'j' * 60}:{number}", "on node") for number in range(3)]
    rows = [Row(number, Part.CALL) for number in range(3)]
    items = [Item(0, rows[0], "1 commit"), Item(1, rows[1], "1 a call"), Item(2, rows[2], "1 get")]
    return Diagram(lanes, items, [], [Link(items[0], items[2])])


class NamesTest(unittest.TestCase):
    """A name that is too long keeps its beginning and its end."""

    def test_both_ends_are_kept(self) -> None:
        self.assertEqual(cut_middle("abcdefg", 7), "abcdefg")
        self.assertEqual(cut_middle("abcdefgh", 7), "abc…fgh")
        self.assertEqual(cut_middle("abcdefgh", 6), "abc…gh")

    def test_a_lane(self) -> None:
        name, below = label_lane(lay_out(make_diagram()), 1)
        self.assertLessEqual(len(name.shown), name.room)
        self.assertTrue(name.shown.startswith("jjj") and name.shown.endswith("j:1"), name.shown)
        self.assertEqual(below.shown, "on node")


class ArrowsTest(unittest.TestCase):
    """The line of an arrow."""

    def test_it_goes_round_a_label(self) -> None:
        layout = lay_out(make_diagram())
        (way,) = find_arrow_lines(layout)
        boxes = [label.box for label in list_labels(layout)]
        self.assertFalse(is_free((way[0], way[-1]), boxes))
        self.assertTrue(is_free(way, boxes))


if __name__ == "__main__":
    unittest.main()
