"""Tests that the line between two calls that race goes over no label and no other call."""
import unittest
from collections.abc import Sequence

from wire_up_tools.report.diagram import Bar, Diagram, Item, Lane, Link, Mark, Part, Row
from wire_up_tools.report.layout import Box, Layout, Point, lay_out
from wire_up_tools.report.race_line import Way, find_race_line, goes_over, is_free, list_taken

LONG = "a label that takes all the room"


def row(depth: int) -> Row:
    """The row of calls of this depth."""
    return Row(depth, Part.CALL)


def lay_out_race(items: Sequence[Item], lanes: int, bars: Sequence[Bar] = ()) -> Layout:
    """Where everything stands, if the first two of these calls race."""
    race = Link(items[0], items[1])
    names = [Lane(f"a:{number}", "on n") for number in range(lanes)]
    return lay_out(Diagram(names, items, bars, race=race))


class RaceLineTest(unittest.TestCase):
    """The way of the line."""

    def find(self, layout: Layout) -> Way:
        """The line, which goes over nothing."""
        race = layout.diagram.race
        assert race
        found = find_race_line(layout, race)
        self.assertTrue(is_free(found, list_taken(layout, race)), found)
        self.assertEqual(found[0], layout.find_point(race.source))
        self.assertEqual(found[-1], layout.find_point(race.target))
        return found

    def test_it_is_straight_where_nothing_is_between(self) -> None:
        for depths in ((0, 1), (1, 0), (0, 0)):
            items = [Item(lane, row(depth), LONG) for lane, depth in enumerate(depths)]
            self.assertEqual(len(self.find(lay_out_race(items, 2))), 2)

    def test_labels_between(self) -> None:
        for depths in ((3, 0), (0, 3)):
            items = [Item(lane, row(depth), LONG) for lane, depth in enumerate(depths)]
            between = [Item(0, row(depth), LONG) for depth in (1, 2)]
            found = self.find(lay_out_race([*items, *between], 2))
            self.assertEqual(len(found), 5)

    def test_a_label_over_all_lanes(self) -> None:
        items = [Item(0, row(0), LONG), Item(2, row(2), LONG), Item(0, row(1), 4 * LONG)]
        self.find(lay_out_race(items, 4))

    def test_a_call_between_in_the_same_row(self) -> None:
        items = [Item(lane, row(0), LONG) for lane in (0, 2, 1)]
        self.assertGreater(len(self.find(lay_out_race(items, 3))), 2)

    def test_labels_of_fences(self) -> None:
        items = [Item(lane, row(3 * lane), LONG) for lane in range(2)]
        fences = [Row(number, Part.FENCE, number) for number in range(1, 3)]
        bars = [Bar(fence, {lane: Mark(LONG) for lane in range(2)}) for fence in fences]
        self.find(lay_out_race(items, 2, bars))

    def test_calls_that_are_not_drawn(self) -> None:
        below = Item(0, row(1), LONG, first=9, last=9)
        items = [Item(0, row(0), LONG, first=1, last=1), Item(1, row(2), LONG), below]
        layout = lay_out_race(items, 2)
        self.assertTrue(layout.gaps)
        self.find(layout)


class BoxTest(unittest.TestCase):
    """Whether a line goes over a part of the picture."""

    def test_lines(self) -> None:
        box = Box(Point(10, 10), Point(20, 20))
        for start, end, wanted in (
            ((0, 0), (30, 30), True),
            ((0, 15), (30, 15), True),
            ((15, 30), (15, 12), True),
            ((12, 12), (13, 13), True),
            ((0, 0), (30, 9), False),
            ((0, 10), (30, 10), False),
            ((0, 15), (9, 15), False),
            ((0, 25), (25, 0), True),
            ((0, 19), (19, 0), False),
        ):
            self.assertIs(goes_over(Point(*start), Point(*end), box), wanted, (start, end))


if __name__ == "__main__":
    unittest.main()
