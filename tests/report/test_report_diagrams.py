"""Tests what stands in the diagram of a plan without findings, and how it is drawn."""
import unittest
import xml.etree.ElementTree

from wire_up_tools.plan_reading import read_plan
from wire_up_tools.report import drawing, text_drawing
from wire_up_tools.report.diagram import LANES, ROWS, Diagram, Style
from wire_up_tools.report.layout import lay_out
from wire_up_tools.report.orders import find_order
from wire_up_tools.report.wire_up_diagram import make_wire_up_diagram
from tests.support import report_support

TWO_RANKS = "rehearsal 1\nnode n0\nnode n1\njob a\nrank n0\n{}rank n1\n{}"


def make_diagram(text: str, **waiting: int | None) -> Diagram:
    """The diagram of a plan in which ranks of the job `a` wait for ever at these calls: r0=2."""
    order = find_order(read_plan(text.encode()))
    ends = {rank.name: waiting.get(rank.name.replace("a:", "r")) for rank in order.plan.ranks}
    return make_wire_up_diagram(order, ends)


def draw(diagram: Diagram) -> list[str]:
    """The lines of a diagram, without those of its legend."""
    lines = text_drawing.draw_lines(diagram)
    return [line.strip() for line in lines[: lines.index("")]]


class WireUpTest(unittest.TestCase):
    """What stands in the diagram of a wire-up."""

    def test_a_get_waits_for_a_commit(self) -> None:
        diagram = make_diagram(TWO_RANKS.format("put global k v\ncommit\n", "get a:0 k\n"))
        (arrow,) = diagram.arrows
        self.assertEqual((arrow.source.label, arrow.target.label), ("2 commit", "1 get k"))
        drawn = [
            "a:0         a:1",
            "on n0       on n1",
            "o 1 put k   |",
            "o 2 commit  |",
            "|           o 1 get k <- a:0",
        ]
        self.assertEqual(draw(diagram), drawn)

    def test_a_fence_is_a_bar_that_says_the_order(self) -> None:
        one = "put global k v\ncommit\nfence all collect\n"
        diagram = make_diagram(TWO_RANKS.format(one, "fence all collect\nget a:0 k\n"))
        (bar,) = diagram.bars
        labels = [mark.label for mark in bar.marks.values()]
        self.assertEqual(labels, ["3 fence collect", "1 fence collect"])
        self.assertEqual(diagram.arrows, [])

    def test_calls_of_one_verb_are_bundled(self) -> None:
        puts = "put global a v\nput global b v\nput global c v\ncommit\n"
        diagram = make_diagram(TWO_RANKS.format(puts, "get a:0 a\nget a:0 a\n"))
        labels = [item.label for item in diagram.items]
        self.assertEqual(labels, ["1–3 put ×3", "4 commit", "1–2 get a ×2"])

    def test_ranks_that_wait(self) -> None:
        diagram = make_diagram(TWO_RANKS.format("get a:1 k\ncommit\n", "commit\n"), r0=1)
        styles = [item.style for item in diagram.items]
        self.assertEqual(styles, [Style.WAITING, Style.UNREACHED, Style.PLAIN])
        self.assertIn("waits for ever", drawing.draw_figure(diagram, "", "it"))

    def test_ranks_of_one_shape_are_one_lane(self) -> None:
        diagram = make_diagram(report_support.write_cards(30, 3, 2, "fence all collect"))
        self.assertEqual([lane.below for lane in diagram.lanes], ["and 29 like it"])
        self.assertTrue(diagram.notes)

    def test_fences_in_a_row_are_one_bar(self) -> None:
        fences = "put global k v\ncommit\n" + "fence all\n" * 16
        diagram = make_diagram(TWO_RANKS.format(fences, "fence all\n" * 16 + "commit\n"))
        (bar,) = diagram.bars
        labels = [mark.label for mark in bar.marks.values()]
        self.assertEqual(labels, ["3–18 fence ×16", "1–16 fence ×16"])
        self.assertNotIn("…", drawing.draw_figure(diagram, "", "it"))

    def test_barriers_in_a_row_are_one_bar(self) -> None:
        script = "commit\n" * 15 + "# MPI: barrier\nfence all\n" * 16
        recorded = f"# Recorded by wire_up-record on a day\n{TWO_RANKS.format(script, script)}"
        (bar,) = make_diagram(recorded).bars
        self.assertEqual({mark.label for mark in bar.marks.values()}, {"16–31 MPI_Barrier ×16"})

    def test_few_ranks_that_give_to_each_other_are_lanes(self) -> None:
        script = "rank n0\nput global k v\ncommit\nget a:{} k\n"
        ring = "".join(script.format((number + 1) % 4) for number in range(4))
        diagram = make_diagram(f"rehearsal 1\nnode n0\njob a\n{ring}")
        given = sorted((arrow.target.lane, arrow.source.lane) for arrow in diagram.arrows)
        self.assertEqual(given, [(0, 1), (1, 2), (2, 3), (3, 0)])

    def test_many_shapes_are_nodes(self) -> None:
        diagram = make_diagram(report_support.write_shapes())
        self.assertEqual(len(diagram.lanes), LANES - 1)
        self.assertEqual(diagram.notes, ["3 other nodes are not drawn."])

    def test_many_rows_are_cut(self) -> None:
        diagram = make_diagram(TWO_RANKS.format("put global k v\ncommit\n" * 30, ""))
        self.assertEqual(len(diagram.rows), ROWS)
        self.assertEqual(diagram.notes, ["40 rows of calls are not drawn."])

    def test_a_fence_beside_the_nodes_that_are_drawn(self) -> None:
        """Its bar has no lane: it isn't drawn."""
        nodes = "".join(f"node n{number}\n" for number in range(14))
        ranks = [f"rank n{number}\nput global {'k' * (number + 1)} v\n" for number in range(14)]
        ranks[12:] = [f"{rank}fence a:12,a:13\n" for rank in ranks[12:]]
        diagram = make_diagram(f"rehearsal 1\n{nodes}job a\n{''.join(ranks)}")
        self.assertEqual([bar.marks for bar in diagram.bars], [{}])
        self.assertNotIn('class="bar"', drawing.draw_svg(lay_out(diagram), ""))


class DrawingTest(unittest.TestCase):
    """How diagrams are drawn."""

    def test_each_picture_is_xml(self) -> None:
        for name in ("hostile", "circle", "late", "names", "star", "shapes", "cards"):
            order = find_order(read_plan(report_support.WRITTEN[name]()))
            diagram = make_wire_up_diagram(order, {rank.name: None for rank in order.plan.ranks})
            svg = drawing.draw_svg(lay_out(diagram), "a <diagram>")
            self.assertEqual(xml.etree.ElementTree.fromstring(svg).tag, "svg")

    def test_a_long_label_is_cut(self) -> None:
        key = "k" * 60
        plan = TWO_RANKS.format(f"put global {key} v\n", "")
        svg = drawing.draw_figure(make_diagram(plan), "", "it")
        self.assertIn(f"<title>1 put {key}</title>", svg)
        self.assertRegex(svg, ">1 put k{19,50}…<")

    def test_a_label_uses_the_room_in_its_row(self) -> None:
        key = "k" * 30
        plan = TWO_RANKS.format(f"put global {key} v\ncommit\n", f"get a:0 {key}\n")
        svg = drawing.draw_figure(make_diagram(plan), "", "it")
        self.assertIn(f">1 put {key}<", svg)
        self.assertRegex(svg, ">1 get k{19,29}…<")

    def test_what_is_not_drawn_is_counted(self) -> None:
        puts = "".join(f"put global k{number} v\ncommit\n" for number in range(30))
        plan = TWO_RANKS.format(puts, "get a:0 k29\n")
        figure = drawing.draw_figure(make_diagram(plan), "", "it")
        self.assertIn("… 1 call</text>", figure)


if __name__ == "__main__":
    unittest.main()
