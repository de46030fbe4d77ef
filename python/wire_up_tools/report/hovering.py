"""What stays lit in a diagram while one points at a call: all that surely comes before it there.

The rules are CSS, so that a page needs no script.
"""
from collections.abc import Iterable, Sequence

from wire_up_tools.report.diagram import Diagram

# A diagram of more calls and fences has no such rules: they would be longer than the page.
MOST = 120
POINTED = ":is(:hover,:focus-within)"


def has_chains(diagram: Diagram) -> bool:
    """Whether a chain can be shown: each item is a call of a rank, and there are a few."""
    is_of_calls = all(item.first for item in diagram.items)
    return is_of_calls and len(diagram.items) + len(diagram.bars) <= MOST


def find_chains(diagram: Diagram) -> list[set[int]]:
    """What comes before each item and each bar, with itself: by their numbers, of which the items
    have the first."""
    before = find_before(diagram)
    return [follow(number, before) for number in range(len(before))]


def find_before(diagram: Diagram) -> list[set[int]]:
    """What comes right before each: what stands above it in a lane, and what it waits for."""
    number_of = {item: number for number, item in enumerate(diagram.items)}
    found: list[set[int]] = [set() for _ in range(len(diagram.items) + len(diagram.bars))]
    for lane in range(len(diagram.lanes)):
        column = list_lane(diagram, lane)
        for above, below in zip(column, column[1:]):
            found[below].add(above)
    for link in diagram.arrows:
        found[number_of[link.target]].add(number_of[link.source])
    return found


def list_lane(diagram: Diagram, lane: int) -> list[int]:
    """The numbers of what stands in a lane, from the top."""
    rows = [(item.row, number) for number, item in enumerate(diagram.items) if item.lane == lane]
    bars = enumerate(diagram.bars, len(diagram.items))
    rows += [(bar.row, number) for number, bar in bars if lane in bar.marks]
    return [number for _, number in sorted(rows)]


def follow(start: int, before: Sequence[Iterable[int]]) -> set[int]:
    """All from which a way leads to one, with itself."""
    found, waiting = {start}, [start]
    while waiting:
        new = set(before[waiting.pop()]) - found
        found |= new
        waiting += new
    return found


def name_part(number: int) -> str:
    """The class of an item or a bar."""
    return f"c{number}"


def name_arrow(number: int) -> str:
    """The class of an arrow."""
    return f"a{number}"


def write_rules(diagram: Diagram, figure: str) -> str:
    """The rules of a diagram in the figure of this name, as an element; nothing where it has
    none."""
    if not has_chains(diagram):
        return ""
    number_of = {item: number for number, item in enumerate(diagram.items)}
    rules = []
    for number, chain in enumerate(find_chains(diagram)):
        arrows = (
            at
            for at, each_arrow in enumerate(diagram.arrows)
            if number_of[each_arrow.target] in chain
        )
        lit = [f".{name_part(each_number)}" for each_number in sorted(chain)]
        lit += [f".{name_arrow(arrow)}" for arrow in arrows]
        rules.append(f"#{figure}:has(.{name_part(number)}{POINTED}) :is({','.join(lit)})")
    return f"<style>{','.join(rules)}{{opacity:1}}</style>" if rules else ""
