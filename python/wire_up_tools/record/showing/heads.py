"""The lines that the head of a plan has of what was tried."""
import re
from collections.abc import Iterator, Sequence

from wire_up_tools.words import (
    EACH_RUN_SENTENCE,
    TRIED_BY,
    TRIED_IN_HEAD,
    TRIED_STOPPED,
    TURNED_IN_VAIN,
    TURNED_ROUND,
)

# How each of these lines begins, and those of orders among them.
OF_ORDERS = (TURNED_ROUND, TURNED_IN_VAIN)
STARTS = (*TRIED_IN_HEAD.values(), TRIED_BY, TRIED_STOPPED, *OF_ORDERS)
# The two calls that a line is about.
CALLS = re.compile(r": (?:race|no race|calls) (\S+ \d+) (\S+ \d+)\b")


def has_start(line: str, starts: Sequence[str]) -> bool:
    """Whether a line of a head begins in one of some ways."""
    return line.startswith(tuple(f"# {start}" for start in starts))


def is_alarm(line: str) -> bool:
    """Whether a line says that the program doesn't impose an order of the plan, by which calls are
    answered otherwise."""
    return re.match(rf"# {TURNED_ROUND} [\d-]+: ", line) is not None


def find_pair(line: str) -> frozenset[str] | None:
    """The two calls that a line is about, if it is about a race."""
    found = CALLS.search(line)
    return frozenset(found.groups()) if found else None


def list_kept(old: Sequence[str], new: Sequence[str]) -> Iterator[str]:
    """The lines about races and orders that were tried before, but for those that are tried anew.
    Behind them stands the command that tried them."""
    pairs = {find_pair(text) for text in new}
    has_orders = any(has_start(text, OF_ORDERS) for text in new)
    kept: list[str] = []
    for line in old:
        if has_start(line, [TRIED_BY]):
            yield from [*kept, line] if kept else []
            kept = []
        elif has_start(line, OF_ORDERS):
            kept += [] if has_orders else [line]
        elif not has_start(line, [TRIED_STOPPED]) and find_pair(line) not in pairs - {None}:
            kept.append(line)


def insert_in_head(text: str, lines: Sequence[str]) -> str:
    """A plan whose head ends with some lines about what was tried. Those about other races and
    orders stay. Unprintable characters become `?`. Where an order isn't imposed, the head no longer
    says that each run makes the calls of the plan."""
    whole = text.splitlines(keepends=True)
    end = next((n for n, part in enumerate(whole) if not part.startswith("#")), len(whole))
    head = [part for part in whole[:end] if not has_start(part, STARTS)]
    if any(map(is_alarm, lines)):
        head = [each_text for each_text in head if each_text != f"# {EACH_RUN_SENTENCE}\n"]
    kept = list_kept([part for part in whole[:end] if has_start(part, STARTS)], lines)
    printable = ("".join(c if " " <= c <= "~" else "?" for c in line) for line in lines)
    return "".join([*head, *kept, *(f"{each_text}\n" for each_text in printable), *whole[end:]])
