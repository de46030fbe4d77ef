"""Plans, and what must come of each: the tables of test_tables.py.

The bytes that are expected were worked out by hand from the words of the documents, and not taken
from the program.
"""
from typing import NamedTuple


class Reported(NamedTuple):
    """A plan, the report of its plain run, and its findings."""

    name: str
    plan: bytes
    report: bytes
    findings: bytes


class Checked(NamedTuple):
    """A plan, and its findings."""

    name: str
    plan: bytes
    findings: bytes


class Fault(NamedTuple):
    """Why a command refuses what it is given: the word and the number of its line of fault."""

    words: str


class Refused(NamedTuple):
    """A plan that is refused, and its fault."""

    name: str
    plan: bytes
    fault: str


class Followed(NamedTuple):
    """A plan, an order of steps, and the report of where it leads, or its fault."""

    name: str
    plan: bytes
    order: bytes
    answer: bytes | Fault


class Asked(NamedTuple):
    """A plan, the words of a question, and the answer, or its fault."""

    name: str
    plan: bytes
    words: str
    answer: bytes | Fault


class Canonical(NamedTuple):
    """A plan that is read, and its canonical text."""

    name: str
    plan: bytes
    text: bytes


class Large(NamedTuple):
    """A plan of a head, a piece so many times, and a tail; and how its report ends, or its fault. A
    piece may have its number in it, from 0."""

    name: str
    head: bytes
    piece: bytes
    times: int
    tail: bytes
    answer: bytes | Fault


class Shown(NamedTuple):
    """A plan, the words for two of its calls, and what `witness` writes of them."""

    name: str
    plan: bytes
    words: str
    text: bytes


class Formed(NamedTuple):
    """A plan, the report of its plain run, and its findings, as JSON. Where there are findings,
    also the order of the plain run; and if no other run is possible, what `--anyway` writes."""

    name: str
    plan: bytes
    report: bytes
    findings: bytes
    order: bytes = b""
    unsettled: bytes = b""


class Placed(NamedTuple):
    """A plan, the word that lists the ranks to be put on a node of their own, and the plan
    with these there, or its fault."""

    name: str
    plan: bytes
    ranks: str
    answer: bytes | Fault


class Anywhere(NamedTuple):
    """A plan, and what `check --anywhere --same` writes of it."""

    name: str
    plan: bytes
    verdict: bytes


Row = (
    Reported
    | Checked
    | Refused
    | Followed
    | Asked
    | Canonical
    | Large
    | Shown
    | Formed
    | Placed
    | Anywhere
)

# The findings of a plan in which there is nothing to find.
NOTHING = b"findings 0\n"
