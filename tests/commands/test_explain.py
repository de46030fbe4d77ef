"""Runs the built program with `--explain`."""
import os
import re
import unittest
from collections.abc import Iterator
from pathlib import Path

from tests.support.explained import (
    ASKED,
    EXPLAINED,
    NEVER,
    ORDERED,
    REFUSED_PATTERNS,
    STANDING,
    STOPPED,
)
from tests.support.running import (
    CARDS,
    CARDS_REPORT,
    NOTHING,
    RACY,
    ProgramCase,
    Run,
    Runs,
    closed,
    onto,
    text_of,
    written,
)


# What stands in each report of ranks that wait.
WAITING = (b"waiting",)
# A line of a rank that waits.
LINE = re.compile(rb"^    (\S+) (\d+) (\S+) waits for (.*)$", re.MULTILINE)


def explanations(room: Path) -> Runs:
    """The runs with `--explain`."""
    yield from explained_files(room)
    yield from explained_patterns()
    yield from explained_orders(room)
    yield from explained_words(room)
    yield from explained_stops(room)
    yield from explained_waits()
    yield from nothing_to_explain(room)
    yield from other_explanations(room)


def explained_files(room: Path) -> Runs:
    """Files that are refused."""
    for name, plan, said in EXPLAINED:
        first = b"wire_up: " + said.split(b"\n")[0] + b"\n"
        for words in (
            ["check"],
            ["replay", "--workers", "2"],
            ["migrate"],
            ["witness"],
            ["why", "app:0", "1", "app:0", "1", "/dev/stdin"],
        ):
            yield Run(
                f"{name}, explained by {words[0]}",
                [*words, "--explain"],
                given=plan,
                status=2,
                said=b"wire_up: " + said,
            )
            yield Run(f"{name}, by {words[0]}", words, given=plan, status=2, said=first)
        path = written(room, f"{name}.plan", plan)
        yield Run(
            f"{name}, explained by follow",
            ["follow", "--explain", os.devnull, path],
            status=2,
            said=b"wire_up: " + said,
        )
        yield Run(
            f"{name}, explained, and standard error closed",
            ["check", "--explain", path],
            status=2,
            set_up=closed(2),
        )


def explained_patterns() -> Runs:
    """Patterns that are refused, and parts of `--ranks`."""
    for name, pattern, said in REFUSED_PATTERNS:
        first = b"wire_up: " + said.split(b"\n")[0] + b"\n"
        for words in ["check", "--pattern"], ["check", "--pattern", "--json"], ["expand"]:
            by = " ".join(words)
            told = b"wire_up: " + said
            yield Run(f"{name}, explained by {by}", [*words, "--explain"], pattern, 2, b"", told)
            yield Run(f"{name}, by {by}", words, pattern, 2, b"", first)
    group = b"pattern 1\njob app\nmany w\ncommit\n"
    yield Run(
        "a part of --ranks explained",
        ["expand", "--explain", "--ranks", "w=1,v=2"],
        group,
        status=2,
        said=(
            b"wire_up: fault 13 BadOrder 2\n  part 2 | v=2\n  expected: NAME=N, each group of "
            b"the pattern once, N its least number or more, below 10^9\n"
        ),
    )
    yield Run(
        "too many ranks of an instance explained",
        ["expand", "--explain", "--ranks", "w=513"],
        group,
        status=2,
        said=(
            b"wire_up: fault 8 TooMany 3\n  3 | many w\n  expected: no more jobs, roles, groups, "
            b"roles in a list or turns of 'for some' than a pattern may have, and instances within "
            b"the limits of plans\n"
        ),
    )


def explained_orders(room: Path) -> Runs:
    """Orders and plans that are refused."""
    racy = written(room, "explained.plan", RACY)
    order = written(room, "explained.order", b"# first\napp:0\n  app:7 \n")
    yield Run(
        "an order explained",
        ["follow", "--explain", order, racy],
        status=2,
        said=b"wire_up: fault 13 BadOrder 3\n  3 |   app:7 \n" + ORDERED,
    )
    yield Run(
        "an order not explained",
        ["follow", order, racy],
        status=2,
        said=b"wire_up: fault 13 BadOrder 3\n",
    )
    yield Run(
        "a plan refused before its order is",
        ["follow", "--explain", order],
        given=b"rehersal 1\n",
        status=2,
        said=(
            b"wire_up: fault 3 BadHeader 1\n  1 | rehersal 1\n"
            b"  expected: 'rehearsal 1' or 'rehearsal 2', before all other lines\n"
            b"  nearest word: rehearsal\n"
        ),
    )


def explained_words(room: Path) -> Runs:
    """Words of a question that are wrong."""
    racy = written(room, "explained.plan", RACY)
    for n, (word, told) in enumerate(ASKED, 1):
        asked = ["app:0", "1", "app:1", "1"]
        asked[n - 1] = word
        for words in (["why"], ["witness"], ["witness", "--first"]):
            said = b"wire_up: fault 13 BadOrder %d\n" % n
            yield Run(
                f"the wrong word {n}, explained by {' '.join(words)}",
                [*words, "--explain", *asked, racy],
                status=2,
                said=said + told,
            )
            yield Run(
                f"the wrong word {n}, by {' '.join(words)}",
                [*words, *asked, racy],
                status=2,
                said=said,
            )


def explained_stops(room: Path) -> Runs:
    """Orders of which a step can't be taken."""
    order = written(room, "explained.order", b"# first\napp:0\n  app:7 \n")
    for name, plan, steps, said in STOPPED:
        order, first = (
            written(room, f"{name}.order", steps),
            b"wire_up: " + said.split(b"\n")[0] + b"\n",
        )
        yield Run(
            f"{name}, which stops an order, explained",
            ["follow", "--explain", order],
            given=plan,
            status=2,
            said=b"wire_up: " + said,
        )
        yield Run(
            f"{name}, which stops an order, explained, large, as JSON",
            ["follow", "--explain", "--large", "--json", order],
            given=plan,
            status=2,
            said=b"wire_up: " + said,
        )
        yield Run(
            f"{name}, which stops an order", ["follow", order], given=plan, status=2, said=first
        )


def explained_waits() -> Runs:
    """Plans of which ranks wait for ever."""
    for name, plan, lines in STANDING:
        said = b"wire_up: ranks wait for ever\n" + lines
        for options in ("", " --anyway", " --large --workers 4"):
            words = f"replay --explain{options}"
            yield Run(f"{name}, by {words}", words.split(), plan, wrote=WAITING, said=said)
        for options in ("", " --anyway", " --large --workers 4"):
            words = f"replay --json --explain{options}"
            wrote = (members_of(lines),)
            yield Run(f"{name}, by {words}", words.split(), plan, wrote=wrote, said=said)
        yield Run(f"{name}, not explained", ["replay"], plan, wrote=WAITING)
        yield Run(f"{name}, only checked", ["check", "--explain"], plan, wrote=NOTHING)


def members_of(lines: bytes) -> bytes:
    """How JSON begins where these lines are said, up to those that are only counted there."""
    deadlock, _, never = lines.partition(NEVER)
    first = b'{"deadlock":[' + b",".join(objects_of(deadlock)) + b'],"never":['
    rest = b"" if b" more\n" in never else b'],"ranks":['
    return first + b",".join(objects_of(never)) + rest


def objects_of(lines: bytes) -> Iterator[bytes]:
    """The objects of the ranks that these lines name."""
    for rank, call, verb, what in LINE.findall(lines):
        members = (b'"call":' + call, b'"proc":"%s"' % rank, b'"verb":"%s"' % verb)
        yield b"{%s}" % b",".join([*members, b'"waits_for":"%s"' % what])


def nothing_to_explain(room: Path) -> Runs:
    """Runs that go well."""
    racy = written(room, "explained.plan", RACY)
    cards = written(room, "explained-cards.plan", CARDS)
    yield Run("nothing to explain", ["check", "--explain", cards], wrote=NOTHING)
    yield Run("a report and nothing to explain", ["replay", "--explain", cards], wrote=CARDS_REPORT)
    yield Run(
        "JSON and nothing to explain",
        ["replay", "--json", "--explain", cards],
        wrote=(b'{"deadlock":[],"never":[],"ranks":[',),
    )
    yield Run(
        "a race and nothing to explain",
        ["check", "--explain", racy],
        status=1,
        wrote=(b"findings 1\n",),
    )
    yield Run(
        "a race, ranks that wait, and nothing to explain",
        ["replay", "--anyway", "--explain"],
        given=RACY + b"get app:1 k\n",
        status=1,
        wrote=(b"unsettled\n", b"waiting 1\n"),
    )
    for name, status in ("same-node", 1), ("direct-modex", 0):
        said = text_of(f"tests/examples/patterns/{name}.verdict")
        words = ["check", "--pattern", "--explain", f"examples/patterns/{name}.pattern"]
        yield Run(f"a pattern and nothing to explain: {name}", words, status=status, wrote=said)


def unread(about: str, path: str, name: str, reason: str) -> Run:
    """A file that can't be opened or read, with what the system says of it."""
    said = f"  {name}: {reason}\n  expected: a file that can be opened and read\n"
    return Run(
        f"{about}, explained",
        ["check", "--explain", path],
        status=4,
        said=f"wire_up: fault 10 Read\n{said}".encode(),
    )


def other_explanations(room: Path) -> Runs:
    """Other faults."""
    cards = written(room, "explained-cards.plan", CARDS)
    none, folder = f"{room}/none", room / "a\tfolder"
    folder.mkdir()
    yield unread("no such file", none, none, "No such file or directory (os error 2)")
    yield unread("a folder", str(folder), f"{room}/a?folder", "Is a directory (os error 21)")
    yield Run(
        "no worker, explained",
        ["replay", "--explain", "--workers", "0", cards],
        status=2,
        said=b"wire_up: fault 9 Workers\n  expected: 1 to 64 workers\n",
    )
    yield Run(
        "a full device, explained",
        ["check", "--explain", cards],
        status=4,
        said=b"wire_up: fault 11 Write 0\n  expected: an output that can be written\n",
        set_up=onto("/dev/full", 1),
    )
    yield Run(
        "explained twice",
        ["check", "--explain", "--explain", cards],
        status=5,
        said=(b"Usage: wire_up",),
    )


class Explain(ProgramCase):
    """Runs with `--explain`."""

    def test_explanations(self) -> None:
        self.hold_all(explanations(self.room))


if __name__ == "__main__":
    unittest.main()
