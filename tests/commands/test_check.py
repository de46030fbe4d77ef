"""Runs `check` of the built program: findings, and with `--lines` their groups."""
import unittest
from pathlib import Path

from tests.support.running import (
    EARLY_GET,
    EXAMPLE,
    FULL,
    MEMORY,
    NOTHING,
    ODD,
    READ,
    USAGE,
    ProgramCase,
    Run,
    Runs,
    closed,
    fences_plan,
    odd_plan,
    onto,
    text_of,
    with_little_memory,
    written,
)


def checks(room: Path) -> Runs:
    """The runs of `check`, as lines of findings and with `--lines`."""
    yield from checks_of_plans(room)
    yield from refused_checks(room)
    yield from unread_checks(room)
    yield from misused_checks()
    yield from groups_of_plans(room)
    yield from groups_of_calls()
    yield from groups_that_fail(room)


def twice_plan(room: Path) -> str:
    """The path of a plan in which two ranks publish the same names."""
    names = b"".join(b"publish x%d 1\n" % n for n in range(4096))
    head = b"rehearsal 1\nnode n0\njob app\n"
    return written(room, "twice.plan", head + (b"rank n0\n" + names) * 2)


def checks_of_plans(room: Path) -> Runs:
    """Checks of plans."""
    plan = text_of(EXAMPLE)
    races = text_of("tests/examples/early-get.findings")
    twice = twice_plan(room)
    lines = [b"race app:0 %d app:1 %d name x%d\n" % (n + 1, n + 1, n) for n in range(4096)]
    fences = fences_plan(room)
    yield Run("a check of standard input", ["check"], given=plan, wrote=NOTHING)
    yield Run(
        "findings of standard input", ["check"], given=text_of(EARLY_GET), status=1, wrote=races
    )
    yield Run("a check of many fences", ["check", fences], wrote=NOTHING)
    yield Run(
        "a check of names published twice",
        ["check", twice],
        status=1,
        wrote=b"".join([*lines, b"findings 4096\n"]),
    )
    yield Run("help on check", ["check", "--help"], wrote=(b"Usage: wire_up check",))


def refused_checks(room: Path) -> Runs:
    """Checks of what is refused, or of too much."""
    odd = odd_plan(room)
    fences = fences_plan(room)
    yield Run("a check of a file that is refused", ["check", odd], status=2, said=ODD)
    yield Run(
        "too little memory for a check",
        ["check", fences],
        status=3,
        said=MEMORY,
        set_up=with_little_memory,
    )


def unread_checks(room: Path) -> Runs:
    """Checks of what can't be read, and of what can't be written."""
    yield Run(
        "a check, and standard input closed", ["check"], status=4, said=READ, set_up=closed(0)
    )
    yield Run("no such file to check", ["check", f"{room}/none"], status=4, said=READ)
    yield Run(
        "a check, and a full device",
        ["check", EARLY_GET],
        status=4,
        said=FULL,
        set_up=onto("/dev/full", 1),
    )


def misused_checks() -> Runs:
    """Words that `check` doesn't take."""
    yield Run("a check of two files", ["check", EXAMPLE, EXAMPLE], status=5, said=USAGE)
    yield Run("check with an unknown option", ["check", "--loud", EXAMPLE], status=5, said=USAGE)


def groups_of_plans(room: Path) -> Runs:
    """Groups of the findings of plans."""
    words, twice = ["check", "--lines"], twice_plan(room)
    calls = "%s:7: 1 race on key card: app:0 2 commit\n%s:9: note: app:1 1 get-now\n"
    last = "findings 1 in 1 group\n"
    names = [
        b"%s:%d: 1 race on name x%d: app:0 %d publish\n%s:%d: note: app:1 %d publish\n"
        % (twice.encode(), n + 5, n, n + 1, twice.encode(), n + 4102, n + 1)
        for n in range(4096)
    ]
    odd_name = written(room, "odd\x1bn\u00e4me.plan", text_of(EARLY_GET))
    shown = odd_name.replace("\x1b", "?").replace("\u00e4", "??")
    yield Run(
        "a check with lines",
        [*words, EARLY_GET],
        status=1,
        wrote=(calls % (EARLY_GET, EARLY_GET) + last).encode(),
    )
    yield Run(
        "a check with lines of standard input",
        words,
        given=text_of(EARLY_GET),
        status=1,
        wrote=(calls % ("<stdin>", "<stdin>") + last).encode(),
    )
    yield Run(
        "a check with lines of a file with an odd name",
        [*words, odd_name],
        status=1,
        wrote=(calls % (shown, shown) + last).encode(),
    )
    yield Run("a check with lines, and nothing found", [*words, "--large", EXAMPLE], wrote=NOTHING)
    yield Run(
        "a check with lines of names published twice",
        [*words, twice],
        status=1,
        wrote=b"".join([*names, b"findings 4096 in 4096 groups\n"]),
    )


def groups_of_calls() -> Runs:
    """Groups of calls of both kinds."""
    words = ["check", "--lines"]
    again = (
        b"rehearsal 1\nnode n0\n\njob a\nrank n0\n"
        b"put global k 1\nput global k 2\nput global m 1\n"
        b"put global m 2\ncommit\nput global m 3\n"
        b"rank n0\nget-now a:0 n\nput local m 1\n"
        b"put local m 1\n"
    )
    groups = (
        b"<stdin>:8: 3 rewrites of key m: a:0 3 put\n"
        b"<stdin>:9: note: a:0 4 put\n<stdin>:6: 1 rewrite of key k: a:0 1 put\n"
        b"<stdin>:7: note: a:0 2 put\nfindings 4 in 2 groups\n"
    )
    turned = (
        b"rehearsal 1\nnode n0\njob a\nrank n0\n"
        b"get-now a:1 k\nrank n0\nput global k v\n"
        b"commit\nrank n0\nget-now a:1 k\n"
    )
    both = (
        b"<stdin>:5: 2 races on key k: a:0 1 get-now\n"
        b"<stdin>:8: note: a:1 2 commit\nfindings 2 in 1 group\n"
    )
    yield Run("groups of keys that are put again", words, given=again, status=1, wrote=groups)
    yield Run(
        "one group of calls in either order of the ranks", words, given=turned, status=1, wrote=both
    )


def groups_that_fail(room: Path) -> Runs:
    """Groups of what is refused or can't be read."""
    words = ["check", "--lines"]
    yield Run(
        "a check with lines of a file that is refused",
        [*words, odd_plan(room)],
        status=2,
        said=ODD,
    )
    yield Run(
        "too little memory for a check with lines",
        [*words, fences_plan(room)],
        status=3,
        said=MEMORY,
        set_up=with_little_memory,
    )
    yield Run(
        "a check with lines, and standard input closed",
        words,
        status=4,
        said=READ,
        set_up=closed(0),
    )
    yield Run(
        "no such file to check with lines",
        [*words, f"{room}/none"],
        status=4,
        said=READ,
    )
    yield Run(
        "a check with lines, and a full device",
        [*words, EARLY_GET],
        status=4,
        said=FULL,
        set_up=onto("/dev/full", 1),
    )


class Program(ProgramCase):
    """Runs of `check`, as lines."""

    def test_checks(self) -> None:
        self.hold_all(checks(self.room))


if __name__ == "__main__":
    unittest.main()
