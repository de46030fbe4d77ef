"""Runs `follow` of the built program: orders to the end, and what is refused."""
import os
import unittest
from pathlib import Path

from tests.support.running import (
    EXAMPLE,
    FULL,
    ITS_REPORT,
    MEMORY,
    ODD,
    READ,
    USAGE,
    ProgramCase,
    Run,
    Runs,
    closed,
    odd_plan,
    onto,
    text_of,
    with_little_memory,
    written,
)


def follows(room: Path) -> Runs:
    """The runs of `follow`."""
    yield from followed_orders(room)
    yield from refused_orders(room)
    yield from unread_follows(room)
    yield from closed_follows(room)
    yield from odd_streams_of_follows(room)
    yield from misused_follows(room)


def whole_order(room: Path) -> str:
    """The path of an order that takes the example to its end."""
    return written(room, "whole.order", b"# rank 0 first\napp:0\napp:0\n\napp:1\n")


def followed_orders(room: Path) -> Runs:
    """Orders that can be followed."""
    plan = text_of(EXAMPLE)
    report = text_of(ITS_REPORT)
    order = whole_order(room)
    part = written(room, "part.order", b"app:0\n")
    large = written(room, "large.order", b"#" * (8 << 20))
    first = b"app:0 1 put ready\napp:0 2 commit unreached\napp:1 1 get waiting\nwaiting 1\n"
    ready = b"app:0 1 put PMIX_SUCCESS\napp:0 2 commit ready\napp:1 1 get waiting\nwaiting 1\n"
    yield Run("an order to the end", ["follow", order, EXAMPLE], wrote=report)
    yield Run("an order of part of the way", ["follow", part, EXAMPLE], wrote=ready)
    yield Run("an order, the file on standard input", ["follow", order], given=plan, wrote=report)
    yield Run("the largest order", ["follow", large, EXAMPLE], wrote=first)
    yield Run("help on follow", ["follow", "--help"], wrote=USAGE)


def refused_orders(room: Path) -> Runs:
    """Orders that are refused."""
    odd = odd_plan(room)
    early = written(room, "early.order", b"# too early\n\napp:1\n")
    unknown = written(room, "unknown.order", b"app:1\napp:9\n")
    large = written(room, "large.order", b"#" * (8 << 20))
    late = b"wire_up: fault 12 NotReady 1\n"
    second = b"wire_up: fault 13 BadOrder 2\n"
    yield Run("a step that isn't ready", ["follow", early, EXAMPLE], status=2, said=late)
    yield Run("an order with an unknown rank", ["follow", unknown, EXAMPLE], status=2, said=second)
    yield Run(
        "an order that never ends",
        ["follow", "/dev/zero", EXAMPLE],
        status=2,
        said=b"wire_up: fault 13 BadOrder 1\n",
    )
    yield Run(
        "a file that is refused, with an odd order", ["follow", unknown, odd], status=2, said=ODD
    )
    yield Run(
        "too little memory for an order",
        ["follow", large, EXAMPLE],
        status=3,
        said=MEMORY,
        set_up=with_little_memory,
    )


def unread_follows(room: Path) -> Runs:
    """Orders and files that can't be read."""
    odd = odd_plan(room)
    unknown = written(room, "unknown.order", b"app:1\napp:9\n")
    none, folder = f"{room}/none", str(room)
    yield Run("no such order", ["follow", none, EXAMPLE], status=4, said=READ)
    yield Run(
        "no such order, with a file that is refused", ["follow", none, odd], status=4, said=READ
    )
    yield Run(
        "a folder as order, with a file that is refused",
        ["follow", folder, odd],
        status=2,
        said=ODD,
    )
    yield Run("no such file to follow an order on", ["follow", unknown, none], status=4, said=READ)
    yield Run("a folder as order", ["follow", folder, EXAMPLE], status=4, said=READ)


def closed_follows(room: Path) -> Runs:
    """Standard input that is closed."""
    report = text_of(ITS_REPORT)
    order = whole_order(room)
    yield Run(
        "an order, and standard input closed",
        ["follow", order],
        status=4,
        said=READ,
        set_up=closed(0),
    )
    yield Run(
        "scripts as an order, and standard input closed",
        ["follow", EXAMPLE],
        status=4,
        said=READ,
        set_up=closed(0),
    )
    yield Run(
        "an order and its file, and standard input closed",
        ["follow", order, EXAMPLE],
        wrote=report,
        set_up=closed(0),
    )


def odd_streams_of_follows(room: Path) -> Runs:
    """Standard streams of another kind."""
    order = whole_order(room)
    yield Run(
        "an order, and standard input for writing",
        ["follow", order],
        status=4,
        said=READ,
        set_up=onto("/dev/null", 0, os.O_WRONLY),
    )
    yield Run(
        "an order, and a full device",
        ["follow", order, EXAMPLE],
        status=4,
        said=FULL,
        set_up=onto("/dev/full", 1),
    )


def misused_follows(room: Path) -> Runs:
    """Words that `follow` doesn't take."""
    plan = text_of(EXAMPLE)
    order = whole_order(room)
    yield Run("follow without an order", ["follow"], given=plan, status=5, said=USAGE)
    yield Run("follow with two files", ["follow", order, EXAMPLE, EXAMPLE], status=5, said=USAGE)
    yield Run(
        "follow with an unknown option", ["follow", "--loud", order, EXAMPLE], status=5, said=USAGE
    )


class Program(ProgramCase):
    """Runs of `follow`, as lines."""

    def test_follows(self) -> None:
        self.hold_all(follows(self.room))


if __name__ == "__main__":
    unittest.main()
