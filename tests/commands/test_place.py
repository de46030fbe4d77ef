"""Runs `place` of the built program."""
import unittest
from pathlib import Path

from tests.support.running import (
    EXAMPLE,
    FULL,
    ODD,
    ProgramCase,
    Run,
    Runs,
    odd_plan,
    onto,
    text_of,
)


def placements(room: Path) -> Runs:
    """The runs of `place`."""
    plan, usage = text_of(EXAMPLE), (b"Usage: wire_up place",)
    odd = odd_plan(room)
    placed = (
        b"rehearsal 1\nnode n0\nnode n1\njob app\n"
        b"rank n1\nput global k v\ncommit\nrank n0\n"
        b"get app:0 k\n"
    )
    unknown = b"wire_up: fault 13 BadOrder 2\n"
    why = b"  rank 2 | app:2\n  expected: a rank of the plan, such as app:0\n"
    yield Run("a placement", ["place", "app:0"], given=plan, wrote=placed)
    yield Run("a placement of a file", ["place", "app:0", EXAMPLE], wrote=placed)
    yield Run("a placement with large limits", ["place", "--large", "app:0", EXAMPLE], wrote=placed)
    yield Run("a rank that isn't there", ["place", "app:1,app:2", EXAMPLE], status=2, said=unknown)
    yield Run(
        "a rank that isn't there, explained",
        ["place", "--explain", "app:1,app:2", EXAMPLE],
        status=2,
        said=unknown + why,
    )
    yield Run("a placement of a file that is refused", ["place", "app:2", odd], status=2, said=ODD)
    yield Run(
        "a placement, and a full device",
        ["place", "app:0", EXAMPLE],
        status=4,
        said=FULL,
        set_up=onto("/dev/full", 1),
    )
    yield Run("a placement of no rank", ["place"], status=5, said=usage)
    yield Run("a placement, a word too many", ["place", "app:0", odd, odd], status=5, said=usage)
    yield Run("help on place", ["place", "--help"], wrote=usage)


class Program(ProgramCase):
    """Runs of `place`, as lines."""

    def test_placements(self) -> None:
        self.hold_all(placements(self.room))


if __name__ == "__main__":
    unittest.main()
