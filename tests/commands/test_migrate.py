"""Runs `migrate` of the built program."""
import unittest
from pathlib import Path

from tests.support.running import (
    EXAMPLE,
    FULL,
    ODD,
    USAGE,
    ProgramCase,
    Run,
    Runs,
    odd_plan,
    onto,
    text_of,
)


def migrations(room: Path) -> Runs:
    """The runs of `migrate`: plans, and what is refused."""
    plan = text_of(EXAMPLE)
    odd = odd_plan(room)
    moved = (
        b"rehearsal 2\nnode n0\nnode n1\njob app\n"
        b"rank n0\nput global k v\ncommit\nrank n1\n"
        b"get app:0 k\n"
    )
    fences = (
        b"rehearsal 1\nnode n0\nnode n1\njob app\n"
        b"rank n0\nfence app:0,app:1\nfence all\n"
        b"rank n1\nfence app:1,app:0,app:1\n"
    )
    sets = (
        b"rehearsal 2\nnode n0\nnode n1\njob app\n"
        b"rank n0\nfence all\nfence all\nrank n1\n"
        b"fence all\n"
    )
    yield Run("a migration", ["migrate"], given=plan, wrote=moved)
    yield Run("a migration of version 2", ["migrate"], given=b"# moved\n\n" + moved, wrote=moved)
    yield Run("a migration of sets", ["migrate"], given=fences, wrote=sets)
    yield Run("help on migrate", ["migrate", "--help"], wrote=(b"Usage: wire_up migrate",))
    yield Run("a migration of a file that is refused", ["migrate", odd], status=2, said=ODD)
    yield Run(
        "a migration, and a full device",
        ["migrate", EXAMPLE],
        status=4,
        said=FULL,
        set_up=onto("/dev/full", 1),
    )
    yield Run("a migration with a word too many", ["migrate", odd, odd], status=5, said=USAGE)


class Program(ProgramCase):
    """Runs of `migrate`, as lines."""

    def test_migrations(self) -> None:
        self.hold_all(migrations(self.room))


if __name__ == "__main__":
    unittest.main()
