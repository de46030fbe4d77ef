"""What is held in a run: which calls wait, and for what."""
import enum
import os
from collections.abc import Mapping, Sequence
from dataclasses import dataclass, field
from pathlib import Path

from wire_up_tools.record.showing.naming import Target

FILE = "hold"


class Until(enum.Enum):
    """How far another call must be: it has come, and had time to be sent; or it is over."""

    HAS_COME = enum.auto()
    IS_OVER = enum.auto()


@dataclass(frozen=True)
class Wait:
    """What a call waits for: another one, by its index, from 1."""

    other: int
    until: Until = Until.IS_OVER


@dataclass(frozen=True)
class Holds:
    """Calls that are named, and what each waits for, by their indices from 1. Where a call is in
    `any_of`, one of the calls that it waits for is enough."""

    targets: Sequence[Target]
    waits: Mapping[int, Sequence[Wait]] = field(default_factory=dict)
    any_of: frozenset[int] = frozenset()


@dataclass(eq=False)
class Course:
    """How it went with a named call: when it came, went on, was over, and when it went on though
    what it waited for wasn't there, all in seconds since 1970; and whether it couldn't be held."""

    came: float | None = None
    gone: float | None = None
    over: float | None = None
    late: float | None = None
    is_passed: bool = False


def mark_compared(folder: Path) -> None:
    """Lets recorders know that a run in which nothing is held is compared with others. Raises
    OSError."""
    (folder / FILE).write_bytes(b"")


def write_holds(holds: Holds, folder: Path, address: str, word: str) -> None:
    """Writes the file by which recorders know the server and the named calls. Raises OSError."""
    lines = [f"server {address} {word}"]
    lines += [
        f"call {target.job} {target.rank} {target.ordinal} {target.name}"
        for target in holds.targets
    ]
    opened = os.open(folder / FILE, os.O_WRONLY | os.O_CREAT | os.O_EXCL, 0o600)
    with open(opened, "w", encoding="ascii") as to:
        to.writelines(f"{line}\n" for line in lines)
