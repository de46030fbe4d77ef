"""Runs the built program on hostile files, and on places from which there is nothing to read or to
which nothing can be written."""
import os
import unittest
from pathlib import Path

from tests import support
from tests.models.grammar import NUMBERS
from tests.soak.hostile_plans import PLAN, Hostile, forms, refused, table
from tests.support.forms import as_json
from tests.support.running import (
    EXAMPLE,
    FULL,
    NOTHING,
    RACY,
    READ,
    USAGE,
    ProgramCase,
    Run,
    Runs,
    closed,
    onto,
    written,
)


STARTED = b"app:0 1 put ready\napp:0 2 commit unreached\napp:1 1 get waiting\nwaiting 1\n"
EXAMPLE_AT = str(support.TOP / EXAMPLE)
# The greatest order.
ORDER_LINES = b"\n" * (8 << 20)


def files(room: Path) -> Runs:
    """The runs on the hostile files, of each command."""
    for hostile in table():
        path = written(room, "hostile.plan", hostile.text)
        yield from read_files(hostile, path) if hostile.is_read else refused_files(
            room, hostile, path
        )


def read_files(hostile: Hostile, path: str) -> Runs:
    """The runs on a hostile file that is read."""
    count = hostile.text.split(b"\n").count(b"rank n0")
    idle = b",".join(b'{"calls":[],"proc":"app:%d"}' % n for n in range(count))
    form = b'{"ranks":[%s],"waiting":0}\n' % idle
    if hostile.answer != b"waiting 0\n":
        form = as_json(hostile.answer)
    yield Run(f"check {hostile.name}", ["check", path], wrote=NOTHING)
    yield Run(f"replay {hostile.name}", ["replay", path], wrote=hostile.answer)
    yield Run(f"replay {hostile.name} as JSON", ["replay", "--json", path], wrote=form)
    name = f"replay {hostile.name} from standard input"
    yield Run(name, ["replay"], given=hostile.text, wrote=hostile.answer)


def refused_files(room: Path, hostile: Hostile, path: str) -> Runs:
    """The runs on a hostile file that is refused."""
    nothing = written(room, "nothing.order", b"")
    commands: dict[str, list[str]] = {
        f"check {hostile.name}": ["check", path],
        f"replay {hostile.name}": ["replay", path],
        f"replay {hostile.name} as JSON": ["replay", "--json", path],
        f"replay {hostile.name} anyway": ["replay", "--anyway", "--workers", "7", path],
        f"follow {hostile.name}": ["follow", nothing, path],
        f"why, {hostile.name}": ["why", "x", "y", "z", "0", path],
    }
    for name, words in commands.items():
        yield Run(name, words, status=2, said=hostile.answer)
    name = f"replay {hostile.name} from standard input"
    yield Run(name, ["replay"], given=hostile.text, status=2, said=hostile.answer)


def orders(room: Path) -> Runs:
    """The runs on hostile orders."""

    def bad_order(name: str, text: bytes, line: int) -> Run:
        path = written(room, f"{line}-{len(text)}.order", text)
        said = b"wire_up: fault %d BadOrder %d\n" % (NUMBERS["BadOrder"], line)
        return Run(name, ["follow", path, EXAMPLE_AT], status=2, said=said)

    whole = written(room, "whole.order", ORDER_LINES)
    yield Run("an order of 8,388,608 lines", ["follow", whole, EXAMPLE_AT], wrote=STARTED)
    yield bad_order("an order of 8,388,609 lines", ORDER_LINES + b"\n", 8_388_609)
    yield bad_order("an order with a foreign byte", b"app:0\napp\xc8:0\n", 2)
    yield bad_order("an order with two words", b"app:0 app:0\n", 1)
    yield bad_order("an order with a NUL", b"app:0\0\n", 1)


def places(room: Path) -> Runs:
    """Each command, and places from which there is nothing to read, or to which nothing can be
    written."""
    none, loop = f"{room}/none", f"{room}/loop"
    os.symlink(loop, loop)
    odd = written(room, "odd name\n\x1b[31m.plan", PLAN)
    unreadable = {
        "a folder": str(room),
        "no file": none,
        "a name of 5,000 bytes": "x" * 5000,
        "an empty name": "",
        "a link to itself": loop,
    }
    empty = refused("BadHeader", 1)
    for form in forms(room):
        name, words = form.name, form.words
        for what, path in unreadable.items():
            yield Run(f"{name} on {what}", [*words, path], status=4, said=READ)
        for what, path in (("an empty device", "/dev/null"), ("no size", "/proc/self/stat")):
            yield Run(f"{name} on a file, {what}", [*words, path], status=2, said=empty)
        odd_name = f"{name} on a file with an odd name"
        yield Run(odd_name, [*words, odd], wrote=form.wrote, status=form.status)
        yield Run(f"{name}, and nothing on standard input", words, status=2, said=empty)
        well = f"{name}, and standard error closed"
        shown = [*words, EXAMPLE_AT]
        yield Run(well, shown, wrote=form.wrote, status=form.status, set_up=closed(2))
        yield from streams(name, words, none)


def streams(name: str, words: list[str], none: str) -> Runs:
    """A command whose standard streams are odd."""
    plan = [*words, EXAMPLE_AT]
    inputs = {
        "standard input closed": closed(0),
        "a folder as standard input": onto("/", 0, os.O_RDONLY),
        "standard input for writing": onto("/dev/null", 0),
    }
    for what, set_up in inputs.items():
        yield Run(f"{name}, and {what}", words, status=4, said=READ, set_up=set_up)
    outputs = {
        "standard output closed": closed(1),
        "standard output for reading": onto("/dev/null", 1, os.O_RDONLY),
        "a full device": onto("/dev/full", 1),
    }
    for what, set_up in outputs.items():
        yield Run(f"{name}, and {what}", plan, status=4, said=FULL, set_up=set_up)
    errors = {"closed": closed(2), "full": onto("/dev/full", 2)}
    for what, set_up in errors.items():
        on_none = f"{name} on no file, and standard error {what}"
        yield Run(on_none, [*words, none], status=4, set_up=set_up)


def words_alone(room: Path) -> Runs:
    """Odd words, and streams that no command can use."""
    racy, digits = written(room, "racy.plan", RACY), "9" * 5_000
    for words in (
        ["replay", "--anyway"],
        ["replay", "--anyway", "--json", "--workers", "2"],
        ["check"],
    ):
        name = f"{' '.join(words)} on a full device"
        yield Run(name, [*words, racy], status=4, said=FULL, set_up=onto("/dev/full", 1))
    all_closed = Run("all streams closed", ["check", EXAMPLE_AT], status=4)
    yield all_closed._replace(set_up=lambda: os.closerange(0, 3))
    yield Run("a word of 100,000 bytes", ["x" * 100_000], status=5, said=USAGE)
    yield Run("10,000 words", ["check", *["x"] * 10_000], status=5, said=USAGE)
    yield Run("a file after two dashes", ["check", "--", EXAMPLE_AT], wrote=NOTHING)
    many = ["replay", "--workers", digits, EXAMPLE_AT]
    fault = b"wire_up: fault 9 Workers\n"
    yield Run("workers with very many digits", many, status=2, said=fault)


class HostileFiles(ProgramCase):
    """Hostile files and places."""

    def test_files(self) -> None:
        self.hold_all(files(self.room))

    def test_orders(self) -> None:
        self.hold_all(orders(self.room))

    def test_places(self) -> None:
        self.hold_all(places(self.room))

    def test_words(self) -> None:
        self.hold_all(words_alone(self.room))


if __name__ == "__main__":
    unittest.main()
