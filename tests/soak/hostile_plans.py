"""Hostile plans, and a small one in all forms in which commands read it."""
from collections.abc import Iterator
from pathlib import Path
from typing import NamedTuple

from tests.models import grammar
from tests.support.forms import as_json
from tests.support.running import EXAMPLE, ITS_REPORT, NOTHING, text_of, written


HEAD = b"rehearsal 1\nnode n0\njob app\n"
HEAD_2 = HEAD.replace(b"1", b"2", 1)
# A rank puts and commits, and another one waits for it.
PLAN, REPORT = text_of(EXAMPLE), text_of(ITS_REPORT)
COMMITS = 16_384
NAMES_SWEPT = 8_190


class Form(NamedTuple):
    """A command: its words, without the file; what it writes of PLAN, and the status."""

    name: str
    words: list[str]
    wrote: bytes
    status: int = 0


class Hostile(NamedTuple):
    """A hostile file: what it is called, its text, and its report or what is said of it."""

    name: str
    text: bytes
    answer: bytes

    @property
    def is_read(self) -> bool:
        return not self.answer.startswith(b"wire_up: ")


def forms(room: Path) -> list[Form]:
    """Each command that reads a file, in each of its forms."""
    order = written(room, "plan.order", b"app:0\napp:0\napp:1\n")
    chain = b"before\napp:0 1 put\napp:0 2 commit\napp:1 1 get\n"
    moved = PLAN.replace(b"rehearsal 1", b"rehearsal 2", 1)
    return [
        Form("check", ["check"], NOTHING),
        Form("replay", ["replay"], REPORT),
        Form("replay as JSON", ["replay", "--json"], as_json(REPORT)),
        Form("replay by two workers", ["replay", "--workers", "2"], REPORT),
        Form("follow", ["follow", order], REPORT),
        Form("why", ["why", "app:0", "1", "app:1", "1"], chain),
        Form("migrate", ["migrate"], moved),
    ]


def refused(name: str, line: int) -> bytes:
    """What is said of a file that is refused."""
    return grammar.Refused(name, line).said()


def sweeps(names: int) -> tuple[bytes, bytes]:
    """A plan without findings in which two ranks publish the same names, one after the other, and
    take all away as often, and its report."""
    calls = b"".join(b"publish x%d 1\n" % n for n in range(names)) + b"unpublish *\n" * names
    words = [b"publish"] * names + [b"unpublish"] * names
    said = []
    for rank, made in enumerate((words + [b"fence"], [b"fence"] + words)):
        said += [b"app:%d %d %s PMIX_SUCCESS\n" % (rank, n, text) for n, text in enumerate(made, 1)]
    plan = HEAD_2 + b"rank n0\n" + calls + b"fence all\nrank n0\nfence all\n" + calls
    return plan, b"".join(said) + b"waiting 0\n"


def table() -> Iterator[Hostile]:
    """All hostile files."""
    yield from large_files()
    yield from files_with_many()
    yield from odd_files()


def large_files() -> Iterator[Hostile]:
    """Files of the greatest size, and of one byte more."""
    yield Hostile("4,194,304 bytes", b"rehearsal 1\n#" + b"x" * 4_194_291, b"waiting 0\n")
    longer = b"rehearsal 1\n#" + b"x" * 4_194_292
    yield Hostile("4,194,305 bytes", longer, refused("TooLong", 2))
    empty = b"\n" * 4_194_304
    yield Hostile("4,194,304 empty lines", empty, refused("BadHeader", 4_194_305))
    yield Hostile("4,194,305 empty lines", empty + b"\n", refused("TooLong", 4_194_305))


def files_with_many() -> Iterator[Hostile]:
    """Files with as many of a kind of line as there may be, and with one more."""
    nodes = b"".join(b"node n%d\n" % n for n in range(65))
    jobs = b"".join(b"job j%d\n" % n for n in range(17))
    rank, commits = b"rank n0\n", b"commit\n" * COMMITS
    said = b"".join(b"app:0 %d commit PMIX_SUCCESS\n" % n for n in range(1, COMMITS + 1))
    yield Hostile("65 nodes", b"rehearsal 1\n" + nodes, refused("TooMany", 66))
    yield Hostile("17 jobs", b"rehearsal 1\n" + jobs, refused("TooMany", 18))
    yield Hostile("257 ranks", HEAD + rank * 257, refused("TooMany", 260))
    yield Hostile("16,384 calls", HEAD + rank + commits, said + b"waiting 0\n")
    more = HEAD + rank + commits + b"commit\n"
    yield Hostile("16,385 calls", more, refused("TooMany", 16_389))
    yield Hostile("version 3", HEAD.replace(b"1", b"3", 1), refused("BadHeader", 1))
    yield Hostile("512 ranks of version 2", HEAD_2 + rank * 512, b"waiting 0\n")
    yield Hostile("513 ranks of version 2", HEAD_2 + rank * 513, refused("TooMany", 516))
    more = HEAD_2 + rank + b"commit\n" * 32_769
    yield Hostile("32,769 calls of version 2", more, refused("TooMany", 32_773))
    name = "8,190 sweeps of each of two ranks with 8,190 shared names"
    yield Hostile(name, *sweeps(NAMES_SWEPT))


def odd_files() -> Iterator[Hostile]:
    """Files that are cut, or have foreign bytes or odd words."""
    at = {word: PLAN.index(word) + len(word) for word in (b"rehearsal", b"commi", b"get app:0")}
    second_rank = PLAN.index(b"rank n", PLAN.index(b"commit")) + len(b"rank n")
    value = PLAN.index(b" v\n") + 1
    yield Hostile("a cut in the header", PLAN[: at[b"rehearsal"]], refused("BadHeader", 1))
    yield Hostile("a cut in a commit", PLAN[: at[b"commi"]], refused("BadLine", 7))
    yield Hostile("a cut in a node", PLAN[:second_rank], refused("UnknownName", 8))
    yield Hostile("a cut in a get", PLAN[: at[b"get app:0"]], refused("BadLine", 9))
    yield Hostile("a foreign byte in a comment", PLAN + b"# \xc8\n", REPORT)
    foreign = PLAN[:value] + b"\xc8" + PLAN[value + 1:]
    yield Hostile("a foreign byte in a value", foreign, refused("BadLine", 6))
    returns = PLAN.replace(b"commit\n", b"commit\r\r\n")
    yield Hostile("two carriage returns", returns, refused("BadLine", 7))
    nine = PLAN.replace(b"get app:0", b"get app:999999999")
    yield Hostile("a rank of nine digits", nine, refused("UnknownName", 9))
    ten = PLAN.replace(b"get app:0", b"get app:9999999999")
    yield Hostile("a rank of ten digits", ten, refused("BadLine", 9))
