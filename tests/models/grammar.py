"""A second reader of plans, orders and questions, written from docs/plan-format.md alone: judges
them, and gives the canonical text of a file.

Usage: python3 -m tests.models.grammar FILE
Prints the fault that the program must name, or the canonical text.
"""
import re
import sys
from typing import NamedTuple

FILE_BYTES, NAME_BYTES, VALUE_BYTES = 4_194_304, 63, 255


class Limits(NamedTuple):
    """How many of each a file may have."""

    nodes: int
    jobs: int
    ranks: int
    calls: int


# Those of each version.
LIMITS = {b"1": Limits(64, 16, 256, 16_384), b"2": Limits(64, 16, 512, 32_768)}
NUMBERS = {
    "TooLong": 2,
    "BadHeader": 3,
    "BadLine": 4,
    "UnknownName": 5,
    "Twice": 6,
    "NotMember": 7,
    "TooMany": 8,
    "BadOrder": 13,
}
SCOPES = (b"local", b"remote", b"global")
RANK = re.compile(rb"0|[1-9][0-9]{0,8}")
NUMBER = re.compile(rb"[1-9][0-9]{0,8}")
# What stands behind the first word of each call.
SHAPES: dict[bytes, tuple[str, ...]] = {
    b"put": ("scope", "key", "value"),
    b"commit": (),
    b"fence": ("set",),
    b"get": ("proc", "key"),
    b"get-now": ("proc", "key"),
    b"publish": ("key", "value"),
    b"lookup": ("key",),
    b"lookup-wait": ("key",),
    b"unpublish": ("key",),
}

# The words of a line. And an item of a set: a name and a rank, or None for all of its ranks.
Words = list[bytes]
Item = tuple[bytes, int | None]


class Process(NamedTuple):
    """A process: its job and rank, its node, and the words of each of its calls."""

    job: bytes
    rank: int
    node: bytes
    calls: list[Words]


class Scripts(NamedTuple):
    """What a file says."""

    version: bytes
    # Whether it keeps what gets bring.
    keeps: bool
    nodes: list[bytes]
    # How many processes each job has.
    jobs: dict[bytes, int]
    procs: list[Process]


class Refused(Exception):
    """A file that is refused, by the name of the fault and the line."""

    def __init__(self, name: str, line: int) -> None:
        super().__init__(name, line)
        self.name, self.line = name, line

    def said(self) -> bytes:
        """What the program says of it."""
        return f"wire_up: fault {NUMBERS[self.name]} {self.name} {self.line}\n".encode()


def lines_of(text: bytes) -> tuple[list[tuple[int, Words]], int]:
    """The number and the words of each line that isn't skipped, and how many lines there are."""
    pieces = text.split(b"\n")
    if not pieces[-1]:
        pieces.pop()
    found = []
    for number, piece in enumerate(pieces, 1):
        piece = piece.removesuffix(b"\r")
        words = [part for part in re.split(rb"[ \t]+", piece) if part]
        if words and not words[0].startswith(b"#"):
            found.append((number, words))
    return found, len(pieces)


def is_name(word: bytes) -> bool:
    return bool(word) and not re.search(rb"[:,#*]", word)


def parts_of_proc(word: bytes) -> Item | None:
    """The name and the rank of a PROC, or None."""
    name, colon, rank = word.partition(b":")
    return (name, int(rank)) if colon and is_name(name) and RANK.fullmatch(rank) else None


def items_of_set(word: bytes) -> list[Item] | None:
    """The items of a SET, each a name and a rank (None for all of its ranks); an empty list for
    `all`; None where it's no SET."""
    if word == b"all":
        return []
    items = []
    for part in word.split(b","):
        name, _, rest = part.partition(b":")
        item = (name, None) if rest == b"*" and is_name(name) else parts_of_proc(part)
        if not item:
            return None
        items.append(item)
    return items


def fits(kind: str, word: bytes) -> bool:
    """Whether a word has its shape, length aside."""
    if kind == "scope":
        return word in SCOPES
    if kind == "key":
        return word != b"*"
    if kind == "collect":
        return word == b"collect"
    if kind == "proc":
        return parts_of_proc(word) is not None
    if kind == "set":
        return items_of_set(word) is not None
    return True


def is_long(kind: str, word: bytes) -> bool:
    """Whether a word, or a name in it, is too long."""
    if kind == "proc":
        named = parts_of_proc(word)
        return named is not None and len(named[0]) > NAME_BYTES
    if kind == "set":
        return any(len(name) > NAME_BYTES for name, _ in items_of_set(word) or [])
    return len(word) > (VALUE_BYTES if kind == "value" else NAME_BYTES)


class FirstPass:
    """The lines from the top, each judged by itself and by those above it."""

    def __init__(self, version: bytes) -> None:
        self.version, self.limits, self.keeps = version, LIMITS[version], False
        self.nodes: list[bytes] = []
        self.jobs: dict[bytes, int] = {}
        self.procs: list[Process] = []
        self.calls: list[tuple[int, Process, Words]] = []

    def take(self, number: int, words: Words) -> None:
        """Takes the next line, which isn't skipped."""
        verb, rest = words[0], words[1:]
        if any(byte < 33 or byte > 126 for word in words for byte in word):
            raise Refused("BadLine", number)
        if verb == b"keep":
            self.take_keep(number, rest)
        elif verb in (b"node", b"job", b"rank"):
            self.take_place(number, verb, rest)
        elif verb in SHAPES:
            self.take_call(number, verb, rest)
        else:
            raise Refused("BadLine", number)

    def take_keep(self, number: int, rest: Words) -> None:
        """Takes the line `keep`, which stands alone, once, right after the header of version 2."""
        if rest or self.version == b"1" or self.keeps or self.nodes or self.jobs:
            raise Refused("BadLine", number)
        self.keeps = True

    def take_place(self, number: int, verb: bytes, rest: Words) -> None:
        """Takes a line of a node, a job or a rank."""
        is_early = (verb == b"rank" and not self.jobs) or (verb == b"node" and bool(self.jobs))
        if len(rest) != 1 or not is_name(rest[0]) or is_early:
            raise Refused("BadLine", number)
        if len(rest[0]) > NAME_BYTES:
            raise Refused("TooLong", number)
        if verb == b"rank":
            self.take_rank(number, rest[0])
        elif rest[0] in (self.nodes if verb == b"node" else self.jobs):
            raise Refused("Twice", number)
        elif verb == b"node":
            self.judge_count(number, len(self.nodes), self.limits.nodes)
            self.nodes.append(rest[0])
        else:
            self.judge_count(number, len(self.jobs), self.limits.jobs)
            self.jobs[rest[0]] = 0

    def take_rank(self, number: int, node: bytes) -> None:
        """Takes a rank, of the last job."""
        if node not in self.nodes:
            raise Refused("UnknownName", number)
        self.judge_count(number, len(self.procs), self.limits.ranks)
        job, count = list(self.jobs.items())[-1]
        self.procs.append(Process(job, count, node, []))
        self.jobs[job] += 1

    def judge_count(self, number: int, count: int, most: int) -> None:
        """Refuses a line where there are as many already as there may be."""
        if count == most:
            raise Refused("TooMany", number)

    def take_call(self, number: int, verb: bytes, rest: Words) -> None:
        """Takes a line of a call."""
        shape = SHAPES[verb] + (("collect",) if verb == b"fence" and len(rest) == 2 else ())
        if verb == b"unpublish" and rest == [b"*"] and self.version == b"2":
            shape = ("star",)
        well = len(rest) == len(shape) and all(fits(*pair) for pair in zip(shape, rest))
        if not well or not any(list(self.jobs.values())[-1:]):
            raise Refused("BadLine", number)
        if any(is_long(*pair) for pair in zip(shape, rest)):
            raise Refused("TooLong", number)
        if len(self.calls) == self.limits.calls:
            raise Refused("TooMany", number)
        self.calls.append((number, self.procs[-1], [verb, *rest]))
        self.procs[-1].calls.append([verb, *rest])


def members_of(scripts: Scripts, caller: Process, word: bytes) -> set[int]:
    """The numbers of the processes in a SET, by the processes that there are. The caller's job is
    that of `all`."""
    items = items_of_set(word) or [(caller.job, None)]
    return {
        n
        for n, proc in enumerate(scripts.procs)
        if (proc.job, proc.rank) in items or (proc.job, None) in items
    }


def judge_names(scripts: Scripts, number: int, caller: Process, words: Words) -> None:
    """The second pass over a line of a call."""
    sizes = scripts.jobs
    named: list[Item] = []
    if words[0] in (b"get", b"get-now"):
        named = [part for part in [parts_of_proc(words[1])] if part]
    elif words[0] == b"fence":
        named = items_of_set(words[1]) or []
    if any(job not in sizes or (rank is not None and rank >= sizes[job]) for job, rank in named):
        raise Refused("UnknownName", number)
    if words[0] == b"fence" and scripts.procs.index(caller) not in members_of(
        scripts, caller, words[1]
    ):
        raise Refused("NotMember", number)


def read(text: bytes) -> Scripts:
    """The scripts of a file. Raises what it's refused for."""
    if len(text) > FILE_BYTES:
        raise Refused("TooLong", 1 + text[:FILE_BYTES].count(b"\n"))
    lines, count = lines_of(text)
    if (
        not lines
        or lines[0][1][0] != b"rehearsal"
        or len(lines[0][1]) != 2
        or lines[0][1][1] not in LIMITS
    ):
        raise Refused("BadHeader", lines[0][0] if lines else count + 1)
    version = lines[0][1][1]
    first = FirstPass(version)
    for number, words in lines[1:]:
        first.take(number, words)
    scripts = Scripts(version, first.keeps, first.nodes, first.jobs, first.procs)
    for number, caller, words in first.calls:
        judge_names(scripts, number, caller, words)
    return scripts


def process_named(scripts: Scripts, word: bytes) -> Process | None:
    """The process that a PROC names, or None."""
    named = parts_of_proc(word)
    return next((proc for proc in scripts.procs if (proc.job, proc.rank) == named), None)


def steps_of(scripts: Scripts, order: bytes) -> list[bytes]:
    """The steps of an order, each a PROC. Raises what it's refused for."""
    steps = []
    for number, words in lines_of(order)[0]:
        if len(words) != 1 or not process_named(scripts, words[0]):
            raise Refused("BadOrder", number)
        steps.append(words[0])
    return steps


def judge_question(scripts: Scripts, words: Words) -> None:
    """Raises what the four words of a question are refused for."""
    for at in (0, 2):
        process = process_named(scripts, words[at])
        if not process:
            raise Refused("BadOrder", at + 1)
        if not NUMBER.fullmatch(words[at + 1]) or int(words[at + 1]) > len(process.calls):
            raise Refused("BadOrder", at + 2)


def canonical_set(scripts: Scripts, caller: Process, word: bytes) -> bytes:
    """A SET as the canonical text spells it."""
    members, job = members_of(scripts, caller, word), {
        n for n, proc in enumerate(scripts.procs) if proc.job == caller.job
    }
    if members == job:
        return b"all"
    items = []
    for name in scripts.jobs:
        its = [n for n, proc in enumerate(scripts.procs) if proc.job == name]
        if its and members.issuperset(its):
            items.append(name + b":*")
        else:
            items += [b"%s:%d" % (name, scripts.procs[n].rank) for n in its if n in members]
    return b",".join(items)


def canonical(scripts: Scripts) -> bytes:
    """The canonical text."""
    lines = [
        b"rehearsal " + scripts.version,
        *([b"keep"] if scripts.keeps else []),
        *(b"node " + node for node in scripts.nodes),
    ]
    for name in scripts.jobs:
        lines.append(b"job " + name)
        for proc in scripts.procs:
            if proc.job == name:
                lines.append(b"rank " + proc.node)
                for words in proc.calls:
                    if words[0] == b"fence":
                        words = [words[0], canonical_set(scripts, proc, words[1]), *words[2:]]
                    lines.append(b" ".join(words))
    return b"\n".join(lines) + b"\n"


if __name__ == "__main__":
    if len(sys.argv) != 2:
        sys.exit(__doc__)
    with open(sys.argv[1], "rb") as file:
        given = file.read()
    try:
        sys.stdout.buffer.write(canonical(read(given)))
    except Refused as why:
        sys.exit(why.said().decode().rstrip())
