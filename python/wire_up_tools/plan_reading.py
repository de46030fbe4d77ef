"""Reads a plan.

A plan that is read here was taken by the checker before: nothing is judged.
"""
import bisect
import collections
import itertools
import re
from collections.abc import Iterable, Mapping, Sequence
from dataclasses import dataclass, field
from typing import overload

from wire_up_tools import words
from wire_up_tools.plan import (
    Call,
    Declared,
    Entry,
    Meeting,
    Plan,
    Rank,
    Scripts,
    Series,
    is_recorded,
)

WORD = re.compile(r"[^ \t]+")
# Where a script begins, before its first line.
RANK = re.compile(rb"\n[ \t]*rank[ \t]")
# How many calls of a rank in a row make a series, by these verbs. A script has one only if it has
# none of the others: comments, words further apart, lines without words or of other kinds.
FEWEST = 64
ALIKE = re.compile(rb"(get|get-now) [^ \n]++ ([^ \n]++)\n(?:\1 [^ \n]++ \2\n)*+")
ODD = (b"#", b"\r", b"\t", b"  ", b"\n\n", b"\n ", b" \n", b"\njob ", b"\nnode ")
# Of how many bytes it is known how many lines end before them.
BLOCK = 1 << 16


def read_plan(data: bytes) -> Plan:
    """Reads the bytes of a plan that the checker takes."""
    starts = [hit.start() + 1 for hit in RANK.finditer(data)]
    draft = Draft()
    first = starts[0] if starts else len(data)
    number = draft.read(split_lines(data[:first]), 1)
    outlines: dict[str, Sequence[Entry]] = {}
    for start, end in zip(starts, [*starts[1:], len(data)]):
        draft.calls = []
        text = data[start:end]
        if is_plain(text):
            draft.add_rank(text.partition(b"\n")[0].decode().split(" ")[1])
            name = draft.ranks[-1].name
            outlines[name] = read_outline(draft.ranks[-1], memoryview(data)[start:end], number)
        else:
            draft.read(split_lines(text), number)
            outlines[draft.ranks[-1].name] = draft.calls
        number += text.count(b"\n")
    declared = Declared(draft.head, draft.keeps, draft.nodes, draft.jobs, draft.ranks)
    fences = [
        each_call for them in outlines.values() for each_call in them if each_call.verb == "fence"
    ]
    meetings = find_meetings(declared, [fence for fence in fences if isinstance(fence, Call)])
    meeting_of = {call: meeting for meeting in meetings for call in meeting.calls}
    return Plan(Lines(data), declared, Scripts(outlines), meetings, meeting_of)


def is_plain(text: bytes) -> bool:
    """Whether the lines of a long script have calls alone, after the first, with single spaces
    between words. Then they needn't be read one by one."""
    return text.count(b"\n") > FEWEST and text.endswith(b"\n") and not any(map(text.count, ODD))


def read_outline(rank: Rank, data: memoryview, line: int) -> list[Entry]:
    """Reads the outline of a plain script, which begins at a line."""
    text = bytes(data)
    outline: list[Entry] = []
    at, start = 1, text.index(b"\n") + 1
    while start < len(text):
        end = find_end(rank, text, start)
        count = text.count(b"\n", start, end)
        lines = text[start:end].split(b"\n", min(count, FEWEST))[:-1]
        calls = [each_line.decode().split(" ") for each_line in lines]
        if count >= FEWEST:
            place = rank, at, line + at
            outline.append(Series(*place, count, calls[0][0], calls[0][-1], data[start:end]))
        else:
            outline += (
                Call(rank, number, said, line + number, None)
                for number, said in enumerate(calls, at)
            )
        at, start = at + count, end
    return outline


def find_end(rank: Rank, text: bytes, start: int) -> int:
    """Where the lines end that, from this one on, ask other ranks for one key by one verb. A line
    of another kind is alone."""
    alike = ALIKE.match(text, start)
    if not alike:
        return text.index(b"\n", start) + 1
    # (before 3.11.4, Python may end a match within the line behind it)
    end = text.rfind(b"\n", start, alike.end()) + 1
    own = b"\n%s %s %s\n" % (alike[1], rank.name.encode(), alike[2])
    at = text.find(own, start - 1, end) + 1
    if at == start:
        return start + len(own) - 1
    return at or end


class Lines(Sequence[str]):
    """The lines of a file, without their ends. They are cut when they are asked for."""

    def __init__(self, data: bytes) -> None:
        self.data = data
        blocks = range(0, len(data), BLOCK)
        counts = (data.count(b"\n", block, block + BLOCK) for block in blocks)
        # How many lines end before each block.
        self.before = list(itertools.accumulate(counts, initial=0))
        self.total = self.before[-1] + (not data.endswith(b"\n") and bool(data))

    def __len__(self) -> int:
        return self.total

    @overload
    def __getitem__(self, index: int) -> str: ...

    @overload
    def __getitem__(self, index: slice) -> Sequence[str]: ...

    def __getitem__(self, index: int | slice) -> str | Sequence[str]:
        if isinstance(index, slice):
            return [self[each_number] for each_number in range(*index.indices(self.total))]
        number = index + self.total if index < 0 else index
        if not 0 <= number < self.total:
            raise IndexError(index)
        start = self.find_start(number)
        end = self.data.find(b"\n", start)
        return decode_line(self.data[start:] if end < 0 else self.data[start:end])

    def find_start(self, number: int) -> int:
        """Where a line begins, by its number from 0."""
        if not number:
            return 0
        block = bisect.bisect_left(self.before, number) - 1
        start = block * BLOCK
        for _ in range(number - self.before[block]):
            start = self.data.index(b"\n", start) + 1
        return start


def split_lines(data: bytes) -> list[str]:
    """The lines of a file."""
    lines = [decode_line(line) for line in data.split(b"\n")]
    return lines if lines[-1] else lines[:-1]


def decode_line(line: bytes) -> str:
    """The text of a line. Words are ASCII: only a comment can have other bytes."""
    return line.decode("utf-8", "replace").removesuffix("\r")


@dataclass
class Draft:
    """What has been read of a plan so far. `place` is that of the calls that come next."""

    head: list[str] = field(default_factory=list)
    is_headed: bool = False
    keeps: bool = False
    nodes: list[str] = field(default_factory=list)
    jobs: list[str] = field(default_factory=list)
    ranks: list[Rank] = field(default_factory=list)
    ranks_in_job: int = 0
    calls: list[Call] = field(default_factory=list)
    calls_in_rank: int = 0
    place: str | None = None
    remark: str | None = None

    def read(self, lines: Sequence[str], first: int) -> int:
        """Takes lines, the first of which has this number. Answers the number after the last."""
        number = first
        for line in lines:
            said = WORD.findall(line)
            if not said or said[0].startswith("#"):
                self.add_comment(line)
            else:
                self.add_line(number, said)
            number += 1
        return number

    def add_comment(self, line: str) -> None:
        """Takes a line that is a comment or has no words."""
        if line.startswith(words.PLACE_COMMENT):
            place = line.removeprefix(words.PLACE_COMMENT)
            self.place = None if place == words.UNKNOWN_PLACE else place
        if line.startswith(words.MPI_COMMENT):
            self.remark = line.removeprefix(words.MPI_COMMENT)
        if not self.is_headed and line.startswith("#"):
            self.head.append(line[1:].removeprefix(" "))

    def add_line(self, number: int, said: list[str]) -> None:
        """Takes the words of a line that is none of these."""
        if not self.is_headed:
            self.is_headed = True
        elif said[0] == "keep":
            self.keeps = True
        elif said[0] == "node":
            self.nodes.append(said[1])
        elif said[0] == "job":
            self.jobs.append(said[1])
            self.ranks_in_job = 0
        elif said[0] == "rank":
            self.add_rank(said[1])
        else:
            self.add_call(number, said)

    def add_rank(self, node: str) -> None:
        """Takes a rank of the last job."""
        job = self.jobs[-1]
        name, index = f"{job}:{self.ranks_in_job}", len(self.ranks)
        self.ranks.append(Rank(name, job, node, index, is_recorded(self.head)))
        self.ranks_in_job += 1
        self.calls_in_rank, self.place, self.remark = 0, None, None

    def add_call(self, line: int, said: list[str]) -> None:
        """Takes a call of the last rank."""
        self.calls_in_rank += 1
        call = Call(self.ranks[-1], self.calls_in_rank, said, line, self.place, self.remark)
        self.calls.append(call)
        self.remark = None


def read_calls(data: bytes) -> Sequence[Call]:
    """All calls of a plan, whose fences may not meet."""
    draft = Draft()
    draft.read(split_lines(data), 1)
    return draft.calls


def find_meetings(declared: Declared, fences: Sequence[Call]) -> list[Meeting]:
    """Finds which calls of fences meet, in the order of the first call of each."""
    members_of = find_sets(declared, fences)
    calls_of: dict[tuple[frozenset[str], int], list[Call]] = {}
    count: collections.Counter[tuple[frozenset[str], str]] = collections.Counter()
    for call in fences:
        members = members_of[call.rank.job, call.target]
        calls_of.setdefault((members, count[members, call.rank.name]), []).append(call)
        count[members, call.rank.name] += 1
    found = enumerate(calls_of.items())
    return [Meeting(number, members, calls) for number, ((members, _), calls) in found]


def find_sets(
    declared: Declared, fences: Sequence[Call]
) -> dict[tuple[str, str], frozenset[str]]:
    """The ranks of each set that a fence names, by the job of the caller and the set's word."""
    ranks_of = collections.defaultdict(list)
    for rank in declared.ranks:
        ranks_of[rank.job].append(rank.name)
    named = {(fence.rank.job, fence.target) for fence in fences}
    return {(job, text): read_set(job, text, ranks_of) for job, text in named}


def read_set(job: str, text: str, ranks_of: Mapping[str, Iterable[str]]) -> frozenset[str]:
    """The names of the ranks of a set, as a rank of this job says it."""
    if text == "all":
        return frozenset(ranks_of[job])
    found: set[str] = set()
    for item in text.split(","):
        whole_job = item.removesuffix(":*")
        found.update([item] if item == whole_job else ranks_of.get(whole_job, ()))
    return frozenset(found)
