"""Recordings as traces: what each process called and how that ended, whatever the namespace, the
numbers, the times and the places. Traces of several runs can be compared."""
import re
from collections import Counter
from collections.abc import Mapping, Sequence
from dataclasses import dataclass, field
from pathlib import Path

from wire_up_tools.record.directives import TIMEOUT, gives_up
from wire_up_tools.record.forms import read_begin
from wire_up_tools.record.processes import ONLY_JOB
from wire_up_tools.record.recordings import ENDING, RECORD
from wire_up_tools.record.showing.naming import MASK, OF_PMIX, mask, name_call
from wire_up_tools.record.writing import STATUSES, WAITING

# How many lines a recording has before its records.
HEAD_LINES = 4
# The keys by which processes of Open MPI find each other, as messages come, and those that the
# library of PMIx has of the job, such as its folder: not the program's.
OF_LIBRARY = re.compile(r"(?:get \S+|put) (?:[a-z]+\.\w+\.\d+\.\d+$|mpi\.|pmix\.|OMPI|PMIX_)")
# Values that a recording doesn't have: bytes and long texts by their size, with letters that tell
# them from others; other types by their number or size alone. And numbers, behind their size.
SIZED = re.compile(r"(bytes|long):(\d+)(?::([a-p]+))?")
UNSEEN = re.compile(r"(type|other):(\d+)")
ARRAY = re.compile(r"type:\d+:(.*)")
NUMBERED = re.compile(r"(?:number|real):\d+:(-?[\d.]+)")
KINDS = {"bytes": "bytes", "long": "bytes of text", "type": "type", "other": "number of bytes"}
# A printable character that a word of a recording can't have.
ESCAPED = re.compile(r"%([2-7][0-9A-E])")
# The namespace of a job of PRRTE has the number of a process.
OF_PRRTE = re.compile(r"prterun-[^\s:]+?-\d+@\d+")


def is_of_library(key: str) -> bool:
    """Whether a key isn't the program's."""
    return OF_LIBRARY.match(f"put {key}") is not None


def decode(word: str) -> str:
    """A word of a recording with its printable characters."""
    return ESCAPED.sub(lambda hit: chr(int(hit[1], 16)), word)


def read_array(word: str) -> Sequence[tuple[str, str]]:
    """The keys and values of an array, by their keys."""
    parts = (part.partition("=") for part in decode(word).split(","))
    return sorted((key, value) for key, is_pair, value in parts if is_pair)


def say_value(value: str) -> str:
    """A value as a recording has it, in words."""
    sized, unseen, array = (pattern.fullmatch(value) for pattern in (SIZED, UNSEEN, ARRAY))
    if array:
        pairs = [(key, one) for key, one in read_array(array[1]) if not is_of_library(key)]
        told = ", ".join(f"{key}={say_value(one)}" for key, one in pairs)
        return f"keys {told}" if told else "no key of the program"
    if sized:
        letters = f", checksum {sized[3]}" if sized[3] else ""
        return f"{sized[2]} {KINDS[sized[1]]}{letters}"
    if unseen:
        return f"a value of {KINDS[unseen[1]]} {unseen[2]}"
    numbered = NUMBERED.fullmatch(value)
    return numbered[1] if numbered else value.removeprefix("text:")


@dataclass(eq=False)
class TracedCall:
    """A call of a trace: its names, and the how-manieth of each it is; its text, when it began, in
    seconds since 1970, the number of its place, and how and when it ended."""

    keys: Sequence[tuple[str, int]]
    text: str
    began: float
    place: str | None
    end: str | None = None
    ended: float | None = None

    @property
    def name(self) -> str:
        """All its names."""
        return ", ".join(name for name, _ in self.keys)

    @property
    def told(self) -> str:
        """All its names, as they are told."""
        return decode(self.name)

    @property
    def is_of_pmix(self) -> bool:
        """Whether it is a call of PMIx."""
        return self.name.partition(" ")[0] in OF_PMIX

    @property
    def is_compared(self) -> bool:
        """Whether it is a call of PMIx that the program decides on."""
        return self.is_of_pmix and not OF_LIBRARY.match(self.name)

    @property
    def gives_up(self) -> bool:
        """Whether it waits for others, and for a short time at most."""
        try:
            return TIMEOUT.decode() in self.text and gives_up(read_begin(self.text))
        except (ValueError, LookupError):
            return False

    @property
    def values(self) -> Sequence[str]:
        """The values that it was answered with, as a recording has them."""
        rest = (self.end or "").partition(" ")[2]
        if not self.name.startswith("lookup"):
            return [rest] if rest else []
        return [part.partition("=")[2] for part in rest.split(",") if "=" in part]

    @property
    def unseen(self) -> str:
        """What of its reply isn't compared, in words; empty where all is."""
        found = [UNSEEN.fullmatch(value) for value in self.values]
        bare = [hit for hit in map(SIZED.fullmatch, self.values) if hit and not hit[3]]
        kinds = [f"{KINDS[hit[1]]} {hit[2]}" for hit in found if hit]
        return ", ".join([*kinds, *(f"{hit[2]} {KINDS[hit[1]]}" for hit in bare)])

    @property
    def reply(self) -> str:
        """How it ended, in words, without what differs between runs anyhow."""
        return mask(self.whole_reply)

    @property
    def whole_reply(self) -> str:
        """How it ended, in words, with each number of its value."""
        if self.end is None:
            return WAITING
        status = self.end.partition(" ")[0]
        name = STATUSES.get(int(status), f"PMIX_STATUS_{status}")
        said = f"{name} {', '.join(map(say_value, self.values))}".strip()
        return OF_PRRTE.sub(MASK, decode(said))


@dataclass(eq=False)
class Trace:
    """What one process did: its job and rank, when it began, in seconds since 1970, its calls, and
    whether it ended them all."""

    namespace: str
    rank: int
    began: float
    calls: list[TracedCall] = field(default_factory=list)
    has_finalized: bool = False

    @property
    def compared(self) -> Sequence[TracedCall]:
        """Its calls that are compared."""
        return [call for call in self.calls if call.is_compared]

    def find(self, key: tuple[str, int]) -> TracedCall | None:
        """The call with this name and number; None where it made none."""
        return next((call for call in self.calls if key in call.keys), None)


Traces = Mapping[str, Trace]


class Reader:
    """Reads the records of one trace."""

    def __init__(self, trace: Trace) -> None:
        self.trace = trace
        self.counts: Counter[str] = Counter()
        self.open: dict[str, TracedCall] = {}

    def take(self, line: str) -> None:
        """Takes a record, with the end of its line."""
        read = RECORD.fullmatch(line)
        if not read:
            return
        sign, number, _, place, text = read.groups()
        when = self.trace.began + float(line.split(" ", 4)[3])
        if sign == "+":
            names = name_call(text)
            self.counts.update(names)
            call = TracedCall([(name, self.counts[name]) for name in names], text, when, place)
            self.trace.calls.append(call)
            self.open[number] = call
        elif sign == "-" and number in self.open:
            ended = self.open.pop(number)
            ended.end, ended.ended = text, when
        elif text == "finalize":
            self.trace.has_finalized = True


def read_trace(path: Path) -> Trace | None:
    """Reads a recording as a trace, up to the zeros and without a cut line; None where it has no
    head yet. Raises OSError."""
    data = path.read_bytes().rstrip(b"\0").decode("ascii", "replace")
    lines = data[: data.rfind("\n") + 1].splitlines(keepends=True)
    if len(lines) < HEAD_LINES:
        return None
    _, namespace, rank, *_ = lines[1].split()
    trace = Trace(namespace, int(rank), float(lines[2].split()[1]))
    reader = Reader(trace)
    for line in lines[HEAD_LINES:]:
        reader.take(line)
    return trace


def read_traces(folder: Path) -> Traces:
    """The traces of a folder, by the names that a plan gives to processes. Raises OSError."""
    paths = sorted(path for path in folder.iterdir() if path.name.endswith(ENDING))
    found = [trace for trace in map(read_trace, paths) if trace]
    begun: dict[str, float] = {}
    for trace in found:
        begun[trace.namespace] = min(trace.began, begun.get(trace.namespace, trace.began))
    jobs = sorted(begun, key=lambda name: (begun[name], name))
    names = {job: f"{ONLY_JOB}{n}" if len(jobs) > 1 else ONLY_JOB for n, job in enumerate(jobs)}
    in_order = sorted(found, key=lambda trace: (jobs.index(trace.namespace), trace.rank))
    return {f"{names[trace.namespace]}:{trace.rank}": trace for trace in in_order}
