"""A draft of a plan: its lines, and which of them wait for which. And one run of it."""
import enum
from collections import deque
from collections.abc import Iterator, Mapping, Sequence
from dataclasses import dataclass, field

from wire_up_tools.record.calls import Call, Value, ValueKind
from wire_up_tools.record.notes import Notes
from wire_up_tools.record.processes import Process, Processes

# Values and keys say nothing of these calls: they race only by what others do.
BARE = ("put", "get", "fence")
# What is published under a name that stands for an order.
SENT = "sent"
SENT_VALUE = Value(ValueKind.TEXT, text=SENT.encode())


@dataclass(eq=False)
class Line:
    """A line of a plan, and the call that it comes from.

    `at` is where it stands in the recording of its process, and `value` what it got. A line that
    stands for an order, not for a call of PMIx, has an `order`: the name that it publishes, or
    waits for if it has a value. It has no `said`, since the name says it all. A fence that stands
    for a collective of MPI has a remark above it.
    """

    __slots__ = ("process", "at", "said", "call", "value", "order", "remark")

    process: Process
    at: int
    said: str | None
    call: Call
    value: Value | None
    order: str | None
    remark: str | None

    @property
    def words(self) -> str:
        """Its words in the plan."""
        if self.said is not None:
            return self.said
        return f"lookup-wait {self.order}" if self.value else f"publish {self.order} {SENT}"

    @property
    def verb(self) -> str:
        """The first of its words."""
        return self.words.partition(" ")[0]

    @property
    def is_of_program(self) -> bool:
        """Whether it is a call of PMIx that the program made."""
        return self.order is None and self.remark is None

    @property
    def is_relevant(self) -> bool:
        """Whether it can race, or bring what races."""
        return self.is_of_program and (
            self.verb not in BARE or self.words.endswith(" collect")
        )


@dataclass(frozen=True, eq=False)
class Meeting:
    """Lines of different processes that are passed when all of them are reached."""

    lines: Sequence[Line]


@dataclass(frozen=True)
class Part:
    """Some lines of a plan: `awaited` are the lines of others that must be reached before one is
    passed, and `meetings` are those in which lines meet."""

    lines: list[Line] = field(default_factory=list)
    awaited: dict[Line, Line] = field(default_factory=dict)
    meetings: dict[Line, Meeting] = field(default_factory=dict)

    def add(self, other: "Part") -> None:
        """Adds the lines of another part."""
        self.lines.extend(other.lines)
        self.awaited.update(other.awaited)
        self.meetings.update(other.meetings)

    def add_meeting(self, lines: Sequence[Line]) -> None:
        """Adds lines that meet."""
        self.lines.extend(lines)
        self.meetings.update(dict.fromkeys(lines, Meeting(lines)))

    def add_order(
        self, name: str, source: Process, begun: Call, targets: Mapping[Process, Call]
    ) -> None:
        """Adds the lines by which what a process did before a call of it comes before what each
        target does after the end of its call: a name that the one publishes and the others wait
        for."""
        published = make_publish(name, source, begun)
        self.lines.append(published)
        for target, ended in targets.items():
            self.add_wait(published, target, ended)

    def add_wait(self, published: Line, target: Process, ended: Call) -> None:
        """Adds a line that waits for a name at the end of a call."""
        name, at = published.order, ended.ends
        assert at is not None, "a call that hasn't ended waits for nothing"
        line = Line(target, at, None, ended, SENT_VALUE, name, None)
        self.lines.append(line)
        self.awaited[line] = published


@dataclass
class Ordered:
    """Lines that order processes as MPI does: those of `count` messages or collectives, of which
    so many ends were left to luck, and what is noted of them."""

    part: Part = field(default_factory=Part)
    notes: Notes = field(default_factory=Notes)
    count: int = 0
    left_to_luck: int = 0

    def add(self, other: "Ordered") -> None:
        """Takes the lines of others too."""
        self.part.add(other.part)
        self.notes.add(other.notes)
        self.count += other.count
        self.left_to_luck += other.left_to_luck


def make_publish(name: str, source: Process, begun: Call) -> Line:
    """The line by which a process says that it has come to the beginning of a call."""
    return Line(source, begun.begins, None, begun, None, name, None)


@dataclass(frozen=True)
class Draft:
    """The lines of each process in their order, and what they wait for."""

    lines: Mapping[Process, Sequence[Line]]
    awaited: Mapping[Line, Line]
    meetings: Mapping[Line, Meeting]

    @property
    def count(self) -> int:
        """How many lines there are."""
        return sum(map(len, self.lines.values()))


def make_draft(processes: Processes, parts: Sequence[Part]) -> Draft:
    """The draft of parts. Lines with the same `at` stand in the order of the parts."""
    lines: dict[Process, list[Line]] = {process: [] for process in processes.all}
    awaited: dict[Line, Line] = {}
    meetings: dict[Line, Meeting] = {}
    for part in parts:
        for line in part.lines:
            lines[line.process].append(line)
        awaited.update(part.awaited)
        meetings.update(part.meetings)
    for them in lines.values():
        them.sort(key=lambda each_line: each_line.at)
    return Draft(lines, awaited, meetings)


class Step(enum.Enum):
    """What happens to a line in a run: it is reached, and later passed."""

    REACHED = enum.auto()
    PASSED = enum.auto()


class Run:
    """One run of a draft, as far as it goes."""

    def __init__(self, draft: Draft) -> None:
        self.draft = draft
        self.reached: set[Line] = set()
        self.lacking: dict[Meeting, int] = {}
        self.waiting: dict[Line | Meeting, list[Process]] = {}
        self.ready = deque(draft.lines)

    def reach(self, line: Line, meeting: Meeting | None) -> None:
        """Takes a line that a process comes to: those that wait for it go on."""
        self.reached.add(line)
        self.ready.extend(self.waiting.pop(line, ()))
        if meeting:
            lacking = self.lacking.get(meeting, len(meeting.lines)) - 1
            self.lacking[meeting] = lacking
            if not lacking:
                self.ready.extend(self.waiting.pop(meeting, ()))

    def what_lacks(self, line: Line, meeting: Meeting | None) -> Line | Meeting | None:
        """What must be reached before a line can be passed; None if nothing lacks."""
        if meeting and self.lacking[meeting]:
            return meeting
        source = self.draft.awaited.get(line)
        return None if source in self.reached else source

    def steps(self) -> Iterator[tuple[Step, Line]]:
        """Each line as it is reached, and as it is passed."""
        done = dict.fromkeys(self.draft.lines, 0)
        while self.ready:
            process = self.ready.popleft()
            lines = self.draft.lines[process]
            while done[process] < len(lines):
                line = lines[done[process]]
                meeting = self.draft.meetings.get(line)
                if line not in self.reached:
                    self.reach(line, meeting)
                    yield Step.REACHED, line
                lacks = self.what_lacks(line, meeting)
                if lacks:
                    self.waiting.setdefault(lacks, []).append(process)
                    break
                done[process] += 1
                yield Step.PASSED, line


def walk(draft: Draft) -> Iterator[tuple[Step, Line]]:
    """One run of a draft, as far as it goes: each line as it is reached, and as it is passed."""
    return Run(draft).steps()
