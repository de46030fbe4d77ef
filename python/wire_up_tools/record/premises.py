"""Tests what the verdict on a recorded plan rests on: that the library answered each call as the
rules do, and that nothing is known by which the program may have gone besides its calls.

If nothing is found in the plan, and both is so, each run of the program makes its calls.
"""
import contextlib
import re
from collections.abc import Iterable, Iterator, Mapping
from dataclasses import dataclass, field

from wire_up_tools.checker import Checker
from wire_up_tools.failures import Refused
from wire_up_tools.record.calls import (
    AnyRank,
    Call,
    Ending,
    Get,
    GetEnd,
    LookupEnd,
    Publish,
    Put,
    Value,
    ValueKind,
)
from wire_up_tools.record.directives import find_ending
from wire_up_tools.record.draft import Line
from wire_up_tools.record.names import is_reserved_by_pmix
from wire_up_tools.record.notes import Notes
from wire_up_tools.record.places import Places
from wire_up_tools.record.planning import Plan
from wire_up_tools.record.processes import Process
from wire_up_tools.record.writing import Answered, list_answers
from wire_up_tools.report.asking import Asker, stream_lines

# The kinds of values that a recording has whole.
WHOLE = (ValueKind.TEXT, ValueKind.NUMBER, ValueKind.REAL)
# What is left out, or written otherwise, and neither tells the program anything that another run
# could tell otherwise, nor changes what a call answers.
TELLS_NOTHING = re.compile(
    r"gets of a wildcard rank|(gets|puts) of reserved keys"
    r"|directives pmix\.(timeout|persist|range)"
    r"|(values that aren't text|texts that no word of a plan can be): .*"
    r"|calls of \w+ with several keys: .*"
)


@dataclass
class ValueWords:
    """A word for each value: another one for each that is recorded whole, which a plan says by its
    size alone if it is a number, or a text that no word can be."""

    found: dict[Value, str] = field(default_factory=dict)

    def __getitem__(self, value: Value) -> str:
        if value.kind not in WHOLE:
            return value.word
        return self.found.setdefault(value, f"value:{len(self.found)}")

    def say(self, word: str) -> str:
        """The word in a plan of the value that has this one here."""
        return next((value.word for value, own in self.found.items() if own == word), word)


@dataclass(frozen=True)
class Differing:
    """How many calls the library answered otherwise than the replay of the plan, and how many there
    are; and the first: how it was answered, and how the rules answer it."""

    count: int
    calls: int
    first: Answered
    ruled: str

    def say(self, places: Places) -> str:
        """This in words: the first by its name and its line in the program."""
        line = self.first.line
        where = places.find(line.process.recording, line.call.place)
        call = f"{line.process.name} {self.first.number} {line.verb}"
        call += f" at {where}" if where else ""
        got = [self.first.value.word] if self.first.value else []
        answered = " ".join([self.first.status, *got])
        ruled = "another value" if self.ruled == answered else self.ruled
        return f"{self.count} of {self.calls} calls, first {call}: {answered}, by the rules {ruled}"


# --- the answers ---


def find_said(line: Line, names: Mapping[bytes, str]) -> Value | None:
    """The value that the call of a line puts or publishes; None of other calls."""
    action = line.call.action
    if line.said is None or not line.is_of_program:
        return None
    if isinstance(action, Put):
        return action.value
    if not isinstance(action, Publish):
        return None
    name = line.words.split(" ")[1]
    return next((pair.value for pair in action.pairs if names.get(pair.key) == name), None)


def write_with(plan: Plan, words: ValueWords) -> bytes:
    """The plan without comments, and with these words for values."""
    lines = ["rehearsal 1", *(f"node {node}" for node in plan.processes.nodes.values())]
    for job in plan.processes.jobs.values():
        lines.append(f"job {job.name}")
        for process in job.processes:
            lines.append(f"rank {process.node}")
            for line in plan.draft.lines[process]:
                value = find_said(line, plan.spelling.names.words)
                said = f"{line.words.rpartition(' ')[0]} {words[value]}" if value else line.words
                lines.append(said)
    return "".join(f"{each_line}\n" for each_line in lines).encode()


def is_alike(answered: Answered, replayed: str, words: ValueWords) -> bool:
    """Whether a call ended as a line of the replay says; with the same value, if it is recorded."""
    value = answered.value
    if value is None:
        return answered.write("") == " ".join(replayed.split(" ")[:4])
    return answered.write(words[value] if answered.line.is_of_program else value.word) == replayed


def compare(
    answers: Iterable[Answered], replayed: Iterator[str], words: ValueWords
) -> Differing | None:
    """Where answers and the lines of a replay differ; None where they don't. Raises ValueError
    where the replay is of other calls."""
    count = calls = 0
    first: tuple[Answered, str] | None = None
    for answer in answers:
        said, calls = next(replayed, ""), calls + 1
        if not said.startswith(f"{answer.line.process.name} {answer.number} {answer.line.verb} "):
            raise ValueError(said)
        if not is_alike(answer, said, words):
            count, first = count + 1, first or (answer, said)
    if not first:
        return None
    status, *value = first[1].split(" ")[3:]
    return Differing(count, calls, first[0], " ".join([status, *map(words.say, value)]))


def compare_answers(checker: Checker, plan: Plan) -> Differing | None:
    """Which calls of a plan without findings the library answered otherwise than its replay.
    Raises Refused, OSError or ValueError where it isn't replayed, as with findings."""
    words = ValueWords()
    asker = Asker(checker, write_with(plan, words))
    with contextlib.closing(stream_lines(asker, "replay")) as replayed:
        found = compare(list_answers(plan), replayed, words)
        if not next(replayed, "").startswith("waiting "):
            raise ValueError("the replay has more calls")
    return found


# --- what the program goes by ---


def has_notes(notes: Notes) -> bool:
    """Whether it is noted that the plan lacks something by which the program may go, or has an
    order that another run may not have."""
    if any(any(counter.values()) for counter in (notes.cut_off, notes.more_ordered, notes.of_luck)):
        return True
    lists = (notes.left_out, notes.otherwise)
    return any(
        count and not TELLS_NOTHING.fullmatch(what)
        for counter in lists
        for what, count in counter.items()
    )


def can_tell_more(call: Call) -> bool:
    """Whether a call can tell the program something that isn't compared: it tells it at a time of
    its own, by a callback; it asks a whole job for what is no part of its description; or it got a
    text of which the size alone is recorded."""
    action, end = call.action, call.end
    if find_ending(action) is Ending.CALLS_PROGRAM:
        return True
    found = end.found if isinstance(end, LookupEnd) else ()
    if isinstance(action, Get) and not all(map(is_reserved_by_pmix, action.keys or [b""])):
        value = end.value if isinstance(end, GetEnd) else None
        is_of_job = action.owner is not None and action.owner.rank is AnyRank.ALL
        return is_of_job or value is not None and value.kind is ValueKind.LONG_TEXT
    return any(each_value.value.kind is ValueKind.LONG_TEXT for each_value in found)


def says_run(call: Call, namespace: bytes) -> bool:
    """Whether a call puts or publishes a text that has the name of its job in it, as what
    MPI_Open_port gives has: in another run it is another."""
    action = call.action
    said = [action.value] if isinstance(action, Put) else []
    said += [pair.value for pair in action.pairs] if isinstance(action, Publish) else []
    return any(line.kind is ValueKind.TEXT and namespace in line.text for line in said)


def is_seen(process: Process) -> bool:
    """Whether all that MPI tells a process is recorded: it says which process of MPI it is, or no
    library of MPI is seen to call PMIx."""
    recording = process.recording
    return recording.world is not None or not any(
        find_ending(call.action) is Ending.CALLS_LIBRARY for call in recording.calls_of_pmix
    )


def is_told_all(process: Process) -> bool:
    """Whether what a process was told, and what it told others, is the same in each run by what its
    calls say."""
    recording = process.recording
    return is_seen(process) and not any(
        can_tell_more(call) or says_run(call, recording.namespace)
        for call in recording.calls_of_pmix
    )


def goes_by_calls(plan: Plan) -> bool:
    """Whether nothing is known by which the program may have gone besides the calls of a plan."""
    if not plan.choices.with_mpi or plan.mpi.left_to_luck or plan.partings or has_notes(plan.notes):
        return False
    return all(map(is_told_all, plan.processes.all))


# --- both ---


@dataclass(frozen=True)
class Premises:
    """Whether a plan has no findings and was replayed; which calls the library answered otherwise;
    and whether the program is known to go by nothing but its calls."""

    is_replayed: bool
    differing: Differing | None = None
    goes_by_calls: bool = False

    @property
    def hold(self) -> bool:
        """Whether each run of the program makes the calls of the plan, if it goes by them alone."""
        return self.is_replayed and self.differing is None and self.goes_by_calls


def test_premises(checker: Checker, plan: Plan) -> Premises:
    """Tests what the verdict on the plan of one run rests on."""
    try:
        differing = compare_answers(checker, plan)
    except (Refused, OSError, ValueError):
        return Premises(is_replayed=False)
    return Premises(is_replayed=True, differing=differing, goes_by_calls=goes_by_calls(plan))
