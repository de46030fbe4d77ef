"""Reads recordings: files that say what one process called, one for each process."""
import io
import itertools
import os
import re
import stat
from collections import Counter
from collections.abc import Mapping, Sequence
from dataclasses import dataclass, field
from functools import cached_property
from pathlib import Path
from typing import NoReturn

from wire_up_tools.failures import Refused, Unusable
from wire_up_tools.limits import Limits
from wire_up_tools.record.calls import Call
from wire_up_tools.record.file_calls import FORM as FILE_FORM
from wire_up_tools.record.file_calls import FileCall, read_file_call
from wire_up_tools.record.forms import (
    WORD,
    Groups,
    decode,
    decode_text,
    match,
    read_begin,
    read_came,
    read_end,
    read_message,
    read_ranks,
    read_sent,
)
from wire_up_tools.record.messages import SEND, Messages
from wire_up_tools.record.open_calls import OpenCalls
from wire_up_tools.words import make_printable

ENDING = ".recording"
# The file that stands in a folder where processes were started by PMI alone.
STARTED_BY_PMI = "pmi"
NOT_LOADED = "no process called PMIx_Init with the recorder in it"
WITHOUT_PMIX = (
    "the processes were started by PMI, as MPICH's mpiexec does: there is no PMIx to record"
)
LAST_DATE = 253402300799

NUMBER = r"\d{1,18}"
# The lines at the head, and what is said where one is another. The second names the process.
PROCESS_LINE = 2
HEAD = (
    (r"wire_up-recording 1", "isn't the first line of a recording"),
    (rf"process ({WORD}) (\d{{1,10}}) ({WORD}) {NUMBER}", "doesn't say which process it is"),
    (r"began (\d{1,18})\.(\d{6})", "doesn't say when it began"),
    (rf"library ({WORD})", "doesn't say which library it was"),
)
# A record: its sign (+ a call begins, - it ends, = all else), the number of the call, the thread,
# the time, the number of its place in the program, and what it says.
RECORD = re.compile(rf"([-+=]) ({NUMBER}) ({NUMBER}) \d{{1,18}}\.\d{{6}} (?:@(\d{{1,9}}) )?(.+)\n")
FOREIGN = re.compile(rb"[^ -~\n]")
LOST = "lost\n"
NO_RECORD = "isn't a record"


class NoRecording(Refused):
    """Why there is no recording."""


@dataclass(frozen=True)
class Address:
    """A place in the code of a program: a module and an offset in it."""

    module: str
    offset: int


# Where in the program a call comes from: an address, or `function (file.c:42)`.
Place = Address | str
# How many functions that called each other are followed from a call outwards.
MOST_FRAMES = 8


@dataclass(frozen=True)
class World:
    """The rank of a process in MPI_COMM_WORLD, and how many it has; and the line that says so."""

    rank: int
    size: int
    line: int


@dataclass(frozen=True)
class RecordedCommunicator:
    """A communicator: the number of its parent, what it is of that, the ranks in MPI_COMM_WORLD
    of its processes, and those of the other side, if it has two."""

    parent: int
    which: str
    ranks: Sequence[int]
    remote_ranks: Sequence[int] | None


@dataclass(frozen=True)
class Recording:
    """What one process did, from the file at `path`; `began` is in seconds since 1970.

    `calls` are those of PMIx and the collectives of MPI, and `messages` its sends, receives and
    probes: both in the order in which they began.
    `others` counts the calls that are only counted, by their names; `polls` those that found
    nothing before another call, and `found` those that found a request complete which isn't known
    as a receive or a collective; `files` are its calls on names of files that succeeded; `unseen`
    what called MPI past the recorder, and `unseen_pmix` what called PMIx so, by what is said of it.
    `uses` is a function to which the program's own code refers that can lead to a call of PMIx,
    `NO_USE` for none, and None where that wasn't noted.
    `outer` has the number of the place at which the function
    of a place was called; `by_threads` counts the other threads that called, and the calls of MPI
    that another thread waited for. The job has `job_size` processes, and the process is one of the
    job's program `application`, if the library told that; `host` is its node by the library, or
    else by its system. A process that `has_finalized` has called nothing after PMIx_Finalize; the
    last line of a recording that `is_cut` was dropped.
    """

    path: str
    namespace: bytes
    rank: int
    host: bytes
    library: str
    began: float
    calls: Sequence[Call]
    messages: Messages
    others: Mapping[str, int]
    polls: Mapping[str, int]
    found: Mapping[str, int]
    files: Sequence[FileCall]
    unseen: Mapping[str, int]
    unseen_pmix: Mapping[str, int]
    uses: bytes | None
    job_size: int | None
    application: int | None
    world: World | None
    communicators: Mapping[int, RecordedCommunicator]
    places: Mapping[str, Place]
    outer: Mapping[str, str]
    by_threads: int
    has_finalized: bool
    is_cut: bool

    @cached_property
    def calls_of_pmix(self) -> Sequence[Call]:
        """The calls of PMIx alone."""
        return [call for call in self.calls if call.is_of_pmix]

    @property
    def threads(self) -> set[str]:
        """The threads that made calls."""
        return {call.thread for call in self.calls} | self.messages.thread_words

    def list_frames(self, number: str | None) -> list[Place]:
        """The place of a number and those at which the functions were called, from the outermost
        on; none where the number isn't known."""
        found: list[Place] = []
        while number and number in self.places and len(found) < MOST_FRAMES:
            found.insert(0, self.places[number])
            number = self.outer.get(number)
        return found


# --- what isn't a call ---

UNSEEN_KINDS = "call|object|pmix|namespace|child|handler|callback|stored"
PLAIN = {
    "finalize": re.compile(r"finalize"),
    "other": re.compile(r"other (.+)"),
    "others": re.compile(r"others (\w+) (\d{1,18})"),
    "polled": re.compile(r"polled (MPI_\w+) (\d{1,18})"),
    "found": re.compile(r"found (MPI_\w+) (\d{1,18})"),
    "file": FILE_FORM,
    "unseen": re.compile(rf"unseen ({UNSEEN_KINDS}) ({WORD})"),
    "thread": re.compile(r"thread"),
    "uses": re.compile(r"uses (\w{1,128})"),
    "job": re.compile(r"job (\d{1,10})"),
    "application": re.compile(r"application (\d{1,10})"),
    "node": re.compile(rf"node ({WORD})"),
    "world": re.compile(r"world (\d{1,9}) (\d{1,9})"),
    "comm": re.compile(r"comm (\d{1,9}) (\d{1,9}) ([wocgvs]-?\d{1,18}) ([\d,-]+)"),
    "inter": re.compile(r"inter (\d{1,9}) (\d{1,9}) (c-?\d{1,18}) ([\d,-]+) ([\d,-]+)"),
    "place": re.compile(rf"place (\d{{1,9}}) ({WORD}) ([0-9a-f]{{1,16}})(?: (\d{{1,9}}))?"),
    "line": re.compile(rf"line (\d{{1,9}}) ({WORD}) (\d{{1,9}}) ({WORD})"),
}


# What the library tells of the process and its job, and the recorder of the program's own code.
USES = "uses"
# The calls that have a record each, and are only counted.
LISTED = ("other", "file")
TOLD = ("job", "application", "node", USES)
# What is told where own code refers to no function that can lead to a call of PMIx.
NO_USE = b"nothing"


def read_communicator(groups: Groups) -> RecordedCommunicator:
    """A communicator, without its own number. Raises ValueError."""
    remote = read_ranks(groups[4]) if len(groups) > 4 else None
    return RecordedCommunicator(int(groups[1]), groups[2], read_ranks(groups[3]), remote)


def read_line(groups: Groups) -> Place:
    """A place that says its line by itself, without its number. Raises ValueError."""
    file, function = (make_printable(decode_text(group)) for group in (groups[1], groups[3]))
    return f"{function} ({os.path.basename(file)}:{groups[2]})"


# What is said of the process when something called MPI past the recorder, or PMIx too, by its kind.
UNSEEN_MPI = {
    "call": "calls of {} that a library took elsewhere: what it called of MPI isn't seen",
    "object": "processes in which {} calls MPI past the recorder: its calls aren't seen",
}
UNSEEN_PMIX = {
    "pmix": "processes in which {} calls PMIx past the recorder: its calls aren't seen",
    "namespace": "processes with {} in a namespace of its own: calls of it aren't seen",
    "child": "processes of which a child called PMIx or MPI by {}: its calls aren't seen",
    "handler": "processes that called in a handler of a {}: another run may call elsewhere",
    "callback": "processes that called PMIx in a function that {} calls: another run may call "
    "elsewhere",
    "stored": "processes that called {}: in the plan their gets of what they stored wait",
}


def read_unseen(groups: Groups) -> str:
    """What is said of something that called past the recorder, by its name without the version.
    Raises ValueError."""
    name = os.path.basename(decode_text(groups[1])).partition(".so.")[0]
    return {**UNSEEN_MPI, **UNSEEN_PMIX}[groups[0]].format(make_printable(name))


# --- files ---


def refuse(path: str, number: int, why: str) -> NoReturn:
    """Refuses a recording for one of its lines."""
    raise Refused(f"{path}: line {number} {why}")


@dataclass
class Records:
    """The records of a file, as far as they are read: what has ended, what is open, and the
    rest. `calls` and `messages` are in the order in which they began, and those in `opened`
    haven't ended yet, the messages by twice their number, and the calls by that of their index and
    one more. A word that many calls have is kept once, in `words`. What the library told is in
    `told`, by what it is about."""

    path: str
    calls: list[Call] = field(default_factory=list)
    messages: Messages = field(default_factory=Messages)
    opened: OpenCalls = field(default_factory=OpenCalls)
    words: dict[str, str] = field(default_factory=dict)
    others: Counter[str] = field(default_factory=Counter)
    counted: dict[str, int] = field(default_factory=dict)
    polls: dict[str, int] = field(default_factory=dict)
    found: dict[str, int] = field(default_factory=dict)
    files: list[FileCall] = field(default_factory=list)
    unseen: Counter[str] = field(default_factory=Counter)
    unseen_pmix: Counter[str] = field(default_factory=Counter)
    told: dict[str, bytes] = field(default_factory=dict)
    world: World | None = None
    communicators: dict[int, RecordedCommunicator] = field(default_factory=dict)
    places: dict[str, Place] = field(default_factory=dict)
    outer: dict[str, str] = field(default_factory=dict)
    by_threads: int = 0
    has_finalized: bool = False

    def read(self, number: int, line: str) -> None:
        """Takes the record of a line. Raises Refused."""
        if line == LOST:
            refuse(self.path, number, "says that a record was lost for want of memory")
        record = RECORD.fullmatch(line)
        if not record:
            refuse(self.path, number, NO_RECORD)
        sign, call, thread, place, text = record.groups()
        try:
            if sign == "+":
                self.begin(int(call), number, thread, place, text)
            elif sign == "-":
                self.end(int(call), number, thread, text)
            else:
                self.note(number, text)
        except (ValueError, KeyError):
            refuse(self.path, number, NO_RECORD)

    def begin(
        self, call: int, number: int, thread: str, place: str | None, text: str
    ) -> None:
        """Takes a call that begins. Raises Refused, ValueError or KeyError."""
        message = read_message(text)
        if message:
            index = 2 * len(self.messages)
            self.messages.begin(message, number, thread, place)
        else:
            index = 2 * len(self.calls) + 1
            thread = self.words.setdefault(thread, thread)
            place = self.words.setdefault(place, place) if place else None
            self.calls.append(Call(read_begin(text), number, thread, place, None, None))
        if not self.opened.add(call, index):
            refuse(self.path, number, "begins a call that is open")
        self.has_finalized = False

    def end(self, call: int, number: int, thread: str, text: str) -> None:
        """Takes the end of a call. Raises Refused or ValueError."""
        opened = self.opened.remove(call)
        if opened is None:
            refuse(self.path, number, "ends a call that isn't open")
        index, is_in_calls = divmod(opened, 2)
        if is_in_calls:
            self.end_call(self.calls[index], number, thread, text)
        else:
            self.end_message(index, number, thread, text)

    def end_call(self, opened: Call, number: int, thread: str, text: str) -> None:
        """Takes the end of a call of PMIx or of a collective. Raises ValueError."""
        opened.finish(number, read_end(opened.action.verb, text))
        if thread != opened.thread and not opened.is_of_pmix:
            self.by_threads += 1

    def end_message(self, index: int, number: int, thread: str, text: str) -> None:
        """Takes the end of a send, a receive or a probe. Raises ValueError."""
        messages = self.messages
        if messages.verbs[index] == SEND:
            messages.finish_send(index, number, *read_sent(text))
        else:
            came = read_came(text)
            messages.finish(index, number, came, 0 if came else int(text))
        self.by_threads += not messages.is_of_thread(index, thread)

    def note(self, number: int, text: str) -> None:
        """Takes what isn't a call, of a line. Raises ValueError or KeyError."""
        verb = text.split(" ", 1)[0]
        groups = match(PLAIN[verb], text)
        self.has_finalized = verb == "finalize"
        if verb in LISTED:
            self.list_call(verb, groups)
        elif verb in ("others", "polled", "found"):
            counts = {"others": self.counted, "polled": self.polls, "found": self.found}[verb]
            counts[groups[0]] = max(int(groups[1]), counts.get(groups[0], 0))
        elif verb == "unseen":
            unseen = self.unseen_pmix if groups[0] in UNSEEN_PMIX else self.unseen
            unseen[read_unseen(groups)] += 1
        elif verb == "thread":
            self.by_threads += 1
        elif verb in TOLD:
            self.tell(verb, decode(groups[0]))
        elif verb == "world":
            self.world = World(int(groups[0]), int(groups[1]), number)
        elif verb in ("comm", "inter"):
            self.communicators[int(groups[0])] = read_communicator(groups)
        elif verb == "place":
            self.places[groups[0]] = Address(decode_text(groups[1]), int(groups[2], 16))
            self.outer.update([(groups[0], groups[3])] if groups[3] else [])
        elif verb == "line":
            self.places[groups[0]] = read_line(groups)

    def list_call(self, verb: str, groups: Groups) -> None:
        """Takes a call that is counted by its name, or one on the name of a file. Raises
        ValueError."""
        if verb == "other":
            self.others[groups[0]] += 1
        else:
            self.files.append(read_file_call(groups))

    def tell(self, what: str, said: bytes) -> None:
        """Takes what is told of the process. What its own code refers to once, it can call."""
        if what != USES or self.told.get(USES, NO_USE) == NO_USE:
            self.told[what] = said


@dataclass(frozen=True)
class Head:
    """The head of a recording: the parts of Recording with these names."""

    namespace: bytes
    rank: int
    host: bytes
    library: str
    began: float


def read_head(path: str, lines: Sequence[str]) -> Head:
    """The head of a recording by its lines. Raises Refused."""
    found: list[str] = []
    for number, (form, why) in enumerate(HEAD, 1):
        read = re.fullmatch(f"{form}\n", lines[number - 1]) if number <= len(lines) else None
        if not read:
            refuse(path, number, why)
        found += read.groups()
    namespace, rank, host, seconds, microseconds, library = found
    began = int(seconds) + int(microseconds) / 1e6
    try:
        head = Head(decode(namespace), int(rank), decode(host), decode_text(library), began)
    except ValueError:
        refuse(path, 2, "has a word that can't be read")
    if began > LAST_DATE:
        refuse(path, 3, "says a time after the year 9999")
    return head


def find_number(told: Mapping[str, bytes], what: str) -> int | None:
    """A number that the library told; None where it told none."""
    return int(told[what]) if what in told else None


def read_recording(path: str, data: bytes) -> Recording:
    """The recording in the bytes of a file. A last line that was cut is dropped, and so are the
    zeros that follow what a killed process wrote.

    Raises Refused for what is no recording.
    """
    data = data.rstrip(b"\0")
    if not data:
        raise Refused(f"{path}: is empty, and no recording")
    end = data.rfind(b"\n") + 1
    foreign = FOREIGN.search(data, 0, end)
    if foreign:
        number = data.count(b"\n", 0, foreign.start()) + 1
        refuse(path, number, "has a byte that no recording has")
    lines = io.TextIOWrapper(io.BytesIO(data[:end]), "ascii", newline="\n")
    head, records = read_head(path, [*itertools.islice(lines, len(HEAD))]), Records(path)
    for number, line in enumerate(lines, len(HEAD) + 1):
        records.read(number, line)
    return Recording(
        path=path,
        namespace=head.namespace,
        rank=head.rank,
        host=records.told.get("node", head.host),
        library=head.library,
        began=head.began,
        calls=records.calls,
        messages=records.messages,
        others=records.others + Counter(records.counted),
        polls=records.polls,
        found=records.found,
        files=records.files,
        unseen=records.unseen,
        unseen_pmix=records.unseen_pmix,
        uses=records.told.get(USES),
        job_size=find_number(records.told, "job"),
        application=find_number(records.told, "application"),
        world=records.world,
        communicators=records.communicators,
        places=records.places,
        outer=records.outer,
        by_threads=records.by_threads,
        has_finalized=records.has_finalized,
        is_cut=end < len(data),
    )


def has_recordings(folder: Path) -> bool:
    """Whether there is a recording in a folder. Raises OSError."""
    return any(path.name.endswith(ENDING) for path in folder.iterdir())


def find_file(path: str) -> str:
    """A file in a folder, by its path. Raises Refused for anything else that is there."""
    if os.path.exists(path) and not os.path.isfile(path):
        raise Refused(f"{path}: it is no file")
    return path


def find_files(paths: Sequence[str]) -> list[str]:
    """The files that are named, and the recordings in the folders that are. Raises Refused,
    OSError."""
    found: list[str] = []
    for path in paths:
        if os.path.isdir(path):
            names = [name for name in os.listdir(path) if name.endswith(ENDING)]
            found += sorted(map(find_file, [os.path.join(path, each_name) for each_name in names]))
        else:
            found.append(path)
    return found


def refuse_recordings(texts: Sequence[str | None], runs: Sequence[Sequence[str]]) -> None:
    """Refuses a text for the file of a recording that is read. Raises Unusable, Refused,
    OSError."""
    read = {os.path.realpath(file) for run in runs for file in find_files(run)}
    for path in filter(None, texts):
        if os.path.isfile(path) and os.path.realpath(path) in read:
            raise Unusable(f"{path} is a recording that is read")


def refuse_past(most: int, what: str, count: int) -> None:
    """Refuses a plan that would have more than the most of something."""
    if count > most:
        raise Refused(f"a plan has at most {most:,} {what}, and this one would have {count:,}")


def refuse_other(path: str) -> None:
    """Refuses what is neither a file nor a pipe that is named: it may never end, or never come."""
    mode = os.stat(path).st_mode
    if not stat.S_ISREG(mode) and not stat.S_ISFIFO(mode):
        raise Refused(f"{path}: it is no file")


def read_recordings(paths: Sequence[str], most: Limits) -> list[Recording]:
    """Reads recordings, at most as many as a plan may have processes. Raises Refused, OSError."""
    files = find_files(paths)
    refuse_past(most.processes, "processes", len(files))
    found = []
    for path in files:
        refuse_other(path)
        with open(path, "rb") as file:
            found.append(read_recording(path, file.read()))
    if not found:
        is_pmi = any(os.path.exists(os.path.join(each_path, STARTED_BY_PMI)) for each_path in paths)
        raise NoRecording(f"there is no recording: {WITHOUT_PMIX if is_pmi else NOT_LOADED}")
    return found
