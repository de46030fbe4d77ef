"""Makes lines of the calls of PMIx of each process, but for fences."""
import re
import sys
from collections.abc import Mapping, Sequence
from dataclasses import dataclass, field

from wire_up_tools.record.calls import (
    NO,
    AnyRank,
    Call,
    Commit,
    Fence,
    Get,
    GetEnd,
    Group,
    Lookup,
    LookupEnd,
    Publish,
    Put,
    Unpublish,
    Value,
    ValueKind,
)
from wire_up_tools.record.directives import (
    AT_ONCE,
    WAIT,
    goes_away,
    has_directive,
)
from wire_up_tools.record.draft import Line, Part
from wire_up_tools.record.luck import look_at_files
from wire_up_tools.record.messages import Messages
from wire_up_tools.record.names import Spelling, is_reserved_by_pmix
from wire_up_tools.record.notes import (
    Notes,
    note_directives,
    note_missing,
    note_recording,
    note_unawaited,
)
from wire_up_tools.record.processes import Process, Processes
from wire_up_tools.record.puts import WITHOUT_WORD, PutsByProcess
from wire_up_tools.words import NOT_WAITED

NOT_FOUND, DUPLICATE_KEY = -46, -53
HOST_NAME = b"pmix.hname"
UNREACHED = (
    "gets from another node that were answered with an error in place of waiting: another run may "
    "answer them otherwise"
)
# Where a line stands whose call hasn't ended.
AT_THE_END = sys.maxsize


def find_owner(processes: Processes, caller: Process, get: Get) -> Process | None:
    """The process whose key is asked for; None where it isn't recorded."""
    if get.owner is None or not isinstance(get.owner.rank, int):
        return None
    return processes.find(get.owner.namespace or caller.namespace, get.owner.rank)


@dataclass
class ProcessLines:
    """The lines of the calls of one process, as far as they are made, and the names that it has
    published so far. `part` and `notes` are those of all processes, and `reserved` the reserved
    keys that a process puts."""

    process: Process
    processes: Processes
    spelling: Spelling
    puts: PutsByProcess
    part: Part
    notes: Notes
    reserved: frozenset[bytes] = frozenset()
    published: list[bytes] = field(default_factory=list)

    def add(
        self, call: Call, words: str, value: Value | None = None, at: int | None = None
    ) -> None:
        """Adds a line; it stands where its call begins, if not elsewhere."""
        begins = call.begins if at is None else at
        self.part.lines.append(Line(self.process, begins, words, call, value, None, None))

    def leave_out(self, what: str) -> None:
        """Notes that a call has no line."""
        self.notes.left_out[what] += 1

    def write_otherwise(self, what: str) -> None:
        """Notes that a line says something else than its call."""
        self.notes.otherwise[what] += 1

    def say_value(self, value: Value) -> str:
        """The word of a value that is put or published."""
        if not value.is_text:
            self.write_otherwise(
                "values that aren't text: their size in bytes stands for them, where it is known"
            )
        elif not value.is_said:
            self.write_otherwise(
                "texts that no word of a plan can be: their size stands for them"
            )
        return value.word

    def note_several(self, action: Publish | Lookup | Unpublish, count: int) -> None:
        """Notes that one call has several lines."""
        if count > 1:
            self.write_otherwise(
                f"calls of {action.verb} with several keys: each key has a line of its own"
            )

    def take(self, call: Call) -> None:
        """Makes the lines of a call. Fences are made elsewhere."""
        action = call.action
        if isinstance(action, Put):
            self.take_put(call, action)
        elif isinstance(action, Commit):
            self.take_commit(call)
        elif isinstance(action, Get):
            self.take_get(call, action)
        elif isinstance(action, Publish):
            self.take_publish(call, action)
        elif isinstance(action, Lookup):
            self.take_lookup(call, action)
        elif isinstance(action, Unpublish):
            self.take_unpublish(call, action)

    def take_put(self, call: Call, put: Put) -> None:
        """Makes the line of a put."""
        if self.puts.is_internal(self.process, put.key):
            self.leave_out("puts for the process alone")
        elif put.scope in WITHOUT_WORD:
            self.leave_out("puts of a scope other than local, remote and global")
        elif is_reserved_by_pmix(put.key):
            self.leave_out("puts of reserved keys")
        elif call.has_failed:
            self.leave_out("puts that failed")
        else:
            key, value = self.spelling.keys[put.key], self.say_value(put.value)
            self.add(call, f"put {put.scope} {key} {value}")

    def take_commit(self, call: Call) -> None:
        """Makes the line of a commit."""
        if call.has_failed:
            self.leave_out("commits that failed")
        else:
            self.add(call, "commit")

    def why_no_get(self, get: Get) -> str | None:
        """What a get is that a plan can't have; None where it can."""
        if get.owner is None:
            return "gets that name no process"
        if get.keys is None:
            return "gets of every key"
        if get.owner.rank is AnyRank.ALL and not is_reserved_by_pmix(get.keys[0]):
            return "gets of a wildcard rank that aren't of its job"
        if get.owner.rank is AnyRank.ALL:
            return "gets of a wildcard rank"
        if get.owner.rank is AnyRank.UNDEFINED:
            return "gets of an undefined rank"
        if not is_reserved_by_pmix(get.keys[0]):
            return None
        if get.keys[0] in self.reserved:
            return "gets of reserved keys that a process puts"
        return "gets of reserved keys"

    def take_get(self, call: Call, get: Get) -> None:
        """Makes the line of a get. One that waits stands where it ended."""
        why, owner = self.why_no_get(get), find_owner(self.processes, self.process, get)
        if why or not owner or not get.keys:
            self.leave_out(why or "gets of processes that aren't recorded")
            return
        key, is_at_once = get.keys[0], has_directive(get.directives, *AT_ONCE)
        if not is_at_once and call.has_failed and not self.puts.is_out_of_scope(
            self.process, owner, key
        ):
            self.write_otherwise(NOT_WAITED)
            self.note_unreached(owner, key)
            is_at_once = True
        if call.status == 0 and not self.puts.can_see(self.process, call, owner, key):
            is_own = owner is self.process and self.puts.is_internal(owner, key)
            self.leave_out(
                "gets of what is put for the process alone" if is_own
                else "gets of keys whose put isn't recorded"
            )
            return
        words = f"{'get-now' if is_at_once else 'get'} {owner.name} {self.spelling.keys[key]}"
        at = call.begins if is_at_once else call.ends or AT_THE_END
        value = call.end.value if isinstance(call.end, GetEnd) and call.status == 0 else None
        self.add(call, words, value, at)

    def note_unreached(self, owner: Process, key: bytes) -> None:
        """Notes a get that was answered with an error in place of waiting, if its owner commits
        the key on another node: no commit there can race with the get-now that is written."""
        is_elsewhere = owner.recording.host != self.process.recording.host
        self.notes.more_ordered[UNREACHED] += is_elsewhere and self.puts.commits(owner, key)

    def take_publish(self, call: Call, publish: Publish) -> None:
        """Makes the lines of a publish: one for each name."""
        self.note_several(publish, len(publish.pairs))
        for pair in publish.pairs:
            if is_reserved_by_pmix(pair.key):
                self.leave_out("publishes of no key, or of reserved keys")
            elif call.has_failed and call.status != DUPLICATE_KEY:
                self.leave_out("publishes that failed")
            else:
                name, value = self.spelling.names[pair.key], self.say_value(pair.value)
                self.add(call, f"publish {name} {value}")
                self.published.append(pair.key)
        if not publish.pairs:
            self.leave_out("publishes of no key, or of reserved keys")

    def is_waiting(self, call: Call, lookup: Lookup, count: int) -> bool:
        """Whether a lookup of so many names is written as one that waits."""
        waits = [
            directive.value
            for directive in lookup.directives
            if directive.key == WAIT and directive.value != NO
        ]
        if not waits:
            return False
        is_number = waits[0].kind is ValueKind.NUMBER
        read = re.fullmatch(r"[2-8]:(\d+)", waits[0].detail) if is_number else None
        if read and 0 < int(read[1]) < count:
            self.write_otherwise(
                "lookups that wait for some of their keys: they are written without waiting"
            )
            return False
        if call.has_failed:
            self.write_otherwise(
                "lookups that were to wait and failed: they are written without waiting"
            )
        return not call.has_failed

    def take_lookup(self, call: Call, lookup: Lookup) -> None:
        """Makes the lines of a lookup: one for each name."""
        if lookup.keys is None:
            self.leave_out("lookups that name no key")
            return
        end = call.end
        found = {pair.key: pair.value for pair in end.found} if isinstance(end, LookupEnd) else {}
        self.note_several(lookup, len(lookup.keys))
        waits = "lookup-wait" if self.is_waiting(call, lookup, len(lookup.keys)) else "lookup"
        for key in lookup.keys:
            if is_reserved_by_pmix(key):
                self.leave_out("lookups of reserved keys")
            else:
                value = found.get(key)
                is_known = value is not None and value.kind is not ValueKind.NONE
                if call.status == 0 and not is_known:
                    self.write_otherwise(
                        "names without a value in lookups that succeeded: they aren't there"
                    )
                verb = waits if is_known or call.status != 0 else "lookup"
                self.add(call, f"{verb} {self.spelling.names[key]}", value if is_known else None)

    def take_unpublish(self, call: Call, unpublish: Unpublish) -> None:
        """Makes the lines of an unpublish: one for each name."""
        keys: Sequence[bytes]
        if unpublish.keys is None:
            self.write_otherwise(
                "unpublishes of every name: they are written for each name that the process "
                "has published"
            )
            keys = list(dict.fromkeys(self.published))
        else:
            keys = unpublish.keys
            self.note_several(unpublish, len(keys))
        for key in keys:
            if is_reserved_by_pmix(key):
                self.leave_out("unpublishes of reserved keys")
            elif call.has_failed and call.status != NOT_FOUND:
                self.leave_out("unpublishes that failed")
            else:
                self.add(call, f"unpublish {self.spelling.names[key]}")
                self.published = [text for text in self.published if text != key]


@dataclass(frozen=True)
class Uses:
    """The lines that publish a name, and those that look it up."""

    published: list[Line] = field(default_factory=list)
    looked_up: list[Line] = field(default_factory=list)

    @property
    def goes_away(self) -> bool:
        """Whether it goes away by itself while others may look it up."""
        return any(goes_away(line.call.action, len(self.looked_up)) for line in self.published)


def find_uses(part: Part) -> dict[str, Uses]:
    """The uses of each name."""
    found: dict[str, Uses] = {}
    for line in part.lines:
        verb, *rest = line.words.split(" ")
        if verb == "publish":
            found.setdefault(rest[0], Uses()).published.append(line)
        elif verb.startswith("lookup"):
            found.setdefault(rest[0], Uses()).looked_up.append(line)
    return found


def note_names(part: Part, notes: Notes) -> None:
    """Notes the names that may go away by themselves, and those that were found, though no recorded
    process published them."""
    uses = find_uses(part).values()
    notes.more_ordered[
        "names that go away by themselves (pmix.persist): in the plan they stay"
    ] += sum(each_uses.goes_away for each_uses in uses)
    notes.more_ordered[
        "lookups of names that no recorded process published: whoever did isn't in the plan"
    ] += sum(
        bool(line.value)
        for each_uses in uses
        if not each_uses.published
        for line in each_uses.looked_up
    )


@dataclass(frozen=True)
class PmixLines:
    """The lines of calls, and what is noted of them; the calls of each process that a plan has, of
    MPI too; and what each puts."""

    part: Part
    notes: Notes
    calls: Mapping[Process, Sequence[Call]]
    puts: PutsByProcess


def find_reserved(processes: Processes) -> frozenset[bytes]:
    """The reserved keys that processes put, but for the name of the host, which Open MPI puts: the
    library tells the same."""
    actions = (call.action for process in processes.all for call in process.recording.calls_of_pmix)
    keys = {
        action.key
        for action in actions
        if isinstance(action, Put) and is_reserved_by_pmix(action.key)
    }
    return frozenset(keys - {HOST_NAME})


def make_lines(processes: Processes, spelling: Spelling, *, with_mpi: bool) -> PmixLines:
    """The lines of all calls of PMIx but fences, each process by itself."""
    part, notes, puts = Part(), Notes(), PutsByProcess()
    calls: dict[Process, Sequence[Call]] = {}
    reserved = find_reserved(processes)
    files = look_at_files([each_process.recording for each_process in processes.all])
    for process in processes.all:
        recording = process.recording
        note_recording(recording, files, notes)
        of_pmix = recording.calls_of_pmix
        first = len(part.lines)
        lines = ProcessLines(process, processes, spelling, puts, part, notes, reserved)
        for call in of_pmix:
            lines.take(call)
            note_directives(call, notes, has_jobs=len(processes.jobs) > 1)
        with_lines = {line.call for line in part.lines[first:]}
        noted = recording.calls if with_mpi else of_pmix
        calls[process] = in_plan = [
            each_call
            for each_call in noted
            if not each_call.is_of_pmix
            or isinstance(each_call.action, (Fence, Group))
            or each_call in with_lines
        ]
        note_unawaited(in_plan, recording.messages if with_mpi else Messages(), notes)
    note_names(part, notes)
    note_missing(processes, notes)
    return PmixLines(part, notes, calls, puts)
