"""Merges the plans of several runs of one program: the calls that all runs made, with the order
that MPI gave them in each. Where nothing races in that plan, nothing does in a run by itself."""
from collections.abc import Mapping, Sequence
from dataclasses import dataclass, field, replace

from wire_up_tools.failures import Refused
from wire_up_tools.limits import VERSION_1
from wire_up_tools.record.calls import Call, End
from wire_up_tools.record.draft import SENT_VALUE, Draft, Line
from wire_up_tools.record.made import Counts, find_known, join
from wire_up_tools.record.notes import Notes
from wire_up_tools.record.wildcard_receives import find_sources
from wire_up_tools.record.partings import (
    Run,
    Scripts,
    count_other_values,
    find_partings,
    find_shared,
)
from wire_up_tools.record.planning import MpiSummary, Plan
from wire_up_tools.record.processes import Process
from wire_up_tools.record.shortening import shorten


def meet(them: Sequence[Counts]) -> Counts:
    """The least of each process in all of the counts."""
    names = set(them[0]).intersection(*them[1:])
    return {name: min(counts[name] for counts in them) for name in sorted(names)}


@dataclass
class Merged:
    """The lines of the shared calls, and those that order them, as far as they are written.

    `known` says what comes before each call in all runs, and `has` what the lines order so far.
    """

    draft: Draft
    shared: Scripts
    known: Mapping[str, Sequence[Counts]]
    mark: str
    has: dict[str, Counts] = field(default_factory=dict)
    sent: dict[tuple[str, int], Line] = field(default_factory=dict)
    waits: dict[Line, list[Line]] = field(default_factory=dict)
    awaited: dict[Line, Line] = field(default_factory=dict)

    def send(self, process: str, count: int) -> Line:
        """The line by which a process says that it has made so many calls."""
        if (process, count) not in self.sent:
            after = self.shared[process][count - 1]
            name = f"{self.mark}{after.process.short_name}.{count}"
            self.sent[process, count] = Line(
                after.process, after.at, None, after.call, None, name, None
            )
        return self.sent[process, count]

    def order(self, line: Line, index: int) -> None:
        """Adds what must come before a line and doesn't yet."""
        own = line.process.name
        has = self.has.get(own, {})
        wanted = {
            text: min(count, len(self.shared[text]))
            for text, count in self.known[own][index].items()
            if text != own
        }
        for process, count in sorted(wanted.items(), key=lambda pair: -pair[1]):
            if count > has.get(process, 0):
                self.wait(line, self.send(process, count))
                has = join([has, self.known[process][count - 1], {process: count}])
        self.has[own] = has

    def wait(self, line: Line, sent: Line) -> None:
        """Adds a line before another that waits for a name."""
        call = Call(line.call.action, line.at, line.call.thread, line.call.place, line.at, End(0))
        added = Line(line.process, line.at, None, call, SENT_VALUE, sent.order, None)
        self.waits.setdefault(line, []).append(added)
        self.awaited[added] = sent

    def pass_line(self, line: Line, index_of: Mapping[Line, int]) -> None:
        """Takes what a process learns by a call of PMIx itself."""
        sources = find_sources(self.draft, line)
        own = line.process.name
        has = [self.has.get(own, {})]
        for each_source in sources:
            source, index = each_source.process.name, index_of[each_source]
            has += [self.known[source][index], {source: index}]
        self.has[own] = join(has)

    def write(self) -> Draft:
        """The draft of the shared calls."""
        index_of = {counts: n for them in self.shared.values() for n, counts in enumerate(them)}
        for them in self.shared.values():
            for index, line in enumerate(them):
                self.order(line, index)
                self.pass_line(line, index_of)
        lines: dict[Process, Sequence[Line]] = {}
        for process in self.draft.lines:
            own: list[Line] = []
            for index, line in enumerate(self.shared[process.name]):
                sent = self.sent.get((process.name, index + 1))
                own += [*self.waits.get(line, ()), line, *([sent] if sent else [])]
            lines[process] = own
        awaited = {
            each_line: source
            for each_line, source in self.draft.awaited.items()
            if each_line in index_of
        }
        meetings = {
            meeting: met for meeting, met in self.draft.meetings.items() if meeting in index_of
        }
        return Draft(lines, {**awaited, **self.awaited}, meetings)


def refuse_others(runs: Sequence[Run]) -> None:
    """Refuses runs that don't have the same processes on as many nodes."""
    first = runs[0].plan.processes
    for run in runs[1:]:
        other = run.plan.processes
        pairs = {(one.node, process.node) for one, process in zip(first.all, other.all)}
        nodes = len(first.nodes), len(other.nodes)
        names = [[each_process.name for each_process in them.all] for them in (first, other)]
        if names[0] != names[1] or {len(pairs)} != {*nodes}:
            path = other.all[0].recording.path
            raise Refused(
                f"{path}: line 2 is of a run with other processes, or on other nodes, than the "
                f"first: {len(other.all)} on {nodes[1]}, not {len(first.all)} on {nodes[0]}"
            )


def merge_notes(runs: Sequence[Run], shared: Scripts) -> Notes:
    """What is noted of all runs, and of what they don't share."""
    notes = Notes()
    for run in runs:
        notes.add(run.plan.notes)
    rest = sum(len(them) - len(shared[process]) for process, them in runs[0].scripts.items())
    notes.left_out["calls of the first run after the runs part"] += rest
    notes.otherwise["values that runs have otherwise: they are those of the first"] += (
        count_other_values(runs, shared)
    )
    return notes


def find_known_in_all(runs: Sequence[Run]) -> Mapping[str, Sequence[Counts]]:
    """What comes before each call in all runs, as far as all runs reach it."""
    known = [find_known(run.plan.draft) for run in runs]
    return {
        process: [meet(counts) for counts in zip(*(each_known[process] for each_known in known))]
        for process in known[0]
    }


def merge_plans(runs: Sequence[Run]) -> Plan:
    """The plan of what several runs share. Raises Refused for runs of other processes."""
    refuse_others(runs)
    first, shared = runs[0].plan, find_shared(runs)
    known = find_known_in_all(runs)
    reached = {process: them[:len(known[process])] for process, them in shared.items()}
    notes = merge_notes(runs, reached)
    draft = Merged(first.draft, reached, known, first.spelling.mpi_mark).write()
    if draft.count > VERSION_1.calls:
        shortened = shorten(draft)
        draft = shortened.draft
        notes.add(shortened.notes)
    left_to_luck = sum(run.plan.mpi.left_to_luck for run in runs)
    partings = [parting.write() for parting in find_partings(runs)]
    mpi = MpiSummary(len(draft.awaited), 0, left_to_luck)
    return replace(
        first, draft=draft, notes=notes, mpi=mpi, run_count=len(runs), partings=partings
    )
