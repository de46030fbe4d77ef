"""Compares two runs: replies that differ, and where calls part."""
from collections.abc import Iterator, Sequence
from dataclasses import dataclass

from wire_up_tools.record.showing.held_runs import HeldRun
from wire_up_tools.record.showing.naming import Target, mask
from wire_up_tools.record.showing.traces import TracedCall

NOTHING_MORE = "nothing more"
NEVER_CAME = "didn't come"
# How what stands before a place begins where calls part.
AFTER, FROM_START = "after ", "from the start"
# How many calls are named after which two runs part.
NAMED_NEXT = 3


@dataclass(frozen=True)
class Difference:
    """What differs of a process between two runs: what it called, and the reply in each; or, of
    where its calls part, what it called next in each."""

    process: str
    what: str
    first: str
    second: str

    def is_about(self, other: "Difference") -> bool:
        """Whether it is of the same call, or of where the calls of the same process part."""
        return (self.process, self.what) == (other.process, other.what)

    @property
    def is_of_numbers(self) -> bool:
        """Whether it is one of large numbers alone, which can be those of a run."""
        return mask(self.first) == mask(self.second)

    def __str__(self) -> str:
        return f"{self.process} {self.what}: {self.first} | {self.second}"


def list_calls(run: HeldRun, process: str) -> Sequence[TracedCall]:
    """The calls of a process that are compared."""
    trace = run.traces.get(process)
    return trace.compared if trace else ()


def list_processes(runs: Sequence[HeldRun]) -> Sequence[str]:
    """The processes of some runs."""
    return list(dict.fromkeys(name for run in runs for name in run.traces))


def compare_targets(runs: Sequence[HeldRun], targets: Sequence[Target]) -> list[Difference]:
    """The named calls that were answered otherwise in two runs."""
    found = []
    for target in targets:
        calls = [run.find(target) for run in runs]
        whole = [call.whole_reply if call else NEVER_CAME for call in calls]
        masked = [mask(part) for part in whole]
        if whole[0] != whole[1]:
            told = whole if masked[0] == masked[1] else masked
            found.append(Difference(target.process, target.what, *told))
    return found


def compare_replies(
    process: str, first: Sequence[TracedCall], second: Sequence[TracedCall]
) -> Iterator[Difference]:
    """The calls that a process made in both runs and that were answered otherwise."""
    known = {traced_call.keys[0]: traced_call for traced_call in second}
    for traced_call in first:
        other = known.get(traced_call.keys[0])
        if other and other.reply != traced_call.reply:
            yield Difference(process, traced_call.told, traced_call.reply, other.reply)


def say_last(calls: Sequence[TracedCall]) -> str:
    """Behind which call something stands: the last of some calls, and the how-manieth of its name
    it is, if others came before."""
    if not calls:
        return FROM_START
    name, ordinal = calls[-1].told, calls[-1].keys[0][1]
    return f"{AFTER}{name}" if ordinal == 1 else f"{AFTER}{name}, number {ordinal}"


def find_parting(
    process: str, first: Sequence[TracedCall], second: Sequence[TracedCall]
) -> Difference | None:
    """Where the calls of a process part, if they do."""
    names = [[call.told for call in calls] for calls in (first, second)]
    if names[0] == names[1]:
        return None
    at = next((n for n, (one, other) in enumerate(zip(*names)) if one != other), None)
    at = min(map(len, names)) if at is None else at
    told = [", ".join(name[at:][:NAMED_NEXT]) or NOTHING_MORE for name in names]
    return Difference(process, say_last(first[:at]), *told)


@dataclass(frozen=True)
class Compared:
    """What differs between two runs: the replies of the named calls, those of others, where calls
    part, and whether the runs end and write otherwise. `own` is what each run has otherwise, and so
    none of these; `plain` what differs besides between two runs in which nothing is held; `unseen`
    the values of which the type or the size alone is compared."""

    targets: Sequence[Difference]
    others: Sequence[Difference]
    partings: Sequence[Difference]
    ends_otherwise: bool
    writes_otherwise: bool
    own: Sequence[Difference] = ()
    plain: Sequence[Difference] = ()
    unseen: Sequence[str] = ()

    @property
    def differences(self) -> Sequence[Difference]:
        """Replies that differ, and where calls part."""
        return [*self.targets, *self.others, *self.partings]

    @property
    def is_alike(self) -> bool:
        """Whether the same calls were made and answered alike, with the same end."""
        return not (self.differences or self.ends_otherwise)


def compare_output(runs: Sequence[HeldRun]) -> bool:
    """Whether two runs wrote other lines, in whichever order, but for numbers of the run."""
    texts = [mask(run.output.decode("utf-8", "replace")) for run in runs]
    return sorted(texts[0].splitlines()) != sorted(texts[1].splitlines())


def find_unseen(runs: Sequence[HeldRun]) -> list[str]:
    """The values of which the type or the size alone is compared, each with its call."""
    found = (
        f"{process} {call.told}: {call.unseen}"
        for run in runs
        for process in run.traces
        for call in list_calls(run, process)
        if call.unseen
    )
    return list(dict.fromkeys(found))


def compare(runs: Sequence[HeldRun], targets: Sequence[Target]) -> Compared:
    """Compares two runs in which some calls were named."""
    others: list[Difference] = []
    partings: list[Difference] = []
    named = {(target.process, target.name, target.ordinal) for target in targets}
    for process in list_processes(runs):
        first, second = (list_calls(run, process) for run in runs)
        left = [
            traced_call
            for traced_call in first
            if not any((process, *key) in named for key in traced_call.keys)
        ]
        others += compare_replies(process, left, second)
        parting = find_parting(process, first, second)
        partings += [parting] if parting else []
    ends_otherwise = runs[0].status != runs[1].status
    found = compare_targets(runs, targets)
    wrote, unseen = compare_output(runs), find_unseen(runs)
    return Compared(found, others, partings, ends_otherwise, wrote, unseen=unseen)
