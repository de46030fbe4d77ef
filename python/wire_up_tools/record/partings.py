"""Finds the calls that several runs of one program share, and where the runs part."""
from collections.abc import Mapping, Sequence
from dataclasses import dataclass

from wire_up_tools.record.draft import Draft, Line
from wire_up_tools.record.places import Places
from wire_up_tools.record.planning import Plan
from wire_up_tools.words import UNKNOWN_PLACE

# Calls whose last word is a value: runs may have others.
WITH_VALUES = ("put", "publish")

# The lines of the program of each process, by its name.
Scripts = Mapping[str, Sequence[Line]]


@dataclass(frozen=True)
class Run:
    """One of several runs: its plan, and where its calls come from."""

    plan: Plan
    places: Places

    @property
    def scripts(self) -> Scripts:
        """The lines of the program."""
        lines = self.plan.draft.lines.items()
        return {
            process.name: [line for line in them if line.is_of_program] for process, them in lines
        }

    def say(self, script: Sequence[Line], index: int) -> str:
        """What this run did at an index of a script, and where in the program."""
        if index >= len(script):
            return "nothing more"
        line = script[index]
        text = self.places.find(line.process.recording, line.call.place)
        return f"`{line.words}` at {text or UNKNOWN_PLACE}"


@dataclass(frozen=True)
class Parting:
    """Where runs part: the process, how many calls of the program it has made in all of them, and
    what each run did next."""

    process: str
    count: int
    did: Sequence[str]

    def write(self) -> str:
        """The parting in words."""
        runs = (f"run {number} {did}" for number, did in enumerate(self.did, 1))
        return f"{self.process} after {self.count} calls of the program: {', '.join(runs)}"


def name_call(line: Line) -> str:
    """A call without its value."""
    return line.words.rpartition(" ")[0] if line.verb in WITH_VALUES else line.words


def count_shared(scripts: Sequence[Sequence[Line]]) -> int:
    """How many calls several scripts have in common, from the first on."""
    count = 0
    for calls in zip(*scripts):
        if len(set(map(name_call, calls))) > 1:
            break
        count += 1
    return count


def find_partings(runs: Sequence[Run]) -> Sequence[Parting]:
    """Where runs part: at most one place of each process."""
    found, scripts = [], [each_run.scripts for each_run in runs]
    for process in scripts[0]:
        own = [each_script[process] for each_script in scripts]
        count = count_shared(own)
        if any(len(row) > count for row in own):
            did = [run.say(script, count) for run, script in zip(runs, own)]
            found.append(Parting(process, count, did))
    return found


def can_be_passed(draft: Draft, line: Line, kept: set[Line]) -> bool:
    """Whether all that a line waits for is among some lines."""
    meeting, source = draft.meetings.get(line), draft.awaited.get(line)
    return (source is None or source in kept) and all(
        each_line in kept for each_line in (meeting.lines if meeting else ())
    )


def find_shared(runs: Sequence[Run]) -> Scripts:
    """The lines of the first run whose calls all runs share, and that wait for no others."""
    draft, scripts = runs[0].plan.draft, [run.scripts for run in runs]
    found = {
        process: list(script[:count_shared([each_script[process] for each_script in scripts])])
        for process, script in scripts[0].items()
    }
    is_cut = True
    while is_cut:
        is_cut, kept = False, {line for them in found.values() for line in them}
        for process, them in found.items():
            passed = next(
                (
                    n
                    for n, each_line in enumerate(them)
                    if not can_be_passed(draft, each_line, kept)
                ),
                len(them),
            )
            is_cut |= passed < len(them)
            del them[passed:]
    return found


def count_other_values(runs: Sequence[Run], shared: Scripts) -> int:
    """How many of the shared calls have other values in other runs."""
    scripts = [run.scripts for run in runs]
    return sum(
        len({script[process][n].words for script in scripts}) > 1
        for process, them in shared.items()
        for n in range(len(them))
    )
