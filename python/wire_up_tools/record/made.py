"""How many calls of each process surely come before a call, in every run of a draft."""
from collections.abc import Iterable, Mapping, Sequence

from wire_up_tools.record.draft import Draft, Line, Step, walk
from wire_up_tools.record.knowledge import find_heard
from wire_up_tools.record.wildcard_receives import find_sources
from wire_up_tools.record.processes import Process

# For each process, by its name, how many calls of the program it has surely made.
Counts = Mapping[str, int]


def join(them: Iterable[Counts]) -> Counts:
    """The most of each process in any of the counts."""
    found: dict[str, int] = {}
    for counts in them:
        for process, count in counts.items():
            found[process] = max(found.get(process, 0), count)
    return found


class Made:
    """What each process knows in one run of a draft, up to a step: `known` of the calls of others,
    and `made` of its own."""

    def __init__(self, draft: Draft) -> None:
        self.draft = draft
        self.heard = find_heard(draft)
        self.known: dict[Process, Counts] = {line: {} for line in draft.lines}
        self.made = dict.fromkeys(draft.lines, 0)
        self.told: dict[Line, Counts] = {}

    def reach(self, line: Line) -> None:
        """Takes a line that its process reaches: it tells others what that knows."""
        process = line.process
        if line in self.heard:
            self.told[line] = {**self.known[process], process.name: self.made[process]}

    def leave(self, line: Line) -> None:
        """Takes a line that its process has passed: that knows what the line has waited for."""
        process, sources = line.process, find_sources(self.draft, line)
        self.known[process] = join(
            [self.known[process], *(self.told[source] for source in sources)]
        )
        self.made[process] += line.is_of_program


def find_known(draft: Draft) -> Mapping[str, Sequence[Counts]]:
    """What comes before each call of the program in every run of a draft, by processes."""
    found: dict[str, list[Counts]] = {each_line.name: [] for each_line in draft.lines}
    made = Made(draft)
    for step, line in walk(draft):
        if step is Step.PASSED:
            made.leave(line)
            continue
        if line.is_of_program:
            found[line.process.name].append(made.known[line.process])
        made.reach(line)
    return found


def find_known_at_end(draft: Draft) -> Mapping[Process, Counts]:
    """What comes before the end of each process in every run of a draft."""
    made = Made(draft)
    for step, line in walk(draft):
        if step is Step.PASSED:
            made.leave(line)
        else:
            made.reach(line)
    return made.known
