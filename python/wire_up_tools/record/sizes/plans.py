"""The plan of a run with some number of ranks, of one job."""
from collections.abc import Callable, Mapping, Sequence
from dataclasses import dataclass, replace

from wire_up_tools.failures import Refused
from wire_up_tools.plan_reading import read_set
from wire_up_tools.record.patterns.indexing import Places, index_words
from wire_up_tools.record.places import Places as ProgramPlaces
from wire_up_tools.record.planning import Plan
from wire_up_tools.record.writing import find_texts

COLLECT = "collect"
# The calls on names, and all that can race with another.
ON_NAMES = ("publish", "unpublish", "lookup", "lookup-wait")
RACING = ("get-now", *ON_NAMES)


@dataclass(frozen=True, eq=False)
class Call:
    """A call: its words, whether it stands for an order of MPI, and where in the program it comes
    from, if that is known."""

    words: Sequence[str]
    is_order: bool = False
    place: str | None = None

    @property
    def verb(self) -> str:
        """The first of its words."""
        return self.words[0]

    @property
    def collects(self) -> bool:
        """Whether it is a fence that collects."""
        return self.verb == "fence" and self.words[-1] == COLLECT


@dataclass(frozen=True, eq=False)
class SizedPlan:
    """The calls of each rank of a job, in the order of the ranks. `name` says which run it is."""

    name: str
    job: str
    calls: Mapping[str, Sequence[Call]]

    @property
    def ranks(self) -> Sequence[str]:
        """The ranks, in order."""
        return list(self.calls)

    @property
    def size(self) -> int:
        """How many ranks there are."""
        return len(self.calls)

    @property
    def count(self) -> int:
        """How many calls there are."""
        return sum(map(len, self.calls.values()))

    def list_program(self, rank: str) -> Sequence[Call]:
        """The calls of a rank that the program made."""
        return [call for call in self.calls[rank] if not call.is_order]

    def list_all(self) -> Sequence[Call]:
        """The calls that the program made, of all ranks."""
        return [call for rank in self.calls for call in self.list_program(rank)]

    def change(self, change: Callable[[str, Sequence[Call]], Sequence[Call]]) -> "SizedPlan":
        """The plan with other calls of each rank."""
        changed = {rank: change(rank, calls) for rank, calls in self.calls.items()}
        return replace(self, calls=changed)

    def find_members(self, word: str) -> Sequence[str]:
        """The ranks of a set, in the order of their names."""
        return sorted(read_set(self.job, word, {self.job: self.ranks}))


def take_plan(name: str, plan: Plan, places: ProgramPlaces) -> SizedPlan:
    """The plan of a run. Raises Refused if it has several jobs."""
    jobs = list(plan.processes.jobs.values())
    if len(jobs) != 1:
        raise Refused(f"{name}: has {len(jobs)} jobs, and a pattern of several sizes is of one")
    calls = {}
    for process, lines in plan.draft.lines.items():
        texts = find_texts(process, places)
        calls[process.name] = [
            Call(line.words.split(" "), not line.is_of_program, texts.get(line.call.place))
            for line in lines
        ]
    return SizedPlan(name, jobs[0].name, calls)


def can_race(plan: SizedPlan) -> bool:
    """Whether a plan has a call that can race, or a rank that puts a key twice."""
    for rank in plan.ranks:
        calls = plan.list_program(rank)
        keys = [call.words[2] for call in calls if call.verb == "put"]
        if len(set(keys)) < len(keys) or any(call.verb in RACING for call in calls):
            return True
    return False


def index_plan(plan: SizedPlan, places: Places) -> SizedPlan:
    """A plan with the numbers of ranks in the program's keys and names as indices."""

    def index(call: Call) -> Call:
        return call if call.is_order else replace(
            call, words=index_words(call.words, plan.job, places)
        )

    return plan.change(lambda _, calls: list(map(index, calls)))
