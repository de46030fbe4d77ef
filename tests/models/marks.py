"""Marks, which are names that scripts publish, and which of them come before which, by the rules of
a plan."""
from collections.abc import Mapping
from typing import NamedTuple

from tests.support.tapes import Scripts


class Event(NamedTuple):
    """A line of a script; the leaving of a fence has a half more than its arriving."""

    process: int
    at: float


Before = Mapping[Event, set[Event]]
# The members of a fence, and the how many-th it is over them.
Fence = tuple[frozenset[int], int]


def read_members(word: str, count: int) -> frozenset[int]:
    """The ranks of a set, in a job of so many."""
    if word == "all":
        return frozenset(range(count))
    return frozenset(int(part.split(":")[1]) for part in word.split(","))


class Sources:
    """For each event of the scripts of one job those that it waits for, by the rules of a plan. It
    knows the calls `publish`, `lookup-wait` and `fence`."""

    def __init__(self, scripts: Scripts) -> None:
        self.scripts = scripts
        self.published: dict[str, Event] = {}
        self.fences: dict[Event, Fence] = {}
        self.met: dict[Fence, list[Event]] = {}
        self.sources: dict[Event, list[Event]] = {}
        for process in range(len(scripts)):
            self.note(process)
        for process in range(len(scripts)):
            self.chain(process)

    def note(self, process: int) -> None:
        """Notes what a process publishes, and its fences."""
        count: dict[frozenset[int], int] = {}
        for n, line in enumerate(self.scripts[process]):
            verb, word, *_ = line.split(" ")
            if verb == "publish":
                assert word not in self.published, word
                self.published[word] = Event(process, n)
            elif verb == "fence":
                members = read_members(word, len(self.scripts))
                count[members] = count.get(members, 0) + 1
                fence = members, count[members]
                self.fences[Event(process, n)] = fence
                self.met.setdefault(fence, []).append(Event(process, n))

    def chain(self, process: int) -> None:
        """Finds what the events of a process wait for."""
        before: list[Event] = []
        for n, line in enumerate(self.scripts[process]):
            verb, word, *_ = line.split(" ")
            event = Event(process, n)
            self.sources[event] = before
            before = [event]
            if verb == "lookup-wait":
                self.sources[event] = [*self.sources[event], self.published[word]]
            elif verb == "fence":
                leaving = Event(process, n + 0.5)
                self.sources[leaving] = [event, *self.met[self.fences[event]]]
                before = [leaving]


def find_before(scripts: Scripts) -> Before:
    """For each event of scripts those that come before it."""
    sources = Sources(scripts).sources
    before: dict[Event, set[Event]] = {}
    while len(before) < len(sources):
        rest = [source for source in sources if source not in before]
        ready = [event for event in rest if all(one in before for one in sources[event])]
        assert ready, "the lines wait for each other in a circle"
        for event in ready:
            before[event] = set(sources[event]).union(*(before[one] for one in sources[event]))
    return before


def find_marks(scripts: Scripts) -> dict[str, Event]:
    """Where the marks of scripts are published."""
    return {
        line.split(" ")[1]: Event(process, n)
        for process, lines in enumerate(scripts)
        for n, line in enumerate(lines)
        if line.endswith(" x")
    }


def find_marks_before(scripts: Scripts) -> dict[str, set[str]]:
    """For each mark of scripts the marks that come before it."""
    marks, before = find_marks(scripts), find_before(scripts)
    return {
        name: {other for other, there in marks.items() if there in before[place]}
        for name, place in marks.items()
    }
