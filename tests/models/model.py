"""A model of plans, written from docs/plan-format.md and docs/profile.md alone, over the second
reader of files (grammar.py): the events and their order, and the findings. Its runs are in
model_runs.py.

Usage: python3 -m tests.models.model FILE
Prints what `check` must write about FILE, or the fault that the program must name.

Ranks are numbered in rank order, from 0, and the calls of a rank from 0 too. The model is slow, and
meant for small plans.
"""
import functools
import operator
import sys
from collections import Counter, defaultdict
from typing import NamedTuple

from tests.models import grammar
from tests.models.grammar import Words


class Event(NamedTuple):
    """A step of a rank. A call is one event, and only the second one of a fence leaves. They sort
    by their ranks, and then as they come."""

    rank: int
    call: int
    leaves: bool


class Fence(NamedTuple):
    """A fence: the ranks of its set, and which of their fences over this set it is."""

    members: frozenset[int]
    turn: int


class Put(NamedTuple):
    """A pair that was put: the number of the put among its rank's calls, the scope and the
    value."""

    call: int
    scope: bytes
    value: bytes


class Race(NamedTuple):
    """Two calls that race, each by its first event, the lower one first, and what on: a key of a
    rank, or a name, as the line tells it."""

    x: Event
    y: Event
    about: bytes


SUCCESS, NOT_FOUND, OUTSIDE = (
    b"PMIX_SUCCESS",
    b"PMIX_ERR_NOT_FOUND",
    b"PMIX_ERR_EXISTS_OUTSIDE_SCOPE",
)
DUPLICATE, BAD_PARAM = b"PMIX_ERR_DUPLICATE_KEY", b"PMIX_ERR_BAD_PARAM"
NAME_VERBS = (b"publish", b"lookup", b"lookup-wait", b"unpublish")
STAR = [b"unpublish", b"*"]


def is_reserved(key: bytes) -> bool:
    return key.startswith((b"pmix", b"PMIX_"))


def reaches(scope: bytes, is_same_node: bool) -> bool:
    """Whether a scope has the ranks of the owner's node in it, or those of other nodes."""
    return scope in (b"global", b"local" if is_same_node else b"remote")


class Plan:
    """The calls of a plan and its events, those that are live, and their order."""

    def __init__(self, scripts: grammar.Scripts) -> None:
        self.keeps, self.procs, self.ranks = scripts.keeps, scripts.procs, range(len(scripts.procs))
        self.nodes, self.calls = [proc.node for proc in self.procs], [
            proc.calls for proc in self.procs
        ]
        self.spelt = [b"%s:%d" % (proc.job, proc.rank) for proc in self.procs]
        self.rank_of = {word: rank for rank, word in enumerate(self.spelt)}
        # Each call, by its first event.
        self.firsts = [
            Event(rank, n, False) for rank in self.ranks for n in range(len(self.calls[rank]))
        ]
        self.find_fences(scripts)
        self.find_keys()
        self.find_names()
        self.find_events()

    def words(self, event: Event) -> Words:
        return self.calls[event.rank][event.call]

    def find_fences(self, scripts: grammar.Scripts) -> None:
        """The fence of each call of one, and the arrivals at each fence, by rank."""
        self.fence_of: dict[Event, Fence] = {}
        self.arrivals: dict[Fence, dict[int, Event]] = defaultdict(dict)
        turns: Counter[tuple[int, frozenset[int]]] = Counter()
        sets: dict[tuple[bytes, bytes], frozenset[int]] = {}
        for event in self.firsts:
            verb, *words = self.words(event)
            if verb == b"fence":
                caller, known = self.procs[event.rank], (self.procs[event.rank].job, words[0])
                members = sets[known] = sets.get(known) or frozenset(
                    grammar.members_of(scripts, caller, words[0])
                )
                fence = Fence(members, turns[event.rank, members])
                turns[event.rank, members] += 1
                self.fence_of[event], self.arrivals[fence][event.rank] = fence, event

    def find_keys(self) -> None:
        """The puts and the gets of each key of each rank, and the commits of each rank."""
        self.puts: dict[tuple[int, bytes], list[Put]] = defaultdict(list)
        self.commits: dict[int, list[Event]] = defaultdict(list)
        self.gets: dict[tuple[int, bytes], list[Event]] = defaultdict(list)
        for event in self.firsts:
            verb, *words = self.words(event)
            if verb == b"put" and not is_reserved(words[1]):
                self.puts[event.rank, words[1]].append(Put(event.call, words[0], words[2]))
            elif verb == b"commit":
                self.commits[event.rank].append(event)
            elif verb == b"get":
                self.gets[self.rank_of[words[0]], words[1]].append(event)

    def find_names(self) -> None:
        """The publishes of each name, and the calls on each. An `unpublish *` is one on each name
        that its rank publishes anywhere."""
        self.publishes: dict[bytes, list[Event]] = defaultdict(list)
        self.on_name: dict[bytes, list[Event]] = defaultdict(list)
        named = [
            each_event
            for each_event in self.firsts
            if self.words(each_event)[0] in NAME_VERBS
            and not is_reserved(self.words(each_event)[1])
        ]
        for event in named:
            if self.words(event)[0] == b"publish":
                self.publishes[self.words(event)[1]].append(event)
        for event in named:
            own = [
                name
                for name, events in self.publishes.items()
                if any(each_event.rank == event.rank for each_event in events)
            ]
            for name in own if self.words(event) == STAR else [self.words(event)[1]]:
                self.on_name[name].append(event)

    def commit_of(self, owner: int, key: bytes) -> Event | None:
        """The owner's first commit after its only put of a key, or None."""
        puts = self.puts.get((owner, key), [])
        return next(
            (
                commit
                for commit in self.commits[owner]
                if len(puts) == 1 and commit.call > puts[0].call
            ),
            None,
        )

    def only_publish(self, name: bytes) -> Event | None:
        """The publish of a name that is published exactly once and never unpublished, or None."""
        is_unpublished = any(self.words(event)[0] == b"unpublish" for event in self.on_name[name])
        return (
            self.publishes[name][0]
            if len(self.publishes.get(name, [])) == 1 and not is_unpublished
            else None
        )

    def sources_elsewhere(self, event: Event) -> list[Event] | None:
        """The sources of an event but the one before it in its rank, or None if the scripts rule
        the event out."""
        verb, *words = self.words(event)
        if event.leaves:
            fence = self.fence_of[event._replace(leaves=False)]
            return (
                list(self.arrivals[fence].values())
                if len(self.arrivals[fence]) == len(fence.members)
                else None
            )
        if verb == b"lookup-wait":
            return [publish for publish in [self.only_publish(words[0])] if publish]
        if verb != b"get" or is_reserved(words[1]):
            return []
        owner = self.rank_of[words[0]]
        puts, commit = self.puts.get((owner, words[1]), []), self.commit_of(owner, words[1])
        if owner == event.rank:
            return [] if any(put.call < event.call for put in puts) else None
        return [commit] if commit else [] if len(puts) > 1 else None

    def find_events(self) -> None:
        """The events of each rank, and behind them None; the sources of each, or None if the
        scripts rule it out; and the live ones, each with the bits of all that are before it."""
        leaves = [each_event._replace(leaves=True) for each_event in self.fence_of]
        events: list[list[Event]] = [[] for _ in self.ranks]
        self.sources: dict[Event, list[Event] | None] = {}
        for event in sorted(self.firsts + leaves):
            elsewhere, before = self.sources_elsewhere(event), events[event.rank][-1:]
            self.sources[event] = None if elsewhere is None else elsewhere + before
            events[event.rank].append(event)
        self.events: list[list[Event | None]] = [[*each_event, None] for each_event in events]
        self.bit = {source: 1 << n for n, source in enumerate(self.sources)}
        self.past: dict[Event, int] = {}
        count = -1
        while count < len(self.past):
            count = len(self.past)
            self.find_live()

    def find_live(self) -> None:
        """Finds the events that are live since all their sources are known to be."""
        for event, sources in self.sources.items():
            is_known = event in self.past or sources is None
            if not is_known and all(each_source in self.past for each_source in sources or []):
                bits = [self.past[source] | self.bit[source] for source in sources or []]
                self.past[event] = functools.reduce(operator.or_, bits, 0)

    def is_before(self, one: Event, other: Event) -> bool:
        return bool(self.past.get(other, 0) & self.bit[one])

    def is_unordered(self, one: Event, other: Event) -> bool:
        """Whether both are live, and neither is before the other."""
        return (
            one in self.past
            and other in self.past
            and not self.is_before(one, other)
            and not self.is_before(other, one)
        )

    def call_text(self, event: Event) -> bytes:
        return b"%s %d" % (self.spelt[event.rank], event.call + 1)

    def call_named(self, proc: bytes, number: str) -> Event:
        """The first event of a call, by its PROC and its number from 1."""
        return Event(self.rank_of[proc], int(number) - 1, False)

    # What `check` and `why` write.

    def races(self) -> list[Race]:
        """The races, in the order of their lines."""
        found: set[tuple[Event, Event, bytes]] = set()
        for event in self.firsts:
            verb, *words = self.words(event)
            if verb == b"get-now" and not is_reserved(words[1]):
                bringers = self.bringers(event, self.rank_of[words[0]], words[1])
                found |= {
                    (event, bringer, b"key %s %s" % (words[0], words[1])) for bringer in bringers
                }
        for name, calls in self.on_name.items():
            changes = [call for call in calls if self.words(call)[0] in (b"publish", b"unpublish")]
            pairs = [(one, other) for one in changes for other in calls if one.rank != other.rank]
            found |= {(*pair, b"name " + name) for pair in pairs}
        unordered = [each_pair for each_pair in found if self.is_unordered(*each_pair[:2])]
        return sorted({Race(min(x, y), max(x, y), about) for x, y, about in unordered})

    def bringers(self, get: Event, owner: int, key: bytes) -> list[Event]:
        """The events on which it may depend whether a `get-now` finds a key; some may be ordered
        with it."""
        commit = self.commit_of(owner, key)
        if not commit or owner == get.rank:
            return []
        if self.nodes[owner] == self.nodes[get.rank]:
            return [commit]
        if not reaches(self.puts[owner, key][0].scope, False):
            return []
        fences, node = self.delivering_fences(get, commit), self.nodes[get.rank]
        gets = self.gets[owner, key] if self.keeps else []
        gets = [event for event in gets if event in self.past and self.nodes[event.rank] == node]
        late = [
            [arrival for arrival in arrivals if not self.is_before(arrival, get)]
            for arrivals in fences
        ]
        if not all(late) or any(self.is_before(event, get) for event in gets):
            return []
        for later, arrivals in zip(late, fences):
            if not any(self.is_before(get, arrival) for arrival in arrivals):
                gets.append(later[0])
        return gets

    def delivering_fences(self, get: Event, commit: Event) -> list[list[Event]]:
        """The arrivals, in rank order, at each fence that delivers to the node of a `get-now` what
        a commit hands over."""
        delivering = []
        for fence, arrivals in self.arrivals.items():
            is_late = commit.rank in arrivals and arrivals[commit.rank].call > commit.call
            is_whole = len(arrivals) == len(fence.members) and all(
                arrival in self.past for arrival in arrivals.values()
            )
            if is_late and is_whole and self.collects_to(fence, self.nodes[get.rank]):
                delivering.append(sorted(arrivals.values()))
        return delivering

    def collects_to(self, fence: Fence, node: bytes) -> bool:
        """Whether every call of a fence says `collect`, and a member is on a node."""
        return all(
            len(self.words(arrival)) == 3 for arrival in self.arrivals[fence].values()
        ) and any(self.nodes[member] == node for member in fence.members)

    def findings(self) -> bytes:
        """What `check` writes."""
        rewrites = sorted(
            (rank, put.call, puts[0].call, key)
            for (rank, key), puts in self.puts.items()
            for put in puts[1:]
        )
        lines = [
            b"rewrite %s %d %d %s" % (self.spelt[rank], first + 1, later + 1, key)
            for rank, later, first, key in rewrites
        ]
        lines += [
            b"race %s %s %s" % (self.call_text(race.x), self.call_text(race.y), race.about)
            for race in self.races()
        ]
        return b"".join(line + b"\n" for line in [*lines, b"findings %d" % len(lines)])

    def why(self, x: Event, y: Event) -> bytes:
        """What `why` writes about two calls, each given by its first event, without the chain."""
        if self.is_before(x, y) or self.is_before(y, x):
            return b"before\n" if self.is_before(x, y) else b"after\n"
        return b"unordered\n" + b"".join(
            b"dead %s\n" % self.call_text(event)
            for event in dict.fromkeys((x, y))
            if event not in self.past
        )


if __name__ == "__main__":
    if len(sys.argv) != 2:
        sys.exit(__doc__)
    with open(sys.argv[1], "rb") as file:
        given = file.read()
    try:
        sys.stdout.buffer.write(Plan(grammar.read(given)).findings())
    except grammar.Refused as why:
        sys.exit(why.said().decode().rstrip())
