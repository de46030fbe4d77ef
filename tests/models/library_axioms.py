"""Libraries as the laws of wire_library_laws take them: what one that keeps the axioms of
specs/Library.antt there may answer, by what has happened since the call was made, and what it owes.

A key is there after the first commit behind its put, and then stays, maybe with another value. So
what a failure needs is a number of events that the owner has done: see `Ask`.
"""
from collections.abc import Iterator, Mapping
from dataclasses import dataclass
from typing import NamedTuple

from tests.models import model, model_runs
from tests.models.library_plans import NEVER, Facts, Sign, put_at, reply_with, succeed
from tests.models.model import Event, Fence, Put


# What stands in a report in place of a reply.
WAITING, UNREACHED = b"waiting", b"unreached"
STAR = b"*"
HOST = b"PMIX_HOSTNAME"
MAP = (b"PMIX_LOCAL_RANK", b"PMIX_NODE_RANK", HOST)
UNTOLD = (b"PMIX_RANK", b"PMIX_JOB_SIZE")
# The strings of these two, which no library tells of a rank; the others that begin so it may hold.
RANK_KEYS = (b"pmix.rank", b"pmix.job.size")


@dataclass(frozen=True)
class Family:
    """In what families of libraries differ: as in specs/Library.antt."""

    flaky: bool = False
    at_once: bool = False
    brings: bool = False
    names: bool = True
    star: bool = False


@dataclass(frozen=True)
class Library:
    """A library: its family, and what of a plan it takes as the rules do. `takes_jobs`: fences of
    several jobs. `takes_all`: all others; else those within a node, and those that collect and are
    spelt as the whole job. `tells_far`: of the map it tells other nodes too."""

    family: Family
    takes_jobs: bool = True
    takes_all: bool = True
    tells_far: bool = True

    def takes(self, facts: Facts, call: Event) -> bool:
        """Whether it takes a fence as the rules do."""
        jobs = {facts.job(member) for member in facts.members(call)}
        is_easy = facts.collects(call) and facts.is_of_job(call) or len(facts.nodes(call)) == 1
        return (self.takes_all or is_easy) and (self.takes_jobs or len(jobs) == 1)

    def sign(self, facts: Facts, call: Event) -> Sign:
        """How a call of a fence spells its set; None where that has repeats, or isn't taken."""
        return facts.spell(call) if self.takes(facts, call) else None

    def knows(self, facts: Facts, call: Event) -> bool:
        """Whether it answers a call of a reserved key or name as the plan says: of the map what it
        tells of ranks of the caller's job, PMIX_RANK and PMIX_JOB_SIZE aside; and a get-now of
        another key that nobody puts, unless the library may hold it by itself."""
        verb, *words = facts.words(call)
        if verb not in (b"get", b"get-now"):
            return False
        owner, key = facts.asked_of(call), words[1]
        if key in MAP:
            is_told = self.tells_far or key == HOST or facts.is_near(owner, call.rank)
            return is_told and facts.job(owner) == facts.job(call.rank)
        is_its_own = (key.startswith(b"pmix.") and key not in RANK_KEYS) or key in UNTOLD
        return verb == b"get-now" and not is_its_own and not facts.is_put(key)


# Each library that was measured, by the name of its table. 4.2 sometimes doesn't end a fence of two
# jobs. Slurm ends a fence that doesn't collect by the ranks of the node, and never one of a list of
# ranks on several nodes that collects.
LIBRARIES: Mapping[str, Library] = {
    "openpmix-4.2": Library(Family(flaky=True, at_once=True, brings=True), takes_jobs=False),
    "openpmix-5.0": Library(Family()),
    "openpmix-7.0": Library(Family(brings=True, star=True)),
    "slurm-24.11": Library(
        Family(at_once=True, brings=True, names=False), takes_all=False, tells_far=False
    ),
}


class Ask(NamedTuple):
    """A get that was made and isn't answered: how many events the owner had done when it was made,
    and the least number at which what the owner's server sends can be the answer."""

    done: int
    least: int


class State(NamedTuple):
    """What has happened: how many events of each rank are answered, the gets that wait, what gets
    can have brought (the most events done by an owner while a get of a node waited for it, by the
    places of `Axioms.pairs`), and who published each name, by the places of `Axioms.named`."""

    done: tuple[int, ...]
    asks: tuple[Ask | None, ...]
    come: tuple[int, ...]
    names: tuple[Event | None, ...]


# Who has published a name that a publish found there or an unpublish missed: nobody knows.
LOST = Event(-1, -1, False)


class Fences:
    """Fences of a plan, by what a library takes for one."""

    def __init__(self, facts: Facts, library: Library) -> None:
        self.facts, self.arrivals = facts, facts.plan.arrivals
        self.signs = {event: library.sign(facts, event) for event in facts.plan.fence_of}
        self.alike: dict[frozenset[int], list[Event]] = {}
        for call, fence in facts.plan.fence_of.items():
            self.alike.setdefault(fence.members, []).append(call)

    def has_come(self, state: State, call: Event) -> bool:
        """Whether an event is done."""
        return self.facts.at[call] < state.done[call.rank]

    def is_complete(self, state: State, fence: Fence) -> bool:
        """Whether all members have arrived."""
        calls = self.arrivals[fence].values()
        return len(calls) == len(fence.members) and all(
            self.has_come(state, call) for call in calls
        )

    def is_plain(self, state: State, fence: Fence) -> bool:
        """Whether the arrivals so far spell the set alike, and agree in collecting: only then the
        axioms say something of its end."""
        signs = {
            self.signs[event] for event in self.alike[fence.members] if self.has_come(state, event)
        }
        came = (
            arrival for arrival in self.arrivals[fence].values() if self.has_come(state, arrival)
        )
        return signs != {None} and len(signs) == 1 and len({*map(self.facts.collects, came)}) < 2

    def bringing(self, owner: int, key: bytes, node: bytes) -> Iterator[tuple[Fence, Put]]:
        """The fences with a member on another node than the owner's, of which a call collects, at
        which the owner arrives with the key committed for that node; and what it has."""
        for fence, calls in self.arrivals.items():
            call = calls.get(owner)
            put = call and self.facts.stored[owner][self.facts.at[call]].get(key)
            is_there = node in {self.facts.plan.nodes[member] for member in fence.members}
            if put and is_there and model.reaches(put.scope, False):
                if any(map(self.facts.collects, calls.values())):
                    yield fence, put

    def has_left(self, state: State, fence: Fence, node: bytes) -> bool:
        """Whether a rank of the node has left it."""
        leaves = (arrival._replace(leaves=True) for arrival in self.arrivals[fence].values())
        nodes = self.facts.plan.nodes
        return any(nodes[leave.rank] == node and self.has_come(state, leave) for leave in leaves)

    def surely_brings(self, fence: Fence, owner: int, node: bytes) -> bool:
        """Whether it has all its calls, all collect, and a member on the node is of the owner's
        job."""
        calls, facts = self.arrivals[fence].values(), self.facts
        members = (member for member in fence.members if facts.plan.nodes[member] == node)
        return (
            len(calls) == len(fence.members)
            and all(map(facts.collects, calls))
            and any(facts.job(member) == facts.job(owner) for member in members)
        )


class Axioms:
    """What a library may answer, and what it owes, by what has happened: `may` and `owes`. The
    answers that are asked about are those that were seen, by the first event of each call."""

    def __init__(self, facts: Facts, library: Library, seen: Mapping[Event, bytes]) -> None:
        self.facts, self.library, self.seen = facts, library, seen
        self.family, self.fences = library.family, Fences(facts, library)
        calls = [event for events in facts.events for event in events if not event.leaves]
        self.named = sorted(
            {facts.words(call)[1] for call in calls if self.is_on_name(call)} - {STAR}
        )
        self.gets = [call for call in calls if self.is_kind(call, b"get") and facts.is_far(call)]
        self.nows = [
            call
            for call in calls
            if self.is_kind(call, b"get-now") and facts.is_far(call, b"get-now")
        ]
        self.pairs = sorted(
            {(facts.plan.nodes[event.rank], facts.asked_of(event)) for event in self.nows}
        )

    def is_kind(self, event: Event, verb: bytes) -> bool:
        """Whether it is such a call."""
        return self.facts.words(event)[0] == verb

    def is_on_name(self, event: Event) -> bool:
        """Whether it is a call on a name that isn't reserved, or on all."""
        words = self.facts.words(event)
        return words[0] in model.NAME_VERBS and not model.is_reserved(words[1])

    def wanted(self, event: Event) -> bytes:
        """What was seen of the call."""
        return self.seen[event._replace(leaves=False)]

    def may(self, state: State, event: Event) -> bool:
        """Whether the next event of a rank, which has made its call, may be answered now as it was
        seen to be."""
        verb, *words = self.facts.words(event)
        reply = self.wanted(event)
        if verb == b"fence" and not event.leaves:
            return True
        if reply in (WAITING, UNREACHED):
            return False
        if verb == b"fence":
            return self.may_leave(state, event, reply)
        if verb in (b"put", b"commit"):
            return reply == model.SUCCESS or self.is_reserved(event)
        if self.is_reserved(event):
            return self.may_tell(event, reply)
        if verb in model.NAME_VERBS:
            return self.may_name(state, event, reply)
        owner = self.facts.plan.rank_of[words[0]]
        if owner == event.rank:
            return self.may_give_own(event, reply)
        return (self.may_get if verb == b"get" else self.may_get_now)(state, event, reply)

    def is_reserved(self, event: Event) -> bool:
        """Whether it is a call of a reserved key or name."""
        verb, *words = self.facts.words(event)
        named = words[:1] if verb in model.NAME_VERBS else words[1:2]
        return verb != b"fence" and any(map(model.is_reserved, named))

    def may_tell(self, event: Event, reply: bytes) -> bool:
        """Of a reserved key: what the plan says, if the library tells that."""
        if not self.library.knows(self.facts, event):
            return True
        run = model_runs.Run(self.facts.plan)
        return reply == run.mapped(self.facts.asked_of(event), self.facts.words(event)[2])

    def may_leave(self, state: State, event: Event, reply: bytes) -> bool:
        """Of the end of a fence."""
        fence = self.facts.plan.fence_of[event._replace(leaves=False)]
        if not self.fences.is_plain(state, fence):
            return True
        return self.fences.is_complete(state, fence) and reply == model.SUCCESS

    def may_give_own(self, event: Event, reply: bytes) -> bool:
        """Of a key of one's own: the last put; without one a get waits."""
        verb, _, key = self.facts.words(event)
        put = self.facts.own[event.rank][self.facts.at[event]].get(key)
        return reply == reply_with(put) and (put is not None or verb == b"get-now")

    def may_get(self, state: State, event: Event, reply: bytes) -> bool:
        """Of a get of another rank: a value that is committed; or where what is committed isn't
        for this node, or the get fails, anything."""
        facts, ask, key = self.facts, state.asks[event.rank], self.facts.words(event)[2]
        owner, is_near = facts.asked_of(event), not facts.is_far(event)
        done, there = state.done[owner], facts.there(owner, key)
        put = facts.stored[owner][done].get(key)
        if ask is None or reply in facts.replies(owner, key, done):
            return ask is not None
        if put and not model.reaches(put.scope, is_near):
            return True
        may_miss = is_near and self.family.flaky and there > ask.done
        return ask.least <= done and (ask.least < there or may_miss)

    def may_get_now(self, state: State, event: Event, reply: bytes) -> bool:
        """Of a get-now of another rank."""
        facts, key = self.facts, self.facts.words(event)[2]
        owner, node = facts.asked_of(event), facts.plan.nodes[event.rank]
        if facts.is_near(owner, event.rank):
            put = facts.stored[owner][state.done[owner]].get(key)
            is_outside = put is not None and not model.reaches(put.scope, True)
            return is_outside or reply == reply_with(put)
        if reply == model.NOT_FOUND:
            return not self.surely_came(state, owner, key, node)
        come = facts.sent(owner, key, state.come[self.pairs.index((node, owner))])
        found = self.fences.bringing(owner, key, node)
        come |= {
            succeed(each_put.value)
            for fence, each_put in found
            if self.fences.is_complete(state, fence)
        }
        return reply in come

    def surely_came(self, state: State, owner: int, key: bytes, node: bytes) -> bool:
        """Whether a key has surely come to another node than its owner's."""
        fences = (
            fence for fence, _ in self.fences.bringing(owner, key, node) if self.family.brings
        )
        left = (fence for fence in fences if self.fences.has_left(state, fence, node))
        if any(self.fences.surely_brings(fence, owner, node) for fence in left):
            return True
        gets = (event for event in self.gets if self.fences.has_come(state, event))
        return any(self.brought_by(event, owner, key, node) for event in gets)

    def brought_by(self, get: Event, owner: int, key: bytes, node: bytes) -> bool:
        """Whether a get that is answered was of the node and the owner, and got the value of a key
        that came no earlier than this one."""
        facts, got = self.facts, self.seen[get].startswith(model.SUCCESS + b" ")
        if not got or facts.asked_of(get) != owner or facts.plan.nodes[get.rank] != node:
            return False
        there = facts.there(owner, facts.words(get)[2])
        put = facts.stored[owner][there].get(key) if there < NEVER else None
        return put is not None and model.reaches(put.scope, False)

    def keeps(self, state: State, name: bytes) -> bool:
        """Whether the library has kept the name so far as the rules do."""
        return self.family.names and state.names[self.named.index(name)] != LOST

    def published(self, state: State, name: bytes) -> Event | None:
        """The publish of a name that is kept."""
        return state.names[self.named.index(name)]

    def may_name(self, state: State, event: Event, reply: bytes) -> bool:
        """Of a call on a name, or on all."""
        verb, name = self.facts.words(event)[:2]
        if name == STAR and verb == b"unpublish":
            return reply == model.SUCCESS or not self.family.star
        if not self.keeps(state, name):
            return True
        published = self.published(state, name)
        if verb == b"publish":
            return published is not None or reply == model.SUCCESS
        if verb == b"unpublish":
            return published is None or published.rank != event.rank or reply == model.SUCCESS
        if published is None:
            return verb == b"lookup" and reply == model.NOT_FOUND
        return reply == succeed(self.facts.words(published)[2])

    def names_after(self, state: State, event: Event) -> tuple[Event | None, ...]:
        """Who has published each name after an event."""
        verb, *words = self.facts.words(event)
        if verb not in (b"publish", b"unpublish") or model.is_reserved(words[0]):
            return state.names
        if words[0] == STAR and verb == b"unpublish":
            if not self.family.star:
                return tuple(LOST for _ in state.names)
            return tuple(None if name and name.rank == event.rank else name for name in state.names)
        at = self.named.index(words[0])
        before = state.names[at]
        is_own = before is not None and before.rank == event.rank
        is_fine = before is None if verb == b"publish" else is_own
        after = event if verb == b"publish" else None
        return put_at(state.names, at, after if is_fine else LOST)

    def owes(self, state: State, event: Event) -> bool:
        """Whether the library owes an answer to a call that was made."""
        verb, *words = self.facts.words(event)
        if verb == b"fence" and event.leaves:
            fence = self.facts.plan.fence_of[event._replace(leaves=False)]
            return self.fences.is_plain(state, fence) and self.fences.is_complete(state, fence)
        if verb == b"lookup-wait" and not model.is_reserved(words[0]):
            return self.keeps(state, words[0]) and self.published(state, words[0]) is not None
        if verb == b"get" and not model.is_reserved(words[1]):
            return self.owes_get(state, event)
        return not self.is_reserved(event) or self.library.knows(self.facts, event)

    def owes_get(self, state: State, event: Event) -> bool:
        """Whether it owes an answer to a get."""
        facts, owner, key = self.facts, self.facts.asked_of(event), self.facts.words(event)[2]
        if owner == event.rank:
            return key in facts.own[owner][facts.at[event]]
        if not facts.is_far(event):
            put = facts.stored[owner][state.done[owner]].get(key)
            return put is not None and model.reaches(put.scope, True)
        keys = [key, *(facts.words(mate)[2] for mate in self.open_mates(state, event))]
        puts = [facts.stored[owner][state.done[owner]].get(each_key) for each_key in keys]
        return all(
            each_put is not None and model.reaches(each_put.scope, False) for each_put in puts
        )

    def open_mates(self, state: State, event: Event) -> list[Event]:
        """The far gets of a get's node that wait for the same rank."""
        nodes, owner = self.facts.plan.nodes, self.facts.asked_of(event)
        mates = (
            each_event for each_event in self.gets if nodes[each_event.rank] == nodes[event.rank]
        )
        alike = (mate for mate in mates if self.facts.asked_of(mate) == owner)
        return [
            each_event
            for each_event in alike
            if state.asks[each_event.rank] and self.is_next(state, each_event)
        ]

    def is_next(self, state: State, event: Event) -> bool:
        """Whether it is the next event of its rank."""
        return state.done[event.rank] == self.facts.at[event]

    def ask(self, state: State, event: Event) -> Ask:
        """What is to be known of a get that is made now."""
        facts, owner = self.facts, self.facts.asked_of(event)
        done = state.done[owner]
        if not facts.is_far(event):
            return Ask(done, facts.commit_from(owner, done))
        found = [(done, event)]
        mates = self.open_mates(state, event)
        found += [(each_ask.done, mate) for mate in mates if (each_ask := state.asks[mate.rank])]
        first = facts.commit_from(owner, 0)
        keys = (0 if self.family.at_once else self.key_comes(mate) for _, mate in found)
        return Ask(done, min(max(number, key, first) for (number, _), key in zip(found, keys)))

    def key_comes(self, get: Event) -> int:
        """After how many events of its owner the key of a get is there."""
        return self.facts.there(self.facts.asked_of(get), self.facts.words(get)[2])
