"""The conditions under which each library of a family does as the rules say, as
specs/Portable.antt and Anywhere.antt of wire_library_laws have them, pair by pair over the model of
plans (model.py): a second reader of `check --portable`. Each is a rule of docs/races.md. A rule can
be left out, and a condition put wrongly, so that tests can show that they notice it.
"""
from collections.abc import Callable, Iterator
from dataclasses import dataclass

from tests.models import model, model_runs
from tests.models.library_axioms import LIBRARIES, Library
from tests.models.library_plans import NEVER, Facts
from tests.models.model import Event, Fence


# The libraries that are judged, by the names of their tables and of the answer.
JUDGED = {"openpmix-4.2": "4.2", "openpmix-5.0": "5.0", "openpmix-7.0": "7.0"}
# Mistakes in a condition, beside that it is left out, by the rule: each stands for a wrong body.
WRONG = (
    "near-get: the first earlier commit stands for all",
    "near-get: the commit that brings it may be missed by no library",
    "near-remote: a get-now is fine",
    "near-remote: a get-now before the commit isn't",
    "far-get: by each library",
    "far-get: the key is never there first",
    "mates: of each node",
    "mates: those that end first too",
    "mates: by the owner's first commit alone",
    "mates: g's key is there before g is asked",
    "get-now: no fence brings",
    "get-now: no get brings",
    "get-now: gets of the key alone",
    "get-now: gets that end before the commit too",
    "get-now: sure by the rules alone",
    "get-now: sure by libraries alone",
    "get-now: a fence brings in each library",
    "get-now: before nothing",
    "get-now: whatever the scope",
    "get-now: left by anyone",
    "get-now: beside a member of any job",
    "get-now: any get has it",
    "fence-spelling: as it is written",
    "fence-collect: of all fences over a set",
    "published, unpublished: by the replies of a racy plan",
    "reserved: all is told",
    "calls that don't come",
    "fences that don't come",
)


@dataclass(frozen=True)
class Blamed:
    """A call and the rule by which a library may do otherwise."""

    call: Event
    rule: str


@dataclass(frozen=True)
class Asked:
    """How the conditions are asked for: the rules that are left out, and the mistakes of WRONG that
    are made; on the plan's nodes, or anywhere; and whether it is known that something races."""

    wrong: frozenset[str] = frozenset()
    anywhere: bool = False
    is_racy: bool = False


class Conditions:
    """The conditions of a plan for a library."""

    def __init__(self, facts: Facts, library: Library, asked: Asked) -> None:
        self.facts, self.plan, self.library = facts, facts.plan, library
        self.family, self.wrong, self.anywhere = library.family, asked.wrong, asked.anywhere
        self.is_settled = not asked.is_racy and facts.plan.findings() == b"findings 0\n"
        self.is_settled |= self.is_wrong("published, unpublished: by the replies of a racy plan")
        self.calls = [event for event in self.plan.firsts if self.is_asked(event)]

    def blamed(self) -> Iterator[Blamed]:
        """All that is blamed."""
        found = (
            *self.rewrites(),
            *(Blamed(call, rule) for call in self.calls for rule in self.rules_of(call)),
            *self.of_fences(),
        )
        yield from (each_blamed for each_blamed in found if each_blamed.rule not in self.wrong)

    # Order and nodes.

    def can_be_beside(self, one: int, other: int) -> bool:
        """Whether two ranks can share a node."""
        return self.anywhere or self.facts.is_near(one, other)

    def can_be_apart(self, one: int, other: int) -> bool:
        """Whether they can be on two."""
        return self.anywhere or not self.facts.is_near(one, other)

    def is_beside(self, one: int, other: int) -> bool:
        """Whether they surely share a node."""
        return one == other if self.anywhere else self.facts.is_near(one, other)

    def is_wrong(self, mistake: str) -> bool:
        """Whether a mistake is made."""
        assert mistake in WRONG, mistake
        return mistake in self.wrong

    def is_live(self, event: Event) -> bool:
        return event in self.plan.past

    def last_before(self, event: Event) -> Event | None:
        """The event right before one in its rank."""
        at = self.facts.at[event]
        return self.facts.events[event.rank][at - 1] if at else None

    def is_asked(self, call: Event) -> bool:
        """Whether a call comes to be made."""
        last = self.last_before(call)
        return last is None or self.is_live(last) or self.is_wrong("calls that don't come")

    def ends_first(self, event: Event, get: Event) -> bool:
        """Whether an event has ended when a get is asked."""
        last = self.last_before(get)
        return last is not None and (event == last or self.plan.is_before(event, last))

    # What is committed.

    def stored(self, owner: int, key: bytes, done: int) -> model.Put | None:
        """What is committed under a key after so many events of its owner."""
        return self.facts.stored[owner][done].get(key)

    def commits(self, owner: int) -> list[Event]:
        """The live commits of a rank."""
        return [commit for commit in self.plan.commits[owner] if self.is_live(commit)]

    def lacking(self, owner: int, key: bytes) -> list[Event]:
        """The live commits after which a key isn't there."""
        commits = self.commits(owner)
        return [
            commit for commit in commits if not self.stored(owner, key, self.facts.at[commit] + 1)
        ]

    def is_there_first(self, owner: int, key: bytes, get: Event) -> bool:
        """Whether a key is there when a get is asked."""
        events = self.facts.events[owner][self.facts.there(owner, key) - 1:]
        return any(self.ends_first(event, get) for event in events)

    def outside(self, owner: int, key: bytes, is_near: bool) -> list[Event]:
        """The live events after which what is committed under a key isn't for the ranks of the
        owner's node, or for the others."""
        live = (event for event in self.facts.events[owner] if self.is_live(event))
        puts = ((event, self.stored(owner, key, self.facts.at[event] + 1)) for event in live)
        return [event for event, put in puts if put and not model.reaches(put.scope, is_near)]

    # Calls.

    def rewrites(self) -> Iterator[Blamed]:
        """The puts of a key that was put before."""
        for (rank, _), puts in self.plan.puts.items():
            yield from (Blamed(Event(rank, put.call, False), "rewrite") for put in puts[1:])

    def rules_of(self, call: Event) -> Iterator[str]:
        """The rules by which a call other than a fence is blamed."""
        verb, *words = self.facts.words(call)
        named = words[0] if verb in model.NAME_VERBS else words[-1] if "get" in str(verb) else b""
        if verb == b"put" and model.is_reserved(words[1]) or model.is_reserved(named):
            is_known = self.library.knows(self.facts, call)
            yield from () if is_known or self.is_wrong("reserved: all is told") else ("reserved",)
        elif verb in (b"publish", b"unpublish"):
            yield from self.rules_of_name(call, verb)
        elif verb in (b"get", b"get-now") and self.facts.asked_of(call) != call.rank:
            near, far = (self.near, self.far) if verb == b"get" else (self.near_now, self.far_now)
            owner = self.facts.asked_of(call)
            yield from near(call) if self.can_be_beside(owner, call.rank) else ()
            yield from far(call) if self.can_be_apart(owner, call.rank) else ()

    def near(self, get: Event) -> Iterator[str]:
        """Of a get of a rank of the node."""
        owner, key = self.facts.asked_of(get), self.facts.words(get)[2]
        if self.outside(owner, key, is_near=True):
            yield "near-remote"
        missing = self.lacking(owner, key)
        if self.is_wrong("near-get: the first earlier commit stands for all"):
            missing = missing[:1]
        bringing = [commit for commit in self.commits(owner) if self.lacked(owner, key, commit)]
        is_flaky = self.family.flaky
        if self.is_wrong("near-get: the commit that brings it may be missed by no library"):
            is_flaky = False
        missing += bringing if is_flaky else []
        if not all(self.ends_first(event, get) for event in missing):
            yield "near-get"

    def lacked(self, owner: int, key: bytes, commit: Event) -> bool:
        """Whether a key isn't there before a commit."""
        return not self.stored(owner, key, self.facts.at[commit])

    def far(self, get: Event) -> Iterator[str]:
        """Of a get of a rank of another node."""
        owner, key = self.facts.asked_of(get), self.facts.words(get)[2]
        if self.outside(owner, key, is_near=False):
            yield "far-local"
        at_once = self.family.at_once or self.is_wrong("far-get: by each library")
        there = self.is_there_first(owner, key, get)
        there = there and not self.is_wrong("far-get: the key is never there first")
        if at_once and self.lacking(owner, key) and not there:
            yield "far-get"
        if any(self.is_missed_behind(get, mate) for mate in self.mates(get)):
            yield "mates"

    def mates(self, get: Event) -> Iterator[Event]:
        """The far gets that can be under way together with one."""
        owner, of_each = self.facts.asked_of(get), self.is_wrong("mates: of each node")
        for event in self.gets_of(owner, self.calls):
            is_there = of_each or self.can_be_beside(event.rank, get.rank)
            is_apart = self.ends_first(event, get) or self.ends_first(get, event)
            if is_there and self.can_be_apart(event.rank, owner) and event.rank != get.rank:
                if not is_apart or self.is_wrong("mates: those that end first too"):
                    yield event

    def gets_of(self, owner: int, calls: list[Event]) -> list[Event]:
        """The gets of keys of a rank by others."""
        gets = (call for call in calls if self.facts.is_get(call, b"get"))
        return [event for event in gets if self.facts.asked_of(event) == owner]

    def is_missed_behind(self, get: Event, mate: Event) -> bool:
        """Whether what answers a mate may lack the key of a get."""
        owner, key = self.facts.asked_of(get), self.facts.words(get)[2]
        other, missing = self.facts.words(mate)[2], self.lacking(owner, key)
        if self.is_wrong("mates: by the owner's first commit alone"):
            missing = missing[:1]
        if not self.family.at_once:
            at = self.facts.at
            missing = [event for event in missing if self.stored(owner, other, at[event] + 1)]
        is_own = self.is_wrong("mates: g's key is there before g is asked")
        return bool(missing) and not self.is_there_first(owner, key, get if is_own else mate)

    def near_now(self, get: Event) -> Iterator[str]:
        """Of a get-now of a rank of the node."""
        remote = self.outside(self.facts.asked_of(get), self.facts.words(get)[2], is_near=True)
        before = [self.plan.is_before(get, event) for event in remote]
        if self.is_wrong("near-remote: a get-now before the commit isn't"):
            before = [False for _ in remote]
        if not all(before) and not self.is_wrong("near-remote: a get-now is fine"):
            yield "near-remote"

    def far_now(self, get: Event) -> Iterator[str]:
        """Of a get-now of a rank of another node."""
        found = (*self.fences_that_may(get), *self.gets_that_may(get))
        is_blind = all(any(self.plan.is_before(get, event) for event in events) for events in found)
        if self.is_wrong("get-now: before nothing"):
            is_blind = not found
        by_rules = self.comes_surely(get) or self.is_wrong("get-now: sure by libraries alone")
        by_all = self.libraries_have(get) or self.is_wrong("get-now: sure by the rules alone")
        if not is_blind and not (by_rules and by_all):
            yield "get-now"

    def delivering(self, get: Event, beside: Callable[[int, int], bool]) -> Iterator[Fence]:
        """The fences that bring the key of a get-now by the rules, with a member beside it."""
        owner, key = self.facts.asked_of(get), self.facts.words(get)[2]
        for fence, calls in self.plan.arrivals.items():
            put = self.stored(owner, key, self.facts.at[calls[owner]]) if owner in calls else None
            is_whole = len(calls) == len(fence.members)
            if put and is_whole and all(map(self.facts.collects, calls.values())):
                is_for = model.reaches(put.scope, False)
                if is_for or self.is_wrong("get-now: whatever the scope"):
                    yield from [fence] * any(beside(member, get.rank) for member in fence.members)

    def fences_that_may(self, get: Event) -> Iterator[list[Event]]:
        """The arrivals of each fence that may bring the key of a get-now."""
        if not self.is_wrong("get-now: no fence brings"):
            for fence in self.delivering(get, self.can_be_beside):
                events = [*self.plan.arrivals[fence].values()]
                if all(map(self.is_live, events)):
                    yield events

    def gets_that_may(self, get: Event) -> Iterator[list[Event]]:
        """The gets that may bring the key of a get-now. (By the definition also gets of a key that
        is for its owner's node alone: these are blamed themselves.)"""
        owner, key = self.facts.asked_of(get), self.facts.words(get)[2]
        of_it = self.is_wrong("get-now: gets of the key alone")
        at_any_time = self.is_wrong("get-now: gets that end before the commit too")
        for event in filter(self.is_live, self.gets_there(get, self.can_be_beside)):
            is_late = at_any_time or self.comes_within(owner, key, event)
            if is_late and (self.facts.words(event)[2] == key or not of_it):
                yield [event]

    def gets_there(self, get: Event, beside: Callable[[int, int], bool]) -> list[Event]:
        """The gets beside a get-now of the same rank."""
        if self.is_wrong("get-now: no get brings"):
            return []
        gets = self.gets_of(self.facts.asked_of(get), self.plan.firsts)
        return [event for event in gets if beside(event.rank, get.rank)]

    def comes_within(self, owner: int, key: bytes, get: Event) -> bool:
        """Whether a live commit brings a key for other nodes, and a get doesn't end before it."""
        for commit in self.commits(owner):
            put = self.stored(owner, key, self.facts.at[commit] + 1)
            is_first = put is not None and self.lacked(owner, key, commit)
            if put and is_first and model.reaches(put.scope, False):
                return not self.plan.is_before(get, commit)
        return False

    def comes_surely(self, get: Event) -> bool:
        """Whether by the rules a key has surely come."""
        owner, key = self.facts.asked_of(get), self.facts.words(get)[2]
        for fence in self.delivering(get, self.is_beside):
            if all(
                self.plan.is_before(arrival, get) for arrival in self.plan.arrivals[fence].values()
            ):
                return True
        kept = self.gets_there(get, self.is_beside) if self.plan.keeps else []
        its = (event for event in kept if self.facts.words(event)[2] == key)
        there = self.facts.there(owner, key)
        put = self.stored(owner, key, there) if there < NEVER else None
        is_for = put is not None and model.reaches(put.scope, False)
        return is_for and any(self.plan.is_before(event, get) for event in its)

    def libraries_have(self, get: Event) -> bool:
        """Whether a key has surely come in each library of the family."""
        brings = self.family.brings or self.is_wrong("get-now: a fence brings in each library")
        for fence in self.delivering(get, self.is_beside) if brings else ():
            if self.has_job_member(fence, get) and self.is_left_before(fence, get):
                return True
        gets = self.gets_there(get, self.is_beside)
        before = [event for event in gets if self.plan.is_before(event, get)]
        return any(self.is_brought_by(event, get) for event in before)

    def has_job_member(self, fence: Fence, get: Event) -> bool:
        """Whether a member beside a get-now is of the owner's job."""
        job, of_any = self.facts.job, self.is_wrong("get-now: beside a member of any job")
        here = [member for member in fence.members if self.is_beside(member, get.rank)]
        return of_any or job(self.facts.asked_of(get)) in map(job, here)

    def is_left_before(self, fence: Fence, get: Event) -> bool:
        """Whether a rank beside a get-now has left a fence before it."""
        calls, by_anyone = self.plan.arrivals[fence], self.is_wrong("get-now: left by anyone")
        here = (call for call in calls.values() if by_anyone or self.is_beside(call.rank, get.rank))
        return any(self.plan.is_before(event._replace(leaves=True), get) for event in here)

    def is_brought_by(self, got: Event, get: Event) -> bool:
        """Whether the key of a get comes no earlier than that of a get-now, which is for other
        nodes."""
        owner, key = self.facts.asked_of(get), self.facts.words(get)[2]
        comes = self.facts.there(owner, self.facts.words(got)[2])
        if self.is_wrong("get-now: any get has it"):
            comes = max(comes, self.facts.there(owner, key))
        put = self.stored(owner, key, comes) if comes < NEVER else None
        return put is not None and model.reaches(put.scope, False)

    # Fences and names.

    def of_fences(self) -> Iterator[Blamed]:
        """What is blamed of the fences over each set: each at its first live call, or where that is
        spelt as the first over the set is, the first that isn't."""
        firsts: dict[frozenset[int], Event] = {}
        for call in sorted(filter(self.counts, self.plan.fence_of)):
            firsts.setdefault(self.facts.members(call), call)
        for fence, arrivals in self.plan.arrivals.items():
            calls = sorted(filter(self.counts, arrivals.values()))
            for rule in self.rules_of_fence(calls) if calls else ():
                yield Blamed(calls[0], rule)
            its = self.spell(firsts[fence.members]) if calls else None
            yield from [
                Blamed(each_call, "fence-spelling")
                for each_call in calls
                if self.spell(each_call) != its
            ][:1]

    def counts(self, call: Event) -> bool:
        """Whether a call of a fence comes."""
        return self.is_live(call) or self.is_wrong("fences that don't come")

    def rules_of_fence(self, calls: list[Event]) -> Iterator[str]:
        """The rules by which a fence is blamed, but for its spelling."""
        if None in map(self.facts.spell, calls):
            yield "fence-repeats"
        if not self.library.takes(self.facts, calls[0]):
            yield "fence-jobs"
        if self.is_wrong("fence-collect: of all fences over a set"):
            members, live = self.facts.members(calls[0]), filter(self.is_live, self.plan.fence_of)
            calls = [event for event in live if self.facts.members(event) == members]
        if len({*map(self.facts.collects, calls)}) > 1:
            yield "fence-collect"

    def spell(self, call: Event) -> object:
        """How a call of a fence spells its set."""
        is_so = self.is_wrong("fence-spelling: as it is written")
        return self.facts.words(call)[1] if is_so else self.facts.spell(call)

    def rules_of_name(self, call: Event, verb: bytes) -> Iterator[str]:
        """The rules of a publish or an unpublish: of a settled plan by what the rules reply, else
        by how often the name is published or taken away."""
        name = self.facts.words(call)[1]
        if [verb, name] == model.STAR:
            yield "unpublish-all"
            return
        reply = model_runs.Run(self.plan).go().end(call)
        is_once = len(self.plan.publishes[name]) == 1 and not self.is_taken_away(name)
        is_refused = reply in (model.DUPLICATE, model.NOT_FOUND)
        if is_refused if self.is_settled else not is_once:
            yield "published" if verb == b"publish" else "unpublished"

    def is_taken_away(self, name: bytes) -> bool:
        """Whether an unpublish names a name."""
        return any(self.facts.words(event)[0] == b"unpublish" for event in self.plan.on_name[name])


def blame(facts: Facts, name: str, asked: Asked = Asked()) -> set[Blamed]:
    """What is blamed of a plan for a library, by the name of its table."""
    return {*Conditions(facts, LIBRARIES[name], asked).blamed()}


def tell(facts: Facts, asked: Asked = Asked()) -> list[str]:
    """The lines of `check --portable` behind the findings, those of calls in their order."""
    found: dict[Blamed, list[str]] = {}
    for name, short in JUDGED.items():
        for other_blamed in blame(facts, name, asked):
            found.setdefault(other_blamed, []).append(short)
    lines = []
    for each_blamed in sorted(
        found, key=lambda other_blamed: (other_blamed.call, other_blamed.rule)
    ):
        call, verb = (
            facts.plan.call_text(each_blamed.call).decode(),
            facts.words(each_blamed.call)[0].decode(),
        )
        lines.append(f"unportable {call} {verb} {each_blamed.rule} {','.join(found[each_blamed])}")
    blamed = {each_name for names in found.values() for each_name in names}
    portable = ",".join(text for text in JUDGED.values() if text not in blamed)
    return [*lines, f"portable {portable or 'none'}"]
