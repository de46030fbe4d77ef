"""The search for a history of a plan by the axioms of libraries (library_axioms.py) that gives the
replies which a library was seen to give.

A history is a sequence of moments: a rank makes its next call, or its event is answered. The search
looks through all in which each call is made once and each answer is the one that was seen, and
remembers the states to which it has come. Two kinds of steps are taken as soon as they can be, and
all others in each order. The answer to a put, to an arrival, to a question about names or about
one's own keys, to a get-now or to a get of a rank on the same node: no other rank notices it, or it
only allows more. And a get of another rank is made at once, unless one of the same node that asks
the same rank can come before it: a get that has waited for longer may be answered in more ways.
"""
import itertools
from collections.abc import Iterator

from tests.models.library_axioms import WAITING, Axioms, State
from tests.models.library_plans import put_at
from tests.models.model import Event


class Search:
    """The search for a history that gives what was seen."""

    def __init__(self, axioms: Axioms) -> None:
        self.axioms, self.facts, self.family = axioms, axioms.facts, axioms.family

    def start(self) -> State:
        """Before all moments."""
        ranks, pairs, named = self.facts.ranks, self.axioms.pairs, self.axioms.named
        done, asks = (0,) * len(ranks), (None,) * len(ranks)
        return State(done, asks, (0,) * len(pairs), (None,) * len(named))

    def nexts(self, state: State) -> Iterator[Event]:
        """The next event of each rank that has one."""
        for rank, events in enumerate(self.facts.events):
            yield from itertools.islice(events, state.done[rank], state.done[rank] + 1)

    def is_asked(self, state: State, event: Event) -> bool:
        """Whether the call is made: of calls other than gets of other ranks the moment isn't
        kept, since no axiom speaks of it."""
        is_kept = self.axioms.is_kind(event, b"get") and self.facts.is_get(event, b"get")
        return not is_kept or state.asks[event.rank] is not None

    def answer(self, state: State, event: Event) -> State:
        """The next event of a rank is answered."""
        at = event.rank
        names = self.axioms.names_after(state, event)
        done = put_at(state.done, at, state.done[at] + 1)
        asks = put_at(state.asks, at, None)
        return self.bring(State(done, asks, state.come, names))

    def make(self, state: State, event: Event) -> State:
        """A rank makes a get of another one."""
        ask = self.axioms.ask(state, event)
        return self.bring(state._replace(asks=put_at(state.asks, event.rank, ask)))

    def bring(self, state: State) -> State:
        """Notes what the gets that wait can have brought now."""
        come = list(state.come)
        for n, (node, owner) in enumerate(self.axioms.pairs):
            done = state.done[owner]
            gets = (event for event in self.axioms.gets if self.facts.asked_of(event) == owner)
            here = (
                each_event for each_event in gets if self.facts.plan.nodes[each_event.rank] == node
            )
            waiting = [
                other_event
                for other_event in here
                if state.asks[other_event.rank] and self.axioms.is_next(state, other_event)
            ]
            if any(
                self.family.at_once or self.axioms.key_comes(one_event) <= done
                for one_event in waiting
            ):
                come[n] = max(come[n], done)
        return state._replace(come=tuple(come))

    def is_quiet(self, event: Event) -> bool:
        """Whether its answer is noticed by no other rank, or only allows more."""
        verb = self.facts.words(event)[0]
        if verb == b"fence" and event.leaves:
            return not (self.family.brings and self.axioms.nows)
        is_change = verb in (b"commit", b"publish", b"unpublish")
        return not is_change and event not in self.axioms.gets

    def is_made_at_once(self, event: Event) -> bool:
        """Whether a get of another rank is made as soon as it can be: another one of the node can
        come before it to no use."""
        others = (each_event for each_event in self.axioms.gets if each_event.rank != event.rank)
        owner, nodes = self.facts.asked_of(event), self.facts.plan.nodes
        mates = (each_event for each_event in others if self.facts.asked_of(each_event) == owner)
        has_mates = any(nodes[mate.rank] == nodes[event.rank] for mate in mates)
        return self.family.at_once or event not in self.axioms.gets or not has_mates

    def quiet_step(self, state: State) -> State | None:
        """The state after a step that is taken as soon as it can be."""
        for event in self.nexts(state):
            if not self.is_asked(state, event):
                if self.is_made_at_once(event):
                    return self.make(state, event)
            elif self.is_quiet(event) and self.axioms.may(state, event):
                return self.answer(state, event)
        return None

    def settle(self, state: State) -> State:
        """Takes all those steps."""
        after: State | None = state
        while after:
            state, after = after, self.quiet_step(after)
        return state

    def steps(self, state: State) -> Iterator[State]:
        """The states to which the other steps lead."""
        for event in self.nexts(state):
            if not self.is_asked(state, event):
                yield self.settle(self.make(state, event))
            elif self.axioms.may(state, event):
                yield self.settle(self.answer(state, event))

    def is_end(self, state: State) -> bool:
        """Whether all that was seen has come, and what waits was seen to wait, and isn't owed an
        answer."""
        return all(
            self.is_asked(state, each_next)
            and self.axioms.wanted(each_next) == WAITING
            and not self.axioms.owes(state, each_next)
            for each_next in self.nexts(state)
        )

    def look(self) -> list[str]:
        """Nothing, if there is such a history; else the calls at which that one stands which gets
        furthest."""
        best = self.settle(self.start())
        stack, known = [best], {best}
        while stack:
            state = stack.pop()
            if self.is_end(state):
                return []
            best = max(best, state, key=lambda each_state: sum(each_state.done))
            new = {step for step in self.steps(state)} - known
            known |= new
            stack += sorted(new, key=lambda each_state: each_state.done)
        return [self.tell(each_next) for each_next in self.nexts(best)]

    def tell(self, event: Event) -> str:
        """A call, and what was seen of it."""
        text = self.facts.plan.call_text(event), *self.facts.words(event)[:1]
        return b" ".join((*text, self.axioms.wanted(event))).decode()
