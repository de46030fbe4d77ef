"""Looks through all that a library may do with a plan by the axioms (library_axioms.py), for what
isn't by the rules: the first answer that is another, or an end at which the rules go on.

Up to that answer all were those of the rules. So each state is looked at to which a history leads
that has their replies alone, and there each call that is made, with each reply that it could have.
"""
from collections.abc import Iterator, Mapping

from tests.models import model, model_runs
from tests.models.library_axioms import UNREACHED, WAITING, Axioms, Library, State
from tests.models.library_histories import Search
from tests.models.library_plans import NEVER, Facts, succeed
from tests.models.model import Event


FAILED = b"PMIX_ERROR"


class Divergence(Search):
    """The search for a history that isn't by the rules, whose replies are given."""

    def __init__(self, facts: Facts, library: Library, rules: Mapping[Event, bytes]) -> None:
        super().__init__(Axioms(facts, library, rules))
        self.rules = rules
        self.count = 0

    def is_quiet(self, event: Event) -> bool:
        """No step is taken before it is looked at."""
        return False

    def is_made_at_once(self, event: Event) -> bool:
        """Nor is a call made before it is."""
        return False

    def replies(self, event: Event) -> set[bytes]:
        """The replies that a call could have, one for all other errors."""
        verb, *words = self.facts.words(event)
        if verb in (b"get", b"get-now") and not model.is_reserved(words[1]):
            owner = self.facts.plan.rank_of[words[0]]
            found = self.facts.replies(owner, words[1], NEVER)
            own = (table.get(words[1]) for table in self.facts.own[owner])
            return found | {succeed(put.value) for put in own if put} | {model.NOT_FOUND}
        if verb in (b"lookup", b"lookup-wait"):
            calls = (
                self.facts.words(each_event)
                for events in self.facts.events
                for each_event in events
            )
            return {succeed(call[2]) for call in calls if call[0] == b"publish"} | {model.NOT_FOUND}
        return {model.SUCCESS, FAILED}

    def others(self, event: Event) -> set[bytes]:
        """Those that aren't the rules'. Of a call that waits by the rules none is."""
        return self.replies(event) - {self.axioms.wanted(event)}

    def may_differ(self, state: State, event: Event) -> bool:
        """Whether a call that is made may be answered otherwise."""
        first, axioms = event._replace(leaves=False), self.axioms
        if self.facts.words(event)[0] == b"fence" and not event.leaves:
            return False
        try:
            for text in self.others(event):
                axioms.seen = {**self.rules, first: text}
                if axioms.may(state, event):
                    return True
            return False
        finally:
            axioms.seen = self.rules

    def stands_early(self, state: State) -> bool:
        """Whether the library owes no answer, and a call isn't answered that is by the rules."""
        nexts = [*self.nexts(state)]
        if any(
            not self.is_asked(state, each_next) or self.axioms.owes(state, each_next)
            for each_next in nexts
        ):
            return False
        return any(self.axioms.wanted(each_next) not in (WAITING, UNREACHED) for each_next in nexts)

    def differs(self, state: State) -> str | None:
        """What isn't by the rules at a state."""
        for event in self.nexts(state):
            if self.is_asked(state, event) and self.may_differ(state, event):
                return f"{self.facts.plan.call_text(event).decode()} may be answered otherwise"
        return "it may stand earlier" if self.stands_early(state) else None

    def find(self, most: int) -> Iterator[str | None]:
        """What isn't by the rules, if anything is: one answer. None is given where that would take
        more states than so many."""
        stack = [self.start()]
        known = {*stack}
        while stack:
            state = stack.pop()
            found = self.differs(state)
            if found or len(known) > most:
                if found:
                    yield found
                return
            new = {*self.steps(state)} - known
            known |= new
            self.count = len(known)
            stack += new
        yield None


def find_divergence(facts: Facts, library: Library, most: int) -> Iterator[str | None]:
    """What a library may do otherwise than the rules: one answer, as `find` gives it."""
    run = model_runs.Run(facts.plan).go()
    rules = {event: run.end(event) for event in facts.plan.firsts}
    return Divergence(facts, library, rules).find(most)
