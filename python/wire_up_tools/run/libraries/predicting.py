"""What a library replies to each call of a plan, and by which rule."""
from collections.abc import Sequence
from dataclasses import dataclass, field

from wire_up_tools.plan import Call, Plan, Rank
from wire_up_tools.run.libraries.fences import Fences
from wire_up_tools.run.libraries.gets import answer_get
from wire_up_tools.run.libraries.name_calls import BAD, answer_name_call
from wire_up_tools.run.libraries.rules import Rule
from wire_up_tools.run.libraries.traits import Mixed, Traits
from wire_up_tools.run.libraries.world import SUCCESS, Held, Question, Reply, World
from wire_up_tools.run.reports import (
    UNREACHED,
    WAITING,
    Difference,
    Line,
    Place,
    Report,
    compare,
)
from wire_up_tools.words import is_reserved

# A way more takes as long as each of the others.
MOST_FIRST = 16


@dataclass(eq=False)
class Prediction:
    """A run of a plan by the rules of a library."""

    world: World
    fences: Fences = field(init=False)
    replies: dict[str, list[str]] = field(init=False)

    def __post_init__(self) -> None:
        self.fences = Fences(self.world)
        self.replies = {rank.name: [] for rank in self.world.plan.ranks}

    def find_call(self, rank: Rank) -> Call | None:
        """The call at which a rank stands."""
        calls, done = self.world.plan.calls_of[rank.name], len(self.replies[rank.name])
        return calls[done] if done < len(calls) else None

    def step(self, rank: Rank) -> bool:
        """Takes the next step of a rank, and answers whether it could."""
        call = self.find_call(rank)
        if call is None:
            return False
        if call.verb == "fence" and rank.name not in self.fences.standing:
            self.fences.arrive(call)
            return True
        reply = self.fences.leave(call) if call.verb == "fence" else self.answer(call)
        if reply is not None:
            self.replies[rank.name].append(reply)
        return reply is not None

    def answer(self, call: Call) -> Reply:
        """What a call gives that is no fence; None where it waits."""
        owner = self.world.owners[call.rank.name]
        if call.verb == "put":
            return self.put(call)
        if call.verb == "commit":
            owner.commit()
            return SUCCESS
        if call.verb in ("get", "get-now"):
            of = self.world.ranks[call.target]
            asked = Question(self.world, call.rank, of, call.about, call.verb == "get")
            return answer_get(asked)
        return answer_name_call(self.world, call)

    def put(self, call: Call) -> Reply:
        """What a put gives."""
        key, owner = call.about, self.world.owners[call.rank.name]
        is_taken = self.world.traits.takes_reserved or key.startswith("PMIX_")
        if is_reserved(key) and not (self.world.has(Rule.RESERVED_KEYS) and is_taken):
            return BAD
        held = Held(call.target, key, call.words[3])
        owner.put[key] = held
        owner.held.append(held)
        return SUCCESS

    def run(self, way: "Way") -> None:
        """Takes the steps of an order, as far as they can be taken, and then those of the first
        rank that can go on."""
        for name in way.order:
            self.step(self.world.ranks[name])
        in_turn = way.sort(self.world.plan.ranks)
        self.world.spares_others = way.spares_others
        self.world.holds_answers, is_over = way.is_slow, False
        while not is_over:
            is_over = not any(self.step(rank) for rank in in_turn)
            if is_over and self.world.holds_answers:
                self.world.holds_answers = is_over = False
            elif not is_over:
                self.world.holds_answers = way.is_slow

    def report(self) -> Report:
        """What became of all calls."""
        lines = []
        for rank in self.world.plan.ranks:
            replies = self.replies[rank.name]
            for call in self.world.plan.calls_of[rank.name]:
                at = call.number - 1
                after = WAITING if at == len(replies) else UNREACHED
                place = Place(rank.name, call.number, call.verb)
                lines.append(Line(place, replies[at] if at < len(replies) else after))
        return Report(lines)


@dataclass(frozen=True)
class Way:
    """Which steps come first: those of an order, then those of a rank that is named, and then those
    of the lowest rank that can go on, or of the highest. In a slow one requests are answered once
    nobody can do anything else; one that spares others lets some fences succeed."""

    order: Sequence[str] = ()
    is_backwards: bool = False
    first: str = ""
    is_slow: bool = False
    spares_others: bool = False

    def sort(self, ranks: Sequence[Rank]) -> list[Rank]:
        """The ranks, those first whose steps come first."""
        in_turn = ranks[::-1] if self.is_backwards else ranks
        return sorted(in_turn, key=lambda rank: rank.name != self.first)


LOWEST_FIRST = Way()


def predict(
    plan: Plan, traits: Traits, without: Rule | None = None, way: Way = LOWEST_FIRST
) -> Report:
    """The report of a library by its rules, or by all of them but one."""
    rules = traits.rules if without is None else traits.rules - {without}
    prediction = Prediction(World(plan, traits, rules))
    prediction.run(way)
    return prediction.report()


def list_ways(plan: Plan, traits: Traits) -> list[Way]:
    """The ways that are taken of a plan without races: with the lowest rank first, and with the
    highest; where ranks share requests, slowly too; and where a fence fails for some of its
    callers, with each that may be the first, or sparing others."""
    ways = [LOWEST_FIRST, Way(is_backwards=True)]
    if Rule.SHARED_REQUEST in traits.rules:
        ways += [Way(is_slow=True), Way(is_backwards=True, is_slow=True)]
    if traits.mixed is Mixed.FAILS:
        ways.append(Way(spares_others=True))
    if traits.mixed is Mixed.FAILS_FOR_FIRST:
        prediction = Prediction(World(plan, traits, traits.rules))
        prediction.run(LOWEST_FIRST)
        ways += [Way(first=text) for text in prediction.fences.list_mixed()[:MOST_FIRST]]
    return ways


@dataclass(frozen=True)
class Predicted:
    """A call that a library answers otherwise, and the rules without which it would not reply so;
    where there is none, several rules do it together."""

    difference: Difference
    rules: Sequence[Rule]


def explain_differences(
    plan: Plan, traits: Traits, rules: Report, way: Way = LOWEST_FIRST
) -> list[Predicted]:
    """The calls that a library answers otherwise than the rules' report, each with why."""
    found = compare(rules, predict(plan, traits, way=way))
    if not found:
        return []
    others = {
        rule: {line.place: line.reply for line in predict(plan, traits, rule, way).lines}
        for rule in sorted(traits.rules, key=lambda each_rule: each_rule.name)
    }
    return [
        Predicted(
            difference,
            [rule for rule, said in others.items() if said[difference.place] != difference.library],
        )
        for difference in found
    ]
