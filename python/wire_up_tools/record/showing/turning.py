"""Turns the orders of a plan round in the program: a call is held until one that the plan orders
after it is over."""
import itertools
from collections.abc import Iterator, Sequence
from dataclasses import dataclass
from typing import Any

from wire_up_tools.record.showing.comparing import Compared, compare
from wire_up_tools.record.showing.held_runs import HeldRun, run_held
from wire_up_tools.record.showing.holds import Course, Holds, Wait
from wire_up_tools.record.showing.missing import IN_CALLBACK, tell_standing
from wire_up_tools.record.showing.naming import Target
from wire_up_tools.record.showing.orders import Trial
from wire_up_tools.record.showing.pairs import Pair
from wire_up_tools.record.showing.plain_runs import leave_out_own
from wire_up_tools.record.showing.saying import (
    ANSWERED,
    GOES_ON,
    list_differences,
    say_differences,
    say_doubts,
    say_unseen,
    sum_up_doubts,
)
from wire_up_tools.record.showing.strikes import TIMED_OUT, find_held_seconds, tell_strikes

KEPT, TURNED, TURNED_ALIKE, NOT_TURNED = "kept", "turned", "turned-alike", "not-made"
# A call of these verbs, which the rules answer only once what it waits for is there, was ended by a
# limit of time that the library has.
GAVE_UP, WAITING = "gave-up", ("get", "lookup-wait")


@dataclass(frozen=True, eq=False)
class Turn:
    """What came of a pair, of which the plan has the first call before the second: a word for it,
    why, what differs from the first run, where the order was turned, and which limits of time can
    have struck."""

    pair: Pair
    word: str
    why: str = ""
    compared: Compared | None = None
    strikes: Sequence[str] = ()

    @property
    def name(self) -> str:
        """Its two calls."""
        return f"{self.pair[0].title}, {self.pair[1].title}"

    @property
    def is_alarm(self) -> bool:
        """Whether the verdict over the plan doesn't hold."""
        return self.word == TURNED


def hold_first(held: Target, others: Sequence[Target]) -> Holds:
    """Holds by which a call waits until any of some others is over."""
    waits = {1: [Wait(n) for n in range(2, len(others) + 2)]}
    return Holds([held, *others], waits, frozenset([1]))


def find_early(run: HeldRun, others: Sequence[Target]) -> list[Target]:
    """Those of some calls that were over before the held one went on."""
    gone = run.courses[1].gone
    overs = [run.courses[n].over for n in range(2, len(others) + 2)]
    return [other for other, over in zip(others, overs) if over and gone and over <= gone]


def judge_kept(run: HeldRun, held: Target, other: Target) -> Turn:
    """A call that didn't come while the one before it was held."""
    when = run.courses[1].late or 0.0
    standing = tell_standing(run, other.process, when)
    return Turn((held, other), KEPT, standing.why)


def judge_early(trial: Trial, run: HeldRun, held: Target, other: Target) -> Turn:
    """A call that was over while the one before it was held. Raises Refused, NotRun, OSError."""
    runs = [*trial.plains.find(), run]
    compared = leave_out_own(compare(runs, [held, other]), runs, [held, other], trial.plains)
    call = run.find(other)
    is_given_up = call is not None and call.reply.startswith(TIMED_OUT) and not call.gives_up
    if call and is_given_up and other.verb in WAITING:
        took = (call.ended or call.began) - call.began
        why = f"the library ended the wait with {call.reply} after {took:.1f} s"
        return Turn((held, other), GAVE_UP, why, compared)
    word = TURNED_ALIKE if compared.is_alike else TURNED
    why = f"the second was over first, while the other was held for {find_held_seconds(run):.1f} s"
    told = f"{why}, and all calls are answered alike" if compared.is_alike else why
    return Turn((held, other), word, f"{told} ({run.ending})", compared, tell_strikes(run))


def tell_why_not(course: Course) -> str:
    """Why a call wasn't held to some end."""
    if course.is_passed:
        return f"wasn't held: {IN_CALLBACK}"
    return "didn't come" if course.came is None else "was held when the run ended"


def turn_round(
    trial: Trial, held: Target, others: Sequence[Target], name: str
) -> Iterator[Turn]:
    """Holds a call until any of some others is over, and says what came of each. Those that such a
    run doesn't judge are tried again. Raises Refused, NotRun, OSError."""
    left = list(others)
    for attempt in itertools.count(1):
        run = run_held(trial.session, hold_first(held, left), f"{name}-{attempt}")
        course = run.courses[1]
        early = find_early(run, left)
        if course.late:
            yield from (judge_kept(run, held, other) for other in left)
            return
        if course.gone is None or course.is_passed:
            why = f"{held.title} {tell_why_not(course)} ({run.ending})"
            yield from (Turn((held, other), NOT_TURNED, why) for other in left)
            return
        yield from (judge_early(trial, run, held, other) for other in early)
        left = [other for other in left if other not in early]
        if not early or not left:
            return


def group_pairs(pairs: Sequence[Pair]) -> Iterator[tuple[Target, list[Target]]]:
    """Each call that comes first in some pairs, with those that come after it."""
    for held in dict.fromkeys(first for first, _ in pairs):
        yield held, [other for first, other in pairs if first == held]


def say_turn(turn: Turn) -> Iterator[str]:
    """The lines that say what came of a pair."""
    yield f"{turn.word} {turn.name}: {turn.why}" if turn.why else f"{turn.word} {turn.name}"
    compared = turn.compared
    if compared is None:
        return
    if turn.word != TURNED_ALIKE:
        yield from say_differences(ANSWERED, [*compared.targets, *compared.others])
        yield from say_differences(GOES_ON, compared.partings)
    yield from say_unseen(compared)
    yield from say_doubts(compared, turn.strikes)


def sum_up_turn(turn: Turn) -> str:
    """What came of a pair that was turned, in one line."""
    compared = turn.compared
    if compared is None:
        return f"{turn.name}: {turn.why}"
    doubts = sum_up_doubts(compared, turn.strikes)
    if not turn.is_alarm or not compared.differences:
        return f"{turn.name}: {turn.why}{doubts}"
    one = compared.differences[0]
    return f"{turn.name}: {one.process} {one.what}: {one.first} and {one.second}{doubts}"


def make_json_of_turn(turn: Turn) -> dict[str, Any]:
    """What came of a pair, for JSON."""
    first, second = turn.pair
    return {
        "pair": turn.name,
        "first": first.place,
        "second": second.place,
        "word": turn.word,
        "why": turn.why,
        **(list_differences(turn.compared) if turn.compared else {}),
        "limits": list(turn.strikes),
    }
