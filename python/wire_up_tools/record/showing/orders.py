"""Makes both orders of two calls in a program, and says what came of it."""
from collections.abc import Sequence
from dataclasses import dataclass

from wire_up_tools.checker import Checker
from wire_up_tools.plan import Call, Plan
from wire_up_tools.record.showing.comparing import Compared, compare
from wire_up_tools.record.showing.held_runs import HeldRun, Session, run_held
from wire_up_tools.record.showing.holds import Holds, Until, Wait
from wire_up_tools.record.showing.messages import Swap, find_swaps
from wire_up_tools.record.showing.missing import Missed, explain_by_plan, find_missed
from wire_up_tools.record.showing.naming import Naming, Target
from wire_up_tools.record.showing.plain_runs import PlainRuns, leave_out_own
from wire_up_tools.record.showing.traces import Traces
from wire_up_tools.run.turns import read_steps

SHOWN, SHOWN_LATER, ALIKE, NOT_MADE = "shown", "shown-later", "alike", "not-made"
FIRST, SECOND = "first", "second"
# How the line of `check` about two calls begins that don't race.
NO_RACE = "no race"
# How many other orders of messages are tried for each order of two calls.
MOST_SWAPS = 8
# The status with which `witness` answers where it shows a race.
OF_SHOWN = 1


@dataclass(frozen=True, eq=False)
class Race:
    """Two calls of a plan, the line of `check` that says they race, or that they don't, and where
    this stands among those that are tried, from 1."""

    line: str
    targets: Sequence[Target]
    number: int

    @property
    def is_race(self) -> bool:
        """Whether they race in the plan, as far as is known."""
        return not self.line.startswith(NO_RACE)

    @property
    def words(self) -> list[str]:
        """Its two calls, as `witness` takes them."""
        return [word for target in self.targets for word in (target.process, str(target.number))]


@dataclass(frozen=True, eq=False)
class Shown:
    """What came of a race: a word for it, the two runs, why an order wasn't made, by which means
    the orders were made besides one held call, what differs, and whether the runs are those in
    which all calls on the name come in the orders of `witness`."""

    race: Race
    word: str
    runs: Sequence[HeldRun]
    missed: Sequence[Missed | None]
    means: Sequence[str]
    compared: Compared
    is_by_witness: bool = False

    @property
    def names(self) -> list[str]:
        """What each of the two runs is called."""
        if self.is_by_witness:
            return ["first order", "second order"]
        return [f"{target.place} first" for target in self.race.targets]


@dataclass(frozen=True)
class Trial:
    """What races are tried with: the session, the checker with the plan and its text, the names of
    its calls, what the processes did in the first run, if there was one, and the runs in which
    nothing is held."""

    session: Session
    checker: Checker | None
    plan: Plan
    text: str
    naming: Naming
    traces: Traces
    plains: PlainRuns


@dataclass(frozen=True)
class Made:
    """A run for an order, why that wasn't made, and by which swap of messages it was."""

    run: HeldRun
    missed: Missed | None
    swap: Swap | None = None


def choose_end(trial: Trial, first: Target, second: Target) -> Until:
    """How far the first call must be before the second may go: a fence of which the other's process
    is a member is never over before."""
    call = trial.plan.find_call(first.process, first.number)
    meeting = trial.plan.meeting_of.get(call)
    is_member = meeting is not None and second.process in meeting.members
    return Until.HAS_COME if is_member else Until.IS_OVER


def hold_order(trial: Trial, order: Sequence[Target], swap: Swap | None) -> Holds:
    """Holds by which the second of two calls waits for the first, and a send for another."""
    first, second = order
    waits = {2: [Wait(1, choose_end(trial, first, second))]}
    if not swap:
        return Holds([first, second], waits)
    waits[3] = [Wait(4, Until.HAS_COME)]
    return Holds([first, second, swap.held, swap.awaited], waits)


def make_order(trial: Trial, order: Sequence[Target], name: str) -> Made:
    """Runs the program so that the first of two calls is over before the second; if need be with
    messages of any source in another order."""
    run = run_held(trial.session, hold_order(trial, order, None), name)
    missed = find_missed(run, *order)
    if missed is None:
        return Made(run, None)
    swaps = find_swaps(trial.traces or run.traces)[:MOST_SWAPS]
    for number, swap in enumerate(swaps, 1):
        other = run_held(trial.session, hold_order(trial, order, swap), f"{name}-swap-{number}")
        if find_missed(other, *order) is None:
            return Made(other, None, swap)
    return Made(run, missed)


def compare_made(trial: Trial, runs: Sequence[HeldRun], race: Race) -> Compared:
    """What differs between two runs of a race. Raises Refused, NotRun, OSError."""
    compared = compare(runs, race.targets)
    return leave_out_own(compared, runs, race.targets, trial.plains)


def find_word(missed: Sequence[Missed | None], compared: Compared) -> str:
    """The word for what came of a race."""
    if any(missed):
        return NOT_MADE
    if compared.targets:
        return SHOWN
    return ALIKE if compared.is_alike else SHOWN_LATER


def is_about(call: Call, about: str, owner: str | None) -> bool:
    """Whether a call is on a name; of a key, which has an owner, the racing calls are enough."""
    return owner is None and call.about == about and call.verb not in ("put", "get", "get-now")


def order_by_witness(trial: Trial, race: Race, which: str) -> Sequence[Target]:
    """The calls on the name of a race, in the order of a run that shows it; none where `witness`
    has no such run."""
    if trial.checker is None:
        return ()
    answer = trial.checker.ask("witness", f"--{which}", *race.words, plan=trial.text.encode())
    if answer.status != OF_SHOWN:
        return ()
    racing = [trial.plan.find_call(target.process, target.number) for target in race.targets]
    owner = next(
        (each_call.target for each_call in racing if each_call.verb.startswith("get")), None
    )
    about = next((each_call.about for each_call in racing if each_call.about), "")
    found: dict[tuple[str, int], Target] = {}
    for step in read_steps(trial.plan, answer.stdout.split()):
        call = trial.plan.find_call(step.rank, step.number)
        if trial.naming.is_of_program(call) and (call in racing or is_about(call, about, owner)):
            found.setdefault((step.rank, step.number), trial.naming.find(step.rank, step.number))
    return list(found.values())


def run_by_witness(trial: Trial, order: Sequence[Target], name: str) -> HeldRun:
    """A run in which each of some calls waits for the one before it."""
    waits = {
        n + 1: [Wait(n)]
        for n in range(1, len(order))
        if order[n].process != order[n - 1].process
    }
    return run_held(trial.session, Holds(order, waits), name)


def try_witness(trial: Trial, race: Race) -> tuple[list[HeldRun], str] | None:
    """Two runs by the orders of the witness, and how they were made; None where there are none."""
    orders = [order_by_witness(trial, race, text) for text in (FIRST, SECOND)]
    if not all(orders):
        return None
    runs = [
        run_by_witness(trial, order, f"race-{race.number}-witness-{which}")
        for order, which in zip(orders, (FIRST, SECOND))
    ]
    late = sum(course.late is not None for run in runs for course in run.courses.values())
    but = f", but {late} of them that waited in vain for their turn" if late else ""
    return runs, (
        f"holding one call made no difference: so all {len(orders[0])} calls on that name were "
        f"made one after another, in the two orders of `wire_up witness`{but}"
    )


def try_race(trial: Trial, race: Race) -> Shown:
    """Makes both orders of a race, and says what came of it. Raises Refused, NotRun, OSError."""
    orders = (race.targets, race.targets[::-1])
    made = [
        make_order(trial, order, f"race-{race.number}-{which}")
        for order, which in zip(orders, (FIRST, SECOND))
    ]
    runs, missed = [each_order.run for each_order in made], [
        each_order.missed for each_order in made
    ]
    missed = missed if race.is_race else list(map(explain_by_plan, missed))
    means = [f"with {each_order.swap}" for each_order in made if each_order.swap]
    compared = compare_made(trial, runs, race)
    word = find_word(missed, compared)
    by_witness, is_by_witness = try_witness(trial, race) if word == ALIKE else None, False
    if by_witness:
        others = compare_made(trial, by_witness[0], race)
        means.append(by_witness[1])
        if not others.is_alike:
            runs, compared, is_by_witness = by_witness[0], others, True
            word = find_word(missed, compared)
    return Shown(race, word, runs, missed, means, compared, is_by_witness)
