"""How long trying races and orders takes: said before it begins, while it goes on, and where the
time is over."""
import math
import time
from dataclasses import dataclass, field, replace

from wire_up_tools.record.showing.asking import Asked
from wire_up_tools.record.showing.material import Say
from wire_up_tools.record.showing.orders import Trial
from wire_up_tools.record.showing.same_program import hold_to_plan
from wire_up_tools.record.showing.server import Patience

AGAIN = "does again what it does to files and to others"
# Where it takes so many seconds, a line tells how far it is.
LONG_SECONDS = 30.0


@dataclass(frozen=True)
class Pace:
    """Says how far it is: about how many seconds it takes, how many there are for it, and since
    when it goes on."""

    about: float
    within: float
    say: Say
    began: float = field(default_factory=time.monotonic)

    def say_next(self, done: int, count: int) -> None:
        """Says how many are done, where it takes long."""
        if done and self.about >= LONG_SECONDS:
            self.say(f"{done} of {count} done, after {time.monotonic() - self.began:.0f} s")

    def say_left(self, what: str, done: int, count: int) -> int:
        """Says how many weren't tried, since the time is over, and answers it."""
        self.say(
            f"{what} that weren't tried: {count - done} of {count}, since {self.within:g} s are "
            "over: give more by --within"
        )
        return count - done


def begin_pace(trial: Trial, what: str, runs: int, in_vain: int, say: Say) -> Pace:
    """Says what is done again and how long that takes, by so many runs, with so many calls that may
    be held in vain. Raises OutOfTime, Refused, NotRun, OSError."""
    within = trial.session.within
    about = runs * trial.plains.find()[0].seconds + in_vain * trial.session.patience.hold
    times = f"{runs} times more at least" if runs > 1 else "once more at least"
    longest = trial.session.patience.limit
    takes = (
        f"about {math.ceil(about)} s; a run that doesn't end is ended after {longest:.0f} s, see "
        f"--limit; none begins after {within:g} s, see --within"
    )
    say(f"{what}: the command runs {times} ({takes}), and {AGAIN}")
    return Pace(about, within, say)


def hold_command(trial: Trial, asked: Asked, say: Say) -> Trial:
    """Runs the command of a plan that was recorded before once by itself, to see whether the plan
    is of this command, and how long it takes. Raises Refused, NotRun, OSError."""
    if trial.plains.made:
        return trial
    say(f"the command runs once by itself first, and {AGAIN}")
    run = trial.plains.find()[0]
    said = hold_to_plan(trial, run)
    if said:
        say(said)
    patience = Patience(asked.find_hold(run.seconds), asked.find_limit(run.seconds))
    session = replace(trial.session, patience=patience)
    return replace(trial, session=session, plains=replace(trial.plains, session=session))
