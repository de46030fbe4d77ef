"""What can be asked for: the options, and what is wrong with them."""
import argparse
import re
from dataclasses import dataclass

from wire_up_tools.failures import Unusable
from wire_up_tools.options import Option
from wire_up_tools.record.sizes.asking import FROM

# How many races or pairs are tried; how long nothing may move before a hold ends, and how long a
# run may take besides, in seconds, and in multiples of the first run.
MOST, HOLD, HOLD_TIMES, LIMIT, LIMIT_TIMES = 8, 2.0, 2.0, 10.0, 5.0
# How long a run may take, where there was no first one.
LIMIT_OF_PLAN = 60.0
# How long all runs may take together.
WITHIN = 300.0
# Two calls, as a line of `check` names them, with what it says besides or without that.
RACE = re.compile(
    r"(?:race )?(\S+) ([1-9]\d{0,8}) (\S+) ([1-9]\d{0,8})(?: (?:name \S+|key \S+ \S+))?"
)

OPTIONS = (
    Option(
        "--show",
        "",
        "runs the command twice more for the first race of each cause: one of its calls is held "
        "back until the other is over,\n"
        "                   and then the other way round. What the program does to files and to "
        "others, it does again",
    ),
    Option(
        "--show-race", "RACE", "does so for two calls of the plan, such as 'app:0 2 app:1 1'"
    ),
    Option(
        "--turn",
        "",
        "tries the other order of each two calls that the plan orders, of which one could change "
        "what the other is told: the\n"
        "                   first is held back until the second is over. If it never comes, the "
        "program keeps the order",
    ),
    Option(
        "--turn-waits",
        "COUNT",
        "besides so many orders of calls that wait for each other, which a library may give up",
    ),
    Option(
        "--of",
        "PLAN",
        "takes the calls of a plan that was recorded before, whose head then says what came of it",
    ),
    Option("--most", "COUNT", f"how many races or orders are tried; else {MOST}"),
    Option(
        "--hold",
        "SECONDS",
        f"how long nothing may move before a held call goes on; else {HOLD:g}, and "
        f"{HOLD_TIMES:g} times the first run at least",
    ),
    Option(
        "--limit",
        "SECONDS",
        f"how long such a run may take; else {LIMIT:g}, {LIMIT_TIMES:g} times the first and --hold",
    ),
    Option(
        "--within",
        "SECONDS",
        f"how long all these runs may take together: no other begins then; else {WITHIN:g}",
    ),
    Option(
        "--input",
        "FILE",
        "what all runs read as standard input; else it is empty for --show, --turn and --sizes",
    ),
    Option("--shown", "FILE", "writes also what came of it as JSON"),
)
# Those that say how something is shown.
OF_SHOWING = ("of", "most", "hold", "limit", "within", "input", "shown", "turn_waits")


@dataclass(frozen=True, kw_only=True)
class Asked:
    """What is to be shown: the first race of each cause, or two calls; whether orders are turned
    round, and how many of calls that wait; of the plan of this run or of one that is there; and
    how."""

    does_show: bool
    race: tuple[str, int, str, int] | None
    does_turn: bool
    turn_waits: int
    of: str | None
    most: int
    hold: float | None
    limit: float | None
    within: float
    source: str | None
    shown: str | None

    @property
    def task(self) -> list[str]:
        """The options that say what is to be shown."""
        race = " ".join(map(str, self.race or ()))
        found = ["--show"] * self.does_show + (["--show-race", race] if race else [])
        found += ["--turn"] * self.does_turn
        return found + (["--turn-waits", str(self.turn_waits)] if self.turn_waits else [])

    def find_hold(self, first: float | None) -> float:
        """How long nothing may move before a hold ends, by how long the first run took."""
        return self.hold or max(HOLD, HOLD_TIMES * (first or 0))

    def find_limit(self, first: float | None) -> float:
        """How long a run may take, by how long the first took: besides a hold."""
        by_first = LIMIT_OF_PLAN if first is None else LIMIT + LIMIT_TIMES * first
        return self.limit or by_first + self.find_hold(first)


def read_race(text: str) -> tuple[str, int, str, int]:
    """Two calls, which can stand in the line of `check` about them. Raises Unusable."""
    read = RACE.fullmatch(" ".join(text.split()))
    if not read:
        raise Unusable(
            f"--show-race {text!r}: needs two calls in one word, such as 'app:0 2 app:1 1', or the "
            "line of `wire_up check` that names them"
        )
    first, number, second, other = read.groups()
    if first == second:
        raise Unusable(f"--show-race {text!r}: both calls are of {first}")
    return first, int(number), second, int(other)


def read_seconds(name: str, text: str | None) -> float | None:
    """A time. Raises Unusable."""
    if text is None:
        return None
    if not re.fullmatch(r"\d{1,6}(\.\d{1,6})?", text) or not float(text):
        raise Unusable(f"{name} {text}: needs a number of seconds above 0")
    return float(text)


def read_count(name: str, text: str | None, other: int) -> int:
    """How many are tried; where nothing says it, as many as `other`. Raises Unusable."""
    if text is not None and not re.fullmatch(r"[1-9]\d{0,3}", text):
        raise Unusable(f"{name} {text}: needs a number from 1 to 9999")
    return int(text) if text else other


def is_asked(found: argparse.Namespace) -> bool:
    """Whether something is to be shown."""
    return bool(found.show or found.show_race is not None or found.turn)


def read_asked(found: argparse.Namespace) -> Asked | None:
    """What a command line asks to be shown; None if nothing. Raises Unusable."""
    if not is_asked(found):
        given = [name for name in OF_SHOWING if getattr(found, name) is not None]
        if given:
            named = given[0].replace("_", "-")
            raise Unusable(f"--{named} goes with --show, --show-race or --turn")
        return None
    if found.show and found.show_race is not None:
        raise Unusable("--show and --show-race are two tasks")
    if found.turn_waits is not None and not found.turn:
        raise Unusable("--turn-waits goes with --turn")
    if getattr(found, FROM.strip("-")) is not None:
        raise Unusable(f"the command runs again: {FROM} has none")
    hold, limit = read_seconds("--hold", found.hold), read_seconds("--limit", found.limit)
    if hold and limit and limit < hold:
        raise Unusable("--limit is below --hold")
    race = read_race(found.show_race) if found.show_race is not None else None
    return Asked(
        does_show=found.show,
        race=race,
        does_turn=found.turn,
        turn_waits=read_count("--turn-waits", found.turn_waits, 0),
        of=found.of,
        most=read_count("--most", found.most, MOST),
        hold=hold,
        limit=limit,
        within=read_seconds("--within", found.within) or WITHIN,
        source=found.input,
        shown=found.shown,
    )
