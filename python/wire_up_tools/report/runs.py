"""Two runs that show a race, as `wire_up witness --json` and `wire_up follow --json` tell them."""
import enum
import functools
import tempfile
import time
from collections.abc import Mapping, Sequence
from dataclasses import dataclass
from typing import Any

from wire_up_tools.limits import VERSION_2
from wire_up_tools.plan import Call
from wire_up_tools.report.asking import CLEAN, FOUND, NOT_READ, Asker, name_pair, read_json
from wire_up_tools.report.findings import Finding, Kind
from wire_up_tools.report.language import name_verb, say_value

# For how many seconds runs and chains are looked for, for all findings together. Of a large plan:
# for how many times the time of a check.
SECONDS, CHECKS = 60, 3


class Outcome(enum.Enum):
    """Whether two runs were found, and if not, why."""

    SHOWN = enum.auto()
    NOT_SHOWN = enum.auto()
    REWRITE = enum.auto()
    ABSENT = enum.auto()
    LATE = enum.auto()
    LARGE = enum.auto()


@dataclass(frozen=True)
class End:
    """How a call ends in a run: the name and the verb of the call, and its reply and value."""

    call: str
    verb: str
    said: str


@dataclass(frozen=True)
class Run:
    """One of two runs: which call of the race comes first in it, and which rank takes each step.

    `ends` are those of the calls that end otherwise in the other run.
    """

    starts_with: Call
    order: Sequence[str]
    ends: Sequence[End]


@dataclass(frozen=True)
class Runs:
    """Two runs that show a race: none, unless it is shown."""

    outcome: Outcome
    both: Sequence[Run] = ()


@dataclass(frozen=True)
class Search:
    """A search for runs and chains: the checker, and until when.

    The deadline is a moment of the monotonic clock, in seconds.
    """

    asker: Asker
    deadline: float

    @property
    def is_late(self) -> bool:
        """Whether its time is over."""
        return time.monotonic() > self.deadline


def begin_search(asker: Asker, took: float) -> Search:
    """Begins to look for runs, where a check took so many seconds: not long of a large plan."""
    is_large = len(asker.data) > VERSION_2.plan_bytes
    seconds = CHECKS * took if is_large else SECONDS
    return Search(asker, time.monotonic() + seconds)


def find_runs(search: Search, finding: Finding) -> Runs:
    """Asks for two runs that show a finding.

    Raises Refused if the checker can't be run, or writes runs of another form.
    """
    if finding.kind is Kind.REWRITE:
        return Runs(Outcome.REWRITE)
    if search.is_late:
        return Runs(Outcome.LATE)
    asker, pair = search.asker, name_pair(finding.first, finding.second)
    answer = asker.ask("witness", "--json", *pair)
    if answer.status == NOT_READ:
        return Runs(Outcome.ABSENT)
    if asker.checker.is_large and answer.status not in (CLEAN, FOUND):
        return Runs(Outcome.LARGE)
    said = read_json(answer)
    if not said.get("shown"):
        return Runs(Outcome.NOT_SHOWN)
    try:
        return Runs(Outcome.SHOWN, read_runs(asker, finding, said))
    except (LookupError, TypeError):
        raise asker.refuse("run") from None


def read_runs(asker: Asker, finding: Finding, said: Any) -> list[Run]:
    """The two runs that the checker wrote: of their ends, first that of the call it names."""
    shown = f"{said['shown']['proc']} {said['shown']['call']}"
    orders = [said[word]["order"] for word in ("first", "second")]
    recorded, verb = finding.first.rank.is_recorded, said["shown"]["verb"]
    ends = [follow(asker, order, is_recorded=recorded) for order in orders]
    differing = [call for call in list_differing(*ends) if call != shown]
    verb = name_verb(verb, is_recorded=recorded)
    told = [describe_end(said[word], is_recorded=recorded) for word in ("first", "second")]
    return [
        Run(call, order, [End(shown, verb, end), *(of_run[each_call] for each_call in differing)])
        for call, order, end, of_run in zip(finding.calls, orders, told, ends)
    ]


def list_differing(one: Mapping[str, End], other: Mapping[str, End]) -> list[str]:
    """The names of the calls that end differently in two runs."""
    return [call for call in one if call in other and one[call] != other[call]]


def follow(asker: Asker, order: Sequence[str], *, is_recorded: bool) -> dict[str, End]:
    """How each call ends in the run of an order, by its name; none if it can't be followed."""
    with tempfile.NamedTemporaryFile(
        "w", prefix="wire_up-report-", suffix=".order", encoding="ascii"
    ) as to:
        to.writelines(f"{step}\n" for step in order)
        to.flush()
        said = read_json(asker.ask("follow", "--json", to.name))
    name_of = functools.partial(name_verb, is_recorded=is_recorded)
    describe = functools.partial(describe_end, is_recorded=is_recorded)
    calls = (
        End(name, name_of(call["verb"]), describe(call))
        for rank in said.get("ranks", ())
        for number, call in enumerate(rank["calls"], 1)
        for name in [f"{rank['proc']} {number}"]
    )
    return {each_call.call: each_call for each_call in calls}


def describe_end(said: Any, *, is_recorded: bool) -> str:
    """The reply to a call, and its value if it has one."""
    if "value" not in said:
        return str(said["reply"])
    value = say_value(said["value"], is_recorded=is_recorded)
    return f"{said['reply']}{',' * (value != said['value'])} {value}"
