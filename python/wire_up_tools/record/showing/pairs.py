"""Pairs of calls that a plan orders, and of which the later could be answered otherwise if it came
first."""
import json
import re
import time
from collections.abc import Iterable, Iterator, Mapping, Sequence
from dataclasses import dataclass, field

from wire_up_tools.checker import Checker
from wire_up_tools.failures import Refused
from wire_up_tools.plan import Call
from wire_up_tools.record.showing.naming import EVERY_NAME, Target
from wire_up_tools.record.showing.orders import Trial
from wire_up_tools.record.showing.traces import OF_LIBRARY, Traces
from wire_up_tools.report.asking import Asker, stream_lines
from wire_up_tools.words import TIMED

# Verbs of calls on names that change something, and of those that only ask; the last ones wait.
CHANGE, ASK, WAIT = ("publish", "unpublish"), ("lookup", "get-now"), ("lookup-wait", "get")
# How many findings are read: those of a pair that is one aren't turned round.
MOST_FINDINGS = 20_000

Pair = tuple[Target, Target]
# A name, or a key with its owner.
Use = tuple[str, ...]


class SearchEnded(Exception):
    """Orders have been looked for as long as that may take."""


def hold_to_time(trial: Trial) -> None:
    """Raises SearchEnded where orders are looked for no longer."""
    if time.monotonic() > trial.session.search_until:
        raise SearchEnded


@dataclass
class Uses:
    """The calls that change something, and those that ask for it."""

    changes: list[Call] = field(default_factory=list)
    asks: list[Call] = field(default_factory=list)


def walk_uses(trial: Trial, rank: str) -> Iterator[tuple[Call, Use]]:
    """What the calls of a rank use, in their order."""
    stored: list[str] = []
    published: list[str] = []
    for call in trial.plan.calls_of[rank]:
        if not trial.naming.is_of_program(call):
            continue
        if call.verb == "put":
            stored.append(call.about)
        if call.verb == "publish":
            published.append(call.about)
        is_of_all = call.verb == "unpublish" and call.about == EVERY_NAME
        uses = [("name", name) for name in published] if is_of_all else name_uses(call, stored)
        yield from ((call, use) for use in dict.fromkeys(uses))
        stored = [] if call.verb == "commit" else stored


def list_limited(trial: Trial, traces: Traces) -> frozenset[str]:
    """The calls of a plan that wait, but in a run for a short time at most, or that the library
    which was recorded is known to answer by time."""
    found = {" ".join(line.split(" ")[:2]) for line in trial.plan.list_in_head(TIMED)}
    for process, trace in traces.items():
        limited = {key for call in trace.compared if call.gives_up for key in call.keys}
        targets = trial.naming.list_targets(process) if limited else ()
        found |= {one.place for one in targets if one and one.verb in WAIT and one.key in limited}
    return frozenset(found)


def list_uses(trial: Trial, verbs: Sequence[str], besides: frozenset[str]) -> Mapping[Use, Uses]:
    """The uses of each name and each key of a plan: of a key the commit that stores it counts.
    Those that ask have one of some verbs, or are some calls besides."""
    found: dict[Use, Uses] = {}
    for call, use in (used for rank in trial.plan.ranks for used in walk_uses(trial, rank.name)):
        uses = found.setdefault(use, Uses())
        if call.verb in verbs or call.name in besides:
            uses.asks.append(call)
        elif call.verb not in (*ASK, *WAIT):
            uses.changes.append(call)
    return found


def name_uses(call: Call, stored: Iterable[str]) -> Iterator[Use]:
    """What a call uses: a name, or keys of a process, of which a commit stores some. Keys of MPI's
    own library are left out."""
    if call.verb in CHANGE or call.verb in ("lookup", "lookup-wait"):
        yield "name", call.about
    elif call.verb == "commit":
        own = [key for key in dict.fromkeys(stored) if not OF_LIBRARY.match(f"put {key}")]
        yield from (("key", call.rank.name, key) for key in own)
    elif call.verb in ("get", "get-now"):
        yield "key", call.target, call.about


def list_candidates(uses: Uses) -> Iterator[tuple[Call, Call]]:
    """Two calls of different ranks of which one changes what the other asks for or changes."""
    for at, one in enumerate(uses.changes):
        on_names = uses.changes[at + 1:] if one.verb in CHANGE else []
        yield from ((one, other) for other in [*uses.asks, *on_names] if other.rank is not one.rank)


def read_findings(trial: Trial, checker: Checker) -> set[frozenset[str]]:
    """The pairs of calls that race. Raises SearchEnded."""
    found = set()
    for number, line in enumerate(stream_lines(Asker(checker, trial.text.encode()), "check")):
        hold_to_time(trial)
        words = line.split(" ")
        if words[0] == "race" and number < MOST_FINDINGS:
            found.add(frozenset((" ".join(words[1:3]), " ".join(words[3:5]))))
    return found


def order_pair(trial: Trial, checker: Checker, calls: Sequence[Call]) -> Sequence[Target]:
    """Two calls in the order that the plan gives them; none if it gives none. Raises Refused,
    SearchEnded."""
    hold_to_time(trial)
    pair = [trial.naming.find(call.rank.name, call.number) for call in calls]
    words = [word for one in pair for word in (one.process, str(one.number))]
    answer = checker.ask("why", "--json", *words, plan=trial.text.encode())
    before = json.loads(answer.stdout).get("before") if answer.stdout.startswith("{") else None
    return {"first": pair, "second": pair[::-1]}.get(before, ())


def find_kind(pair: Sequence[Call]) -> frozenset[tuple[str, str]]:
    """What two calls have in common with those that other ranks make in the same places of the
    program; where these aren't known, on names that differ by a number."""
    return frozenset((call.verb, call.place or re.sub(r"\d+", "#", call.about)) for call in pair)


def list_raceless(
    trial: Trial, checker: Checker, uses: Iterable[Uses]
) -> Iterator[Sequence[Call]]:
    """Two calls each that don't race, of which one could be answered otherwise by the other. Raises
    SearchEnded."""
    known = read_findings(trial, checker)
    for pair in (pair for used in uses for pair in list_candidates(used)):
        hold_to_time(trial)
        names = frozenset(call.name for call in pair)
        if names not in known:
            known.add(names)
            yield pair


def find_pairs(
    trial: Trial, verbs: Sequence[str], besides: frozenset[str] = frozenset()
) -> Iterator[Pair]:
    """The pairs that the plan orders, the earlier call first, whose other one asks by one of some
    verbs, or is one of some calls: the first of each kind before the others. Raises Refused without
    a checker, SearchEnded."""
    checker = trial.checker
    if checker is None:
        raise Refused("--turn needs the program `wire_up`, which knows the order: see --checker")
    kinds, left = set[object](), list[Sequence[Call]]()
    uses = list_uses(trial, verbs, besides).values()
    for pair in list_raceless(trial, checker, uses):
        ordered = () if find_kind(pair) in kinds else order_pair(trial, checker, pair)
        if ordered:
            kinds.add(find_kind(pair))
            yield ordered[0], ordered[1]
        elif find_kind(pair) in kinds:
            left.append(pair)
    for pair in left:
        ordered = order_pair(trial, checker, pair)
        if ordered:
            yield ordered[0], ordered[1]
