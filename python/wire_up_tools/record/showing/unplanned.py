"""Pairs of calls of which a run's plan leaves one out, and of which the later could be answered
otherwise if it came first: the plan has no order of them, but the run had one."""
import re
from collections.abc import Iterator, Mapping, Sequence
from dataclasses import dataclass, field

from wire_up_tools.record.showing.naming import EVERY, Target, cut_item, mask, number_job
from wire_up_tools.record.showing.orders import Trial
from wire_up_tools.record.showing.pairs import Pair, Use
from wire_up_tools.record.showing.traces import Trace, TracedCall, Traces
from wire_up_tools.words import is_reserved

OF_NAMES = ("publish", "lookup", "unpublish")
# The directive of a lookup that waits, and how a call ends that changed what it is about.
WAITS, DONE = "pmix.wait=", "0"
# What a call is about that is on every key of a process.
EVERY_KEY = "every key"


@dataclass(frozen=True, eq=False)
class UsedCall:
    """A call of a run that changes something, or asks for it: its target, and the call itself."""

    target: Target
    call: TracedCall


@dataclass(eq=False)
class RunUses:
    """The calls of a run that change one thing, and those that ask for it."""

    changes: list[UsedCall] = field(default_factory=list)
    asks: list[UsedCall] = field(default_factory=list)


@dataclass(frozen=True)
class Finder:
    """Finds the calls of a run in its plan: `planned` has those of the plan, by process and
    name."""

    planned: Mapping[tuple[str, str, int], Target]
    traces: Traces

    def make_target(self, process: str, call: TracedCall, name: str, what: str) -> Target:
        """The target of a call: that of the plan, or else one that says what it is."""
        key = next((each_key for each_key in call.keys if each_key[0] == mask(name)), call.keys[0])
        trace = self.traces[process]
        other = Target(process, 0, number_job(trace.namespace), trace.rank, *key, what)
        return self.planned.get((process, *key), other)

    def use_names(self, process: str, call: TracedCall) -> Iterator[tuple[Use, UsedCall]]:
        """The names that a call is on. Of a publish a reserved one stands among its directives."""
        verb, _, items, directives = call.text.split(" ")[:4]
        published = directives.split(",") if verb == "publish" else []
        own = [part for part in published if is_reserved(cut_item(part))]
        for item in map(cut_item, [*items.split(","), *own]):
            if item not in ("-", EVERY) and WAITS not in directives:
                name = f"{verb} {item}"
                yield ("name", item), UsedCall(self.make_target(process, call, name, name), call)

    def use_keys(self, process: str, trace: Trace) -> Iterator[tuple[Use, UsedCall]]:
        """The commits of a process that store keys of the program, and its gets of every key."""
        has_put, job = False, process.rpartition(":")[0]
        for call in trace.compared:
            words = call.text.split(" ")
            has_put = has_put or words[0] == "put"
            if words[0] == "commit" and has_put:
                has_put, what = False, "commit"
                yield (EVERY_KEY, process), UsedCall(
                    self.make_target(process, call, what, what), call
                )
            rank = words[2].rpartition(":")[2] if words[0] == "get" and words[3] == EVERY else ""
            if rank.isdecimal():
                what = f"get of every key of rank {rank}"
                yield (EVERY_KEY, f"{job}:{rank}"), UsedCall(
                    self.make_target(process, call, call.name, what), call
                )

    def list_uses(self) -> Mapping[Use, RunUses]:
        """The uses of each name, and of the keys of each process."""
        found: dict[Use, RunUses] = {}
        for process, trace in self.traces.items():
            calls = [
                traced_call
                for traced_call in trace.compared
                if traced_call.text.startswith(OF_NAMES)
            ]
            uses = [use for call in calls for use in self.use_names(process, call)]
            for use, one in [*uses, *self.use_keys(process, trace)]:
                of = found.setdefault(use, RunUses())
                if one.call.text.startswith(("lookup", "get")):
                    of.asks.append(one)
                elif one.call.end == DONE:
                    of.changes.append(one)
        return found


def list_planned(trial: Trial) -> Mapping[tuple[str, str, int], Target]:
    """The calls of a plan, by their processes and names."""
    found = (target for rank in trial.plan.ranks for target in trial.naming.list_targets(rank.name))
    return {(target.process, *target.key): target for target in found if target}


def sort_by_time(one: UsedCall, other: UsedCall) -> Pair:
    """Two calls as they began in the run."""
    first, second = sorted((one, other), key=lambda used_call: used_call.call.began)
    return first.target, second.target


def list_pairs(uses: RunUses) -> Iterator[Pair]:
    """Pairs of different processes of which the plan leaves a call out, the earlier call first."""
    for at, one in enumerate(uses.changes):
        for other in [*uses.asks, *uses.changes[at + 1:]]:
            are_planned = one.target.number and other.target.number
            if one.target.process != other.target.process and not are_planned:
                yield sort_by_time(one, other)


def find_kind(pair: Pair) -> tuple[str, ...]:
    """What two calls have in common with those of other ranks."""
    return tuple(re.sub(r"\d+", "#", target.verb) for target in pair)


def find_unplanned(trial: Trial, traces: Traces) -> tuple[Sequence[Pair], Sequence[Pair]]:
    """The pairs of a run of which its plan leaves a call out: the first of each kind, and the
    others."""
    finder, firsts, others = Finder(list_planned(trial), traces), dict[Use, Pair](), list[Pair]()
    for pair in (
        each_pair for uses in finder.list_uses().values() for each_pair in list_pairs(uses)
    ):
        if firsts.setdefault(find_kind(pair), pair) is not pair:
            others.append(pair)
    return list(firsts.values()), others
