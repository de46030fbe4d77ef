"""Pairs of calls that a plan doesn't order, since by its rules the one can't change what the other
is told, but of which a library may tell by time: what of another process is in the caller's own
store, to which an earlier get brought it; and what a process on another node has committed, where a
get is answered with an error in place of waiting."""
from collections.abc import Iterator, Mapping, Sequence
from dataclasses import dataclass

from wire_up_tools.record.calls import Get
from wire_up_tools.record.directives import AT_ONCE, OPTIONAL, has_directive
from wire_up_tools.record.forms import read_begin
from wire_up_tools.record.showing.orders import Trial
from wire_up_tools.record.showing.pairs import Pair
from wire_up_tools.record.showing.traces import Trace, TracedCall, Traces
from wire_up_tools.record.showing.unplanned import (
    DONE,
    Finder,
    UsedCall,
    find_kind,
    list_planned,
    sort_by_time,
)

# The scopes in which processes on other nodes see a key.
WIDE_SCOPES = ("remote", "global")
# How many gets before one are taken that can have brought a key.
MOST_BRINGING = 4


def is_done(call: TracedCall) -> bool:
    """Whether a call succeeded, or never ended."""
    return call.end is None or call.end.partition(" ")[0] == DONE


@dataclass(frozen=True)
class StoredKey:
    """A key that a commit stores: of which process, its scope, and the commit."""

    owner: str
    key: str
    scope: str
    by: UsedCall


@dataclass(frozen=True)
class AskedKey:
    """A key of another process that a get asks for: of which process, whether the get looks into
    the caller's own store alone, whether it waits, and the get."""

    owner: str
    key: str
    is_of_own_store: bool
    waits: bool
    by: UsedCall

    @property
    def has_failed(self) -> bool:
        """Whether it was answered with an error."""
        return not is_done(self.by.call)


def list_stored(finder: Finder, process: str, trace: Trace) -> Iterator[StoredKey]:
    """The keys that the commits of a process store."""
    stored: dict[str, str] = {}
    for call in trace.compared:
        verb, *words = call.text.split(" ")
        if verb == "put":
            stored[words[1]] = words[0]
        elif verb == "commit" and call.end == DONE:
            by = UsedCall(finder.make_target(process, call, verb, verb), call)
            yield from (StoredKey(process, key, scope, by) for key, scope in stored.items())
            stored = {}


def map_stored(finder: Finder) -> Mapping[tuple[str, str], Sequence[StoredKey]]:
    """The keys that are stored, by the process and the key."""
    found: dict[tuple[str, str], list[StoredKey]] = {}
    for process, trace in finder.traces.items():
        for stored in list_stored(finder, process, trace):
            found.setdefault((stored.owner, stored.key), []).append(stored)
    return found


def read_get(call: TracedCall) -> Get | None:
    """What a call asks for, if it is a get that can be read."""
    try:
        action = read_begin(call.text) if call.text.startswith("get ") else None
    except (ValueError, LookupError):
        return None
    return action if isinstance(action, Get) else None


def has_answers_by_time(trace: Trace) -> bool:
    """Whether a process makes gets in its own store alone, or such that fail."""
    gets = (call for call in trace.compared if call.text.startswith("get "))
    return any(OPTIONAL.decode() in call.text or not is_done(call) for call in gets)


def list_asked(finder: Finder, process: str, trace: Trace) -> Iterator[AskedKey]:
    """The single keys of other processes of its job that a process gets."""
    job = process.rpartition(":")[0]
    for call in trace.compared:
        get, words = read_get(call), call.text.split(" ")
        if get is None or not get.keys:
            continue
        namespace, _, rank = words[2].rpartition(":")
        owner = f"{job}:{rank}"
        if namespace == trace.namespace and owner in finder.traces and owner != process:
            is_of_own_store = has_directive(get.directives, OPTIONAL)
            waits = not has_directive(get.directives, *AT_ONCE)
            by = UsedCall(finder.make_target(process, call, call.name, call.name), call)
            yield AskedKey(owner, words[3].removeprefix(":"), is_of_own_store, waits, by)


def pair_own_store(
    asked: AskedKey, before: Sequence[AskedKey], stored: StoredKey
) -> Iterator[Pair]:
    """The commit of a key that a get looks for in the caller's own store, with the last gets
    before that which can have brought the key there."""
    bringing = [one for one in before if one.owner == asked.owner and not one.is_of_own_store]
    for other in bringing[-MOST_BRINGING:][::-1]:
        if asked.has_failed:
            yield other.by.target, stored.by.target
        else:
            yield sort_by_time(other.by, stored.by)


def list_pairs(
    asked: Sequence[AskedKey],
    stored: Mapping[tuple[str, str], Sequence[StoredKey]],
    nodes: Mapping[str, str],
) -> Iterator[Pair]:
    """The pairs of the gets of one process, the earlier call first: a get that found nothing came
    before the commit."""
    for place, one in enumerate(asked):
        is_elsewhere = nodes.get(one.owner) != nodes.get(one.by.target.process)
        for key in stored.get((one.owner, one.key), ()):
            if one.is_of_own_store:
                yield from pair_own_store(one, asked[:place], key)
            elif one.waits and one.has_failed and is_elsewhere and key.scope in WIDE_SCOPES:
                yield one.by.target, key.by.target


def find_by_time(trial: Trial, traces: Traces) -> tuple[Sequence[Pair], Sequence[Pair]]:
    """The pairs of a run of which the library may have told by time: the first of each kind, and
    the others."""
    finder = Finder(list_planned(trial), traces)
    nodes = {rank.name: rank.node for rank in trial.plan.ranks}
    stored = map_stored(finder)
    pairs = dict.fromkeys(
        pair
        for process, trace in traces.items()
        if has_answers_by_time(trace)
        for pair in list_pairs(list(list_asked(finder, process, trace)), stored, nodes)
    )
    firsts: dict[tuple[str, ...], Pair] = {}
    others = [pair for pair in pairs if firsts.setdefault(find_kind(pair), pair) is not pair]
    return list(firsts.values()), others
