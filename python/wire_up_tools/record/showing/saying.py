"""What is said of a race that was tried: lines, the head of a plan, and JSON."""
from collections.abc import Iterator, Sequence
from typing import Any

from wire_up_tools.record.showing.comparing import (
    AFTER,
    FROM_START,
    NEVER_CAME,
    Compared,
    Difference,
)
from wire_up_tools.record.showing.held_runs import HeldRun
from wire_up_tools.record.showing.naming import Target
from wire_up_tools.record.showing.orders import NOT_MADE, Shown
from wire_up_tools.record.showing.strikes import find_held_seconds, tell_strikes
from wire_up_tools.words import BY_WITNESS, TRIED_IN_HEAD

# How many differences are named of each kind.
NAMED = 4
# The verbs of calls that ask for something end so.
ASKING = ("lookup", "lookup-wait", "get-now", "get")
ENDED_ALIKE = "and they end alike"
# What differs, in the first run and in the second.
ANSWERED, GOES_ON = "answered otherwise:", "goes on otherwise:"
# How long a call was held that this is said, in seconds.
LEAST_HELD = 0.05
# What else can have made a difference.
ANOTHER = "another in each run:"
PLAIN_TOO = "two plain runs differ too:"
STRUCK = "a limit of time can have struck:"
# What is said of values whose bytes no recording has.
UNSEEN = "of this value no more was compared:"


def say_reply(run: HeldRun, target: Target) -> str:
    """How a named call ended in a run."""
    call = run.find(target)
    return call.whole_reply if call else NEVER_CAME


def say_differences(word: str, found: Sequence[Difference]) -> Iterator[str]:
    """Lines for some differences of one kind."""
    for difference in found[:NAMED]:
        yield f"  {word} {difference}"
    if len(found) > NAMED:
        yield f"  {word} {len(found) - NAMED} more"


def say_doubts(compared: Compared, strikes: Sequence[str]) -> Iterator[str]:
    """Lines that say what else can have made a difference: other values in each run, luck, and
    limits of time."""
    yield from say_differences(ANOTHER, compared.own)
    yield from say_differences(PLAIN_TOO, compared.plain)
    yield from (f"  {STRUCK} {strike}" for strike in strikes)


def say_unseen(compared: Compared) -> Iterator[str]:
    """Lines that say, where nothing differs, which values weren't compared whole."""
    if compared.is_alike:
        for value in compared.unseen[:NAMED]:
            yield f"  {UNSEEN} {value}"
        if len(compared.unseen) > NAMED:
            yield f"  {UNSEEN} {len(compared.unseen) - NAMED} more"


def name_difference(difference: Difference) -> str:
    """Which call was answered otherwise, or behind which the calls of its process part."""
    is_parting = difference.what.startswith((AFTER, FROM_START))
    goes_on = "goes on otherwise " if is_parting else ""
    return f"{difference.process} {goes_on}{difference.what}"


def sum_up_doubts(compared: Compared, strikes: Sequence[str]) -> str:
    """The same in a few words."""
    doubts = [f"{ANOTHER} {name_difference(own)}" for own in compared.own[:1]]
    doubts += [f"{PLAIN_TOO} {name_difference(plain)}" for plain in compared.plain[:1]]
    doubts += [f"{STRUCK} {strike}" for strike in strikes[:1]]
    doubts += [f"{UNSEEN} {value}" for value in compared.unseen[:1] if compared.is_alike]
    return "".join(f"; {doubt}" for doubt in doubts)


def list_strikes(shown: Shown) -> list[str]:
    """The limits of time that can have struck in the runs of a race."""
    return list(dict.fromkeys(strike for run in shown.runs for strike in tell_strikes(run)))


def say_ending(shown: Shown) -> str:
    """How the runs of a race ended, where something differs."""
    compared = shown.compared
    if compared.ends_otherwise:
        endings = " | ".join(run.ending for run in shown.runs)
        return f"ended {endings}"
    if compared.others or compared.partings:
        return f"ended {shown.runs[0].ending} both times"
    wrote = ", but write other lines" if compared.writes_otherwise else ""
    return f"{ENDED_ALIKE}{wrote}"


def say_shown(shown: Shown) -> Iterator[str]:
    """The lines that say what came of a race."""
    calls = ", ".join(target.title for target in shown.race.targets)
    yield f"{shown.word} {shown.race.line}: {calls}"
    for name, run, missed in zip(shown.names, shown.runs, shown.missed):
        replies = " | ".join(say_reply(run, target) for target in shown.race.targets)
        seconds = find_held_seconds(run)
        held = f", held for {seconds:.1f} s" if seconds >= LEAST_HELD else ""
        yield f"  {name}: {replies} ({run.ending}, {run.seconds:.1f} s{held})"
        if missed:
            yield f"    not made: {missed}"
    yield from (f"  {means}" for means in shown.means)
    if shown.word == NOT_MADE:
        yield from (f"  {STRUCK} {strike}" for strike in list_strikes(shown))
        return
    yield from say_differences(ANSWERED, shown.compared.others)
    yield from say_differences(GOES_ON, shown.compared.partings)
    if not shown.compared.is_alike:
        yield f"  {say_ending(shown)}"
    yield from say_unseen(shown.compared)
    yield from say_doubts(shown.compared, list_strikes(shown))


def sum_up(shown: Shown) -> str:
    """What came of a race, in one line."""
    if shown.word == NOT_MADE:
        why = "; ".join(str(missed) for missed in dict.fromkeys(shown.missed) if missed)
        return "".join([why, *(f"; {STRUCK} {strike}" for strike in list_strikes(shown)[:1])])
    compared = shown.compared
    asking = [target for target in compared.targets if target.what.endswith(ASKING)]
    told = asking or compared.targets or [*compared.others, *compared.partings]
    replies = [f"{one.process} {one.what}: {one.first} and {one.second}" for one in told[:1]]
    if not compared.is_alike:
        replies.append(say_ending(shown).replace(" | ", " and "))
    said = "; ".join(replies) or "both orders were made, and nothing differs"
    by_witness = f"; {BY_WITNESS}" if shown.is_by_witness else ""
    return f"{said}{by_witness}{sum_up_doubts(compared, list_strikes(shown))}"


def say_in_head(shown: Shown, day: str) -> str:
    """The line at the head of a plan that says what came of a race, on a day."""
    return f"# {TRIED_IN_HEAD[shown.word]} on {day}: {shown.race.line}: {sum_up(shown)}"


def list_differences(compared: Compared) -> dict[str, Any]:
    """What differs, for JSON."""
    kinds = {
        "targets": compared.targets,
        "replies": compared.others,
        "parts": compared.partings,
        "own": compared.own,
        "plain": compared.plain,
    }
    told: dict[str, Any] = {
        kind: [
            {"proc": one.process, "what": one.what, "first": one.first, "second": one.second}
            for one in found
        ]
        for kind, found in kinds.items()
    }
    return {**told, "compared_in_part": list(compared.unseen)}


def make_json_of_run(
    run: HeldRun, first: str | None, missed: object | None, targets: Sequence[Target]
) -> dict[str, Any]:
    """A run, for JSON, with the place of the call that was to be first."""
    return {
        "first": first,
        "replies": [say_reply(run, target) for target in targets],
        "status": run.status,
        "seconds": round(run.seconds, 1),
        "held": round(find_held_seconds(run), 1),
        "missed": str(missed) if missed else None,
    }


def make_json(shown: Shown) -> dict[str, Any]:
    """What came of a race, for JSON."""
    targets = shown.race.targets
    firsts = [None if shown.is_by_witness else target.place for target in targets]
    runs = zip(shown.runs, firsts, shown.missed)
    return {
        "finding": shown.race.line,
        "word": shown.word,
        "runs": [make_json_of_run(*run, targets) for run in runs],
        "means": list(shown.means),
        **list_differences(shown.compared),
        "limits": list_strikes(shown),
        "is_output_alike": not shown.compared.writes_otherwise,
    }
