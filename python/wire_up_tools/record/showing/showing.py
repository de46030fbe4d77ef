"""Shows the races of a plan in the program, and turns its orders round, as is asked for."""
import itertools
from collections.abc import Iterator, Sequence

from wire_up_tools.failures import Refused
from wire_up_tools.record.running import Stopped
from wire_up_tools.record.showing.asking import Asked
from wire_up_tools.record.showing.by_time import find_by_time
from wire_up_tools.record.showing.held_runs import OutOfTime
from wire_up_tools.record.showing.material import (
    Material,
    Result,
    Say,
    make_trial,
    tell_day,
    write_result,
)
from wire_up_tools.record.showing.orders import NO_RACE, Race, Trial, try_race
from wire_up_tools.record.showing.pace import begin_pace, hold_command
from wire_up_tools.record.showing.pairs import (
    ASK,
    WAIT,
    Pair,
    SearchEnded,
    find_pairs,
    list_limited,
)
from wire_up_tools.record.showing.saying import make_json, say_in_head, say_shown
from wire_up_tools.record.showing.traces import Traces
from wire_up_tools.record.showing.turning import (
    GAVE_UP,
    KEPT,
    TURNED,
    TURNED_ALIKE,
    Turn,
    group_pairs,
    make_json_of_turn,
    say_turn,
    sum_up_turn,
    turn_round,
)
from wire_up_tools.record.showing.unplanned import find_unplanned
from wire_up_tools.report.asking import Asker, stream_lines
from wire_up_tools.report.causes import find_causes
from wire_up_tools.report.findings import Finding, Kind, find_groups
from wire_up_tools.report.phrases import count_of
from wire_up_tools.words import (
    ALL_PAIRS,
    EACH_RUN,
    EACH_RUN_SENTENCE,
    LEFT_OUT,
    MORE_ORDERED,
    TRIED_STOPPED,
    TURNED_IN_VAIN,
    TURNED_ROUND,
)

# What is said where nothing can be turned round, or shown.
NOTHING_TO_TURN = "the plan orders no pair of calls that could be answered otherwise"
NOTHING_TO_SHOW = "there is no race to show"
ONLY_REWRITES = (
    "there is no race to show: each finding is a put of a key that its rank had put before. One "
    "rank makes both calls, always in this order"
)
# How many runs a race takes, without those for messages of any source or the witness's orders.
RUNS = 2


# --- races ---


def find_line(trial: Trial, words: Sequence[str]) -> str:
    """The line of `check` about two calls, or that they don't race."""
    pair = " ".join(words)
    other_way = " ".join([*words[2:], *words[:2]])
    if trial.checker is None:
        return f"calls {pair}"
    for line in stream_lines(Asker(trial.checker, trial.text.encode()), "check"):
        if line.startswith((f"race {pair} ", f"race {other_way} ")):
            return line
    return f"{NO_RACE} {pair}"


def find_asked_race(trial: Trial, race: tuple[str, int, str, int]) -> Race:
    """Two calls that were named. Raises Refused."""
    targets = [trial.naming.find(race[0], race[1]), trial.naming.find(race[2], race[3])]
    return Race(find_line(trial, [str(word) for word in race]), targets, 1)


def make_race(trial: Trial, finding: Finding, number: int) -> Race:
    """The race of a finding. Raises Refused."""
    targets = [trial.naming.find(call.rank.name, call.number) for call in finding.calls]
    owner = f"{finding.owner} " if finding.kind is Kind.KEY else ""
    calls = f"{targets[0].place} {targets[1].place}"
    line = f"race {calls} {finding.kind.value} {owner}{finding.about}"
    return Race(line, targets, number)


def find_races(trial: Trial, most: int, say: Say) -> list[Race]:
    """The first race of each cause, at most so many. Raises Refused."""
    if trial.checker is None:
        raise Refused("--show needs the program `wire_up`, which finds the races: see --checker")
    groups = find_groups(Asker(trial.checker, trial.text.encode()), trial.plan)
    found = [cause.first for cause in find_causes(groups)]
    found = [finding for finding in found if finding.kind is not Kind.REWRITE]
    if not found:
        say(NOTHING_TO_SHOW if not groups else ONLY_REWRITES)
    if len(found) > most:
        say(f"{len(found)} races have causes of their own: {most} are tried (--most)")
    return [make_race(trial, one, number) for number, one in enumerate(found[:most], 1)]


def try_races(trial: Trial, races: Sequence[Race], result: Result, say: Say) -> None:
    """Tries races, one after another, and says what came of each. Raises Refused, NotRun,
    OSError."""
    if not races:
        return
    what = f"trying {count_of(len(races), 'race')}"
    pace = begin_pace(trial, what, RUNS * len(races), 0, say)
    try:
        for number, race in enumerate(races):
            pace.say_next(number, len(races))
            shown = try_race(trial, race)
            result.head.append(say_in_head(shown, tell_day()))
            result.races.append(make_json(shown))
            for line in say_shown(shown):
                say(line)
    except OutOfTime:
        result.untried += pace.say_left("races", len(result.races), len(races))


# --- orders that are turned round ---


def may_turn(trial: Trial) -> bool:
    """Whether there can be an order to turn round, as far as is known before a run: the plan has
    one, leaves something out, or lacks an order. Raises Refused without a checker."""
    head = trial.plan.declared.head
    if trial.plains.made or LEFT_OUT in head or MORE_ORDERED in head:
        return True
    try:
        return next(find_pairs(trial, (*ASK, *WAIT)), None) is not None
    except SearchEnded:
        return True


def find_besides(trial: Trial, traces: Traces, say: Say) -> tuple[list[Pair], list[Pair]]:
    """The pairs of a run of which the plan has no order, and says how many there are: the first of
    each kind, and the others."""
    firsts, others = list[Pair](), list[Pair]()
    for found, what in (
        (find_unplanned(trial, traces), "of calls that the plan leaves out"),
        (find_by_time(trial, traces), "by which the library may go, though no rule says so,"),
    ):
        if found[0]:
            count = count_of(len(found[0]) + len(found[1]), "order")
            say(f"{count} {what} can be turned round too")
        firsts += found[0]
        others += found[1]
    return firsts, others


def search(pairs: Iterator[Pair], most: int, trial: Trial, say: Say) -> tuple[list[Pair], bool]:
    """The first of some pairs, at most so many and as long as there is time; and whether these are
    all. Raises Refused."""
    found = list[Pair]()
    try:
        for pair in pairs:
            if len(found) == most:
                say(
                    f"there are more than {most} orders: {most} are turned round, the first of "
                    "each kind before others (--most)"
                )
                return found, False
            found.append(pair)
    except SearchEnded:
        say(
            f"the search for orders ended after half of {trial.session.within:g} s, with "
            f"{len(found)} found: give more by --within"
        )
        return found, False
    return found, True


def take_pairs(trial: Trial, asked: Asked, say: Say) -> tuple[list[Pair], bool]:
    """The pairs that are turned round, at most so many; and whether these are all. Raises Refused,
    NotRun, OSError."""
    traces = trial.plains.find()[0].traces
    firsts, others = find_besides(trial, traces, say)
    planned = find_pairs(trial, ASK, list_limited(trial, traces))
    found, are_all = search(itertools.chain(firsts, planned, others), asked.most, trial, say)
    if asked.turn_waits:
        waits = (
            pair for pair in find_pairs(trial, WAIT) if pair[1].verb in WAIT and pair not in found
        )
        more, _ = search(itertools.islice(waits, asked.turn_waits), asked.turn_waits, trial, say)
        found += more
    return found, are_all


def say_kept(trial: Trial, kept: int, count: int, say: Say, *, are_all: bool) -> str:
    """Says how many of so many orders were kept, and answers the line for the head. Where these are
    all, and each run makes the calls of the plan, it says so more strongly."""
    is_whole = are_all and kept == count
    of_all = f", {ALL_PAIRS}" if is_whole else ""
    if is_whole and EACH_RUN_SENTENCE in trial.plan.declared.head:
        say(f"{EACH_RUN}; orders that could change them, and that it kept: {count} of {count}")
    else:
        say(f"orders that the program kept, though calls were held back: {kept} of {count}")
    return f"# {TURNED_IN_VAIN} {tell_day()}: {kept} of {count} pairs{of_all}"


def say_turns(trial: Trial, turns: Sequence[Turn], say: Say, *, are_all: bool) -> list[str]:
    """Says what came of all pairs, and answers the lines for the head. `are_all`: the plan orders
    no other pairs."""
    kept = sum(turn.word == KEPT for turn in turns)
    alarms = [turn for turn in turns if turn.word == TURNED]
    others = [turn for turn in turns if turn.word in (TURNED_ALIKE, GAVE_UP)]
    head = [f"# {TURNED_ROUND} {tell_day()}: {sum_up_turn(turn)}" for turn in alarms]
    head += [
        f"# {TURNED_ROUND} {tell_day()}, {turn.word}: {sum_up_turn(turn)}" for turn in others
    ]
    if kept:
        head.append(say_kept(trial, kept, len(turns), say, are_all=are_all))
    if alarms:
        say(
            f"orders that aren't imposed, so that calls are answered otherwise: {len(alarms)} of "
            f"{len(turns)}; the verdict over this plan doesn't hold for every run"
        )
    return head


def turn_all(trial: Trial, asked: Asked, result: Result, say: Say) -> None:
    """Turns the orders of a plan round, and says what came of each. Raises Refused, NotRun,
    OSError."""
    pairs, are_all = take_pairs(trial, asked, say)
    groups, turns = list(group_pairs(pairs)), list[Turn]()
    if not pairs:
        say(NOTHING_TO_TURN)
        return
    what = f"turning {count_of(len(pairs), 'order')} round"
    pace = begin_pace(trial, what, len(groups), len(groups), say)
    try:
        for number, (held, others) in enumerate(groups):
            pace.say_next(number, len(groups))
            for turn in turn_round(trial, held, others, f"turn-{number + 1}"):
                turns.append(turn)
                result.turned.append(make_json_of_turn(turn))
                for line in say_turn(turn):
                    say(line)
    except OutOfTime:
        result.untried += pace.say_left("orders", len(turns), len(pairs))
    finally:
        result.head += say_turns(trial, turns, say, are_all=are_all and len(turns) == len(pairs))


# --- all ---


def show(asked: Asked, of: Material, say: Say) -> None:
    """Shows what is asked for, and writes the plan again with what came of it. Where a signal ends
    it, the plan has what was done until then. Raises Refused, NotRun, Stopped, OSError."""
    result = Result()
    try:
        trial = make_trial(asked, of)
        races = [find_asked_race(trial, asked.race)] if asked.race else []
        races += find_races(trial, asked.most, say) if asked.does_show else []
        does_turn = asked.does_turn and may_turn(trial)
        if does_turn or races:
            trial = hold_command(trial, asked, say)
        try_races(trial, races, result, say)
        if does_turn:
            turn_all(trial, asked, result, say)
        elif asked.does_turn:
            say(NOTHING_TO_TURN)
    except Stopped as why:
        result.head.append(f"# {TRIED_STOPPED} {tell_day()} by signal {why.number}")
        raise
    finally:
        write_result(asked, of, result)
