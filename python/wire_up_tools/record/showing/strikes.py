"""Limits of time that can have struck because a call was held."""
import itertools
import signal
from collections.abc import Iterator, Sequence

from wire_up_tools.record.showing.held_runs import HeldRun
from wire_up_tools.record.showing.traces import TracedCall

TIMED_OUT = "PMIX_ERR_TIMEOUT"
SUCCESS = "PMIX_SUCCESS"
# How a command ends whose process an alarm ended: by itself, or as a launcher says it.
BY_ALARM = (-signal.SIGALRM, 128 + signal.SIGALRM)
# Verbs of calls by which programs poll, and how many in a row are a poll.
POLLING, LEAST_POLLS = ("get", "lookup"), 2
# How far the times of recordings can be wrong, in seconds.
MARGIN = 0.05


def list_holds(run: HeldRun) -> list[tuple[float, float]]:
    """When calls were held, in seconds since 1970: those that waited for others."""
    held = [run.courses[n] for n in run.holds.waits if n in run.courses]
    return [
        (course.came, course.gone or float("inf")) for course in held if course.came is not None
    ]


def find_held_seconds(run: HeldRun) -> float:
    """How long the call was held that was held longest; 0 where none was."""
    end = run.began + run.seconds
    return max((min(gone, end) - came for came, gone in list_holds(run)), default=0.0)


def is_meanwhile(run: HeldRun, began: float, ended: float) -> bool:
    """Whether a call was held at some time between two."""
    return any(
        began <= gone + MARGIN and ended >= came - MARGIN for came, gone in list_holds(run)
    )


def find_given_up(run: HeldRun) -> Iterator[tuple[str, TracedCall]]:
    """The calls that a limit ended while another was held, with their processes."""
    for process, trace in run.traces.items():
        for traced_call in trace.compared:
            if traced_call.ended and traced_call.reply.startswith(TIMED_OUT):
                if is_meanwhile(run, traced_call.began, traced_call.ended):
                    yield process, traced_call


def find_polls(run: HeldRun) -> Iterator[tuple[str, Sequence[TracedCall]]]:
    """Calls that a process made again and again while another was held, and that failed to the
    last, with their processes."""
    for process, trace in run.traces.items():
        for name, them in itertools.groupby(trace.compared, lambda traced_call: traced_call.name):
            calls = [
                each_traced_call
                for each_traced_call in them
                if each_traced_call.ended
                and is_meanwhile(run, each_traced_call.began, each_traced_call.ended)
            ]
            is_poll = name.startswith(POLLING) and len(calls) >= LEAST_POLLS
            if is_poll and not any(call.reply.startswith(SUCCESS) for call in calls):
                yield process, calls


def tell_strikes(run: HeldRun) -> list[str]:
    """What a limit of time can have ended while a call was held; nothing where none is seen."""
    found = [
        f"{process} {call.told}: {call.reply} after {(call.ended or call.began) - call.began:.1f} s"
        for process, call in find_given_up(run)
    ]
    for process, calls in find_polls(run):
        seconds = (calls[-1].ended or calls[-1].began) - calls[0].began
        found.append(f"{process} {calls[0].told}: {len(calls)} times in {seconds:.1f} s")
    if run.status in BY_ALARM and list_holds(run):
        found.append("an alarm ended a process")
    return found
