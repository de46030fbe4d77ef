"""What there is to try races with, and what came of it so far."""
import json
import shlex
import socket
import time
from collections.abc import Callable, Sequence
from dataclasses import dataclass, field
from datetime import datetime, timezone
from pathlib import Path
from typing import Any

from wire_up_tools.checker import Checker
from wire_up_tools.files import STANDARD_OUTPUT, write_whole
from wire_up_tools.plan import Plan
from wire_up_tools.plan_reading import read_plan
from wire_up_tools.record.showing.asking import Asked
from wire_up_tools.record.showing.heads import insert_in_head
from wire_up_tools.record.showing.held_runs import HeldRun, Session
from wire_up_tools.record.showing.holds import Holds
from wire_up_tools.record.showing.naming import Naming
from wire_up_tools.record.showing.orders import Trial
from wire_up_tools.record.showing.plain_runs import PlainRuns
from wire_up_tools.record.showing.server import Patience
from wire_up_tools.record.showing.traces import Traces
from wire_up_tools.words import TRIED_BY

# What a plan is called that went to standard output.
SOME_PLAN = "my.plan"
Say = Callable[[str], None]


@dataclass(frozen=True)
class First:
    """The first run of the command: how many seconds it took, its status, and what its processes
    did."""

    seconds: float
    status: int
    traces: Traces


@dataclass(frozen=True)
class Material:
    """What there is to try races with: the command and the libraries in its processes; the text of
    the plan and the file that it stands in; the checker, if there is one; the folder in which the
    folders of runs are made, which somebody else removes; and the first run, if there was one."""

    command: Sequence[str]
    libraries: Sequence[str]
    text: str
    path: str
    checker: Checker | None
    room: Path
    first: First | None = None


@dataclass(eq=False)
class Result:
    """What came of it so far: lines for the head of the plan, objects for JSON, and how many races
    and orders weren't tried for want of time."""

    head: list[str] = field(default_factory=list)
    races: list[dict[str, Any]] = field(default_factory=list)
    turned: list[dict[str, Any]] = field(default_factory=list)
    untried: int = 0


def tell_day() -> str:
    """Which day it is, as the head of a plan says it."""
    return f"{datetime.now(timezone.utc):%Y-%m-%d}"


def find_hosts(plan: Plan) -> list[str] | None:
    """The hosts of the processes; None where they are all on this machine."""
    hosts = list(plan.declared.nodes)
    own, _, _ = socket.gethostname().partition(".")
    return None if {host.partition(".")[0] for host in hosts} <= {own} else hosts


def make_trial(asked: Asked, of: Material) -> Trial:
    """What races of a plan are tried with."""
    plan = read_plan(of.text.encode())
    seconds = of.first.seconds if of.first else None
    patience = Patience(asked.find_hold(seconds), asked.find_limit(seconds))
    session = Session(
        of.command,
        of.libraries,
        of.room,
        asked.source,
        find_hosts(plan),
        patience,
        asked.within,
        time.monotonic() + asked.within,
    )
    traces = of.first.traces if of.first else {}
    plains = PlainRuns(session, list_plain(of))
    return Trial(session, of.checker, plan, of.text, Naming(plan), traces, plains)


def list_plain(of: Material) -> list[HeldRun]:
    """The first run, as others are compared with it; none where there was none."""
    first = of.first
    if first is None:
        return []
    return [HeldRun(Holds(()), of.room, first.status, 0.0, first.seconds, {}, first.traces)]


def say_command(asked: Asked, of: Material) -> str:
    """The line of a head that says which command does it again."""
    plan = of.path if of.path != STANDARD_OUTPUT else SOME_PLAN
    words = ["wire_up-record", "--of", plan, *asked.task, *of.command]
    return f"# {TRIED_BY}{shlex.join(words)}"


def write_result(asked: Asked, of: Material, result: Result) -> None:
    """Writes the plan with what came of it, and JSON if it is asked for. Raises OSError."""
    head = [*result.head, *([say_command(asked, of)] if result.head else [])]
    write_whole(of.path, insert_in_head(of.text, head) if head else of.text)
    if asked.shown:
        said = {"races": result.races, "turned": result.turned, "untried": result.untried}
        write_whole(asked.shown, json.dumps(said) + "\n")
