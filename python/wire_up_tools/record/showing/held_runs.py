"""Runs a command again, with some calls held."""
import math
import os
import re
import signal
import subprocess
import time
from collections.abc import Mapping, Sequence
from dataclasses import dataclass, field
from pathlib import Path

from wire_up_tools.failures import Refused
from wire_up_tools.record.running import BY_SIGNAL, HANDED_ON, NOT_RUN, NotRun, make_environment
from wire_up_tools.record.showing.holds import Course, Holds, write_holds
from wire_up_tools.record.showing.motion import Motion
from wire_up_tools.record.showing.naming import Target
from wire_up_tools.record.showing.server import Patience, Server, open_hall_for
from wire_up_tools.record.showing.traces import TracedCall, Traces, read_traces
from wire_up_tools.run.ending import ends_within, find_status, kill_one, list_left

# How often the launcher is looked at, and how long it may take to end, in seconds.
TICK, END_SECONDS = 0.02, 5.0
OUTPUT = "output"
# How recorders say that they can't write, and how many bytes they need for some more records.
LOST = re.compile(rb"wire_up-record: .*(?:isn't recorded|nothing is recorded)")
LEAST_ROOM = 1 << 16


@dataclass(frozen=True)
class Session:
    """What is run again: a command with libraries in each process; the folder for its runs, the
    file that all read as standard input, if any; the hosts that the processes are on, None for this
    one alone; how long holds may take; and how long all runs may take together, in seconds, and
    until when, by the clock of `time.monotonic`."""

    command: Sequence[str]
    libraries: Sequence[str]
    room: Path
    source: str | None
    hosts: list[str] | None
    patience: Patience
    within: float = math.inf
    until: float = math.inf

    @property
    def search_until(self) -> float:
        """Until when orders are looked for: half of the time is left to turn them round."""
        return self.until - self.within / 2 if math.isfinite(self.within) else self.until


class OutOfTime(Exception):
    """The runs have taken as long as they may together: no other begins."""


def say_status(status: int) -> str:
    """A status in words, with the signal that a shell, or a launcher, tells so of a process."""
    if status < 0:
        return f"signal {-status}"
    number = status - BY_SIGNAL
    is_of_signal = number in set(signal.Signals)
    named = f" ({signal.Signals(number).name})" if is_of_signal else ""
    return f"status {status}{named}"


@dataclass(eq=False)
class HeldRun:
    """How a run went: its status (below 0 for a signal; None: it was ended), when it began, in
    seconds since 1970, how long it took, how it went with the named calls, what its processes did,
    and what it wrote."""

    holds: Holds
    folder: Path
    status: int | None
    began: float
    seconds: float
    courses: Mapping[int, Course]
    traces: Traces = field(default_factory=dict)
    output: bytes = b""

    def find(self, target: Target) -> TracedCall | None:
        """The call in this run."""
        trace = self.traces.get(target.process)
        return trace.find(target.key) if trace else None

    @property
    def ending(self) -> str:
        """How it ended, in words."""
        if self.status is None:
            return "no end"
        return say_status(self.status)


def end_launcher(process: "subprocess.Popen[bytes]") -> None:
    """Ends a launcher, and what it leaves of its session on this machine. No signal disturbs it."""
    before = signal.pthread_sigmask(signal.SIG_BLOCK, HANDED_ON)
    try:
        if find_status(process) is None:
            process.send_signal(signal.SIGTERM)
            ends_within(process, END_SECONDS)
        for left in list_left(process.pid):
            kill_one(left, process.pid)
        process.wait(END_SECONDS)
    except subprocess.TimeoutExpired:
        pass
    finally:
        signal.pthread_sigmask(signal.SIG_SETMASK, before)


def watch(process: "subprocess.Popen[bytes]", server: Server, limit: float) -> int | None:
    """Serves a run until it ends, at most so many seconds besides what was held in vain. Answers
    its status; None where it didn't end."""
    began = time.monotonic()
    while find_status(process) is None:
        if time.monotonic() - began > limit + server.lost:
            server.end_holds()
            return None
        server.serve(TICK)
    while server.serve(0):
        pass
    return find_status(process)


def launch(session: Session, folder: Path) -> "subprocess.Popen[bytes]":
    """Begins a run, whose output goes to a file in its folder. Raises NotRun, OSError."""
    environment = make_environment(session.libraries, str(folder))
    source = session.source or os.devnull
    with open(folder / OUTPUT, "wb") as to, open(source, "rb") as come:
        try:
            return subprocess.Popen(
                session.command,
                env=environment,
                stdin=come,
                stdout=to,
                stderr=subprocess.STDOUT,
                start_new_session=True,
            )
        except OSError as why:
            raise NotRun(f"{session.command[0]}: {why.strerror}", NOT_RUN) from None


def refuse_lost(folder: Path, output: bytes) -> None:
    """Raises Refused where a recorder said that it couldn't write, or has no room to say so: a run
    that is recorded in part differs from another by that."""
    said = LOST.search(output)
    if said:
        raise Refused(said[0].decode("ascii", "replace"))
    room = os.statvfs(folder)
    if room.f_bavail * room.f_frsize < LEAST_ROOM:
        raise Refused(f"{folder}: no room for the recordings of runs")


def run_held(session: Session, holds: Holds, name: str) -> HeldRun:
    """Runs the command with some calls held, in a folder of this name. Raises OutOfTime, Refused,
    NotRun, OSError."""
    if time.monotonic() > session.until:
        raise OutOfTime
    folder = session.room / name
    folder.mkdir()
    since, began = time.time(), time.monotonic()
    with open_hall_for(session.hosts) as hall:
        write_holds(holds, folder, hall.address, hall.word)
        server = Server(hall, holds, Motion(folder), session.patience)
        process = launch(session, folder)
        try:
            status = watch(process, server, session.patience.limit)
        finally:
            end_launcher(process)
    seconds = time.monotonic() - began
    output = (folder / OUTPUT).read_bytes()
    refuse_lost(folder, output)
    traces = read_traces(folder)
    return HeldRun(holds, folder, status, since, seconds, server.courses, traces, output)
