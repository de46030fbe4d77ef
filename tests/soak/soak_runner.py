"""Runs the program on a file of a soak, and raises what no run may do."""
import re
import socket
import subprocess
import threading
import time
from collections import Counter
from collections.abc import Sequence
from dataclasses import dataclass
from pathlib import Path
from typing import NamedTuple

# After how long an answer counts as none. A busy machine takes a while for one.
SECONDS = 60
FAULT = re.compile(rb"wire_up: fault (\d+) (\w+)( \d+)?\n")
FAILED_CALL = re.compile(rb"wire_up: \S+:\d+ \d+ [a-z-]+ (?:[A-Z_]+|waiting|unreached)\n")
Word = str | bytes


class Ran(NamedTuple):
    """How a run ended: its status, and what it wrote to standard output and to standard error."""

    status: int
    wrote: bytes
    said: bytes


class Difference(Exception):
    """What the program shouldn't have done: in a word or two, and what it was."""

    def __init__(self, name: str, detail: str = "") -> None:
        super().__init__(name, detail)
        self.name, self.detail = name, detail


@dataclass
class Slowest:
    """The run that took longest."""

    seconds: float = 0.0
    words: str = ""


class Runner:
    """Runs the program in a folder, and counts what it did. Beside it may be the unproved program
    of build/plain."""

    def __init__(self, program: str, room: str | Path, unproved: str | None = None) -> None:
        self.program, self.room, self.unproved = program, Path(room), unproved
        # How many answers of `check` were held to those of the unproved program.
        self.held_to_unproved = 0
        self.runs: Counter[str] = Counter()
        self.faults: Counter[str] = Counter()
        # How many answers of each command were held to the model.
        self.held: Counter[str] = Counter()
        self.slowest = Slowest()

    def written(self, name: str, text: bytes) -> str:
        """The path of a file of this text."""
        path = self.room / name
        path.write_bytes(text)
        return str(path)

    def run(self, *words: Word, given: bytes | None = None, by_byte: bool = False) -> Ran:
        """Runs a command, and answers how it ended. What no run may do is a difference."""
        command = str(words[0])
        named = " ".join(map(str, words)).replace(f"{self.room}/", "")
        self.runs[command] += 1
        began = time.monotonic()
        try:
            run = run_by_byte if by_byte else run_whole
            ran = run([self.program, *words], given)
        except subprocess.TimeoutExpired as slow:
            why = f"{named}: had not ended after {SECONDS} seconds"
            raise Difference(f"no end of {command}", why) from slow
        took = time.monotonic() - began
        if took > self.slowest.seconds:
            self.slowest = Slowest(took, named)
        self.judge(command, named, ran, "--complete" in words)
        return ran

    def hold_to_unproved(self, ran: Ran, *words: str) -> None:
        """Holds how a `check` ended to how it ends by the unproved program."""
        if self.unproved:
            other = run_whole([self.unproved, *words], None)
            same("another answer of check than the unproved program's", other, ran, words)
            self.held_to_unproved += 1

    def judge(self, command: str, named: str, ran: Ran, is_complete: bool) -> None:
        """Raises a difference where a run ended as none may."""
        fault = FAULT.fullmatch(ran.said)
        is_told = is_complete and ran.status == 1 and FAILED_CALL.fullmatch(ran.said)
        is_silent = ran.status in (0, 1) and not ran.said
        if not (is_silent or is_told or (ran.status in (2, 3, 4) and fault)):
            what = f"{named}: ended with {ran.status}, and said {ran.said[:300]!r}"
            raise Difference(f"a crash of {command}", what)
        if fault:
            self.faults[fault[2].decode()] += 1
        if fault and ran.wrote:
            what = f"{named}: said {ran.said!r}, and wrote {ran.wrote[:300]!r}"
            raise Difference(f"output of {command} after a fault", what)


def run_whole(words: Sequence[Word], given: bytes | None) -> Ran:
    """Runs a command, with this or nothing on standard input."""
    nothing = subprocess.DEVNULL if given is None else None
    ran = subprocess.run(
        words, stdin=nothing, input=given, capture_output=True, timeout=SECONDS, check=False
    )
    return Ran(ran.returncode, ran.stdout, ran.stderr)


def run_by_byte(words: Sequence[Word], given: bytes | None) -> Ran:
    """Hands each byte over as a message of its own, so that each read gets one."""
    ours, its = socket.socketpair(socket.AF_UNIX, socket.SOCK_SEQPACKET)

    def hand_over() -> None:
        try:
            for byte in given or b"":
                ours.send(bytes([byte]))
        except OSError:
            pass
        ours.close()

    thread = threading.Thread(target=hand_over, daemon=True)
    with its, subprocess.Popen(
        words, stdin=its.fileno(), stdout=subprocess.PIPE, stderr=subprocess.PIPE
    ) as process:
        its.close()
        thread.start()
        try:
            wrote, said = process.communicate(timeout=SECONDS)
        except subprocess.TimeoutExpired:
            process.kill()
            raise
    thread.join()
    return Ran(process.returncode, wrote, said)


def same(name: str, wanted: object, got: object, what: object = "") -> None:
    """Raises a difference where two things aren't the same."""
    if wanted != got:
        raise Difference(name, f"{what}: {show(wanted)} and {show(got)}")


def show(thing: object) -> str:
    return repr(thing)[:400]
