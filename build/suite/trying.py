"""One program of the suite: run without the recorder and with it, its plan checked and replayed."""
import json
import os
import re
import signal
import subprocess
import sys
import tempfile
import time
from collections.abc import Mapping, Sequence
from dataclasses import dataclass
from pathlib import Path

from build.places import TOP
from build.suite.source import SuiteProgram
from tests.support.recorded import is_alike

# Open MPI as root must be told that this is meant; and its processes don't spin while they wait.
SETTINGS = {
    "OMPI_ALLOW_RUN_AS_ROOT": "1",
    "OMPI_ALLOW_RUN_AS_ROOT_CONFIRM": "1",
    "OMPI_MCA_mpi_yield_when_idle": "1",
    "OMPI_MCA_rmaps_base_oversubscribe": "1",
}
RECORDER = TOP / "wire_up-record"
# How often both runs are made where they end in different ways: some programs are unsteady.
TRIES = 3
# How long a program is waited for once it was told to end, in seconds.
GRACE = 10
# How a recorder says that no plan is written.
NO_PLAN = 125
OWN_LINE = re.compile(r"^wire_up-record: (.*)$", re.M)
ENDED = re.compile(r"the command ended (?:with status|by signal) (\d+)")
IN_PART = "holds only in part"
FINDINGS = re.compile(r"^findings (\d+)$", re.M)
# How many orders of a plan are turned round, and how many times as long as a program by itself that
# may take. And the word of those that the program keeps.
MOST_TURNED, TURNED_TIMES, KEPT = "40", 10, "kept"
# How Open MPI begins to say where a process crashed. The functions of the recorder are named too,
# and what several processes say is mixed.
CRASHED = "*** Process received signal ***"
# What differs from run to run in any program: numbers, such as times, addresses and processes.
NUMBER = re.compile(r"0x[0-9a-fA-F]+|\d+(?:\.\d+)?(?:e[-+]\d+)?")


@dataclass(frozen=True)
class Ran:
    """How a command ended; a status of None is that it took too long."""

    status: int | None
    wrote: str
    said: str
    seconds: float

    @property
    def lines(self) -> tuple[Sequence[str], Sequence[str]]:
        """What it wrote, in any order, without numbers and without the recorder's own lines; of a
        crash that it was one."""
        said = CRASHED if CRASHED in self.said else OWN_LINE.sub("", self.said)
        return sort_lines(self.wrote), sort_lines(said)


def sort_lines(text: str) -> Sequence[str]:
    """The lines of a text in order, without numbers."""
    return sorted(NUMBER.sub("N", line) for line in text.splitlines() if line.strip())


def run(words: Sequence[str], folder: Path, more: Mapping[str, str], patience: float) -> Ran:
    """Runs a command, and ends it when it takes too long."""
    began = time.monotonic()
    with subprocess.Popen(
        words,
        cwd=folder,
        env={**os.environ, **SETTINGS, **more},
        stdin=subprocess.DEVNULL,
        stdout=subprocess.PIPE,
        stderr=subprocess.PIPE,
        text=True,
        errors="replace",
        start_new_session=True,
    ) as process:
        status: int | None = None
        try:
            wrote, said = process.communicate(timeout=patience)
            status = process.returncode
        except subprocess.TimeoutExpired:
            wrote, said = end(process)
    return Ran(status, wrote, said, time.monotonic() - began)


def end(process: "subprocess.Popen[str]") -> tuple[str, str]:
    """Ends a command and all that it started. Answers what it wrote."""
    for number in (signal.SIGTERM, signal.SIGKILL):
        try:
            os.killpg(process.pid, number)
            return process.communicate(timeout=GRACE)
        except (subprocess.TimeoutExpired, ProcessLookupError):
            continue
    return process.communicate()


@dataclass(frozen=True)
class Outcome:
    """What came of a program. `lacks` says why it wasn't compared: it isn't built, or takes too
    long without the recorder. `no_plan`, `differs` and `replay` are what went another way than
    wanted, empty where nothing did. `seconds` are those of the recorded run. Where the orders of
    its plan are turned round, `kept` is how many it kept, and `turned` tells the others."""

    program: SuiteProgram
    lacks: str = ""
    no_plan: str = ""
    differs: str = ""
    is_in_part: bool = False
    findings: int | None = None
    is_replayed: bool = False
    replay: str = ""
    seconds: float = 0.0
    kept: int = 0
    turned: str = ""


def why_different(plain: Ran, recorded: Ran) -> str:
    """How the run with the recorder ended in another way; empty if it didn't."""
    status = recorded.status
    ended = ENDED.search(recorded.said)
    if status == NO_PLAN:
        status = int(ended[1]) if ended else 0
    if status is None:
        return f"takes longer than {recorded.seconds:.0f} s, {plain.seconds:.0f} s without"
    if status != plain.status:
        return f"status {status}, not {plain.status}"
    for one, other, what in zip(plain.lines, recorded.lines, ("output", "error output")):
        if one != other:
            line = next((text for text in other if text not in one), "fewer lines")
            return f"{what}: {line[:80]}"
    return ""


@dataclass(frozen=True)
class Bench:
    """Where and how programs are tried: the folder in which the suite is built, the checker, and
    how long a program may take without the recorder, in seconds."""

    built: Path
    checker: str
    patience: float

    def start(self, program: SuiteProgram) -> list[str]:
        """The words that start a program."""
        path = self.built / program.part / program.name
        launcher = ["mpirun", "--oversubscribe", "-n", str(program.processes)]
        return [*launcher, str(path), *program.words]

    def ask(self, *words: str) -> "subprocess.CompletedProcess[str]":
        """Runs the checker."""
        return subprocess.run(
            [self.checker, *words], capture_output=True, text=True, timeout=600, check=False
        )

    def try_program(self, program: SuiteProgram) -> Outcome:
        """Runs a program both ways, and judges its plan."""
        folder = self.built / program.part
        with tempfile.TemporaryDirectory(prefix="wire-up-suite-") as room:
            plan, answers = Path(room, "plan"), Path(room, "answers")
            recorder = [sys.executable, str(RECORDER), "-o", str(plan), "--answers", str(answers)]
            recorder += ["--checker", self.checker]
            differs = ""
            for _ in range(TRIES):
                plain = run(self.start(program), folder, program.variables, self.patience)
                if plain.status is None:
                    return Outcome(program, f"takes longer than {self.patience:.0f} s by itself")
                patience = 3 * plain.seconds + self.patience
                ran = run([*recorder, *self.start(program)], folder, program.variables, patience)
                differs = why_different(plain, ran)
                if not differs:
                    break
            if not plan.exists():
                why = (OWN_LINE.findall(ran.said) or ["nothing was said"])[-1]
                return Outcome(program, no_plan=why, differs=differs, seconds=ran.seconds)
            return self.judge(program, ran, differs, Path(room))

    def turn_program(self, program: SuiteProgram) -> Outcome:
        """Runs a program, and turns each order of its plan round."""
        folder = self.built / program.part
        with tempfile.TemporaryDirectory(prefix="wire-up-suite-") as room:
            plan, shown = Path(room, "plan"), Path(room, "shown")
            words = [sys.executable, str(RECORDER), "-o", str(plan), "--checker", self.checker]
            words += ["--turn", "--most", MOST_TURNED, "--shown", str(shown), *self.start(program)]
            patience = TURNED_TIMES * self.patience
            ran = run(words, folder, program.variables, patience)
            if ran.status is None:
                return Outcome(program, f"takes longer than {patience:.0f} s")
            if not shown.exists():
                why = (OWN_LINE.findall(ran.said) or ["nothing was said"])[-1]
                return Outcome(program, no_plan=why, seconds=ran.seconds)
            found = FINDINGS.search(self.ask("check", str(plan)).stdout)
            turns = json.loads(shown.read_text(encoding="utf-8"))["turned"]
        others = [f"{one['word']} {one['pair']}" for one in turns if one["word"] != KEPT]
        return Outcome(
            program,
            is_in_part=IN_PART in ran.said,
            findings=int(found[1]) if found else None,
            seconds=ran.seconds,
            kept=len(turns) - len(others),
            turned="; ".join(others),
        )

    def judge(self, program: SuiteProgram, ran: Ran, differs: str, room: Path) -> Outcome:
        """Judges a plan: its findings, and its replay beside how the calls ended."""
        plan, answers = room / "plan", room / "answers"
        with plan.open(encoding="utf-8") as text:
            is_large = any(line.startswith("# Larger than") for line in text)
        words = ["--large", str(plan)] if is_large else [str(plan)]
        checked = self.ask("check", *words)
        found = FINDINGS.search(checked.stdout)
        count = int(found[1]) if found else None
        replay = "check failed: " + checked.stderr[:80] if count is None else ""
        if count == 0:
            replay = self.why_other_replay(words, answers)
        return Outcome(
            program,
            differs=differs,
            is_in_part=IN_PART in ran.said,
            findings=count,
            is_replayed=count == 0,
            replay=replay,
            seconds=ran.seconds,
        )

    def why_other_replay(self, words: Sequence[str], answers: Path) -> str:
        """Where the replay of a plan and the real ends of its calls differ; empty if nowhere."""
        ran = self.ask("replay", *words)
        real = answers.read_text(encoding="utf-8").splitlines()
        replayed = ran.stdout.splitlines()
        if ran.returncode or len(real) != len(replayed):
            return f"replay ended with {ran.returncode}, {len(replayed)} lines of {len(real)}"
        for one, other in zip(real, replayed):
            if not is_alike(one, other):
                return f"the real call ended '{one}', and replay writes '{other}'"
        return ""
