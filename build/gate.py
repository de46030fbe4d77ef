"""The gate: `rt ci`, the edits that the prover must refuse, and then all tests, of which most run
the program that was proved and built as a user would.

Usage: python3 -m build.gate
It works on a copy of the repository, so nothing that checks kept in it counts, and nothing of it is
lost. (What an earlier `rt ci` proved of the same files on this machine counts where the version of
the kit keeps it.) The last line is 'N passed, M failed' for all of it, and the status is 1 where
anything failed. A line tells how far it is; what `rt ci` prints goes to out/gate.log, and where
something failed, what the log says of it is printed too. What it cost, crate by crate, is printed
and goes to out/gate-costs.md.

`rt ci` wants each file as `rt fmt` lays it out, and says so only after the proofs of a crate: so
that is looked at first, which takes half a minute. So is whether each edit can be applied. Types,
style and C are checked before the proofs. Just before the last line stands again what each part
said of what failed, so that the end of a log tells it.
"""
import contextlib
import io
import shutil
import sys
import tempfile
import traceback
from collections.abc import Callable, Sequence
from pathlib import Path
from typing import TextIO

from build import checkers, ci, costs, crate_list, records
from build.counted_runs import LINES, WIDTH
from build.counts import Counts, counted, summed
from build.crates import Crate, copy_to, crates_at, locked
from build.edits.reading import EditFile, edits_of, not_applied
from build.edits.trying import try_all
from build.layout import not_laid_out
from build.logs import log_at
from build.minutes import minutes_of
from build.places import BUILT, LOGS, PARTS, TOP, shown
from build.progress import Progress
from build.test_runs import Session, run_tests

# What users and tests run, of what `rt ci` builds in the copy.
KEPT = (BUILT, PARTS)
# The minutes of processor time that a gate may take, with all proofs from nothing.
BUDGET = 190


class Copied(io.StringIO):
    """What is written to another stream, kept."""

    def __init__(self, stream: TextIO) -> None:
        super().__init__()
        self.stream = stream

    def write(self, text: str) -> int:
        self.stream.write(text)
        return super().write(text)

    def flush(self) -> None:
        self.stream.flush()

    def isatty(self) -> bool:
        return self.stream.isatty()


class Gate:
    """What the parts of a gate found so far, what they cost, and what they said of failures."""

    def __init__(self, room: Path, watch: costs.Costs) -> None:
        """The copy of the repository, and what watches the processes."""
        self.room, self.watch = room, watch
        self.counts: list[Counts] = []
        # The processor time of what follows the proofs, by name.
        self.seconds: dict[str, float] = {}
        self.failures: list[str] = []

    def hear(self, name: str, part: Callable[[], Counts]) -> Counts:
        """Runs a part. A part that breaks off, such as by a time limit, is one failure, and the
        others go on."""
        before = costs.used()
        with contextlib.redirect_stdout(Copied(sys.stdout)) as said:
            try:
                counts = part()
            except Exception:
                print(f"{name}: {traceback.format_exc()}", end="")
                counts = Counts(0, 1)
        self.seconds[name] = costs.used() - before
        if counts.failed:
            lines = said.getvalue().splitlines()[-LINES:]
            self.failures.append(f"{name}: {counts.failed} failed")
            self.failures += [f"  {line[:WIDTH]}" for line in lines]
        self.counts.append(counts)
        return counts

    def judge(self, files: Sequence[EditFile]) -> None:
        """Runs all parts."""
        self.hear("checkers", checkers.run_checkers)
        proved = self.hear("rt ci", lambda: prove(self.room))
        is_there = keep_built(self.room)
        if proved.failed:
            print("the edits were not tried, as rt ci failed")
        else:
            self.watch.phase = "edits"
            self.hear("edits", lambda: refuse_edits(files))
            self.watch.phase = None
        # (their provers have rows of their own)
        for name in "rt ci", "edits":
            self.seconds.pop(name, None)
        if is_there:
            self.run_tests()
        else:
            print("the program was not built, and so no test was run")
            self.counts.append(Counts(0, 1))

    def run_tests(self) -> None:
        """Runs all tests."""
        with Progress("tests", minutes_of()["tests"]) as line:
            log = LOGS / "gate.log"
            settings = {"WIRE_UP_PROGRAM": str(BUILT)}
            session = Session(settings, log, line.now, is_quick=False)
            before = costs.used()
            for ran in run_tests(session):
                self.seconds[ran.name] = costs.used() - before
                self.counts.append(ran.counts)
                self.failures += ran.failures()
                line.note(ran.whole())
                before = costs.used()


def prove(room: Path) -> Counts:
    """Runs `rt ci` in the copy, and answers its counts; where it ends without them, one failure."""
    log = log_at("gate.log")
    with Progress("rt ci", minutes_of()["gate"]) as line:
        course = ci.Course(line, len(crate_list.names_below(None)))
        status = ci.run(room, log, course.take)
    counts = course.counts or Counts(0, 1)
    if status or counts.failed:
        print(ci.reasons(log), end="")
        print(f"rt ci failed. The whole output is in {shown(log)}")
        counts = Counts(counts.passed, counts.failed or 1)
    print(f"rt ci: {counts}", flush=True)
    return counts


def refuse_edits(files: Sequence[EditFile]) -> Counts:
    """Tries all edits over the libraries that `rt ci` built in the copy."""
    with Progress("edits", minutes_of()["edits"]) as line:
        found = list(try_all(files, line.now).values())
    with open(LOGS / "gate.log", "a", encoding="utf-8") as file:
        file.writelines(f"{outcome.text}\n" for outcome in found)
        for outcome in found:
            file.write(f"{outcome.seconds:.1f} seconds: {outcome.text.partition(':')[0]}\n")
    for outcome in found:
        if not outcome.is_refused or outcome.is_poor:
            print(outcome.text)
    counts = counted(each_outcome.is_refused for each_outcome in found)
    print(f"edits: {counts}", flush=True)
    return counts


def keep_built(room: Path) -> bool:
    """Puts what `rt ci` built in the copy where users and tests look for it. Answers whether all of
    it is there."""
    programs = [crate for crate in crates_at(TOP, Crate) if records.made_of(crate) in KEPT]
    with locked(programs):
        for program in programs:
            place = records.made_of(program)
            records.take_away(program)
            made = room / place.relative_to(TOP)
            if made.exists():
                place.parent.mkdir(parents=True, exist_ok=True)
                shutil.copy(made, place)
    return all(path.exists() for path in KEPT)


def tell_costs(gate: Gate) -> None:
    """Prints what the gate cost, and keeps it in a file."""
    crates = crate_list.names_below(None)
    told = gate.watch.report(crates, gate.seconds)
    (LOGS / "gate-costs.md").write_text(f"{told}\n", encoding="utf-8")
    print(
        f"{told} The budget is {BUDGET}: more is a reason to look, and no failure, as machines"
        " differ (`python3 -m build.speed` says by how much).",
        flush=True,
    )


def main() -> int:
    with tempfile.TemporaryDirectory(prefix="wire-up-gate-") as folder, costs.Costs() as watch:
        room = Path(folder)
        copy_to(room, TOP)
        files = edits_of(crates_at(room, Crate))
        wrong = not_laid_out(room) + not_applied(files)
        if wrong:
            print("\n".join(wrong))
            print(Counts(0, len(wrong)))
            return 1
        gate = Gate(room, watch)
        gate.judge(files)
        tell_costs(gate)
    counts = summed(gate.counts)
    if gate.failures:
        print(*gate.failures, sep="\n")
    print(counts)
    return 1 if counts.failed else 0


if __name__ == "__main__":
    try:
        sys.exit(main())
    except KeyboardInterrupt:
        sys.exit("\nstopped")
    except OSError as why:
        print(f"{why}\n0 passed, 1 failed")
        sys.exit(1)
