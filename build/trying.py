"""Checks and replays plans by a build without proofs, which has run-time checks in their place.

Usage: python3 -m build.trying FILE..
       python3 -m build.trying --cases FOLDER
With --cases it runs the program for each file of a folder, as `rt try --cases` does in the folder
of the program. What was built is kept, and taken again as long as no crate changes.
"""
import contextlib
import glob
import os
import subprocess
import sys
import tempfile
import threading
from collections.abc import Iterator, Sequence
from dataclasses import dataclass
from pathlib import Path

from build import kit, logs
from build.crates import crates_for
from build.ending import fail, run_and_leave
from build.minutes import minutes_of
from build.places import LOGS, PROGRAM, TOP
from build.progress import Progress

COMMANDS = ("check", "replay")
# What is kept: the program, and beside it what it was built from.
KEPT = LOGS / "tried" / "wire_up"
STAMP = KEPT.with_name("wire_up.stamp")
# How often the program is looked for while it is built, and how long it may run, in seconds; how
# often the kit runs it.
PAUSE, PATIENCE, CASES = 0.01, 600, 32


class TriedCrate(kit.KitCrate):
    """A program as it is tried. The kit looks, all the while, for names that a check would refuse:
    a hint for who changes code, which takes as much processor time again. It asks for these words
    for that hint alone, and with them the prover ends at once."""

    def words(
        self,
        flags: Sequence[str],
        tests: bool = False,
        keeps: bool = True,
        as_source: bool = False,
    ) -> list[str]:
        return ["--help"]


@dataclass(frozen=True)
class Tried:
    """What came of a command: what it wrote, what it said, and its exit status."""

    wrote: str
    said: str
    status: int


def try_cases(folder: str) -> int:
    """Builds the program in the current folder without proofs, and runs it for each file of a
    folder. Answers the status."""
    here = Path.cwd()
    crate = TriedCrate(str(here), kit.root_above(here), {})
    return crate.try_unproved(["--cases", folder], [])


def run_cases(
    folder: Path, top: Path, room: Path | None = None
) -> "subprocess.CompletedProcess[str]":
    """Runs the program of the repository at `top`, without proofs, for each file of a folder; it is
    built in another."""
    # On the disk, since on some systems no program can be run from where files lie in memory.
    where = {
        **os.environ,
        "TMPDIR": str(room or tempfile.gettempdir()),
        "PYTHONPATH": str(TOP),
    }
    return subprocess.run(
        [sys.executable, "-m", "build.trying", "--cases", folder],
        cwd=top / PROGRAM.relative_to(TOP),
        env=where,
        stdin=subprocess.DEVNULL,
        capture_output=True,
        text=True,
        errors="replace",
        check=False,
    )


def keep_program(room: Path, to: Path, has_ended: threading.Event) -> None:
    """Keeps the program that the kit builds below a folder, and takes away again."""
    new = to.with_name(f"{to.name}.new")
    while not has_ended.wait(PAUSE):
        for path in glob.glob("**/program", root_dir=room, recursive=True):
            with contextlib.suppress(OSError):
                if not to.exists() or not to.samefile(room / path):
                    new.hardlink_to(room / path)
                    new.replace(to)


@contextlib.contextmanager
def kept_from(room: Path, to: Path) -> Iterator[None]:
    """Keeps the program that is built below a folder within this."""
    has_ended = threading.Event()
    watch = threading.Thread(target=keep_program, args=(room, to, has_ended))
    watch.start()
    try:
        yield
    finally:
        has_ended.set()
        watch.join()


def write_cases(room: Path) -> None:
    """Writes cases that take long enough for the program to be seen."""
    room.mkdir()
    for number in range(CASES):
        (room / f"case{number}").write_bytes(b"")
        (room / f"case{number}.args").write_text("--version\n", encoding="utf-8")


def stamp_at(top: Path) -> str:
    """A sum of all that the program of the repository at `top` is built from."""
    return crates_for("program", top)[-1].stamp()


def is_built(top: Path) -> bool:
    """Whether the program of the repository at `top` is kept."""
    return KEPT.exists() and kit.text_of(STAMP) == stamp_at(top)


def build(top: Path, log: Path) -> bool:
    """Builds the program of the repository at `top` without proofs, and keeps it. Answers whether
    that went well."""
    stamp = stamp_at(top)
    KEPT.parent.mkdir(parents=True, exist_ok=True)
    with tempfile.TemporaryDirectory(prefix="tried-", dir=LOGS) as folder:
        room = Path(folder)
        cases, made = room / "cases", room / "made"
        write_cases(cases)
        with kept_from(room, made):
            ran = run_cases(cases, top, room)
        with log.open("a", encoding="utf-8") as to:
            to.write(f"$ rt try\n{ran.stdout}{ran.stderr}")
        if ran.returncode or not made.exists():
            return False
        STAMP.unlink(missing_ok=True)
        made.replace(KEPT)
    STAMP.write_text(stamp, encoding="utf-8")
    return True


def answer(command: str, file: str) -> Tried:
    """What a command of the kept program answers of a file, in a folder of its own."""
    with tempfile.TemporaryDirectory(prefix="wire-up-") as room, open(file, "rb") as given:
        ran = subprocess.run(
            [KEPT, command],
            stdin=given,
            capture_output=True,
            cwd=room,
            env=dict[str, str](),
            check=False,
            timeout=PATIENCE,
        )
    wrote, said = (text.decode(errors="replace") for text in (ran.stdout, ran.stderr))
    return Tried(wrote, said, ran.returncode)


def try_plans(files: Sequence[str], top: Path = TOP) -> None:
    """Checks and replays files by a build without proofs of the repository at `top`, and prints
    what comes of it. Where the build fails, the program ends."""
    for file in files:
        open(file, "rb").close()
    print("These answers aren't proved: their build has run-time checks instead.", flush=True)
    if not is_built(top):
        log = logs.log_at("try.log")
        with Progress("building without proofs", minutes_of()["try"]):
            is_well = build(top, log)
        if not is_well:
            fail("rt try failed", log)
    for file in files:
        for command in COMMANDS:
            tried = answer(command, file)
            print(f"$ wire_up {command} {file}\n{tried.wrote}", end="")
            if tried.status:
                print(f"{tried.said}(exit status {tried.status})", flush=True)


def main() -> int:
    words = sys.argv[1:]
    if len(words) == 2 and words[0] == "--cases":
        return try_cases(words[1])
    if not words or words[0].startswith("-"):
        sys.exit(__doc__)
    try_plans(words)
    return 0


if __name__ == "__main__":
    run_and_leave(main)
