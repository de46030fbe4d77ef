"""Has the prover check batches of edits, and single edits, in copies of their crates."""
import re
import shutil
import subprocess
import tempfile
import time
from collections.abc import Callable, Iterable, Mapping, Sequence
from dataclasses import dataclass, replace
from pathlib import Path

from build import kit
from build.crates import Crate
from build.edits.batches import Placed, texts_of
from build.edits.reading import Edit
from build.edits.verdicts import Outcome, belongs_to, is_judged, judged

# A line that tells that the proof of a function was tried to its end.
TRIED = re.compile(r"checked (\S+), \d+ of \d+$")
# What became of edits, by their paths.
Outcomes = dict[Path, Outcome]


@dataclass(frozen=True)
class Checked:
    """What a check answered."""

    status: int
    said: str
    # How long each function took, by its path below the crate.
    seconds: dict[tuple[str, ...], float]


def copy_with(crate: Crate, texts: Mapping[str, str | None], room: Path) -> None:
    """Copies a crate to a folder, with these texts in place of its own. A file without a text
    goes."""
    for part in kit.FOLDERS:
        if (crate.place / part).is_dir():
            shutil.copytree(crate.place / part, room / part)
    for name, text in texts.items():
        path = room / name
        path.parent.mkdir(parents=True, exist_ok=True)
        if text is None:
            path.unlink(missing_ok=True)
        else:
            path.write_text(text, encoding="utf-8")


def checked(
    crate: Crate, texts: Mapping[str, str | None], flags: Sequence[str], kept: str | None
) -> Checked:
    """Checks a copy of a crate with these texts in place of its own, over what a folder keeps where
    it is given, and takes the time of each function."""
    with tempfile.TemporaryDirectory(prefix="wire-up-edits-") as room:
        copy_with(crate, texts, Path(room))
        words = [kit.PROVER, "check", *crate.words(flags, keeps=False)]
        words += ["--incremental", kept] if kept else []
        with subprocess.Popen(
            [*kit.guarded(), *words],
            cwd=room,
            stdin=subprocess.DEVNULL,
            stdout=subprocess.PIPE,
            stderr=subprocess.STDOUT,
            text=True,
            errors="replace",
        ) as process:
            said, seconds = heard(process.stdout or ())
        return Checked(process.returncode, said, seconds)


def heard(lines: Iterable[str]) -> tuple[str, dict[tuple[str, ...], float]]:
    """The lines of a check, and how many seconds each function took, by its path below the
    crate."""
    said, before = [], time.monotonic()
    seconds: dict[tuple[str, ...], float] = {}
    for line in lines:
        said.append(line)
        if hit := TRIED.match(line):
            seconds[tuple(hit[1].split("::")[1:])] = time.monotonic() - before
            before = time.monotonic()
    return "".join(said), seconds


def check(batch: Sequence[Edit], kept: str | None = None, empties: bool = True) -> Outcomes:
    """Checks the functions of a batch, and answers what became of each of its edits, as far as that
    shows it. What an earlier check of the same crate kept in a folder isn't checked again, and what
    this one checks is kept there for the next."""
    texts = texts_of(batch, empties=empties)
    only = [word for text in texts.only for word in ("--only", text)]
    flags = ["--jobs", "1", "--progress", *["--allow-holes"] * empties, *only]
    ran = checked(batch[0].crate, {**texts.sources, **texts.proofs}, flags, kept)
    if not is_judged(ran.status, ran.said, texts):
        return {}
    found = [(placed, judged(placed, ran.said)) for placed in texts.placed]
    return {
        placed.edit.path: replace(outcome, seconds=seconds_of(placed, ran))
        for placed, outcome in found
        if outcome
    }


def seconds_of(placed: Placed, ran: Checked) -> float:
    """How many seconds a check took for the function of an edit."""
    return sum(seconds for path, seconds in ran.seconds.items() if belongs_to(placed, path))


def check_in_parts(batch: Sequence[Edit], kept: str | None = None) -> Outcomes:
    """What became of each edit of a batch. Where one check doesn't show it, such as because of an
    edit that can't be read, each half is checked by itself."""
    found, half = check(batch, kept), len(batch) // 2
    if found or not half:
        return found
    return {**check_in_parts(batch[:half], kept), **check_in_parts(batch[half:], kept)}


def check_one_by_one(batches: Sequence[Sequence[Edit]], ended: Callable[[], None]) -> Outcomes:
    """What became of each edit of a crate's batches. `ended` is called after each. The proofs that
    two batches share are checked once: whatever the crate's definitions and lemmas need."""
    found: Outcomes = {}
    with tempfile.TemporaryDirectory(prefix="wire-up-edits-") as kept:
        for batch in batches:
            found.update(check_in_parts(batch, kept if len(batches) > 1 else None))
            ended()
    return found


def try_alone(edit: Edit) -> Outcome:
    """Tries one edit: its function by itself, with all that it calls, and the whole crate where
    that doesn't show that it is refused."""
    found = check([edit], empties=False) if edit.function else {}
    return replace(found.get(edit.path) or try_whole(edit), is_alone=True)


def try_whole(edit: Edit) -> Outcome:
    """Tries one edit by a check of its whole crate."""
    is_refused, said = kit.must_fail(edit.crate, edit.path)
    return Outcome(said, is_refused)
