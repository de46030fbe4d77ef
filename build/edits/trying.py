"""Goes through edits: those of many functions in batches, and alone what these don't show."""
import functools
import itertools
from collections import defaultdict
from collections.abc import Callable, Iterable, Mapping, Sequence
from pathlib import Path
from typing import TypeVar

from build import kit, lanes
from build.crates import Crate
from build.edits.batches import batches_of
from build.edits.checks import Outcomes, check_one_by_one, try_alone
from build.edits.reading import Edit, EditFile, label_of, read
from build.edits.verdicts import Outcome
from build.memory import machine_here

# An edit whose function takes longer, in seconds, is worth a look.
LONG = 20
Given = TypeVar("Given")
# Is told how far it is.
Tell = Callable[[str], None]


def say_nothing(state: str) -> None:
    """Tells nobody how far it is."""


def slow_ones(outcomes: Iterable[Outcome]) -> list[str]:
    """A line for each edit whose function took long, the longest first."""
    slow = sorted(
        (outcome for outcome in outcomes if outcome.seconds >= LONG),
        key=lambda outcome: -outcome.seconds,
    )
    return [f"{outcome.seconds:.0f} seconds: {outcome.text.partition(':')[0]}" for outcome in slow]


def side_by_side(work: Mapping[str, tuple[Crate, Callable[[], Given]]]) -> dict[str, Given]:
    """What calls give, by the name of each, one to a processor, those of the largest crates
    first."""

    def proof_of(crate: Crate, call: Callable[[], Given]) -> lanes.Proof[Given]:
        return lanes.Proof([], crate.count(rb"\n"), kit.need(crate), lambda _given: call())

    return lanes.run_all({name: proof_of(*pair) for name, pair in work.items()}, machine_here())


def read_all(files: Sequence[EditFile]) -> tuple[list[Edit], Outcomes]:
    """The edits that can be applied, and what became of the others."""
    found: Outcomes = {}
    edits = []
    for crate, path in files:
        edit, why = read(crate, path)
        if edit:
            edits.append(edit)
        else:
            said = f"{label_of(crate, path)}: BAD EDIT: {why}"
            found[path] = Outcome(said, is_refused=False)
    return edits, found


def try_all(files: Sequence[EditFile], tell: Tell = say_nothing) -> Outcomes:
    """What became of each edit, in the order of the files. The libraries below the crates are
    built, and the crates proved."""
    edits, found = read_all(files)
    found.update(try_in_batches(edits, tell))
    left = [edit for edit in edits if edit.path not in found]
    found.update(try_one_by_one(left, tell))
    return {path: found[path] for _, path in files}


def try_in_batches(edits: Sequence[Edit], tell: Tell) -> Outcomes:
    """What became of those edits that a batch shows refused."""
    by_crate: dict[Crate, list[Edit]] = defaultdict(list)
    for edit in edits:
        if edit.function:
            by_crate[edit.crate].append(edit)
    batches = {crate: batches_of(row) for crate, row in by_crate.items()}
    count, total = itertools.count(1), sum(map(len, batches.values()))

    def ended() -> None:
        tell(f"batch {next(count)} of {total}")

    work = {}
    for crate, these in batches.items():
        work[crate.name] = crate, functools.partial(check_one_by_one, these, ended)
    found: Outcomes = {}
    for shown in side_by_side(work).values():
        found.update(shown)
    return found


def try_one_by_one(edits: Sequence[Edit], tell: Tell) -> Outcomes:
    """What became of each edit, where each is tried alone."""
    count, total = itertools.count(1), len(edits)

    def try_next(edit: Edit) -> Outcome:
        outcome = try_alone(edit)
        tell(f"{next(count)} of {total} that are tried alone")
        return outcome

    work = {str(edit.path): (edit.crate, functools.partial(try_next, edit)) for edit in edits}
    return {Path(path): outcome for path, outcome in side_by_side(work).items()}
