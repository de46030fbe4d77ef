"""Batches of edits: which edits are checked together, and the texts of that check."""
from collections import defaultdict
from collections.abc import Sequence
from dataclasses import dataclass

from build.crates import Crate
from build.edits.copying import Place, can_be_copied, copied_as_they_are, copies_of, proofs_of_copy
from build.edits.emptying import empty_others
from build.edits.reading import Edit
from build.edits.sources import functions_of, lines_of


@dataclass(frozen=True)
class Placed:
    """An edit in its place in a batch."""

    edit: Edit
    # The path of the function that has its wrong body, and the lines from which and to which that
    # stands.
    path: str
    first: int
    last: int


@dataclass(frozen=True)
class Texts:
    """A batch as it is checked."""

    # The texts of the source files that it changes, and those of the proof files; no text for one
    # that goes.
    sources: dict[str, str]
    proofs: dict[str, str | None]
    placed: list[Placed]
    # The paths of all functions that are checked.
    only: list[str]


def batches_of(edits: Sequence[Edit]) -> list[list[Edit]]:
    """Edits of a crate in batches, each with at most one edit of a function that can't be
    copied."""
    batches: list[list[Edit]] = []
    for edit in edits:
        free = next((batch for batch in batches if has_room_for(batch, edit)), None)
        if free is None:
            free = []
            batches.append(free)
        free.append(edit)
    return batches


def has_room_for(batch: Sequence[Edit], edit: Edit) -> bool:
    """Whether an edit can join a batch."""
    place = edit.file, edit.function
    return can_be_copied(edit) or all(
        (each_edit.file, each_edit.function) != place for each_edit in batch
    )


def texts_of(batch: Sequence[Edit], *, empties: bool = True) -> Texts:
    """A batch as it is checked, with all other functions emptied or not."""
    by_function: dict[Place, list[Edit]] = defaultdict(list)
    for edit in batch:
        by_function[edit.file, edit.body].append(edit)
    crate, as_they_are = batch[0].crate, copied_as_they_are(by_function)
    sources: dict[str, str] = {}
    proofs: dict[str, str | None] = {}
    names: dict[str, Edit | None] = {}
    # From the end of each file to its start, so that the places of other functions stay.
    for place, edits in sorted(by_function.items(), key=lambda each_place: -each_place[0][1].begin):
        copies = copies_of(edits, has_control=place in as_they_are) if len(edits) > 1 else {}
        put_in_place(edits, copies, sources, names)
        for name in copies:
            proofs.update(proofs_of_copy(crate, place[1].path, name))
    control = empty_others(crate, names, sources, proofs) if empties else None
    if control:
        names[control] = None
    return Texts(sources, proofs, placed_in(crate, sources, names), list(names))


def put_in_place(
    edits: Sequence[Edit],
    copies: dict[str, str],
    sources: dict[str, str],
    names: dict[str, Edit | None],
) -> None:
    """Puts the wrong body of the first edit of a function, and the copies of that function behind
    it, into the text of its source file. Their paths join the names, each with its edit."""
    function, file = edits[0].body, edits[0].file
    text, around = sources.get(file, edits[0].was), function.path.rpartition("::")[0]
    own = "\n\n".join([edits[0].wrong_text(), *copies.values()])
    sources[file] = text[: function.begin] + own + text[function.end:]
    paths = [function.path, *("::".join(filter(None, [around, copy])) for copy in copies)]
    names.update(zip(paths, [*edits, *[None] * len(copies)]))


def placed_in(
    crate: Crate, sources: dict[str, str], names: dict[str, Edit | None]
) -> list[Placed]:
    """The edits in their places, by the paths of the functions that have their wrong bodies."""
    found = []
    for file, text in sources.items():
        for function in functions_of(crate, file, text):
            edit = names.get(function.path)
            if edit:
                found.append(Placed(edit, function.path, *lines_of(text, function)))
    return found
