"""Takes away the bodies of the functions of a crate that have no edit in a batch."""
import re
from collections.abc import Collection
from dataclasses import dataclass
from pathlib import Path

from build.crates import Crate
from build.edits.sources import (
    Function,
    attributes_of,
    brace_of,
    files_below,
    functions_of,
    is_in_cycle,
    module_of,
    source_files,
    source_of,
)

# The files with the proof of a function.
OWN_PROOFS = "Answers.antt", "Invariants.antt", "Proof.antt"
# The proof of a function without a body: that this is never reached is a hole.
EMPTIED = """\
use Rattle.{crate}.proofs.{path}.Goals as goal

pub unreachable-requires : goal.unreachable-requires
unreachable-requires c = ?
"""
CONST = re.compile(r" *(?:pub(?:\([a-z]+\))? )?const ")
GIVES_IMPL = re.compile(r"->[^\n]*\bimpl\b")
CALLED = re.compile(r"\b(\w+)(?:::<[^()]*>)?\(")


@dataclass(frozen=True)
class ToEmpty:
    """The text of a source file, and those of its functions that are emptied."""

    text: str
    functions: list[Function]


def can_be_emptied(file: str, text: str, function: Function) -> bool:
    """Whether the body of a function can be taken away: it is a method of a type or a free
    function, the type that it gives doesn't depend on the body, nothing is computed by it while the
    crate is read, it is in no cycle of calls, and its attributes can be read."""
    brace, attributes = brace_of(text, function), attributes_of(text, function)
    if brace is None or attributes is None or is_in_cycle(attributes) or function.is_of_trait:
        return False
    header, is_method = text[function.begin:brace], function.path.split("::")[:-1]
    if header.startswith(" ") != (is_method != module_of(file)):
        return False
    return not GIVES_IMPL.search(header) and not CONST.match(header)


def without_body(text: str, function: Function) -> str:
    """The text of a source file with a function emptied."""
    own = text[function.begin:]
    indent = own[: len(own) - len(own.lstrip(" "))]
    head = text[: brace_of(text, function)]
    return f"{head}{{\n{indent}    unreachable!()\n{indent}}}{text[function.end :]}"


def proofs_when_emptied(crate: Crate, path: str) -> dict[str, str | None]:
    """The proof files of a function that is emptied, and those of its closures, which go."""
    *around, own = path.split("::")
    folder = Path("proofs", *around, own)
    closures = crate.place.joinpath("proofs", *around, "fn", own)
    found: dict[str, str | None] = {str(folder / proof): None for proof in OWN_PROOFS}
    found.update((str(file.relative_to(crate.place)), None) for file in files_below(closures))
    text = EMPTIED.format(crate=crate.name, path=path.replace("::", "."))
    return {**found, str(folder / "Answers.antt"): text}


def functions_to_empty(
    crate: Crate, only: Collection[str], sources: dict[str, str]
) -> dict[str, ToEmpty]:
    """The functions of a crate that aren't among these and can be emptied, by source file."""
    found = {}
    for file in source_files(crate):
        text = sources.get(file) or source_of(crate, file)
        others = [
            function for function in functions_of(crate, file, text) if function.path not in only
        ]
        found[file] = ToEmpty(
            text,
            [
                each_function
                for each_function in others
                if can_be_emptied(file, text, each_function)
            ],
        )
    return found


def called_in(body: str, names: Collection[str]) -> set[str]:
    """Which of these names of functions a body calls, as far as its words show it."""
    return {found for found in CALLED.findall(body) if found in names}


def control_of(to_empty: dict[str, ToEmpty], only: Collection[str]) -> str | None:
    """The path of a function that keeps its body though it has no edit: one that calls none with an
    edit or a copy of one, and if possible one that calls one that is emptied, and the shortest of
    those."""
    files = to_empty.values()
    bodies = {
        function.path: file.text[function.body:function.end]
        for file in files
        for function in file.functions
    }
    edited = {text.rpartition("::")[2] for text in only}
    emptied = {each_body.rpartition("::")[2] for each_body in bodies}
    good = [path for path, body in bodies.items() if not called_in(body, edited)]

    def rank(path: str) -> tuple[bool, int]:
        others = emptied - {path.rpartition("::")[2]}
        return not called_in(bodies[path], others), len(bodies[path])

    return min(good, key=rank) if good else None


def empty_others(
    crate: Crate,
    only: Collection[str],
    sources: dict[str, str],
    proofs: dict[str, str | None],
) -> str | None:
    """Empties the functions of a crate that aren't among these, as far as they can be, in the texts
    of its source and proof files. Answers the path of the one that keeps its body."""
    to_empty = functions_to_empty(crate, only, sources)
    control = control_of(to_empty, only)
    for file, each_to_empty in to_empty.items():
        text = each_to_empty.text
        for function in reversed(each_to_empty.functions):
            if function.path != control:
                text = without_body(text, function)
                proofs.update(proofs_when_emptied(crate, function.path))
        sources[file] = text
    return control
