"""Copies of a function, each for a further edit of it, with its proof files."""
import re
from collections.abc import Mapping, Sequence
from pathlib import Path

from build import kit
from build.crates import Crate
from build.edits.reading import Edit
from build.edits.sources import Function, attributes_of, files_below, is_in_cycle

# A function by its source file.
Place = tuple[str, Function]


def can_be_copied(edit: Edit) -> bool:
    """Whether the function of an edit can stand a second time under another name: no trait asks for
    it, its attributes can be read, and it doesn't call itself."""
    function = edit.body
    own, attributes = edit.was[function.body:function.end], attributes_of(edit.was, function)
    if function.is_of_trait or attributes is None or is_in_cycle(attributes):
        return False
    return not re.search(rf"\b{function.name}\b", own)


def copies_of(edits: Sequence[Edit], *, has_control: bool) -> dict[str, str]:
    """Copies of the function of several edits, by name: one for each edit but the first, and one
    without an edit if it is wanted."""
    function, was = edits[0].body, edits[0].was
    name, attributes = function.name, attributes_of(was, function) or ""
    bodies = {f"{name}_wrong_{n}": edit.wrong_text() for n, edit in enumerate(edits[1:], 2)}
    if has_control:
        bodies[f"{name}_as_it_is"] = was[function.begin:function.end]
    header = re.compile(rf"\bfn {name}\b")
    return {
        new: attributes + header.sub(f"fn {new}", text, count=1) for new, text in bodies.items()
    }


def is_cited(crate: Crate, path: str) -> bool:
    """Whether a proof file of a crate that isn't the function's own names the proof of the function
    of a path, or of a closure in it, by the whole name of its module."""
    *around, own = path.split("::")
    inner = (around, [*around, "fn"])
    folders = [crate.place.joinpath("proofs", *row, own) for row in inner]
    modules = [".".join(["proofs", *row, own]) for row in inner]
    cites = re.compile(rf"\.(?:{'|'.join(map(re.escape, modules))})\.")
    proofs = [file for file in kit.files_of(crate.place) if file.suffix == ".antt"]
    others = (proof for proof in proofs if not any(map(proof.is_relative_to, folders)))
    return any(cites.search(kit.text_of(proof)) for proof in others)


def copied_as_they_are(by_function: Mapping[Place, Sequence[Edit]]) -> list[Place]:
    """The functions, of those in a batch by their edits, of which a copy without an edit is made:
    those of several edits whose proofs other files name, or else the shortest with several
    edits."""
    several = [pair for pair, edits in by_function.items() if len(edits) > 1]
    cited = [pair for pair in several if is_cited(by_function[pair][0].crate, pair[1].path)]
    return cited or sorted(several, key=lambda pair: pair[1].end - pair[1].body)[:1]


def proofs_of_copy(crate: Crate, path: str, name: str) -> dict[str, str]:
    """The proof files of a function, as those of its copy of another name."""
    *around, own = path.split("::")
    found = {}
    for inner in (around, [*around, "fn"]):
        folder = crate.place.joinpath("proofs", *inner, own)
        module = re.compile(rf"(?<=\.proofs\.){re.escape('.'.join([*inner, own]))}(?=\.)")
        to = ".".join([*inner, name])
        for file in files_below(folder):
            place = Path("proofs", *inner, name) / file.relative_to(folder)
            found[str(place)] = module.sub(to, kit.text_of(file))
    return found
