"""Reads edits: the files of a crate that say which text takes the place of which."""
import os
import sys
from collections.abc import Sequence
from dataclasses import dataclass
from pathlib import Path

from build import kit
from build.crates import Crate
from build.edits.sources import Function, functions_of, source_of

# An edit by its crate and its path.
EditFile = tuple[Crate, Path]


@dataclass(frozen=True)
class Edit:
    """An edit that can be applied."""

    crate: Crate
    path: Path
    # The texts of the files that it changes, by their paths in the crate.
    texts: dict[str, str]
    # If it changes one body alone: its source file, that file's text, and its function.
    file: str
    was: str
    function: Function | None

    @property
    def body(self) -> Function:
        """The function whose body alone it changes. There must be one."""
        if self.function is None:
            raise ValueError(f"{self.path} changes no single body")
        return self.function

    def wrong_text(self) -> str:
        """The text of its function with the wrong body."""
        new, function = self.texts[self.file], self.body
        return new[function.begin:len(new) - (len(self.was) - function.end)]


def label_of(crate: Crate, path: Path) -> str:
    """The words by which an edit is named in what is printed."""
    return f"must-fail {crate.name}/{path.name}"


def changed_part(old: str, new: str) -> tuple[int, int]:
    """Where the part of a text begins and ends that another text doesn't share."""
    begin = len(os.path.commonprefix([old, new]))
    same = len(os.path.commonprefix([old[begin:][::-1], new[begin:][::-1]]))
    return begin, len(old) - same


def read(crate: Crate, path: Path) -> tuple[Edit | None, str | None]:
    """The edit of a file, or why it can't be applied."""
    texts, why = kit.read_edit(path, crate.folder)
    if why or not texts:
        return None, why
    file = next(iter(texts))
    if len(texts) > 1 or not file.startswith("src/"):
        return Edit(crate, path, texts, file, "", None), None
    was = source_of(crate, file)
    begin, end = changed_part(was, texts[file])
    functions = functions_of(crate, file, was)
    function = next(
        (
            each_function
            for each_function in functions
            if each_function.body <= begin and end <= each_function.end
        ),
        None,
    )
    return Edit(crate, path, texts, file, was, function), None


def paths_of(crate: Crate) -> list[Path]:
    """The paths of the edits of a crate."""
    folder = crate.place / "edits"
    return sorted(folder.iterdir()) if folder.is_dir() else []


def edits_of(crates: Sequence[Crate]) -> list[EditFile]:
    """All edits of crates."""
    return [(crate, path) for crate in crates for path in paths_of(crate)]


def asked_for(words: Sequence[str], crates: Sequence[Crate]) -> list[EditFile]:
    """The edits that the words name, each by its crate or its file: all of them where there are no
    words."""
    files, found = edits_of(crates), list[EditFile]()
    for word in words:
        is_file = Path(word).exists()
        these = []
        for crate, path in files:
            if crate.name == word or (is_file and path.samefile(word)):
                these.append((crate, path))
        if not these:
            sys.exit(f"{word}: no edit and no crate with edits")
        found += [pair for pair in these if pair not in found]
    return found if words else files


def not_applied(files: Sequence[EditFile]) -> list[str]:
    """A line for each edit that can't be applied, with why."""
    tried = [(path, read(crate, path)[1]) for crate, path in files]
    found = [f"{str(path).rpartition('crates/')[2]}: BAD EDIT: {why}" for path, why in tried if why]
    return found or ["there is no edit"] * (not files)
