"""The crates of the repository, as the kit has them, each of which remembers what is below it."""
import contextlib
import hashlib
import os
import shutil
import threading
from collections.abc import Iterator, Sequence
from pathlib import Path
from typing import TypeVar

from build import crate_list, kit

# The path, the times and the size of each file of a crate.
Looks = list[tuple[Path, int, int, int]]
# What is made in any folder, and isn't copied.
MADE = shutil.ignore_patterns("out", "*.so", "__pycache__")


class Seen(threading.local):
    """What was seen of the files of each crate, by its folder, while one question is answered."""

    looks: dict[Path, Looks] | None = None


SEEN = Seen()


@contextlib.contextmanager
def look_once() -> Iterator[dict[Path, Looks]]:
    """Within this, the files of each crate are looked at once, as long as one question is
    answered."""
    outer = SEEN.looks
    SEEN.looks = {} if outer is None else outer
    try:
        yield SEEN.looks
    finally:
        SEEN.looks = outer


def looks_of(folder: Path) -> Looks:
    """The path, the times and the size of each file of a crate."""
    found = [(path, path.stat()) for path in kit.files_of(folder)]
    return [(path, item.st_mtime_ns, item.st_ctime_ns, item.st_size) for path, item in found]


class Crate(kit.KitCrate):
    """A crate that remembers the libraries below it, and its sum as long as no file that it is made
    from changes. The kit goes down to a library by every way that leads there, thousands from the
    program, and reads its files each time."""

    def __init__(self, folder: str, root: str, known: dict[str, "Crate"]) -> None:
        self.known_below: list["Crate"] | None = None
        self.known_stamp: tuple[list[Looks], str] = [], ""
        self.known_own: tuple[Looks, str] = [], ""
        super().__init__(folder, root, known)

    @property
    def place(self) -> Path:
        """Its folder."""
        return Path(self.folder)

    def below(self) -> list["Crate"]:
        if self.known_below is None:
            self.known_below = super().below()
        return list(self.known_below)

    def stamp(self) -> str:
        return self.looks_and_stamp()[1]

    def own_stamp(self) -> str:
        """A sum of what the crate is made from, but for the libraries of the repository below it:
        its texts, the names of what it uses, and the kit."""
        with look_once() as seen:
            looks = seen.setdefault(self.place, looks_of(self.place))
            if self.known_own[0] != looks:
                uses = [self.of_kit, [dep.name for dep in self.deps]]
                files = [
                    (str(pair[0].relative_to(self.folder)), kit.sum_of(pair[0])) for pair in looks
                ]
                made_from = repr([kit.identity(), uses, files])
                self.known_own = looks, hashlib.sha256(made_from.encode()).hexdigest()
        return self.known_own[1]

    def looks_and_stamp(self) -> tuple[list[Looks], str]:
        """From what the crate is built: the looks of its files and of those of each library below
        it, and a sum of all their texts."""
        with look_once() as seen:
            looks = []
            for crate in [self, *self.below()]:
                if crate.place not in seen:
                    seen[crate.place] = looks_of(crate.place)
                looks.append(seen[crate.place])
            if self.known_stamp[0] != looks:
                self.known_stamp = looks, super().stamp()
        return self.known_stamp


AnyCrate = TypeVar("AnyCrate", bound=Crate)


def crates_at(top: Path, kind: type[AnyCrate]) -> list[AnyCrate]:
    """The crates of a repository, each after those that it uses."""
    known: dict[str, Crate] = {}
    found = []
    for name in crate_list.names_below(None, top):
        folder = str(top / "crates" / name)
        crate = kind(folder, str(top), known)
        known[folder] = crate
        kit.read_words(crate)
        found.append(crate)
    return sorted(found, key=lambda item: len(item.below()))


def crates_for(name: str, top: Path) -> list[Crate]:
    """The crate of this name and all below it, each after those that it uses."""
    wanted = crate_list.names_below(name, top)
    return [crate for crate in crates_at(top, Crate) if crate.name in wanted]


def copy_to(room: Path, top: Path) -> None:
    """Copies a repository, without what was made in it and without its history."""
    for path in top.iterdir():
        if path.is_file() and path.name != "wire_up":
            shutil.copy(path, room)
        elif path.is_dir() and path.name not in (".git", "out"):
            shutil.copytree(path, room / path.name, ignore=MADE)


@contextlib.contextmanager
def locked(crates: Sequence[Crate]) -> Iterator[None]:
    """Keeps every other `rt` out of the folders of crates. Waits until none works there."""
    held = kit.lock(crates)
    try:
        yield
    finally:
        for number in held:
            os.close(number)
