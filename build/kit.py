"""The only door to the kit's command `rt`, which is a Python program without types. What it knows
of crates, of edits and of what a check takes is called here, and nothing of it is replaced.

The kit has no call for these, which the repository does by itself:

- to build a library that holds no more than what crates above can cite, outside of `rt ci`, and
  to build and link a program in its own folder (`build/proving.py`);
- to say over which builds of the libraries below a crate was built, and that its verdict was
  judged (`build/records.py`);
- to remember what is below a crate, and the sum of its text: `Crate` of `build/crates.py` does,
  since the kit goes down to a library by every way that leads there;
- to try a program without a second process that looks for names which a check would refuse, and
  to keep what it built for that (`TriedCrate` and `keep_program` of `build/trying.py`);
- to say what a name stands for (`build/definitions.py`);
- to check some functions of a copy of a crate and time them (`build/edits/checks.py`).
"""
import importlib.machinery
import importlib.util
import os
import re
import shutil
import sys
from collections.abc import Sequence
from pathlib import Path
from types import ModuleType
from typing import TYPE_CHECKING


def load_command() -> ModuleType:
    """The command `rt` as a module."""
    path = shutil.which("rt")
    if not path:
        sys.exit("The command `rt` of the Rattle kit isn't on the path.")
    loader = importlib.machinery.SourceFileLoader("rt", str(Path(path).resolve()))
    found = importlib.util.spec_from_loader("rt", loader)
    if found is None:
        sys.exit(f"{path} can't be read")
    made = importlib.util.module_from_spec(found)
    sys.modules["rt"] = made
    loader.exec_module(made)
    return made


RT = load_command()
# The prover's allocator gives freed memory back to the system, which clears it before the prover
# gets it again. With this setting it keeps that memory, which saves processor time.
ALLOCATOR = "MIMALLOC_PURGE_DELAY"
os.environ.setdefault(ALLOCATOR, "-1")
# `rt` starts a guard, which ends all that was started here when this program ends. Only the main
# thread may start it.
RT.rtlib.guarded()

if TYPE_CHECKING:
    from build.kit_types import KitCrate as KitCrate
else:
    KitCrate = RT.rtlib.Crate

# Where the kit is, its prover, and the folders of a crate that the prover reads.
PLACE = Path(RT.rtlib.KIT)
PROVER: str = RT.rtlib.RATTLE
FOLDERS: tuple[str, ...] = RT.rtlib.PARTS
# Words of a verdict that `rt ci` refuses in this repository.
NOT_HERE: tuple[str, ...] = getattr(RT, "NOT_HERE", ())
# The words by which the prover keeps what it proved of a crate.
KEPT: tuple[str, ...] = tuple(RT.rtlib.KEPT)
# How the prover says that the kept work of a library can't be used.
STALE: "re.Pattern[str]" = RT.rtlib.STALE
# How the prover says that it came to a limit of its own.
LIMITS: "re.Pattern[str]" = getattr(RT, "LIMITS", re.compile(r"antt ran out of"))
# What `must_fail` answers of an edit that is refused: a word in some versions of the kit, "yes" in
# others. A limit that the prover meets wherever it checks the same is a refusal, as for `rt`.
REFUSALS = (True, getattr(RT, "REFUSED", True), getattr(RT, "AT_LIMIT", True))
# Whether this version keeps what `rt ci` proved, and would take it from there.
KEEPS_PROOFS = hasattr(RT, "Kept")


def guarded() -> list[str]:
    """The words before a command by which it ends when this program ends, however it ends."""
    found: list[str] = RT.rtlib.guarded()
    return found


def lock(crates: Sequence[KitCrate]) -> list[int]:
    """Waits until no other `rt` works in the folders of crates. Answers the open files that keep
    others out."""
    held: list[int] = RT.rtlib.lock(crates)
    return held


def files_of(folder: Path) -> list[Path]:
    """The paths of the files of a crate that the prover reads."""
    return [Path(path) for path in RT.rtlib.files_of(str(folder))]


def text_of(path: Path) -> str:
    """The text of a file; nothing where there is none."""
    return RT.rtlib.text_of(str(path)) or ""


def sum_of(path: Path) -> str:
    """A sum of a file's bytes."""
    found: str = RT.rtlib.sum_of(str(path))
    return found


def identity() -> str:
    """What says which build of the kit this is."""
    return text_of(PLACE / "WHAT")


def root_above(folder: Path) -> str:
    """The top of the repository that a folder belongs to; the folder itself where it is in none."""
    return RT.rtlib.root_above(str(folder)) or str(folder)


def read_words(crate: KitCrate) -> None:
    """Has a program's files `args` and `status` read, as the command does for each crate."""
    if hasattr(RT, "read_files"):
        RT.read_files(crate)


def need(crate: KitCrate) -> float:
    """How many bytes of memory a check from nothing is likely to take at most."""
    found: float = RT.need(crate)
    return found


def processors() -> int:
    """How many processors there are to use."""
    found: int = RT.processors()
    return found


def free() -> float:
    """How many bytes of memory are free."""
    found: float = RT.free()
    return found


def read_edit(path: Path, folder: str) -> tuple[dict[str, str] | None, str | None]:
    """The texts of the files that an edit changes, by their paths in the crate, or why it can't be
    applied."""
    found: tuple[dict[str, str] | None, str | None] = RT.read_edit(str(path), folder)
    return found


def must_fail(crate: KitCrate, path: Path) -> tuple[bool, str]:
    """Whether the prover refuses the whole crate with an edit, and what to say of it."""
    answer, text = RT.must_fail(crate, str(path), ["--jobs", "1"])
    return answer in REFUSALS, str(text)


def is_unread(line: str, changed: dict[str, str]) -> bool:
    """Whether a line of the prover says that it couldn't read a text, of these that changed or
    another."""
    return bool(RT.unread(line, changed))
