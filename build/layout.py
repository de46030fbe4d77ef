"""Whether each file of the crates is as `rt fmt` lays it out, and whether each edit can be applied.

Usage: python3 -m build.layout
Prints a line for each that isn't so, and last 'N passed, M failed'.
"""
import filecmp
import subprocess
import sys
import tempfile
from concurrent.futures import ThreadPoolExecutor
from pathlib import Path

from build import crate_list, kit
from build.counts import Counts
from build.crates import Crate, copy_to, crates_at
from build.edits.reading import edits_of, not_applied
from build.places import TOP


def lay_out(folder: Path) -> None:
    """Has `rt fmt` lay out the files of a crate."""
    subprocess.run(["rt", "fmt"], cwd=folder, stdout=subprocess.DEVNULL, check=False)


def not_laid_out(room: Path) -> list[str]:
    """A line for each file that `rt fmt` would lay out in another way. It does so in this copy of
    the repository."""
    folders = [room / "crates" / name for name in crate_list.names_below(None)]
    with ThreadPoolExecutor(kit.processors()) as pool:
        list(pool.map(lay_out, folders))
    files = [path.relative_to(room) for path in (room / "crates").rglob("*") if path.is_file()]
    found = [str(file) for file in files if not is_same(room, file)]
    return [f"{file}: not as rt fmt lays it out" for file in sorted(found)]


def is_same(room: Path, file: Path) -> bool:
    """Whether a file of a copy is that of the repository."""
    return filecmp.cmp(room / file, TOP / file, shallow=False)


def main() -> int:
    wrong = not_applied(edits_of(crates_at(TOP, Crate)))
    with tempfile.TemporaryDirectory(prefix="wire-up-layout-") as folder:
        room = Path(folder)
        copy_to(room, TOP)
        wrong += not_laid_out(room)
    print(*wrong, Counts(int(not wrong), len(wrong)), sep="\n")
    return 1 if wrong else 0


if __name__ == "__main__":
    sys.exit(main())
