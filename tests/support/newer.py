"""A newer Debian in a folder that `make newer-root` makes, and how tests run in it. Where there is
none, they are left out."""
import os
import shutil
import subprocess
import tempfile
import unittest
from collections.abc import Sequence
from pathlib import Path

from build.newer_root import LOG, enter, find_root
from tests import support
from tests.support.needs import needs_mpi

# What of the repository the tests need.
FOLDERS = ("build", "packaging", "python", "record", "run", "tests", "examples")
FILES = ("Makefile", "wire_up-record", "wire_up-run")
BUILT = shutil.ignore_patterns("*.so", "out", "__pycache__", "wire_up-rank")
# How much is told of a line.
WIDTH = 160
# How long a command there may take, in seconds.
PATIENCE = 5400
Ran = subprocess.CompletedProcess[str]


def tell_gate() -> str:
    """What the gate said last where it makes the folder beside the proofs; empty where it
    doesn't."""
    try:
        lines = LOG.read_text(encoding="utf-8", errors="replace").split("\n")
    except FileNotFoundError:
        return ""
    last = next(filter(None, reversed(lines)), "nothing yet")
    return f" (its last line in the gate: {last[:WIDTH]})"


def what_lacks(root: str, program: str) -> str:
    """Why a program can't be run in the folder; empty where it can."""
    if not Path(root).is_dir():
        return f"there is no {root}, which `make newer-root` makes{tell_gate()}"
    if os.geteuid() != 0:
        return f"only root can enter {root}"
    look = enter(root, ["sh", "-c", 'command -v "$0"', program])
    ran = subprocess.run(look, capture_output=True, check=False)
    return "" if ran.returncode == 0 else f"there is no {program} in {root}"


@needs_mpi
class NewerCase(unittest.TestCase):
    """Tests in the folder, where a copy of the repository is while one runs."""

    def take_root(self, program: str) -> str:
        """The folder. Leaves the test out where the program can't be run in it."""
        root = find_root()
        lacking = what_lacks(root, program)
        if lacking:
            self.skipTest(f"nothing is tested with newer libraries: {lacking}")
        return root

    def make_scratch(self, root: str) -> Path:
        """A folder for temporary files, as it is named inside. Processes there have the same
        numbers each time, and Open MPI names its folders by them: where a launcher was killed, the
        next one of its number would end at once."""
        made = tempfile.mkdtemp(prefix="t", dir=Path(root, "tmp"))
        # Munge runs as another user.
        os.chmod(made, 0o1777)
        self.addCleanup(shutil.rmtree, made, ignore_errors=True)
        return Path("/tmp", Path(made).name)

    def run_inside(self, program: str, words: Sequence[str]) -> Ran:
        """Runs a command in a copy of the repository, if there is a program that it needs."""
        root = self.take_root(program)
        here = Path(tempfile.mkdtemp(prefix="wire-up-", dir=Path(root, "root")))
        self.addCleanup(shutil.rmtree, here, ignore_errors=True)
        for name in FOLDERS:
            shutil.copytree(support.TOP / name, here / name, ignore=BUILT)
        for name in FILES:
            shutil.copy(support.TOP / name, here)
        try:
            shutil.copy(support.program(), here / "wire_up")
        except unittest.SkipTest as why:
            print(f"newer libraries: {why}")
        inside = f"/root/{here.name}"
        scratch = f"TMPDIR={self.make_scratch(root)}"
        return subprocess.run(
            enter(root, ["sh", "-c", 'cd "$0" && exec "$@"', inside, "env", scratch, *words]),
            stdin=subprocess.DEVNULL,
            capture_output=True,
            text=True,
            timeout=PATIENCE,
            check=False,
        )
