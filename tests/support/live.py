"""Programs that tests run and record: what that needs, and how it is done."""
import contextlib
import os
import re
import shutil
import subprocess
import sys
import tempfile
import unittest
from collections.abc import Iterator, Sequence
from pathlib import Path

from tests import support
from tests.support import TOP, Word
from tests.support.needs import needs_mpi
from tests.support.tapes import PATIENCE, PROGRAMS, run_recorder


# Open MPI as root must be told that this is meant. Its windows by UCX complain where there is no
# such network: Debian leaves them out itself, but of Open MPI 6.
ENVIRONMENT = {
    **os.environ,
    "OMPI_ALLOW_RUN_AS_ROOT": "1",
    "OMPI_ALLOW_RUN_AS_ROOT_CONFIRM": "1",
    "OMPI_MCA_osc": "^ucx,pt2pt",
}
# A library that comes before all others, as that of a sanitizer with which the recorder is built
# has to (build/sanitized.py).
FIRST = os.environ.get("WIRE_UP_FIRST_LIBRARY")
if FIRST:
    ENVIRONMENT["LD_PRELOAD"] = FIRST
# How programs are compiled that aren't one source in C alone. A folder stands for that in which
# they are put, where a program finds the libraries.
COMPILED = {
    "alone": ("cc", "alone.c"),
    "calls": ("cc", "-pthread", "calls.c"),
    "cards": ("cc", "cards.c"),
    "direct": ("mpicc", "-pthread", "direct.c"),
    "luck": ("mpicc", "luck.c"),
    "sessions": ("mpicc", "-pthread", "sessions.c"),
    "plugin.so": ("mpicc", "-shared", "-fPIC", "plugin.c"),
    "pmix_plugin.so": ("cc", "-shared", "-fPIC", "pmix_plugin.c"),
    "liblookups.so": ("mpicc", "-shared", "-fPIC", "-Wl,--no-as-needed", "lookups.c"),
    "lookups.so": ("mpicc", "-shared", "-fPIC", "-Wl,--no-as-needed", "lookups.c"),
    "hidden": (
        "mpicc", "-pthread", "hidden.c", "-L{folder}", "-Wl,-rpath,{folder}", "-llookups"
    ),
    "forks": ("mpicc", "-pthread", "forks.c"),
    "opening.so": ("mpicc", "-shared", "-fPIC", "-DLIBRARY", "forks.c"),
    "memory": ("mpicc", "-pthread", "memory.c"),
    "first.so": (
        "mpicc", "-shared", "-fPIC", "-DFIRST", "chain.c", "-L{folder}", "-Wl,-rpath,{folder}",
        "-lsecond"
    ),
    "libsecond.so": (
        "mpicc", "-shared", "-fPIC", "-DSECOND", "chain.c", "-L{folder}", "-Wl,-rpath,{folder}",
        "-lthird"
    ),
    "libthird.so": ("mpicc", "-shared", "-fPIC", "-DTHIRD", "chain.c"),
    "libprofiler.so": ("mpicc", "-shared", "-fPIC", "profiler.c"),
    "profiled": ("mpicc", "told.c", "-L{folder}", "-Wl,-rpath,{folder}", "-lprofiler"),
    **{
        f"own-{word}": ("mpicc", f"-DBY_{word.upper()}", "own.c")
        for word in ("system", "opening", "function")
    },
    **{
        f"lib{name}.so": ("mpicc", "-shared", "-fPIC", "-DLIBRARY", "own.c")
        for name in ("event_x", "mca_common_x")
    },
    **{
        f"own-{name}": (
            "mpicc", "-DBY_LIBRARY", "own.c", "-L{folder}", "-Wl,-rpath,{folder}", f"-l{name}"
        )
        for name in ("event_x", "mca_common_x", "hwloc")
    },
    "libhwloc.so": ("mpicc", "-shared", "-fPIC", "-DLIBRARY", "-DBY_OPENING", "own.c"),
    "libscript.so": ("mpicc", "-shared", "-fPIC", "-DINTERPRETER", "own.c"),
    "own-script": (
        "mpicc", "-DBY_SCRIPT", "own.c", "-L{folder}", "-Wl,-rpath,{folder}", "-lscript"
    ),
    "told-sanitized": ("mpicc", "-fsanitize=address", "told.c"),
    "mixed": ("mpifort", "-J{folder}", "mixed.c", "mixed_parts.f90"),
    "fortran": ("mpifort", "-J{folder}", "fortran.f90"),
    "duplicate": ("mpifort", "-J{folder}", "duplicate.f90"),
}
SOURCES = (".c", ".f90")
# The programs that call PMIx themselves.
WITH_PMIX = (
    "alone", "calls", "cards", "direct", "hidden", "luck", "own-function", "sessions",
    "pmix_plugin.so"
)
NEEDED = ("mpicc", "mpirun", "make", "cc", "pkg-config")
# `mpirun` may mix the lines of two processes where one is long, in about one run of six.
TRIES = 10

Ran = subprocess.CompletedProcess[str]


def mpirun(processes: int, *words: Word) -> list[str]:
    """The words that start processes."""
    return ["mpirun", "--oversubscribe", "-n", str(processes), *map(str, words)]


def run_plainly(words: Sequence[Word]) -> Ran:
    """Runs a command without the recorder. Raises subprocess.TimeoutExpired."""
    return subprocess.run(
        words, capture_output=True, text=True, timeout=PATIENCE, env=ENVIRONMENT, check=False
    )


def find_python() -> str | None:
    """A Python that has mpi4py; None where there is none."""
    for text in (sys.executable, shutil.which("python3", path=os.defpath)):
        asked = [text or "false", "-c", "import mpi4py"]
        if text and not subprocess.run(asked, capture_output=True, check=False).returncode:
            return text
    return None


@contextlib.contextmanager
def small_disk(case: unittest.TestCase, room: Path, kibibytes: int) -> Iterator[Path]:
    """A folder in a room, with space for so much. Leaves the test out where there can't be one."""
    folder = tempfile.mkdtemp(dir=room)
    mount = ("mount", "-t", "tmpfs", "-o", f"size={kibibytes}k", "none", folder)
    if subprocess.run(mount, capture_output=True, check=False).returncode:
        case.skipTest("no file system can be mounted here")
    try:
        yield Path(folder)
    finally:
        subprocess.run(["umount", folder], check=True)


def can_launch() -> bool:
    """Whether there is an Open MPI whose launcher can start two processes here."""
    try:
        version, ran = run_plainly(["mpirun", "--version"]), run_plainly(mpirun(2, "true"))
    except subprocess.TimeoutExpired:
        return False
    return "Open MPI" in version.stdout and not ran.returncode


def what_lacks() -> list[str]:
    """What is missing for live tests."""
    lacking = [text for text in NEEDED if not shutil.which(text)]
    if re.search(r"[\s:;]", str(TOP)):
        lacking.append(
            "recorder that could be preloaded from a path with spaces, colons or semicolons"
        )
    if shutil.which("mpirun") and not can_launch():
        lacking.append("mpirun of Open MPI that can run")
    has_tool = shutil.which("pkg-config") is not None
    if has_tool and run_plainly(["pkg-config", "--exists", "pmix"]).returncode:
        lacking.append("the headers of PMIx")
    return lacking


@needs_mpi
class LiveTest(unittest.TestCase):
    """Tests in a folder of their own, with the recorders built, and programs compiled."""

    folder: tempfile.TemporaryDirectory[str]
    program: str | None

    @classmethod
    def setUpClass(cls) -> None:
        lacking = what_lacks()
        if lacking:
            raise unittest.SkipTest(
                f"programs are not recorded live: there is no {', no '.join(lacking)}"
            )
        built = subprocess.run(
            ["make", "-s", "record", "record-mpi"],
            cwd=TOP,
            capture_output=True,
            text=True,
            check=False,
        )
        assert not built.returncode, built.stderr
        try:
            cls.program = support.program()
        except unittest.SkipTest:
            cls.program = None
        cls.folder = tempfile.TemporaryDirectory(prefix="wire-up-")
        cls.addClassCleanup(cls.folder.cleanup)

    def setUp(self) -> None:
        self.room = Path(tempfile.mkdtemp(dir=self.folder.name))
        self.plan, self.answers = self.room / "plan", self.room / "answers"

    def compile(self, name: str) -> str:
        """Compiles a program or a library, if it isn't yet; answers its path."""
        path = Path(self.folder.name, name)
        if path.exists():
            return str(path)
        compiler, *words = COMPILED.get(name, ("mpicc", f"{name}.c"))
        words = [word.format(folder=self.folder.name) for word in words]
        words = [str(PROGRAMS / word) if word.endswith(SOURCES) else word for word in words]
        if name in WITH_PMIX:
            words += run_plainly(["pkg-config", "--cflags", "--libs", "pmix"]).stdout.split()
        subprocess.run([compiler, "-g", "-o", path, *words], check=True, capture_output=True)
        return str(path)

    def record(self, *words: Word) -> Ran:
        """Runs the recorder, which writes the plan."""
        return run_recorder("-o", self.plan, *words, environment=ENVIRONMENT)

    def record_alike(self, run: Sequence[Word], *options: Word) -> Ran:
        """Runs a program without the recorder and with it: both must end alike, and write the same
        lines. Answers the second run."""
        for _ in range(TRIES):
            plain, ran = run_plainly(run), self.record(*options, *run)
            both = [
                (each_ran.returncode, sorted(each_ran.stdout.split("\n")))
                for each_ran in (plain, ran)
            ]
            if both[0] == both[1]:
                break
        self.assertEqual(both[0], both[1], ran.stderr[:300])
        return ran
