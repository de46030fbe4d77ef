"""MPICH's test suite: Debian's source package is fetched, and configured for the MPI here."""
import os
import re
import subprocess
from collections.abc import Iterator, Mapping, Sequence
from dataclasses import dataclass
from pathlib import Path

PACKAGE = "mpich"
# Where Debian's archive is, and the keys by which apt knows it.
MIRROR = os.environ.get("DEBIAN_MIRROR", "http://deb.debian.org/debian")
KEYS = "/usr/share/keyrings/debian-archive-keyring.gpg"
# The suite's own folder in the source package.
SUITE = Path("test", "mpi")
# What GNU Fortran must be told: one routine of MPI takes buffers of many types. And what Open MPI's
# header must be told, to declare functions that its library has, though MPI 3 has them no more.
FORTRAN = "-fallow-argument-mismatch"
WITH_REMOVED = "-DOMPI_OMIT_MPI1_COMPAT_DECLS=0"
COMPILERS = {
    "CC": "mpicc",
    "MPICC": "mpicc",
    "CXX": "mpicxx",
    "MPICXX": "mpicxx",
    "F77": "mpifort",
    "MPIF77": "mpifort",
    "FC": "mpifort",
    "MPIFC": "mpifort",
    "CPPFLAGS": WITH_REMOVED,
    "FFLAGS": FORTRAN,
    "FCFLAGS": FORTRAN,
}
# What Open MPI's binding of C++ has by another name, and where the suite uses that.
OTHER_NAMES = {
    "MPI::Win::NULL_COPY_FN": "MPI_WIN_NULL_COPY_FN",
    "MPI::Win::NULL_DELETE_FN": "MPI_WIN_NULL_DELETE_FN",
}
IN_FILES = ("util/mtest_cxx.cxx", "cxx/rma/fkeyvalwinx.cxx")
# The list of programs that each part has.
LIST = "testlist"
# How the source of a program shows that it calls PMIx, or has MPI call it for names and for other
# jobs, in each language; and how sources end.
CALLING = re.compile(
    rb"(?i)(publish|unpublish|lookup)_name|comm_(spawn|accept|connect|join)|pmix_"
)
SOURCES = (".c", ".cxx", ".f", ".f90")
# Parts that aren't tests of what MPI does between processes.
NOT_PARTS = ("maint", "perf", "manual", "ft", "ckpoint", "impls")


class NoSuite(Exception):
    """Why there is no suite to record."""


@dataclass(frozen=True)
class SuiteProgram:
    """A program of the suite as a list names it: its part, such as `f77/coll`, its name, on how
    many processes it runs, and with which words and variables."""

    part: str
    name: str
    processes: int
    words: Sequence[str]
    variables: Mapping[str, str]

    @property
    def title(self) -> str:
        """How a report names it."""
        words = "".join(f" {word}" for word in [*self.words, *self.variables.values()])
        return f"{self.part}/{self.name}{words} on {self.processes}"


def call(words: Sequence[str], folder: Path, log: Path) -> None:
    """Runs a command in a folder, with a log. Raises NoSuite if it fails."""
    try:
        with log.open("ab") as to:
            ran = subprocess.run(words, cwd=folder, stdout=to, stderr=to, check=False)
    except OSError as why:
        raise NoSuite(f"{words[0]}: {why.strerror}") from None
    if ran.returncode:
        raise NoSuite(f"{words[0]} ended with status {ran.returncode}: see {log}")


def find_release() -> str:
    """The name of Debian's release on this machine. Raises NoSuite."""
    said = Path("/etc/os-release").read_text(encoding="utf-8")
    found = re.search(r"^VERSION_CODENAME=(\w+)$", said, re.M)
    if not found:
        raise NoSuite("/etc/os-release names no release of Debian")
    return found[1]


def fetch(room: Path) -> Path:
    """The folder of the unpacked source package, fetched by apt with lists of its own if it isn't
    there. Raises NoSuite."""
    folder, log = room / "source", room / "fetch.log"
    if folder.is_dir():
        return folder
    lists = room / "apt"
    (lists / "partial").mkdir(parents=True, exist_ok=True)
    sources = room / "sources.list"
    line = f"deb-src [signed-by={KEYS}] {MIRROR} {find_release()} main\n"
    sources.write_text(line, encoding="utf-8")
    settings = (
        ("Dir::Etc::SourceList", sources),
        ("Dir::Etc::SourceParts", "/dev/null"),
        ("Dir::State::Lists", lists),
    )
    apt = ["apt-get", "-q", *(f"-o{name}={value}" for name, value in settings)]
    call([*apt, "update"], room, log)
    call([*apt, "source", "--download-only", PACKAGE], room, log)
    described = map(str, room.glob(f"{PACKAGE}_*.dsc"))
    call(["dpkg-source", "-x", *described, "unpacked"], room, log)
    rename_in(room / "unpacked" / SUITE)
    (room / "unpacked").rename(folder)
    return folder


def rename_in(suite: Path) -> None:
    """Writes the names that Open MPI's binding of C++ has into the suite."""
    for path in (suite / name for name in IN_FILES):
        text = path.read_text(encoding="utf-8")
        for old, new in OTHER_NAMES.items():
            text = text.replace(old, new)
        path.write_text(text, encoding="utf-8")


def configure(room: Path, source: Path) -> Path:
    """The folder in which the suite is configured; it is, if it wasn't. Raises NoSuite."""
    folder = room / "built"
    if (folder / "ready").exists():
        return folder
    folder.mkdir(parents=True, exist_ok=True)
    script = str(source / SUITE / "configure")
    settings = [f"{name}={value}" for name, value in COMPILERS.items()]
    options = ("--with-mpi=/usr", "--enable-fortran=all")
    call([script, *options, *settings], folder, room / "configure.log")
    (folder / "ready").write_bytes(b"")
    return folder


def build(built: Path, program: SuiteProgram, log: Path) -> bool:
    """Compiles a program. Answers whether that went well."""
    with log.open("ab") as to:
        ran = subprocess.run(
            ["make", "-s", program.name],
            cwd=built / program.part,
            stdout=to,
            stderr=to,
            check=False,
        )
    return not ran.returncode


def build_common(built: Path, room: Path) -> None:
    """Compiles what programs share, as far as that goes: not all of it needs what this MPI has."""
    with open(room / "build.log", "ab") as to:
        for part in ("dtpools", "util"):
            subprocess.run(["make", "-sk"], cwd=built / part, stdout=to, stderr=to, check=False)


def read_list(part: str, text: str) -> Iterator[SuiteProgram]:
    """The programs that a list names. What isn't a program in it is a folder, or for make."""
    for line in text.splitlines():
        name, *more = line.partition("#")[0].split() or ("",)
        if not name or name.startswith("!") or (more and not more[0].isdigit()):
            continue
        if not more:
            more = ["2"]
        settings = [word.partition("=") for word in more[1:]]
        if any(key in ("xfail", "mem") or (key, value) == ("strict", "true")
               for key, _, value in settings):
            continue
        variables = dict(value.split("=", 1) for key, _, value in settings if key == "env")
        words = [value for key, _, value in settings if key == "arg"]
        yield SuiteProgram(part, name, int(more[0]), words, variables)


def calls_pmix(program: SuiteProgram, built: Path, source: Path) -> bool:
    """Whether the source of a program shows that it calls PMIx, or has MPI call it for names or
    other jobs."""
    for top in (built, source / SUITE):
        for end in SOURCES:
            path = top / program.part / f"{program.name}{end}"
            if path.is_file():
                return CALLING.search(path.read_bytes()) is not None
    return False


def find_parts(built: Path, source: Path) -> dict[str, Path]:
    """The parts of the suite that are configured, each with its list: that of the build where
    there is one, else that of the source."""
    found = {}
    for folder, _, files in sorted(os.walk(built)):
        part = Path(folder).relative_to(built)
        if part == Path() or part.parts[0] in NOT_PARTS or "Makefile" not in files:
            continue
        lists = (top / part / LIST for top in (built, source / SUITE))
        path = next((path for path in lists if path.is_file()), None)
        if path:
            found[str(part)] = path
    return found


def find_programs(built: Path, source: Path, parts: Sequence[str]) -> list[SuiteProgram]:
    """The programs of some parts, or of all if none is named. Raises NoSuite for a part that isn't
    there."""
    known = find_parts(built, source)
    wanted = [
        each_part
        for each_part in known
        if not parts or any(is_within(each_part, part) for part in parts)
    ]
    lacking = [part for part in parts if not any(is_within(each_part, part) for each_part in known)]
    if lacking:
        raise NoSuite(f"there is no part {', '.join(lacking)}: the parts are {', '.join(known)}")
    found: list[SuiteProgram] = []
    for part in wanted:
        listed = read_list(part, known[part].read_text(encoding="utf-8"))
        found += [program for program in listed if not (built / part / program.name).is_dir()]
    return found


def is_within(part: str, wanted: str) -> bool:
    """Whether a part is the one that is wanted, or below it."""
    return part == wanted or part.startswith(wanted + os.sep)
