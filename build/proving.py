"""Proves and builds crates side by side in their own folders, as far as they changed."""
import signal
import sys
import tempfile
from collections.abc import Callable, Mapping, Sequence
from dataclasses import dataclass, field
from typing import TextIO

from build import kit, lanes, records
from build.crates import Crate, Looks
from build.memory import FILES, SHARE, machine_here
from build.minutes import minutes_of
from build.records import Keep

# Words of a verdict with which `rt ci` refuses a crate: what is proved says nothing then, or rests
# on code that nothing proves.
DOUBTS = {"foreign", "hides", "partial", "may-abort", "may-serve", "bugs", *kit.NOT_HERE}
# Why a build doesn't count that is of a text which isn't there any more.
CHANGED = "its text, or that of a library below it, changed meanwhile"
TARGET = "x86_64-unknown-linux-gnu"


@dataclass
class Proving:
    """A course of proofs: where what they print goes, who is told, and what failed."""

    log: TextIO
    # Is called with the name of each crate that is proved.
    tell: Callable[[str], None]
    keep: Keep
    # What the proofs that failed said, by the names of their crates.
    failed: dict[str, str] = field(default_factory=dict)


def say_nothing(name: str) -> None:
    """Tells nobody that a crate is proved."""


def prove_all(
    crates: Sequence[Crate],
    log: TextIO = sys.stdout,
    tell: Callable[[str], None] = say_nothing,
    keep: Keep = Keep.STATEMENTS,
) -> list[str]:
    """Proves and builds crates side by side, each once those below it are built. A crate whose text
    and libraries are as they were isn't proved again; but a library is whose proofs are to be kept,
    and aren't. What a check prints goes to the log, that of those that failed last. Answers the
    names of those that failed."""
    course = Proving(log, tell, keep)
    is_new = {crate.name: not records.is_done(crate, keep) for crate in crates}
    for crate in crates:
        # (`rt` would take a library as built that doesn't fit what is below it now)
        if is_new[crate.name]:
            (records.forget if records.may_stand(crate) else records.take_away)(crate)
    share = 1 if holds_proofs(crates, keep) else SHARE
    minutes = minutes_of()
    proofs = {}
    for each_crate in crates:
        takes = minutes.get(each_crate.name, 1) if is_new[each_crate.name] else 0
        memory = share * kit.need(each_crate) + FILES
        proofs[each_crate.name] = lanes.Proof(
            names_below(each_crate), takes, memory, proof_of(each_crate, course)
        )
    lanes.run_all(proofs, machine_here())
    tell_failures(course)
    return list(course.failed)


def tell_failures(course: Proving) -> None:
    """Writes to the end of the log what the proofs that failed said."""
    if course.failed:
        course.log.write("$ what the proofs that failed said\n")
    for name, said in course.failed.items():
        course.log.write(f"== {name}\n{said}")
    course.log.flush()


def holds_proofs(crates: Sequence[Crate], keep: Keep) -> bool:
    """Whether a library among crates holds its proofs, or is to. A proof over it takes all the
    memory that the kit reckons with."""
    libraries = [crate for crate in crates if not crate.is_program]
    return keep is Keep.PROOFS or any(map(holds_its_proofs, libraries))


def holds_its_proofs(library: Crate) -> bool:
    """Whether a library holds its proofs, or keeps them beside it."""
    return library.has_kept() or records.made_of(library).exists() and not records.is_cut(library)


def names_below(crate: Crate) -> list[str]:
    """The names of the crates for whose proofs that of a crate waits."""
    return [each_crate.name for each_crate in crate.below()]


def proof_of(crate: Crate, course: Proving) -> Callable[[Mapping[str, bool]], bool]:
    """What proves and builds one crate, where it isn't built. It gives whether that went well."""

    def prove(given: Mapping[str, bool]) -> bool:
        if not all(given[name] for name in names_below(crate)):
            return False
        if not records.is_done(crate, course.keep):
            said, why = prove_anew(crate, course.keep)
            if why:
                records.take_away(crate)
                course.failed[crate.name] = f"{said}{why}\n"
                return False
            course.log.write(f"== {crate.name}\n{said}")
            course.log.flush()
        records.note_stamp(crate)
        course.tell(crate.name)
        return True

    return prove


def prove_anew(crate: Crate, keep: Keep) -> tuple[str, str]:
    """Proves and builds a crate. Answers what the prover said, and why what was built doesn't
    count, if it doesn't."""
    records.take_away(crate)
    try:
        before = crate.looks_and_stamp()
        if not records.are_built(crate.below()):
            return "", CHANGED
        status, said = check(crate, keep)
        why = why_refused(status, said)
        if not why and not is_as_it_was(crate, before):
            why = CHANGED
        if not why:
            records.note_built(crate)
        return said, why
    except OSError as why_not:
        return "", f"{why_not.filename or crate.name}: {why_not.strerror}"


def is_as_it_was(crate: Crate, before: tuple[list[Looks], str]) -> bool:
    """Whether a crate and the libraries below it are those that were looked at before."""
    return crate.looks_and_stamp() == before and records.are_built(crate.below())


def check(crate: Crate, keep: Keep) -> tuple[int, str]:
    """Checks and builds a crate by one process. Where proofs of a library's functions are kept, or
    are to be, it is built over these, as `rt lib` does. Answers the status of what failed, or 0,
    and what was printed."""
    with tempfile.TemporaryFile("w+", errors="replace") as out:
        crate.out = out
        try:
            if crate.is_program:
                status = build_program(crate)
            elif keep is Keep.PROOFS or crate.has_kept():
                status = crate.build_rlib(["--jobs", "1"], anew=False)
            else:
                status = build_cut(crate)
            out.seek(0)
            return status, out.read()
        finally:
            crate.out = sys.stdout


def why_refused(status: int, said: str) -> str:
    """Why a check doesn't count: by its status, or since its verdict rests on more than the proofs
    of the crate's functions."""
    if status == -signal.SIGKILL:
        return "it was killed, most likely for memory: with RT_JOBS=1 one crate is proved at a time"
    if status:
        return f"(exit status {status})"
    lines = reversed(said.splitlines())
    verdict = next((line.split() for line in lines if line.startswith("logic=proved ")), None)
    if verdict is None:
        return "the prover gave no verdict"
    found = [split for split in verdict if split.partition("=")[0] in DOUBTS]
    return f"the gate would refuse this: {' '.join(found)}" if found else ""


def build_cut(crate: Crate) -> int:
    """Proves and builds a library that holds no more than what crates above can cite, as `rt ci`
    does: these load it sooner, and it takes less of the disk. The proofs of its functions aren't
    kept. The kit itself writes no stamp for such a library, since it fits only the very libraries
    over which it was built; `is_done` sees to that."""
    records.mark_cut(crate)
    words = [*crate.words(["--jobs", "1"], keeps=False), "--statements", "-o", crate.rlib]
    return crate.call(kit.PROVER, "build", *words)


def build_program(crate: Crate) -> int:
    """Proves, builds and links a program. Over libraries that keep their proofs it keeps its own,
    too."""
    made, tools = records.made_of(crate), f"{kit.PLACE}/toolchain"
    made.parent.mkdir(parents=True, exist_ok=True)
    words = [*crate.words(["--jobs", "1"], keeps=False), "--toolchain", tools]
    if all(map(holds_its_proofs, crate.below())):
        words += kit.KEPT
    words += ["--backend", "llvm", "-o", f"{made}.o"]
    link = ["--target", TARGET, "--toolchain", tools, "-o", str(made), f"{made}.o"]
    link += [f"{kit.PLACE}/c/{word}" for word in ("libos_c.a", "liblibc_c.a")]
    status = crate.call(kit.PROVER, "build", *words)
    return status or crate.call(f"{kit.PLACE}/bin/rattle-link", *link)
