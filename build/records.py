"""What says that a crate is built, and from what: the kit's stamp, and a record of the repository's
own that its verdict was judged here, from which text, and over which builds of the libraries below
it.

What a library shows to those above are its definitions, its lemmas, and its types and functions
with their contracts, but no bodies. Where that is the same, byte by byte, a library above stands
that keeps the proofs of its functions: the kit takes it over the new one, and proves again what of
it doesn't fit. Of a library that holds no more than what crates above can cite, the statements name
the code below, so the kit takes it over the very same ones only. A program takes the code."""
import enum
import hashlib
import shutil
from collections.abc import Iterable, Iterator
from glob import glob
from pathlib import Path

from build import kit
from build.crates import Crate, look_once


class Keep(enum.Enum):
    """What is kept of a library that is proved: what crates above can cite, or the proofs of its
    functions, too."""

    STATEMENTS = enum.auto()
    PROOFS = enum.auto()


def made_of(crate: Crate) -> Path:
    """Where a crate is built."""
    if crate.is_program:
        return crate.place / "out" / crate.name
    return Path(crate.rlib)


def beside(crate: Crate, word: str) -> Path:
    """The path of a file that says something of what is built of a crate."""
    made = made_of(crate)
    return made.with_name(f"{made.name}.{word}" if crate.is_program else word)


def stamp_of(crate: Crate) -> Path:
    """The file that says, for the kit too, from which texts a crate was built."""
    return beside(crate, "stamp")


def stamp_now(crate: Crate) -> str:
    """What stands in that file, in the words of the kit, if the crate is built from its text as it
    is."""
    return crate.stamp() + (kit.sum_of(made_of(crate)) if crate.is_program else "")


def is_built(crate: Crate) -> bool:
    """Whether a crate is built from its text as it is."""
    return made_of(crate).exists() and kit.text_of(stamp_of(crate)) == stamp_now(crate)


def are_built(crates: Iterable[Crate]) -> bool:
    """Whether these crates are built from their texts as they are."""
    with look_once():
        return all(map(is_built, crates))


def record_of(crate: Crate) -> Path:
    """The file that says that a build of a crate was judged here, and over which builds of the
    libraries below it. The kit knows nothing of it, and takes it away with what it says."""
    return beside(crate, "judged")


# The folders of a library with what it shows, and files there that tell of code and its proofs.
SHOWN = ("interface", "lang")
OF_CODE = ("made.json", "Answers.antt", "Invariants.antt", "Proof.antt")


def files_shown(crate: Crate) -> Iterator[Path]:
    """The files of a built library that say what it shows. Of one that holds no more than what
    crates above can cite these are all: it fits only the very libraries over which it was built."""
    for folder in ("",) if is_cut(crate) else SHOWN:
        room = Path(crate.rlib, folder)
        # In this order the sum of them was always taken.
        for path in (room / name for name in sorted(glob("**", root_dir=room, recursive=True))):
            is_shown = is_cut(crate) or path.name not in OF_CODE
            if is_shown and path.is_file():
                yield path


def shown_now(crate: Crate) -> str:
    """A sum of what a built library shows to those above."""
    found = hashlib.sha256()
    for path in files_shown(crate):
        found.update(repr((str(path.relative_to(crate.rlib)), kit.sum_of(path))).encode())
    return f"{found.hexdigest()}\n"


def shown_by(crate: Crate) -> str:
    """What was noted as that sum when it was built. Raises OSError where it isn't built."""
    return beside(crate, "shown").read_text(encoding="utf-8")


def record_now(crate: Crate) -> str:
    """What stands in that file, if the crate is built from its text as it is, over the libraries
    that are there: what these show, or for a program when each was built. Raises OSError where one
    isn't built."""
    own = f"{crate.name} {crate.own_stamp()}\n"
    if crate.is_program:
        times = {
            each_crate.name: stamp_of(each_crate).stat().st_mtime_ns
            for each_crate in [*crate.below(), crate]
        }
        return own + "".join(f"{name} {time}\n" for name, time in times.items())
    return own + "".join(
        f"{each_crate.name} {shown_by(each_crate)}" for each_crate in crate.below()
    )


def note_built(crate: Crate) -> None:
    """Writes that a crate is built."""
    if not crate.is_program:
        write(beside(crate, "shown"), shown_now(crate))
    note_stamp(crate)
    write(record_of(crate), record_now(crate))


def note_stamp(crate: Crate) -> None:
    """Writes that a crate is built from the texts as they are, for the kit too."""
    if not is_built(crate):
        write(stamp_of(crate), stamp_now(crate))


def write(path: Path, text: str) -> None:
    """Writes a file anew: another repository may have the one that is there, too."""
    new = path.with_name(f"{path.name}.new")
    new.write_text(text, encoding="utf-8")
    new.replace(path)


def stands(crate: Crate) -> bool:
    """Whether what was built of a crate is from its own text, and over libraries that show what
    those that are there do."""
    try:
        is_there = made_of(crate).exists() and (is_built(crate) or not crate.is_program)
        return is_there and kit.text_of(record_of(crate)) == record_now(crate)
    except OSError:
        return False


def is_done(crate: Crate, keep: Keep = Keep.STATEMENTS) -> bool:
    """Whether a crate is built from its text as it is, over the libraries that are there, and was
    judged here; and holds the proofs of its functions, if these are to be kept."""
    with look_once():
        is_there = all(map(stands, [*crate.below(), crate]))
    return is_there and (keep is Keep.STATEMENTS or crate.has_kept() and not is_cut(crate))


def may_stand(crate: Crate) -> bool:
    """Whether a library that isn't done may be, once those below it are built anew: it was judged
    here, from its text as it is."""
    is_there = not crate.is_program and made_of(crate).exists()
    own = f"{crate.name} {crate.own_stamp()}\n"
    return is_there and kit.text_of(record_of(crate)).startswith(own)


def mark_cut(crate: Crate) -> None:
    """Notes that a library holds no more than what crates above can cite. Makes its folder."""
    made_of(crate).parent.mkdir(parents=True)
    beside(crate, "cut").touch()


def is_cut(crate: Crate) -> bool:
    """Whether a library holds no more than what crates above can cite."""
    return Path(crate.rlib).with_name("cut").exists()


def forget(crate: Crate) -> None:
    """Takes away what says to the kit that a library is built."""
    stamp_of(crate).unlink(missing_ok=True)


def take_away(crate: Crate) -> None:
    """Takes away what was built of a crate, and first what says that it was."""
    for path in record_of(crate), stamp_of(crate), *[made_of(crate)] * crate.is_program:
        path.unlink(missing_ok=True)
    if not crate.is_program:
        shutil.rmtree(made_of(crate).parent, ignore_errors=True)
