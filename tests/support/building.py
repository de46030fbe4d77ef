"""A small repository that tests build, with a function in the prover's place that notes what it is
asked."""
import io
import itertools
import tempfile
import unittest
from collections.abc import Callable, Collection, Sequence
from pathlib import Path
from typing import NamedTuple

from build import proving, records
from build.crates import Crate, crates_at
from build.records import Keep
from tests import support

assert support.TOP, "it says where the build is"

# Each crate, and what it uses: a chain of three, and one apart.
CRATES = {"low": "", "middle": "low", "high": "middle", "apart": ""}
ALL = sorted(CRATES)
# Numbers for builds.
BUILDS = itertools.count()
PROVED = "logic=proved functions=1"
ANOTHER = "//! another text\n"
# Text that changes nothing of what a library shows.
BODY = "fn body() {}\n"


def do_nothing(crate: Crate) -> None:
    """What is done meanwhile, where nothing is."""


class Prover:
    """Stands in the prover's place: it notes the crates whose proof it is asked for, and refuses
    some. `meanwhile` is called with each crate while its proof is under way."""

    def __init__(
        self,
        refused: Collection[str] = (),
        meanwhile: Callable[[Crate], None] = do_nothing,
        verdict: str = PROVED,
        status: int = 1,
    ) -> None:
        self.refused, self.meanwhile = refused, meanwhile
        self.verdict, self.status = verdict, status
        self.asked: list[str] = []
        self.over_kept: list[str] = []
        self.cut: list[str] = []
        self.jobs: dict[str, str] = {}

    def call(self, crate: Crate, *words: str) -> int:
        """Does what the prover would, and answers its status."""
        made = words[words.index("-o") + 1]
        if words[1:2] != ("build",):
            return self.link(crate, made)
        self.note(crate, words)
        self.meanwhile(crate)
        if crate.name in self.refused:
            print("fn it: not proved", file=crate.out)
            return self.status
        if crate.is_program:
            open(made, "wb").close()
        else:
            self.write_library(crate, made)
        if "--incremental" in words:
            kept = crate.place / "out" / "incremental" / "kept"
            kept.mkdir(parents=True, exist_ok=True)
        print(self.verdict, file=crate.out)
        return 0

    @staticmethod
    def write_library(crate: Crate, made: str) -> None:
        """What a library shows to those above, here the comments at its head; and its code and
        statements, which differ by the text and by the build."""
        text = read(crate.place / "src" / "lib.rt")
        shown = "".join(line for line in text.splitlines(True) if line.startswith("//!"))
        statements = f"{next(BUILDS)} {text}"
        parts = {"interface/lang/src/lib.rt": shown, "toolchain/checked.a": statements}
        for path, part in parts.items():
            whole = Path(made, path)
            whole.parent.mkdir(parents=True)
            whole.write_text(part, encoding="utf-8")

    def note(self, crate: Crate, words: Sequence[str]) -> None:
        self.asked.append(crate.name)
        self.jobs[crate.name] = words[words.index("--jobs") + 1]
        self.cut += [crate.name] * ("--statements" in words)
        self.over_kept += [crate.name] * ("--incremental" in words)

    def link(self, crate: Crate, made: str) -> int:
        if "link" in self.refused:
            return 1
        Path(made).write_text(f"the program {crate.name}\n", encoding="utf-8")
        return 0

    def crate_type(prover) -> type[Crate]:
        """Crates that ask this prover."""

        class Asking(Crate):
            """A crate whose commands this prover gets."""

            def call(self, *words: str) -> int:
                return prover.call(self, *words)

        return Asking


class Built(NamedTuple):
    """What came of a build: the names of the crates whose proof was asked for, of those that
    failed, and what the log says."""

    asked: list[str]
    failed: list[str]
    said: str


def read(path: Path) -> str:
    """The text of a file."""
    return path.read_text(encoding="utf-8")


class BuildCase(unittest.TestCase):
    """Tests that build a small repository."""

    def setUp(self) -> None:
        folder = tempfile.TemporaryDirectory(prefix="wire-up-")
        self.addCleanup(folder.cleanup)
        self.top = Path(folder.name)
        for name in CRATES:
            self.write(name, f"//! {name}\n")
        self.write_list("".join(f"{name}: {uses}\n" for name, uses in CRATES.items()))

    def write_list(self, text: str) -> None:
        with open(self.top / "crates.txt", "a", encoding="utf-8") as file:
            file.write(text)

    def place(self, *parts: str) -> Path:
        """The path of a file of the crates."""
        return self.top.joinpath("crates", *parts)

    def write(self, name: str, text: str, file: str = "lib.rt") -> None:
        """Writes the text of a crate."""
        path = self.place(name, "src", file)
        path.parent.mkdir(parents=True, exist_ok=True)
        path.write_text(text, encoding="utf-8")

    def add_program(self) -> None:
        """Adds a program above the chain."""
        self.write("app", "//! app\n", "main.rt")
        self.write_list("app: high\n")

    def crates(self, prover: Prover) -> list[Crate]:
        return crates_at(self.top, prover.crate_type())

    def crate(self, name: str, prover: Prover) -> Crate:
        return next(each_crate for each_crate in self.crates(prover) if each_crate.name == name)

    def build(self, prover: Prover, keep: Keep = Keep.STATEMENTS) -> Built:
        """Builds the crates, as another `make run` or, where it keeps proofs, `make libraries`
        would."""
        log = io.StringIO()
        failed = proving.prove_all(self.crates(prover), log, keep=keep)
        return Built(sorted(prover.asked), sorted(failed), log.getvalue())

    def asked(self, keep: Keep = Keep.STATEMENTS) -> list[str]:
        """The crates whose proof another build asks for."""
        return self.build(Prover(), keep).asked

    def built(self) -> list[str]:
        """The names of the crates that count as built."""
        return sorted(crate.name for crate in self.crates(Prover()) if records.is_done(crate))

    def built_for_rt(self) -> list[str]:
        """The names of the libraries that `rt` takes as built."""
        libraries = [crate for crate in self.crates(Prover()) if not crate.is_program]
        return sorted(library.name for library in libraries if library.is_built())

    def hold_built(self, *names: str) -> None:
        """Fails unless these count as built, here and for `rt`."""
        self.assertEqual((list(names), list(names)), (self.built(), self.built_for_rt()))
