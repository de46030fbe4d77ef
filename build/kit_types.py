"""What is used of the kit's crates, with types. The kit's own class stands in the place of this one
when the program runs."""
from collections.abc import Sequence
from typing import IO, Any, Self


class KitCrate:
    """A crate as the kit has it: what is used of it here."""

    folder: str
    name: str
    is_program: bool
    # Where a library is built.
    rlib: str
    # The libraries of the kit, and of the repository, that its line in crates.txt names.
    of_kit: list[str]
    deps: list[Self]
    # Where what its commands print goes.
    out: IO[str]

    def __init__(self, folder: str, root: str, known: dict[str, Any]) -> None:
        """A crate of a folder in a repository; `known` has those that are there, by folder."""
        raise NotImplementedError

    def below(self) -> list[Self]:
        """The repository's libraries below this crate, each after those that it uses."""
        raise NotImplementedError

    def words(
        self,
        flags: Sequence[str],
        tests: bool = False,
        keeps: bool = True,
        as_source: bool = False,
    ) -> list[str]:
        """The words of the prover for this crate."""
        raise NotImplementedError

    def call(self, *words: str) -> int:
        """Runs a command in the crate's folder, and answers its status."""
        raise NotImplementedError

    def stamp(self) -> str:
        """A sum of all that the crate is made from."""
        raise NotImplementedError

    def has_kept(self) -> bool:
        """Whether the proofs of its functions are kept."""
        raise NotImplementedError

    def is_built(self) -> bool:
        """Whether the kit takes its library as built."""
        raise NotImplementedError

    def build_rlib(self, flags: Sequence[str], anew: bool) -> int:
        """Builds its library, and answers the status."""
        raise NotImplementedError

    def count(self, pattern: bytes) -> int:
        """How often a pattern stands in its source files."""
        raise NotImplementedError

    def try_unproved(self, flags: Sequence[str], arguments: Sequence[str]) -> int:
        """Runs the program by a build without proofs, and answers the status."""
        raise NotImplementedError
