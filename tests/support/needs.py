"""What tests need, and which of them run alone: decorators of classes and of methods, which
tests/conftest.py makes pytest's markers of. unittest takes no notice of them."""
from collections.abc import Callable
from typing import Any, TypeVar

Marked = TypeVar("Marked", bound=Callable[..., Any])
# What a class or a method has these names in.
NAME = "wire_up_markers"


def make_marker(name: str) -> Callable[[Marked], Marked]:
    """A decorator that gives a class or a method a marker, beside those that it has."""

    def give_marker(marked: Marked) -> Marked:
        setattr(marked, NAME, markers_of(marked) | {name})
        return marked

    return give_marker


def markers_of(marked: object) -> frozenset[str]:
    """The names of the markers of a class or of a method. A class has those of its bases, too."""
    bases = marked.__mro__ if isinstance(marked, type) else (marked,)
    return frozenset[str]().union(*(getattr(base, "__dict__", {}).get(NAME, ()) for base in bases))


# The built `wire_up`.
needs_program = make_marker("needs_program")
# MPI or PMIx, whose programs run live: nothing else runs beside them.
needs_mpi = make_marker("needs_mpi")
# Asks the prover, which takes all processors by itself.
proves = make_marker("proves")
# Takes times, or changes what others use: nothing else runs beside it.
alone = make_marker("alone")
