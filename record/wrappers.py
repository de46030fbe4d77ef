"""Writes the wrappers of the functions in a table, as C. The types of their arguments are those of
the library's header.

Usage: cc -E HEADER.. | python3 record/wrappers.py MPI|PMIx TABLE > WRAPPERS.c

A line of the table has the name of a function, the word for what it is, and the names of its
arguments. A function of MPI whose counts have more bits, such as MPI_Send_c, has the same line. A
function that the header doesn't have is left out, and said so, unless its name ends with `?`.
"""
import sys
from collections.abc import Iterator, Mapping
from dataclasses import dataclass

import mpi_shapes
import pmix_shapes
from c_header import Function, HeaderError, read_functions
from frame import LARGE, LIBRARIES, Library, Shape, write_file, write_wrapper

SHAPES: Mapping[str, Mapping[str, Shape]] = {"MPI": mpi_shapes.SHAPES, "PMIx": pmix_shapes.SHAPES}


# Ends the name of a function that an older header may not have.
NEW = "?"


class TableError(Exception):
    """A line of the table that can't be used; its text says which and why."""


@dataclass(frozen=True)
class Row:
    """A line of the table: its number, from 1, and its words. An older header may not have a
    function that `is_new`."""

    line: int
    function: str
    is_new: bool
    shape: str
    arguments: tuple[str, ...]


def read_rows(table: str) -> Iterator[Row]:
    """The rows of a table. Raises TableError for one without a shape, or a second of a name."""
    seen = set()
    for line, text in enumerate(table.splitlines(), 1):
        words = text.partition("#")[0].split()
        if not words:
            continue
        if len(words) == 1:
            raise TableError(f"line {line}: {words[0]} has no shape")
        name = words[0].removesuffix(NEW)
        if name in seen:
            raise TableError(f"line {line}: {name} was there before")
        seen.add(name)
        yield Row(line, name, words[0].endswith(NEW), words[1], tuple(words[2:]))


def write_row(library: Library, row: Row, function: Function) -> str:
    """The wrapper of a function, as its row says. Raises TableError where the row doesn't fit."""
    shape = SHAPES[library.prefix].get(row.shape)
    parameters = function.parameters()
    if not shape:
        raise TableError(f"line {row.line}: {function.name}: there is no shape '{row.shape}'")
    if function.answer != library.answer:
        raise TableError(f"line {row.line}: {function.name} answers {function.answer}")
    if len(parameters) != len(row.arguments):
        raise TableError(f"line {row.line}: {function.name} has {len(parameters)} arguments")
    named = tuple(parameter.renamed(name) for parameter, name in zip(parameters, row.arguments))
    return write_wrapper(library, function, named, shape)


def write_wrappers(library: Library, table: str, header: str) -> str:
    """The text of all wrappers. Raises TableError or HeaderError where they can't be written."""
    functions = read_functions(header, library.prefix)
    wrappers = []
    for row in read_rows(table):
        names = (row.function, row.function + LARGE)
        found = [functions[name] for name in names if name in functions]
        wrappers += [write_row(library, row, function) for function in found]
        if not found and not row.is_new:
            print(f"wrappers.py: the header has no {row.function}", file=sys.stderr)
    return write_file(library, "wrappers.py", wrappers)


def main(words: list[str]) -> int:
    """Runs the program; answers its exit status."""
    if len(words) != 3 or words[1] not in LIBRARIES:
        print(__doc__, file=sys.stderr)
        return 1
    try:
        with open(words[2], encoding="utf-8") as table:
            text = write_wrappers(LIBRARIES[words[1]], table.read(), sys.stdin.read())
    except OSError as error:
        print(f"wrappers.py: {words[2]}: {error.strerror}", file=sys.stderr)
        return 1
    except (TableError, HeaderError) as error:
        print(f"wrappers.py: {words[2]}: {error}", file=sys.stderr)
        return 1
    sys.stdout.write(text)
    return 0


if __name__ == "__main__":
    sys.exit(main(sys.argv))
