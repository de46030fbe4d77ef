"""Writes files: whole or not at all, or as they are.

A path that a user gave stays a text, as it is printed again, and `os.path` looks at it: a `Path`
has no `./` and no slash at the end, takes the empty name for the folder that is open, and raises
where `os.path` answers that there is nothing. What the programs make has a `Path`.
"""
import contextlib
import errno
import os
import stat
import sys
import tempfile
from collections.abc import Iterator, Sequence
from pathlib import Path

STANDARD_OUTPUT = "-"
# How many links are followed, as many as Linux follows.
MOST_LINKS = 40


@contextlib.contextmanager
def naming(path: str) -> Iterator[None]:
    """Lets what the system refuses name a file. Raises OSError."""
    try:
        yield
    except OSError as why:
        raise OSError(why.errno, why.strerror, path) from None


def write_file(path: str | Path, text: str) -> None:
    """Writes a text, as UTF-8, to a file. Raises OSError, with its path."""
    with naming(str(path)), open(path, "w", encoding="utf-8") as to:
        to.write(text)


def write_whole(path: str, text: str) -> None:
    """Writes a text, as UTF-8, to a file or to standard output.

    A file that is there stays as it was until the new one is complete. What isn't a regular
    file, such as a pipe or a device, is written to as it is, and so is a file that this process has
    open, such as /dev/stdout. Raises OSError, with the path.
    """
    data = text.encode()
    with naming("standard output" if path == STANDARD_OUTPUT else path):
        opened = find_open(path)
        if path == STANDARD_OUTPUT:
            write_out(data)
        elif opened is not None:
            with open(os.dup(opened), "wb") as to:
                to.write(data)
        elif os.path.exists(path) and not os.path.isfile(path):
            with open(path, "wb") as to:
                to.write(data)
        else:
            replace_file(path, data)


def find_open(path: str) -> int | None:
    """The number of the open file of this process that a path names, such as 1 for /dev/stdout. To
    put a file in its place would take that name away from all programs of the system."""
    for _ in range(MOST_LINKS):
        folder, name = os.path.split(path)
        if name.isdecimal() and os.path.realpath(folder) == f"/proc/{os.getpid()}/fd":
            return int(name)
        if not os.path.islink(path):
            break
        path = os.path.join(folder, os.readlink(path))
    return None


def try_to_write(path: str) -> None:
    """Finds out whether a text can be written to a path, and changes nothing. Raises OSError, with
    the path, where it can't: for no name, a folder, a file in a folder that isn't there or can't be
    changed, a device that takes nothing, and a number of no open file."""
    opened = find_open(path)
    with naming(path or "''"):
        if not path:
            raise FileNotFoundError(errno.ENOENT, os.strerror(errno.ENOENT))
        if opened is not None:
            os.fstat(opened)
            return
        if os.path.isdir(path):
            raise IsADirectoryError(errno.EISDIR, os.strerror(errno.EISDIR))
        if stat.S_ISCHR(os.stat(path).st_mode) if os.path.exists(path) else False:
            with open(path, "wb", buffering=0) as to:
                to.write(b"")
        elif not os.path.exists(path) or os.path.isfile(path):
            folder = os.path.dirname(os.path.abspath(path))
            with tempfile.TemporaryFile(dir=folder):
                pass


def write_out(data: bytes) -> None:
    """Writes to standard output. Raises OSError."""
    try:
        sys.stdout.buffer.write(data)
        sys.stdout.flush()
    except OSError:
        # At its end Python writes again what it holds, and newer ones end with a status of their
        # own if they can't.
        with open(os.devnull, "wb") as nothing:
            os.dup2(nothing.fileno(), sys.stdout.fileno())
        raise


def write_each(texts: Sequence[tuple[str, str]]) -> None:
    """Writes texts, each to its path. Where one can't be written, the others are. Raises OSError
    for the first such, once all are tried."""
    refused: list[OSError] = []
    for path, text in texts:
        try:
            write_whole(path, text)
        except OSError as why:
            refused.append(why)
    if refused:
        raise refused[0]


def replace_file(path: str, data: bytes) -> None:
    """Puts a new file in the place of one, in one step. Raises OSError."""
    new_path = f"{path}.{os.getpid()}.{os.urandom(4).hex()}.new"
    # Where something has that name already, a link perhaps, the file isn't made.
    flags = os.O_WRONLY | os.O_CREAT | os.O_EXCL | os.O_NOFOLLOW | os.O_CLOEXEC
    opened = os.open(new_path, flags, 0o666)
    try:
        with open(opened, "wb") as to:
            to.write(data)
        os.replace(new_path, path)
    finally:
        if os.path.lexists(new_path):
            os.remove(new_path)
