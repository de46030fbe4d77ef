"""What all tests share: where the repository is, and the built program."""
import os
import unittest
from pathlib import Path

from tests import TOP as TOP

# A word of a command line.
Word = str | Path


def program() -> str:
    """The built `wire_up`: what WIRE_UP_PROGRAM names, else the one at the top of the repository.

    A test that calls this is skipped where there is none.
    """
    path = Path(os.environ.get("WIRE_UP_PROGRAM") or TOP / "wire_up")
    if not os.access(path, os.X_OK):
        raise unittest.SkipTest("there is no built wire_up: WIRE_UP_PROGRAM names none")
    return str(path.absolute())


def parts() -> str:
    """The program of crates/one_function, which runs functions of the library by themselves.

    A test that calls this is skipped where it isn't built.
    """
    path = TOP / "crates" / "one_function" / "out" / "one_function"
    if not os.access(path, os.X_OK):
        raise unittest.SkipTest("crates/one_function isn't built: make parts builds it")
    return str(path)
