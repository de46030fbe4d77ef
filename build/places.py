"""Where things are in the repository."""
import os
from pathlib import Path

TOP = Path(__file__).parent.parent
CRATES = TOP / "crates"
# Logs, and what is measured. Git ignores this folder.
LOGS = TOP / "out"
# The program that users call, once it is proved and built.
WIRE_UP = TOP / "wire_up"
# The crate of the program, and what is built there.
PROGRAM = CRATES / "program"
BUILT = PROGRAM / "out" / "program"
# The program that has functions of the library by themselves.
PARTS = CRATES / "one_function" / "out" / "one_function"


def shown(path: str | Path) -> str:
    """A path as a reader at the top of the repository would write it."""
    return os.path.relpath(path, TOP)
