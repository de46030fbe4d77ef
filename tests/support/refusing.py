"""Runs a program whose requests for memory, reads and writes are refused in turn: by a library that
the machine's C compiler builds (refuse.c), which stands before the C library."""
import os
import shutil
import subprocess
import unittest
from collections.abc import Sequence
from pathlib import Path
from typing import NamedTuple

from tests import support


SOURCE = support.TOP / "tests" / "support" / "refuse.c"
SECONDS = 30
NO_END = -1


class Outcome(NamedTuple):
    """How a run ended: its status, and what it wrote to standard output and to standard error. The
    status of one that had no end is NO_END."""

    status: int
    wrote: bytes = b""
    said: bytes = b""


def library(room: Path) -> Path:
    """The path of the library. A test that calls this is skipped where there is no C compiler."""
    compilers = [word for word in ("cc", "gcc", "clang") if shutil.which(word)]
    if not compilers:
        raise unittest.SkipTest("this machine has no C compiler (cc)")
    made = room / "refuse.so"
    subprocess.run(
        [compilers[0], "-O1", "-shared", "-fPIC", "-o", made, SOURCE, "-ldl"], check=True
    )
    return made


def run_with(
    library_path: Path, words: Sequence[str], given: bytes | None = None, **told: int
) -> tuple[Outcome, bytes]:
    """How a run ended, with the library before the C library, and what the library told."""
    ours, its = os.pipe()
    settings = {f"WIRE_UP_{name.upper()}": str(value) for name, value in told.items()}
    preload = {"LD_PRELOAD": str(library_path), "WIRE_UP_TOLD": str(its)}
    try:
        ran = subprocess.run(
            words,
            stdin=subprocess.DEVNULL if given is None else None,
            input=given,
            env={**os.environ, **preload, **settings},
            pass_fds=(its,),
            capture_output=True,
            timeout=SECONDS,
            check=False,
        )
        outcome = Outcome(ran.returncode, ran.stdout, ran.stderr)
    except subprocess.TimeoutExpired:
        outcome = Outcome(NO_END)
    finally:
        os.close(its)
        with os.fdopen(ours, "rb") as file:
            said = file.read()
    return outcome, said
