"""Runs tests that record programs, with recorders that are built with the sanitizers of addresses
and of undefined behaviour. What these find ends the process, and is printed at the end.

Usage: python3 -m build.sanitized [TEST..]
A test is a module, a class or a method, such as tests.record.test_recording_live.CasesTest, which
is what runs without one. It works on a copy of the repository. The last line is 'N passed, M
failed'.
"""
import os
import subprocess
import sys
import tempfile
from collections.abc import Sequence
from pathlib import Path

from build.counts import Counts
from build.crates import copy_to
from build.places import TOP

FLAGS = (
    "-O1 -g -fno-omit-frame-pointer -fsanitize=address,undefined"
    " -fno-sanitize-recover=undefined"
)
TESTS = ("tests.record.test_recording_live.CasesTest",)
# The library of the sanitizers, which comes before all others in each process.
LIBRARY = "libasan.so"


def find_library() -> str:
    """The path of the library of the sanitizers; the program ends where there is none."""
    words = [os.environ.get("CC", "cc"), f"-print-file-name={LIBRARY}"]
    try:
        ran = subprocess.run(words, capture_output=True, text=True, check=True)
    except (OSError, subprocess.CalledProcessError):
        sys.exit("there is no C compiler here")
    if not Path(ran.stdout.strip()).is_absolute():
        sys.exit("the C compiler has no sanitizers here")
    return ran.stdout.strip()


def build(room: Path) -> None:
    """Builds the recorders of a copy."""
    words = ["make", "-s", "record", "record-mpi", f"CFLAGS={FLAGS}"]
    if subprocess.run(words, cwd=room, check=False).returncode:
        sys.exit("the recorders can't be built with sanitizers")


def run_tests(room: Path, tests: Sequence[str]) -> bool:
    """Runs tests of a copy. Answers whether they passed."""
    # (each sanitizer adds the number of the process)
    found = room / "found"
    settings = {
        "WIRE_UP_FIRST_LIBRARY": find_library(),
        "ASAN_OPTIONS": f"detect_leaks=0:log_path={found}",
        "UBSAN_OPTIONS": f"print_stacktrace=1:log_path={found}",
        "PYTHONPATH": "",
    }
    words, where = [sys.executable, "-m", "unittest", *tests], {**os.environ, **settings}
    return not subprocess.run(words, cwd=room, env=where, check=False).returncode


def main(tests: Sequence[str]) -> int:
    find_library()
    with tempfile.TemporaryDirectory(prefix="wire-up-") as folder:
        room = Path(folder)
        copy_to(room, TOP)
        build(room)
        is_well = run_tests(room, tests or TESTS)
        found = sorted(room.glob("found.*"))
        for path in found:
            print(path.read_text(encoding="utf-8", errors="replace"))
    is_well = is_well and not found
    print(Counts(int(is_well), int(not is_well)))
    return 0 if is_well else 1


if __name__ == "__main__":
    sys.exit(main(sys.argv[1:]))
