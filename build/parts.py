"""The program that has functions of the library by themselves, crates/one_function, which tests and
`make bench` run.

Usage: python3 -m build.parts     proves and builds it, and the libraries below it that aren't built
It takes minutes, or as long as `make run` where that wasn't done.
"""
import sys

from build.crates import crates_for, locked
from build.logs import log_at
from build.places import PARTS, TOP, shown
from build.proving import prove_all

ABOUT = "proving and building crates/one_function, and what isn't built below it"


def build_parts() -> bool:
    """Builds the program where it isn't there. Answers whether it is there then."""
    if PARTS.exists():
        return True
    print(ABOUT, file=sys.stderr, flush=True)
    crates = crates_for("one_function", TOP)
    with locked(crates), open(log_at("parts.log"), "a", encoding="utf-8") as log:
        return not prove_all(crates, log)


if __name__ == "__main__":
    if not build_parts():
        sys.exit("crates/one_function can't be built: out/parts.log says why")
    print(shown(PARTS))
