"""Runs the tests of a file by unittest alone, where pytest isn't to be had.

Usage: python3 -m build.plain_tests FILE [MARKER..]     leaves tests with one of these markers out
Prints what failed and which tests were left out and why, and last 'N passed, M failed'.
"""
import sys
import unittest
from collections.abc import Iterator, Sequence
from pathlib import Path

from build.counts import Counts
from build.places import TOP
from tests.support.needs import markers_of


def tests_in(suite: unittest.TestSuite) -> Iterator[unittest.TestCase]:
    """All tests of a suite and of the suites in it."""
    for test in suite:
        if isinstance(test, unittest.TestSuite):
            yield from tests_in(test)
        else:
            yield test


def markers_of_test(test: unittest.TestCase) -> frozenset[str]:
    """The markers of a test and of its class."""
    method = getattr(type(test), test.id().rpartition(".")[2], None)
    return markers_of(type(test)) | markers_of(method)


def run_file(file: str, left_out: Sequence[str], top: Path = TOP) -> Counts:
    """Runs the tests of a file, below the folder from which its module is named, that have none of
    these markers. A file without tests is a failure."""
    path = top / file
    found = list(tests_in(unittest.TestLoader().discover(str(path.parent), path.name, str(top))))
    taken = [
        each_test for each_test in found if not markers_of_test(each_test).intersection(left_out)
    ]
    result = unittest.TextTestRunner(sys.stdout, verbosity=0).run(unittest.TestSuite(taken))
    for test, why in result.skipped:
        print(f"left out, as {why}: {test.id()}")
    wrong = [*result.failures, *result.errors]
    failed = len(wrong) + len(result.unexpectedSuccesses) + int(not found)
    # (a subtest has its test, and a class that can't begin none)
    unwell = {getattr(test, "test_case", test).id() for test, _ in [*wrong, *result.skipped]}
    unwell &= {each_test.id() for each_test in taken}
    return Counts(result.testsRun - len(unwell) - len(result.unexpectedSuccesses), failed)


def main(words: Sequence[str]) -> int:
    if not words:
        sys.exit(__doc__)
    counts = run_file(words[0], words[1:])
    print(counts, flush=True)
    return 1 if counts.failed else 0


if __name__ == "__main__":
    sys.exit(main(sys.argv[1:]))
