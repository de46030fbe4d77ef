"""Tests gets that don't block: whether the order that a plan takes from them hides a race."""
import tempfile
import unittest
from pathlib import Path

from wire_up_tools.plan_reading import read_plan
from wire_up_tools.record.notes import FLOATING, UNAWAITED
from wire_up_tools.report.partial import find_reasons, say_awaited
from wire_up_tools.report.singular import say_counted
from wire_up_tools.words import AWAITED, MORE_ORDERED, WRITTEN_OTHERWISE
from tests import support
from tests.support.needs import needs_program
from tests.support.tapes import Tape, read_file, run_recorder, write_file

ONE_FLOATING, ONE_UNAWAITED = (say_counted(f"1 {text}") for text in (FLOATING, UNAWAITED))


def put_and_commit(*keys: str) -> Tape:
    """Process 0, which puts and commits keys, and leaves a fence."""
    tape = Tape(0)
    for key in keys:
        tape.call(f"put global {key} text:v")
    return tape.call("commit").call("fence blocks all -")


def get_without_waiting(*calls: str) -> Tape:
    """Process 1, which gets a key by a call that doesn't block, makes these calls, and leaves a
    fence."""
    tape = Tape(1).call("get own job:0 :k -", "0 text:v")
    for call in calls:
        tape.call(call, "0 text:v")
    return tape.call("fence blocks all -")


@needs_program
class FloatingTest(unittest.TestCase):
    """Plans of processes of which one gets a key without waiting."""

    def setUp(self) -> None:
        self.program = support.program()
        room = tempfile.TemporaryDirectory(prefix="wire-up-record-")
        self.addCleanup(room.cleanup)
        self.room = room.name

    def record(self, *tapes: Tape, checker: str = "") -> tuple[str, str]:
        """The plan of some processes, and what is said of it."""
        paths = [
            write_file(Path(self.room, f"{n}.recording"), tape.text())
            for n, tape in enumerate(tapes)
        ]
        plan = Path(self.room, "plan")
        options = ("--checker", checker or self.program, "-o", plan)
        ran = run_recorder(*options, "--from", *paths)
        self.assertEqual(ran.returncode, 0, ran.stderr)
        return read_file(plan), ran.stderr

    def test_where_nothing_is_found_without_them(self) -> None:
        plan, said = self.record(put_and_commit("k"), get_without_waiting())
        polls = "if it polls for them, another run may do otherwise"
        self.assertEqual(said, f"wire_up-record: 1 {AWAITED}; {polls}\n")
        self.assertIn(f"# {WRITTEN_OTHERWISE}\n#   1 {AWAITED}\n", plan)
        read = read_plan(plan.encode())
        self.assertEqual(find_reasons(read), [])
        self.assertIn("If it polls for them,", say_awaited(read) or "")
        self.assertIn("\nget app:0 k\n", plan)
        self.assertNotIn(MORE_ORDERED, plan)

    def test_where_they_order_what_would_race(self) -> None:
        """The get of `k` is all that brings the commit before the get of `other`."""
        later = get_without_waiting("get blocks job:0 :other pmix.immediate=number:1:1")
        plan, said = self.record(put_and_commit("k", "other"), later)
        self.assertIn(f"holds only in part: {ONE_FLOATING}\n", said)
        self.assertIn(f"# {MORE_ORDERED}\n#   1 {FLOATING}\n", plan)

    def test_where_something_is_found(self) -> None:
        """Others may be missed then."""
        others = [Tape(n).call("publish blocks n=text:v -", "0") for n in (2, 3)]
        plan, said = self.record(put_and_commit("k"), get_without_waiting(), *others)
        self.assertIn(ONE_FLOATING, said)
        self.assertIn(MORE_ORDERED, plan)

    def test_without_a_checker(self) -> None:
        plan, said = self.record(put_and_commit("k"), get_without_waiting(), checker="/bin/false")
        self.assertIn(ONE_FLOATING, said)
        self.assertIn(MORE_ORDERED, plan)

    def test_calls_that_change_something(self) -> None:
        """What doesn't block and isn't such a get is told of as before."""
        tape = Tape(0).call("publish own n=text:v -").call("commit")
        plan, said = self.record(tape)
        self.assertIn(f"{ONE_UNAWAITED}\n", said)
        self.assertIn(MORE_ORDERED, plan)

    def test_a_get_that_was_answered_with_an_error(self) -> None:
        """It didn't wait for its key, so that it can't stand anywhere."""
        tape = Tape(1).call("get own job:0 :k -", "-46").call("fence blocks all -")
        _, said = self.record(put_and_commit("k"), tape)
        self.assertIn(f"{ONE_UNAWAITED}\n", said)


if __name__ == "__main__":
    unittest.main()
