"""Tests the plan of several runs: what they share, and where they part."""
import tempfile
import unittest
from collections.abc import Sequence
from pathlib import Path

from wire_up_tools.failures import Refused
from wire_up_tools.record.merging import merge_plans
from wire_up_tools.record.partings import Run
from wire_up_tools.record.places import Places
from wire_up_tools.record.planning import Choices, Plan, make_whole_plan
from wire_up_tools.record.recordings import read_recording
from wire_up_tools.record.writing import write_plan
from tests import support
from tests.models.marks import find_marks_before
from tests.soak.free_programs import Free
from tests.soak.random_worlds import World
from tests.support.needs import needs_program
from tests.support.recorded import CASES
from tests.support.tapes import (
    SHIPPED,
    Scripts,
    Tape,
    make_world,
    read_file,
    read_scripts,
    run_recorder,
    write_file,
)

WORLDS = 60
MARK = "publish blocks m=text:x -"


def merge(*runs: Sequence[bytes]) -> Plan:
    """The plan of what runs share, each by its recordings."""
    plans = []
    for tapes in runs:
        read = [read_recording(f"{n}.recording", text) for n, text in enumerate(tapes)]
        plans.append(Run(make_whole_plan(read, Choices()), Places({})))
    return merge_plans(plans)


def texts_of(tapes: Sequence[Tape]) -> list[bytes]:
    """The recordings of tapes."""
    return [tape.text() for tape in tapes]


def scripts_of(plan: Plan) -> Scripts:
    """The lines of a plan."""
    return read_scripts(write_plan(plan))


def from_either(first: int) -> list[bytes]:
    """A run in which rank 0 gets a message of one of two others first, which publish a mark."""
    tapes = make_world(3)
    for rank in (1, 2):
        tapes[rank].call(f"publish blocks m{rank}=text:x -").begin("send 1 0 0 4")
    for rank in (first, 3 - first):
        tapes[0].call("receive 1 any 0", f"0 {rank} 0 4")
    tapes[0].call("lookup blocks :m1 -", "0 m1=text:x")
    return texts_of(tapes)


def parts_at(last: str) -> list[bytes]:
    """A run in which rank 1 makes another call after two that all runs make."""
    tapes = make_world(2)
    tapes[0].call(MARK)
    tapes[1].call("publish blocks n=text:x -").call("lookup blocks :m -", "-46 -").call(last, "0")
    return texts_of(tapes)


class MergedTest(unittest.TestCase):
    """Several runs of one program."""

    def test_runs_that_differ_in_order(self) -> None:
        plan = merge(from_either(1), from_either(2))
        waits = ["lookup-wait mpi.1.1", "lookup-wait mpi.2.1"]
        sent = [[f"publish m{rank} x", f"publish mpi.{rank}.1 sent"] for rank in (1, 2)]
        self.assertEqual(scripts_of(plan), [[*waits, "lookup m1"], *sent])
        self.assertEqual(plan.partings, [])

    def test_an_order_of_one_run_alone(self) -> None:
        tapes = make_world(2)
        tapes[0].call(MARK)
        tapes[1].call("lookup blocks :m -", "-46 -")
        ordered = make_world(2)
        ordered[0].call(MARK).begin("send 1 1 0 4")
        ordered[1].call("receive 1 0 0", "0 0 0 4").call("lookup blocks :m -", "0 m=text:x")
        plan = merge(texts_of(ordered), texts_of(tapes))
        self.assertEqual(scripts_of(plan), [["publish m x"], ["lookup m"]])

    def test_where_runs_part(self) -> None:
        plan = merge(parts_at("unpublish blocks :n -"), parts_at("commit"), parts_at("commit"))
        self.assertEqual(scripts_of(plan), [["publish m x"], ["publish n x", "lookup m"]])
        did = "run {} `{}` at an unknown place"
        said = ", ".join(
            did.format(n, word) for n, word in enumerate(("unpublish n", "commit", "commit"), 1)
        )
        self.assertEqual(plan.partings, [f"app:1 after 2 calls of the program: {said}"])
        head = "# The runs part, so that a verdict holds only in part:\n#   app:1 after 2 calls"
        self.assertIn(head, write_plan(plan))

    def test_a_fence_after_which_a_run_parts(self) -> None:
        """Who meets others in it that don't come doesn't go on."""
        runs = []
        for last in ("commit", "fence blocks all -"):
            tapes = Tape(0), Tape(1)
            tapes[0].call(last).call("fence blocks all -").call(MARK)
            tapes[1].call("fence blocks all -")
            if last != "commit":
                tapes[1].call("fence blocks all -")
            runs.append(texts_of(tapes))
        self.assertEqual(scripts_of(merge(*runs)), [[], []])

    def test_other_values(self) -> None:
        runs = [texts_of([Tape(0).call(f"put global k text:{letter}")]) for letter in "vw"]
        plan = merge(*runs)
        self.assertEqual(scripts_of(plan), [["put global k v"]])
        self.assertIn("1 values that runs have otherwise", write_plan(plan))

    def test_other_processes(self) -> None:
        with self.assertRaisesRegex(Refused, "0.recording: line 2 is of a run with other"):
            merge(texts_of(make_world(2)), texts_of(make_world(3)))

    def test_a_run_with_itself(self) -> None:
        """Its plan orders marks as the plan of the run."""
        for seed in range(WORLDS):
            with self.subTest(seed=seed):
                world = World(seed)
                texts = texts_of(world.tapes)
                found = find_marks_before(scripts_of(merge(texts, texts)))
                self.assertEqual(found, world.marks)

    def test_free_programs(self) -> None:
        """The plan of two runs orders no two marks that a run by itself doesn't."""
        for seed in range(WORLDS):
            world = Free(seed)
            if not world.is_known or not world.complete:
                continue
            runs = [texts_of(world.tapes()) for _ in range(2)]
            found = find_marks_before(scripts_of(merge(*runs)))
            for texts in runs:
                own = find_marks_before(scripts_of(merge(texts, texts)))
                with self.subTest(seed=seed):
                    self.assertFalse([mark for mark in found if found[mark] - own[mark]])

    @needs_program
    def test_the_command(self) -> None:
        """It says one verdict, and whether that holds for each run."""
        program = support.program()
        with tempfile.TemporaryDirectory(prefix="wire-up-") as room:
            plan = Path(room, "plan")
            words = ("-o", plan, "--checker", program)
            first, second = (Path(SHIPPED, name) for name in ("wild1", "wild2"))
            ran = run_recorder(*words, "--from", first, "--from", second)
            each = "by themselves they have findings 1, findings 1"
            received = CASES["wild1"].says_otherwise().replace("2", "4")
            said = f"wire_up-record: what the runs share has findings 1; {each}\n"
            self.assertEqual((ran.returncode, ran.stderr), (0, received + said))
            self.assertIn("# 2 runs: ", read_file(plan))
            told = SHIPPED / "told"
            ran = run_recorder(*words, "--from", told, "--from", told)
            said = "wire_up-record: findings 0: it holds for each of the 2 runs\n"
            self.assertEqual((ran.returncode, ran.stderr), (0, said))

    @needs_program
    def test_the_verdicts_with_and_without_luck(self) -> None:
        """They are said of several runs as of one."""
        program = support.program()
        with tempfile.TemporaryDirectory(prefix="wire-up-") as room:
            plan, poll = Path(room, "plan"), Path(SHIPPED, "poll")
            words = ("-o", plan, "--checker", program, "--from", poll, "--from", poll)
            ran = run_recorder(*words)
            both = "findings 0, and findings 1 with --strict"
            self.assertIn(f"wire_up-record: {both}, which takes nothing from 2 ends", ran.stderr)
            self.assertIn(f"# Verdicts: {both}\n", read_file(plan))

    def test_no_files(self) -> None:
        with tempfile.TemporaryDirectory(prefix="wire-up-") as room:
            file = write_file(Path(room, "a.recording"), Tape(0).text())
            ran = run_recorder("-o", "-", "--from", file, "--from")
            self.assertEqual(ran.returncode, 125)
            self.assertIn("which recordings?", ran.stderr)


if __name__ == "__main__":
    unittest.main()
