"""Tests that a fix takes the race away, and lets no rank wait for ever."""
import json
import tempfile
import unittest
from collections.abc import Mapping
from pathlib import Path

from wire_up_tools.plan import Call, Plan, Rank
from wire_up_tools.plan_reading import read_plan
from wire_up_tools.report.barriers import Move, choose_passed, find_move
from wire_up_tools.report.findings import Finding, read_line
from wire_up_tools.report.messages import find_early
from wire_up_tools.report.orders import Order, find_order
from tests.support import report_support
from tests.support.needs import needs_program

HEAD = "# Recorded by wire_up-record on a day: 4 processes\nrehearsal 2\nnode n\njob a\n"
BARRIER, CAST = "# MPI: barrier\nfence all\n", "# MPI: bcast\n"
TWO = BARRIER * 2
ROOT, LEAF = f"{CAST}publish mpi.0.all.1 sent\n", f"{CAST}lookup-wait mpi.0.all.1\n"
SENT, GOT = "# MPI: send\npublish mpi.3.0.1 sent\n", "# MPI: receive\nlookup-wait mpi.3.0.1\n"
LAST, LAST_GOT = SENT.replace("3.0.1", "1.2.1"), GOT.replace("3.0.1", "1.2.1")
EARLY_GOT = GOT.replace("3.0.1", "0.1.1")
AT = "# at main (a.c:3)\n"
# Scripts of four ranks, by what comes in the way of a barrier.
PLANS = {
    "a broadcast and a message": (
        f"publish p v\n{ROOT}{GOT}unpublish p\n", f"{LEAF}lookup p\n", LEAF, f"{LEAF}{SENT}",
    ),
    "a broadcast behind the publish": (f"publish p v\n{ROOT}", f"lookup p\n{LEAF}", LEAF, LEAF),
    "a broadcast before the publish": (f"{ROOT}publish p v\n", f"lookup p\n{LEAF}", LEAF, LEAF),
    "a message": (f"{GOT}publish p v\n", "lookup p\n", "", SENT),
    "fences": (f"{BARRIER}publish p v\n", f"{BARRIER}lookup p\n", BARRIER, BARRIER),
    "gets": (
        "put global k v\ncommit\nget a:3 k\npublish p v\n", "get a:0 k\nlookup p\n",
        "get a:0 k\nget a:3 k\n", "get a:0 k\nput global k v\ncommit\nget a:0 k\n",
    ),
    "one line of the program": (
        f"{BARRIER}{GOT}{AT}publish p v\n", f"{BARRIER}{AT}publish q v\nlookup p\n",
        f"{BARRIER}{AT}publish r v\n", f"{BARRIER}{SENT}{AT}publish s v\n",
    ),
    "one line that comes too late": (
        f"{AT}publish p v\n", f"lookup p\n{LAST}", f"{LAST_GOT}{AT}publish q v\n", "",
    ),
    "two publishes": (f"{GOT}publish p v\n", "publish p w\n", "", SENT),
}
# Those in which a call can be moved past a fence, and which call that is.
MOVED = {
    "behind": ((f"publish p v\n{BARRIER}", f"lookup p\n{BARRIER}", BARRIER, BARRIER), "lookup"),
    "before": (PLANS["fences"], "publish"),
    "the next of two": (
        (f"publish p v\n{TWO}unpublish p\n", f"lookup p\n{TWO}", TWO, TWO),
        "lookup",
    ),
}
# Those in which a message is sent too early.
EARLY = {
    "a name": (f"{LAST.replace('1.2.1', '0.1.1')}publish p v\n", f"{EARLY_GOT}lookup p\n", "", ""),
    "a key": (
        f"put global k v\n{LAST.replace('1.2.1', '0.1.1')}commit\n", f"{EARLY_GOT}get-now a:0 k\n",
        "", "",
    ),
    "a name that is taken away": (
        f"publish p v\n{BARRIER}{EARLY_GOT.replace('0.1.1', '1.0.1')}unpublish p\n",
        f"{BARRIER}{LAST.replace('1.2.1', '1.0.1')}lookup p\n", BARRIER, BARRIER,
    ),
}


def find_leader(finding: Finding) -> Call:
    """The call that is to come first."""
    return finding.leader or finding.first


def write(scripts: tuple[str, ...]) -> bytes:
    """A plan of these scripts."""
    return (HEAD + "".join(f"rank n\n{script}" for script in scripts)).encode()


def add_barrier(order: Order, finding: Finding) -> bytes:
    """The plan with a fence of all ranks, each of which calls it where the report says."""
    other = finding.find_other(find_leader(finding))
    passed = dict(choose_passed(order, (find_leader(finding), other)))
    moved = order.plan.lines[other.line - 1] if passed[other.rank] > other.number else None
    passed[other.rank] -= passed[other.rank] == other.number
    ends = {last_line(order.plan, rank, passed): rank for rank in order.plan.ranks}
    lines: list[str] = []
    for number, line in enumerate(order.plan.lines, 1):
        lines += [line] if moved is None or number != other.line else []
        if number in ends:
            lines.append("fence all")
            lines += [moved] if moved and ends[number] is other.rank else []
    return "".join(f"{each_line}\n" for each_line in lines).encode()


def last_line(plan: Plan, rank: Rank, passed: Mapping[Rank, int]) -> int:
    """The line of the last call that a rank makes before a fence, or that with which it begins."""
    count = passed.get(rank, 0)
    if count:
        return plan.find_call(rank.name, count).line
    begins = [n for n, line in enumerate(plan.lines, 1) if line.startswith("rank ")]
    return begins[rank.index]


def move_call(plan: Plan, move: Move) -> bytes:
    """The plan in which a call stands past a fence."""
    lines = list(plan.lines)
    line = lines.pop(move.call.line - 1)
    # A comment above a fence stays with it.
    lines.insert(move.fence.line - 1 if move.is_later else move.fence.line - 2, line)
    return "".join(f"{each_line}\n" for each_line in lines).encode()


def send_later(plan: Plan, sent: Call, leader: Call) -> bytes:
    """The plan in which a message is sent right after a call."""
    lines = list(plan.lines)
    moved = lines[sent.line - 2:sent.line]
    lines[leader.line:leader.line] = moved
    del lines[sent.line - 2:sent.line]
    return "".join(f"{line}\n" for line in lines).encode()


@needs_program
class MendedTest(unittest.TestCase):
    """Plans that are mended as their reports say."""

    def ask(self, data: bytes, command: str) -> dict[str, object]:
        """What the program says of a plan, as JSON."""
        with tempfile.TemporaryDirectory(prefix="wire-up-report-") as room:
            path = report_support.write(Path(room, "a.plan"), data)
            said: dict[str, object] = json.loads(
                report_support.run_checker(command, "--json", path).stdout
            )
        return said

    def find(self, data: bytes) -> tuple[Order, Finding]:
        """The only finding of a plan."""
        with tempfile.TemporaryDirectory(prefix="wire-up-report-") as room:
            path = report_support.write(Path(room, "a.plan"), data)
            first, last, _ = report_support.run_checker("check", path).stdout.split("\n")
        self.assertEqual(last, "findings 1")
        order = find_order(read_plan(data))
        return order, read_line(order.plan, first)

    def hold(self, data: bytes) -> None:
        """Tests that nothing is found in a plan, and that no rank waits for ever."""
        said = self.ask(data, "replay")
        self.assertEqual(said.get("waiting"), 0, f"{said}\n{data.decode()}")

    def test_a_new_barrier(self) -> None:
        for name, scripts in PLANS.items():
            with self.subTest(name):
                self.hold(add_barrier(*self.find(write(scripts))))

    def test_a_move(self) -> None:
        for name, (scripts, verb) in MOVED.items():
            with self.subTest(name):
                order, finding = self.find(write(scripts))
                move = find_move(order, finding, find_leader(finding))
                assert move
                self.assertEqual(move.call.verb, verb)
                self.hold(move_call(order.plan, move))

    def test_a_message_that_is_sent_too_early(self) -> None:
        for name, scripts in EARLY.items():
            with self.subTest(name):
                order, finding = self.find(write(scripts))
                sent = find_early(order.plan, finding)
                assert sent
                self.hold(send_later(order.plan, sent, find_leader(finding)))


if __name__ == "__main__":
    unittest.main()
