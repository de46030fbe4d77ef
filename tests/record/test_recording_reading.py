"""Tests which recordings are refused, and what is said of each."""
import tempfile
import unittest
from collections.abc import Mapping, Sequence
from pathlib import Path

from tests.support.tapes import (
    Tape,
    in_world,
    make_world,
    read_scripts,
    run_recorder,
    write_file,
    write_plan_of,
)


FINE = Tape(0).call("put global k text:v").text()
RANKS = Tape(0).text(), Tape(1).text()
COLLECTS = "pmix.collect=number:1:1"


def twice(lines: Sequence[bytes]) -> bytes:
    """Lines in which each call begins twice."""
    return b"".join(line + (line if line.startswith(b"+") else b"") for line in lines)


def many(tapes: Sequence[Tape]) -> dict[str, bytes]:
    """Recordings by their numbers."""
    return {f"{n:03}": tape.text() for n, tape in enumerate(tapes)}


def crossed_by_a_get() -> dict[str, bytes]:
    """Recordings of a fence that doesn't block, in which a get waits for what comes after it."""
    first, second = Tape(0), Tape(1)
    fence = first.begin(f"fence nb all {COLLECTS}")
    first.call("put global k text:v").call("commit").end(fence)
    second.call("get blocks job:0 :k -", "0 text:v").call(f"fence blocks all {COLLECTS}")
    return many([first, second])


def crossed_by_a_barrier() -> dict[str, bytes]:
    """Recordings of a fence that doesn't block, and of a barrier in another order."""
    first, second = make_world(2)
    fence = first.begin(f"fence nb all {COLLECTS}")
    first.call("collective barrier 1", "0 all").end(fence)
    second.call("collective barrier 1", "0 all").call(f"fence blocks all {COLLECTS}")
    return many([first, second])


class RefusedRecordingsTest(unittest.TestCase):
    """Recordings that make no plan end with one line and status 125, and no plan."""

    def refuse(self, files: Mapping[str, bytes], what: str) -> None:
        """Tests that recordings are refused with a line that says this."""
        with self.subTest(what), tempfile.TemporaryDirectory(prefix="wire-up-") as room:
            for name, data in files.items():
                write_file(Path(room, f"{name}.recording"), data)
            plan = Path(room, "plan")
            ran = run_recorder("-o", plan, "--checker", "/bin/false", "--from", room)
            self.assertEqual((ran.returncode, ran.stdout), (125, ""), ran.stderr[:300])
            self.assertRegex(ran.stderr, r"\Awire_up-record: [^\n]*\n\Z")
            self.assertIn(what, ran.stderr)
            self.assertFalse(plan.exists(), "a plan is there")

    def refuse_one(self, data: bytes, what: str) -> None:
        """Tests that a recording is refused with a line that says this."""
        self.refuse({"a": data}, what)

    def test_no_recording(self) -> None:
        self.refuse({}, "there is no recording")

    def test_heads(self) -> None:
        no_first = "line 1 isn't the first line of a recording"
        self.refuse_one(b"", "is empty")
        self.refuse_one(b"".join(FINE.splitlines(True)[:2]), "line 3 doesn't say when it began")
        self.refuse_one(FINE[:9], no_first)
        self.refuse_one(b"rehearsal 1\nnode n0\n", no_first)
        self.refuse_one(FINE.replace(b"recording 1", b"recording 2"), no_first)
        late = Tape(0, began=10**12).text()
        self.refuse_one(late, "line 3 says a time after the year 9999")
        self.refuse_one(FINE.replace(b"Test%201", b"%zz"), "line 2 has a word that can't be read")

    def test_bytes(self) -> None:
        self.refuse_one(FINE.replace(b"text:v", b"text:\x80"), "line 5 has a byte")
        self.refuse_one(FINE + b"\0\n", "line 8 has a byte")

    def test_zeros_at_the_end(self) -> None:
        """They follow what a process wrote that was killed, and are no part of it."""
        zeros = b"\0" * 4096
        self.assertEqual(write_plan_of([FINE + zeros]), write_plan_of([FINE]))
        cut = FINE[:-3] + zeros
        self.assertIn("1 last lines of recordings, which were cut", write_plan_of([cut]))
        self.refuse_one(zeros, "is empty")

    def test_records(self) -> None:
        no_record = "line 5 isn't a record"
        self.refuse_one(FINE.replace(b"put global k", b"put globe k"), no_record)
        self.refuse_one(FINE.replace(b"put global k", b"leap global k"), no_record)
        self.refuse_one(FINE.replace(b"text:v", b"text:%zz"), no_record)
        self.refuse_one(FINE + b"lost\n", "line 8 says that a record was lost")

    def test_begins_and_ends(self) -> None:
        self.refuse_one(FINE.replace(b"- 1 1", b"- 7 1"), "line 6 ends a call that isn't open")
        self.refuse_one(twice(FINE.splitlines(True)), "begins a call that is open")

    def test_numbers_of_calls(self) -> None:
        """A call can have any number that no open call has."""
        tape = in_world(0, 1)
        for number in (10 ** 17, 7, 5, 7000, 6, 10 ** 17, 7):
            tape.line("+", number, "put global k text:v")
            tape.line("-", number, "0")
        self.assertEqual(len(read_scripts(write_plan_of([tape]))[0]), 7)
        for number in (1, 2, 6000, 10 ** 17):
            with self.subTest(number=number):
                tape = in_world(0, 1)
                for _ in range(2):
                    tape.line("+", number, "send 1 0 0 4")
                    tape.line("+", number + 1, "commit")
                self.refuse_one(tape.text(), "line 9 begins a call that is open")
                tape = in_world(0, 1)
                for _ in range(2):
                    tape.line("-", number, "0")
                self.refuse_one(tape.text(), "line 7 ends a call that isn't open")

    def test_ranks(self) -> None:
        first, second = RANKS
        self.refuse({"a": first, "b": first}, "is rank 0 of job once more")
        self.refuse_one(second, "job has 2 ranks, and there is no recording of 1 of them: 0")
        world = make_world(4)[0].text()
        self.refuse_one(world, "no recording of 3 of them: 1, 2, 3")
        fence = Tape(0).call("fence blocks job:0,job:2 -").text()
        self.refuse_one(fence, "no recording of 2 of them: 1, 2")
        size = Tape(0).call("get blocks job:* :pmix.job.size -", "0 number:4:2").text()
        self.refuse_one(size, "of 1 of them: 1")
        self.refuse_one(Tape(4294967290).text(), "job has 4294967291 ranks")

    def test_too_many_of_each(self) -> None:
        past = "at most {}, and this one would have {}"
        processes = [Tape(n) for n in range(257)]
        self.refuse(many(processes), past.format("256 processes", 257))
        self.refuse(many([Tape(n, host=f"n{n}") for n in range(65)]), past.format("64 nodes", 65))
        jobs = [Tape(0, namespace=f"j{n}") for n in range(17)]
        self.refuse(many(jobs), past.format("16 jobs", 17))

    def test_too_many_calls(self) -> None:
        tape = Tape(0)
        for _ in range(16385):
            tape.call("commit")
        self.refuse_one(tape.text(), "at most 16,384 calls, and this one would have 16,385")

    def test_too_many_bytes(self) -> None:
        tape = Tape(0)
        for n in range(16000):
            tape.call(f"put global k{n} text:{'x' * 250}")
        self.refuse_one(tape.text(), "at most 4,194,304 bytes")

    def test_calls_that_a_plan_cannot_order(self) -> None:
        what = "call 1 of app:0, `fence all collect`, ended, but in a plan"
        self.refuse(crossed_by_a_get(), what)
        self.refuse(crossed_by_a_barrier(), what)

    def test_places_that_cannot_be_read(self) -> None:
        with tempfile.TemporaryDirectory(prefix="wire-up-") as room:
            write_file(Path(room, "0.recording"), FINE)
            write_file(Path(room, "places"), b"module 12 f (a.c:1)\nmodule xyz f\n")
            ran = run_recorder("-o", "-", "--checker", "/bin/false", "--from", room)
            self.assertEqual((ran.returncode, ran.stdout), (125, ""))
            self.assertRegex(ran.stderr, r"\Awire_up-record: .*places: line 2 isn't a place\n\Z")


if __name__ == "__main__":
    unittest.main()
