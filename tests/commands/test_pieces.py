"""Reads plans that are so long that several threads read their lines: a fault has its line wherever
it stands, calls have theirs, and what one thread reads (`migrate`) is the same."""
import random
import tempfile
import unittest
from collections.abc import Iterator
from dataclasses import dataclass
from pathlib import Path

from tests.soak.random_plans import damaged
from tests.support.running import NOTHING, ProgramCase, Run, start, written


# A file of fewer bytes is read by one thread; of others, a piece has so many bytes, and so many
# pieces are read at once.
SHARED_BYTES, PIECE_BYTES, AT_ONCE = 1 << 20, 1 << 18, 8
HEAD = b"rehearsal 1\nnode n0\njob app\nrank n0\n"
RANK = b"put global k v\ncommit\n"
FILLS = {
    "comments": b"# " + b"x" * 61 + b"\n",
    "comments with returns": b"# " + b"x" * 60 + b"\r\n",
    "empty lines": b"\n",
    "lines as long as pieces": b"#" * (PIECE_BYTES - 1) + b"\n",
    "lines longer than pieces": b"#" * (PIECE_BYTES + 7) + b"\n",
}
SEED, DAMAGED = 20261129, 40
NEWLINE = b"\n"


@dataclass(frozen=True)
class Long:
    """A plan with lines that say nothing before the last line and after it."""

    fill: bytes
    before: int
    after: int

    @staticmethod
    def of(fill: bytes, place: int, size: int = SHARED_BYTES + 5 * PIECE_BYTES) -> "Long":
        """One of about so many bytes, whose last line stands at about this place."""
        before = max(0, place - len(HEAD) - len(RANK)) // len(fill)
        return Long(fill, before, max(0, size - place) // len(fill) + 1)

    def text(self, last: bytes) -> bytes:
        """The plan, with this last line."""
        return b"".join([HEAD, RANK, self.fill * self.before, last, self.fill * self.after])

    def line(self) -> int:
        """The number of the last line."""
        return (HEAD + RANK).count(b"\n") + self.before + 1


def places() -> Iterator[int]:
    """Places in a file: around the borders of pieces, and at its ends."""
    yield from (0, SHARED_BYTES // 3, SHARED_BYTES + 5 * PIECE_BYTES)
    for piece in (1, 2, 4, AT_ONCE):
        yield from (piece * PIECE_BYTES + number for number in (-70, -1, 0, 1, 70))


class Pieces(ProgramCase):
    """Long plans."""

    def test_a_fault_has_its_line(self) -> None:
        """A line that is none, that names nobody, or that can't stand there, at each place."""
        faults = ((b"getaway x\n", "4 BadLine"), (b"get app:9 k\n", "5 UnknownName"))
        with tempfile.TemporaryDirectory() as room:
            for name, fill in FILLS.items():
                for place in places():
                    plan = Long.of(fill, place)
                    for last, fault in faults:
                        path = written(Path(room), "long.plan", plan.text(last))
                        said = f"wire_up: fault {fault} {plan.line()}\n".encode()
                        with self.subTest(fill=name, place=place, fault=fault):
                            self.hold(Run("", ["check", path], status=2, said=said))

    def test_the_first_fault_is_told(self) -> None:
        """Faults in the first and in the third of the groups of pieces that are read at once."""
        group = AT_ONCE * PIECE_BYTES
        fill = FILLS["comments"]
        front = Long.of(fill, PIECE_BYTES, PIECE_BYTES)
        behind = fill * (2 * group // len(fill)) + b"getaway y\n" + fill
        for last, line in ((b"getaway x\n", front.line()), (b"", 0)):
            text = front.text(last) + behind
            said = f"wire_up: fault 4 BadLine {line or text[:-len(fill)].count(NEWLINE)}\n".encode()
            with self.subTest(last=last), tempfile.TemporaryDirectory() as room:
                path = written(Path(room), "long.plan", text)
                self.hold(Run("", ["check", "--large", path], status=2, said=said))

    def test_the_last_line_may_have_no_feed(self) -> None:
        """A file that ends within a line."""
        with tempfile.TemporaryDirectory() as room:
            for name, fill in FILLS.items():
                text = Long.of(fill, 2 * SHARED_BYTES).text(b"") + b"get app:0 k"
                for words in (["check"], ["check", "--lines"]):
                    with self.subTest(fill=name, words=words):
                        path = written(Path(room), "open.plan", text)
                        self.hold(Run("", [*words, path], wrote=NOTHING))

    def test_calls_have_their_lines(self) -> None:
        """The two calls of a race, one of them in each piece in turn."""
        for place in places():
            plan = Long.of(FILLS["comments"], place)
            text = plan.text(b"rank n0\nget-now app:0 k\n")
            with tempfile.TemporaryDirectory() as room:
                path = written(Path(room), "race.plan", text)
                ran = start(self.program, Run("", ["check", "--lines", path]))
            with self.subTest(place=place):
                self.assertEqual(1, ran.returncode, ran.stderr)
                self.assertIn(f"race.plan:{plan.line() + 1}: note: app:1 1".encode(), ran.stdout)

    def test_one_thread_reads_the_same(self) -> None:
        """Damaged plans: `migrate`, which one thread reads, refuses them as `check` does."""
        dice = random.Random(SEED)
        with tempfile.TemporaryDirectory() as room:
            for number in range(DAMAGED):
                fill = FILLS[dice.choice(list(FILLS))]
                plan = Long.of(fill, dice.randrange(2 * SHARED_BYTES))
                text = damaged(dice, plan.text(b"get app:0 k\n"))
                path = written(Path(room), "damaged.plan", text)
                shared, alone = (
                    start(self.program, Run("", [word, path])) for word in ("check", "migrate")
                )
                with self.subTest(seed=SEED, number=number):
                    self.assertEqual(alone.stderr, shared.stderr)
                    self.assertEqual(alone.returncode == 0, shared.returncode in (0, 1))


if __name__ == "__main__":
    unittest.main()
