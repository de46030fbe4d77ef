"""Whether the unproved program of build/plain, which `check` is measured beside, answers what the
built program answers. Where there is no rustc, this is left out."""
import random
import subprocess
import unittest
from collections.abc import Iterator

from build.large_plans import LARGE_PLANS, LargePlan
from build.plain_program import build_plain
from tests.rows import Large
from tests.soak.random_plans import random_file
from tests.support.row_runs import NAMES, Ended, rows_of
from tests.support.running import SECONDS, ProgramCase

# How many random plans there are, and the ranks of a plan of a machine.
RANDOM, RANKS = 400, 64


def plans_of_rows() -> Iterator[tuple[str, bytes]]:
    """The name and the plan of each row of the tables."""
    for row in (row for table in NAMES for row in rows_of(table)):
        if isinstance(row, Large):
            is_numbered = b"%d" in row.piece
            pieces = (
                row.piece % number if is_numbered else row.piece for number in range(row.times)
            )
            yield row.name, b"".join([row.head, *pieces, row.tail])
        else:
            yield row.name, row.plan


def random_plans() -> Iterator[tuple[str, bytes]]:
    """Random plans, some of them damaged, by their seeds."""
    for seed in range(RANDOM):
        yield f"seed {seed}", random_file(random.Random(seed))[0]


def plans_of_machines() -> Iterator[tuple[str, bytes]]:
    """Small plans of the kinds that whole machines have."""
    for plan in LARGE_PLANS:
        small = LargePlan(plan.name, plan.what, RANKS, plan.of_node, plan.script)
        yield plan.name, "".join(small.pieces()).encode()


class Plain(ProgramCase):
    """The two programs, on the same plans."""

    plain: str

    @classmethod
    def setUpClass(cls) -> None:
        super().setUpClass()
        path, why = build_plain()
        if not path:
            raise unittest.SkipTest(f"the unproved program isn't built: {why}")
        cls.plain = str(path)

    def ends_of(self, words: list[str], plan: bytes) -> list[Ended]:
        """How a command of both programs ends for a plan."""
        ends = []
        for program in (self.program, self.plain):
            ran = subprocess.run(
                [program, *words], input=plan, capture_output=True, timeout=SECONDS, check=False
            )
            ends.append(Ended(ran.returncode, ran.stdout, ran.stderr))
        return ends

    def hold_plans(self, plans: Iterator[tuple[str, bytes]]) -> None:
        """Holds the answers for plans to each other."""
        for name, plan in plans:
            for words in (["check"], ["check", "--large"]):
                with self.subTest(name, words=" ".join(words)):
                    proved, plain = self.ends_of(words, plan)
                    self.assertTrue(proved == plain, f"{str(proved)[:600]}, {str(plain)[:600]}")

    def test_rows(self) -> None:
        """They answer the same for each row of the tables."""
        self.hold_plans(plans_of_rows())

    def test_random(self) -> None:
        """They answer the same for random plans."""
        self.hold_plans(random_plans())

    def test_machines(self) -> None:
        """They answer the same for small plans of the kinds of whole machines."""
        self.hold_plans(plans_of_machines())

    def test_inputs(self) -> None:
        """They refuse a file that isn't there and a folder in the same way."""
        for path in (f"{self.room}/none.plan", str(self.room)):
            with self.subTest(path):
                proved, plain = self.ends_of(["check", path], b"")
                self.assertEqual(proved, plain)


if __name__ == "__main__":
    unittest.main()
