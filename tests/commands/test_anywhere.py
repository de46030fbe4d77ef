"""`check --anywhere` of random plans of up to five ranks, held to `check` and `replay` of all their
placements; and each race that it names, held to `check` and `witness` of the placement that `place`
writes. And what the recorder says of other placements."""
import random
import subprocess
import unittest

from wire_up_tools.checker import Checker
from wire_up_tools.record.verdicts import judge_placements
from tests import support
from tests.models import everywhere, grammar
from tests.soak.random_plans import MeetingMaker
from tests.support.running import SECONDS, ProgramCase

PLANS, MOST_RANKS = 100, 5
# What is found on other placements alone, of examples.
ELSEWHERE = {
    "two-jobs": "findings 0 on the nodes of this run, and findings 1 on other placements of its "
    "ranks",
    "early-get": None,
    "standstill": None,
}


def small_plans(count: int) -> list[grammar.Scripts]:
    """Random plans of a few ranks whose fences and gets race in many ways."""
    found: list[grammar.Scripts] = []
    seed = 0
    while len(found) < count:
        seed += 1
        lines = MeetingMaker(random.Random(seed)).lines()
        try:
            scripts = grammar.read(b"".join(b" ".join(line) + b"\n" for line in lines))
        except grammar.Refused:
            continue
        is_word = not any(proc.job.startswith(b"-") for proc in scripts.procs)
        if 1 < len(scripts.procs) <= MOST_RANKS and is_word:
            found.append(scripts)
    return found


class Anywhere(ProgramCase):
    """Verdicts for every placement."""

    def answer(self, words: list[str], plan: bytes) -> bytes:
        """What a command writes of a plan."""
        ran = subprocess.run(
            [self.program, *words], input=plan, capture_output=True, timeout=SECONDS, check=False
        )
        self.assertLessEqual(ran.returncode, 1, ran.stderr)
        return ran.stdout

    def test_all_placements(self) -> None:
        """The findings are those of all placements, each with its pair. Where there are none, the
        calls that are named are those whose reply differs."""
        for number, scripts in enumerate(small_plans(PLANS)):
            with self.subTest(number=number):
                wanted = everywhere.Everywhere(scripts, self.answer).verdict()
                plan = grammar.canonical(scripts)
                self.assertEqual(wanted, self.answer(["check", "--anywhere", "--same"], plan))

    def test_named_placements(self) -> None:
        """A race is in the list of the placement that it names, and is one for `witness`."""
        races = 0
        for number, scripts in enumerate(small_plans(PLANS)):
            plan = grammar.canonical(scripts)
            for line in self.answer(["check", "--anywhere"], plan).decode().splitlines():
                race, on, ranks = line.partition(" on ")
                if on:
                    races += 1
                    with self.subTest(number=number, race=line):
                        placed = self.answer(["place", ranks], plan)
                        self.assertIn(race, self.answer(["check"], placed).decode().splitlines())
                        words = ["witness", *race.split(" ")[1:5]]
                        self.assertNotIn(b"no race", self.answer(words, placed))
        self.assertGreater(races, PLANS // 4)

    def test_recorder(self) -> None:
        """The recorder says what is found on other placements alone."""
        for name, said in ELSEWHERE.items():
            path = support.TOP / "examples" / f"{name}.plan"
            with self.subTest(name), open(path, encoding="ascii") as file:
                self.assertEqual(said, judge_placements(Checker(self.program), file.read()))


if __name__ == "__main__":
    unittest.main()
