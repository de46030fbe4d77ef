"""Expands random patterns with 3, 4 and perhaps 8 ranks in the group, and infers a pattern of these
plans again (sized_patterns.py). `WIRE_UP_SIZED_PATTERNS=1000` says how many, `WIRE_UP_SEED=7` from
which seed on; `make inferred` is a soak of them."""
import collections
import os
import random
import unittest

from wire_up_tools.checker import Checker
from wire_up_tools.failures import Refused
from tests import support
from tests.soak.sized_patterns import CLEAN, LESS, NO_PATTERN, RACY, compare, make_case, make_text
from tests.soak.soak_runner import Difference
from tests.support.needs import needs_program

COUNT = int(os.environ.get("WIRE_UP_SIZED_PATTERNS", "60"))
SEED = int(os.environ.get("WIRE_UP_SEED", "1"))


@needs_program
class RoundTripTest(unittest.TestCase):
    """Patterns that are expanded and inferred again."""

    def test_the_same_verdict(self) -> None:
        checker = Checker(support.program())
        counted = collections.Counter[str]()
        for seed in range(SEED, SEED + COUNT):
            dice = random.Random(seed)
            text = make_text(dice)
            with self.subTest(seed=seed):
                try:
                    counted[compare(checker, text, make_case(text, dice))] += 1
                except Refused:
                    pass
                except Difference as found:
                    self.fail(str(found))
        for what in (CLEAN, RACY):
            self.assertGreater(counted[what], COUNT // 20, counted)
        self.assertLess(counted[LESS] + counted[NO_PATTERN], COUNT // 2, counted)


if __name__ == "__main__":
    unittest.main()
