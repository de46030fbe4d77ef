"""Tests the order of MPI on random programs: a plan orders marks (names that are published) as the
messages did, and as every run does."""
import unittest
import unittest.mock
from dataclasses import replace
from typing import ContextManager

from wire_up_tools.limits import VERSION_1
from wire_up_tools.record.shortening import shorten
from wire_up_tools.record.writing import write_plan
from tests.models.marks import find_marks_before
from tests.soak.free_programs import Free
from tests.soak.random_worlds import World
from tests.support.tapes import plan_tapes, read_scripts, write_plan_of

RANDOM_PROGRAMS, FREE_PROGRAMS = 150, 200


def with_horizon() -> ContextManager[object]:
    """Looks for a horizon in recordings of any size."""
    none = replace(VERSION_1, calls=-1)
    return unittest.mock.patch("wire_up_tools.record.horizon.VERSION_1", none)


class RandomRunsTest(unittest.TestCase):
    """Plans of random runs."""

    def hold(self, world: World, plan: str) -> None:
        """Tests that a plan orders the marks of a run just as the messages did."""
        self.assertEqual(find_marks_before(read_scripts(plan)), world.marks)

    def test_random_runs(self) -> None:
        for seed in range(RANDOM_PROGRAMS):
            with self.subTest(seed=seed):
                world = World(seed)
                self.hold(world, write_plan_of(world.tapes))

    def test_random_runs_that_are_shortened(self) -> None:
        """Lines that are left out order nothing."""
        for seed in range(RANDOM_PROGRAMS):
            with self.subTest(seed=seed):
                world = World(seed)
                plan = plan_tapes(world.tapes)
                self.hold(world, write_plan(replace(plan, draft=shorten(plan.draft).draft)))

    def test_random_runs_up_to_the_horizon(self) -> None:
        """What can't matter isn't ordered, and orders no two marks."""
        for seed in range(RANDOM_PROGRAMS):
            with self.subTest(seed=seed), with_horizon():
                world = World(seed)
                self.hold(world, write_plan_of(world.tapes))

    def test_free_programs_up_to_the_horizon(self) -> None:
        """So it is where messages could have come otherwise."""
        for seed in range(FREE_PROGRAMS):
            world = Free(seed)
            if not world.is_known or not world.complete:
                continue
            tapes = [tape.text() for tape in world.tapes()]
            whole = find_marks_before(read_scripts(write_plan_of(tapes)))
            with self.subTest(seed=seed), with_horizon():
                self.assertEqual(find_marks_before(read_scripts(write_plan_of(tapes))), whole)

    def test_free_programs(self) -> None:
        """The plan of a random program, from whichever of its runs, orders no two marks that
        another run doesn't."""
        count = 0
        for seed in range(FREE_PROGRAMS):
            world = Free(seed)
            if not world.is_known or not world.complete:
                continue
            count += 1
            with self.subTest(seed=seed):
                found = find_marks_before(read_scripts(write_plan_of(world.tapes())))
                more = {name: them - world.always[name] for name, them in found.items()}
                self.assertEqual({name: them for name, them in more.items() if them}, {})
        self.assertGreater(count, FREE_PROGRAMS // 3, "too few programs have a run that ends")


if __name__ == "__main__":
    unittest.main()
