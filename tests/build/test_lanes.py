"""Which proofs start beside which: as many as there are processors and memory for."""
import functools
import unittest
from collections.abc import Mapping, Sequence
from typing import Any

from build import lanes
from build.lanes import Machine, Proof
from tests import support

assert support.TOP, "it says where the build is"


def started(
    proofs: Mapping[str, tuple[Any, ...]],
    ready: Sequence[str],
    running: Sequence[str],
    machine: Machine,
) -> list[str]:
    """Which proofs start, by the words of each: what it takes, and for which it waits. Each takes
    ten bytes."""
    of = {name: Proof[Any](waits, minutes, 10, len) for name, (minutes, *waits) in proofs.items()}
    return lanes.start_ready(of, ready, running, machine)


class Lanes(unittest.TestCase):
    """Which proofs start beside which."""

    def test_one_to_a_processor(self) -> None:
        """They start in the order in which they are ready."""
        proofs = {"low": (12,), "apart": (16,), "other": (12,)}
        names = list(proofs)
        first: tuple[list[str], ...] = ["low"], ["low", "apart"], names, names
        for number, wanted in enumerate(first, 1):
            with self.subTest(processors=number):
                self.assertEqual(wanted, started(proofs, names, [], Machine(number, 100)))
        second: tuple[list[str], ...] = [], ["apart"]
        for number, wanted in enumerate(second, 1):
            with self.subTest(processors=number, running="low"):
                beside = started(proofs, ["apart", "other"], ["low"], Machine(number, 100))
                self.assertEqual(wanted, beside)

    def test_longest_chain_first(self) -> None:
        """`low` begins the longest chain, so it starts first."""
        order: list[tuple[str, list[str]]] = []

        def proof(name: str, minutes: float, *waits: str) -> Proof[None]:
            def call(given: Mapping[str, None]) -> None:
                order.append((name, sorted(given)))

            return Proof(waits, minutes, 10, call)

        proofs = {"apart": proof("apart", 16), "low": proof("low", 12)}
        lanes.run_all({**proofs, "high": proof("high", 36, "low")}, Machine(1, 100))
        wanted = [("low", []), ("high", ["low"]), ("apart", ["high", "low"])]
        self.assertEqual(wanted, order)

    def test_memory_is_kept(self) -> None:
        """The first one starts in any case."""
        proofs = {"one": (12,), "two": (1,)}
        self.assertEqual(["one"], started(proofs, ["one"], [], Machine(4, 5)))
        self.assertEqual([], started(proofs, ["two"], ["one"], Machine(4, 19)))
        self.assertEqual(["two"], started(proofs, ["two"], ["one"], Machine(4, 20)))

    def test_none_waits_for_ever(self) -> None:
        """Whatever there is, each proof starts once, after those for which it waits, and is given
        what they gave."""
        names = [f"c{number}" for number in range(12)]
        waits = {
            each_name: [below for n, below in enumerate(names[:at]) if at % (n + 2) == 0]
            for at, each_name in enumerate(names)
        }
        for processors in 1, 2, 3, 5:
            for room in 1, 35, 1000:
                with self.subTest(processors=processors, room=room):
                    begun: list[str] = []

                    def call(name: str, begun: list[str], given: Mapping[str, bool]) -> bool:
                        begun.append(name)
                        return all(given.get(text) for text in waits[name])

                    proofs = {
                        each_name: Proof(
                            waits[each_name], at % 4, 10, functools.partial(call, each_name, begun)
                        )
                        for at, each_name in enumerate(names)
                    }
                    given = lanes.run_all(proofs, Machine(processors, room))
                    self.assertEqual(
                        dict.fromkeys(sorted(names), True), dict(sorted(given.items()))
                    )
                    self.assertEqual(sorted(names), sorted(begun))


if __name__ == "__main__":
    unittest.main()
