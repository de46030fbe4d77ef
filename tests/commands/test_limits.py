"""Holds the limits that the Python programs know to those of the built `wire_up`."""
import re
import tempfile
import unittest
from collections.abc import Callable

from wire_up_tools import limits
from wire_up_tools.checker import Answer, Checker
from wire_up_tools.limits import LARGE, VERSION_1, VERSION_2, Limits
from tests import support
from tests.support.needs import needs_program

TOO_LONG, TOO_MANY, BAD_ORDER = "TooLong", "TooMany", "BadOrder"
VERSIONS = ((1, VERSION_1), (2, VERSION_2))


def make_plan(
    version: int = 1, nodes: int = 1, jobs: int = 1, ranks: int = 1, calls: str = ""
) -> bytes:
    """A plan with so many of each; the last rank makes the calls."""
    lines = [f"rehearsal {version}"]
    lines += [f"node n{number}" for number in range(nodes)] + [
        f"job j{number}" for number in range(jobs)
    ]
    lines += ["rank n0"] * ranks
    return "".join(f"{line}\n" for line in lines).encode() + calls.encode()


def pad(plan: bytes, count: int) -> bytes:
    """A plan with a comment at its end that makes it so many bytes."""
    return plan + b"#" * (count - len(plan))


# Plans with so much of what a field of the limits says, and little else: by a version and a count.
PLANS: dict[str, Callable[[int, int], bytes]] = {
    "nodes": lambda version, count: make_plan(version, nodes=count),
    "jobs": lambda version, count: make_plan(version, jobs=count),
    "processes": lambda version, count: make_plan(version, ranks=count),
    "calls": lambda version, count: make_plan(version, calls="commit\n" * count),
    "plan_bytes": lambda version, count: pad(make_plan(version), count),
    "name_bytes": lambda version, count: make_plan(version, calls=f"get j0:0 {'k' * count}\n"),
    "value_bytes": lambda version, count: make_plan(version, calls=f"put local k {'v' * count}\n"),
}


@needs_program
class LimitsTest(unittest.TestCase):
    """Each limit is the last that the program takes."""

    def setUp(self) -> None:
        self.checker = Checker(support.program())
        self.large_checker = Checker(self.checker.path, is_large=True)

    def assert_taken(self, answer: Answer) -> None:
        self.assertIn(answer.status, (0, 1), answer.stderr)

    def assert_fault(self, answer: Answer, name: str) -> None:
        self.assertEqual(answer.status, 2, answer.stdout[:300])
        self.assertIn(f" {name} ", answer.stderr)

    def hold(self, version: int, of: Limits, what: str, checker: Checker | None = None) -> None:
        """Asks with a plan at a limit, and with one past it."""
        most: int = getattr(of, what)
        fault = TOO_LONG if what.endswith("_bytes") else TOO_MANY
        asked = checker or self.checker
        with self.subTest(version=version, what=what, most=most):
            self.assert_taken(asked.ask("check", plan=PLANS[what](version, most)))
            self.assert_fault(asked.ask("check", plan=PLANS[what](version, most + 1)), fault)

    def test_plans_of_each_version(self) -> None:
        for version, of in VERSIONS:
            for what in PLANS:
                self.hold(version, of, what)

    def test_large_plans(self) -> None:
        for what in ("nodes", "jobs", "name_bytes", "value_bytes"):
            self.hold(1, LARGE, what, self.large_checker)

    def test_large_limits_that_only_the_help_says(self) -> None:
        said = self.checker.ask("check", "--help").stdout
        read = re.search(
            r"up to (\d+) nodes, (\d+) ranks, (\d+) calls and files of (\d+) GiB", said
        )
        assert read, said
        told = [LARGE.nodes, LARGE.processes, LARGE.calls, LARGE.plan_bytes >> 30]
        self.assertEqual([int(part) for part in read.groups()], told)

    def follow(self, version: int, count: int) -> Answer:
        """Asks with an order of so many bytes."""
        with tempfile.NamedTemporaryFile() as to:
            to.write(b"#" * count)
            to.flush()
            return self.checker.ask("follow", to.name, plan=make_plan(version))

    def test_orders(self) -> None:
        for version, of in VERSIONS:
            with self.subTest(version=version):
                self.assert_taken(self.follow(version, of.order_bytes))
                self.assert_fault(self.follow(version, of.order_bytes + 1), BAD_ORDER)

    def test_words_are_alike_in_all(self) -> None:
        for of in (limits.VERSION_2, limits.LARGE):
            self.assertEqual(of.name_bytes, VERSION_1.name_bytes)
            self.assertEqual(of.value_bytes, VERSION_1.value_bytes)
        self.assertEqual(LARGE.order_bytes, LARGE.plan_bytes)


if __name__ == "__main__":
    unittest.main()
