"""Whether the program that makes the page of figures still works, and its page is short."""
import re
import subprocess
import sys
import tempfile
import unittest
from pathlib import Path

from build import bench_plans, large_plans
from build.figures import proofs
from build.large_plans import LARGE_PLANS
from tests import support
from tests.models.grammar import read
from tests.support.needs import alone, needs_program

MOST_WORDS = 300


@alone
class Page(unittest.TestCase):
    """The page that `make figures` writes."""

    @needs_program
    def test_small_files(self) -> None:
        """It has a row for each plan, and few words beside its tables."""
        with tempfile.TemporaryDirectory(prefix="wire-up-") as room:
            path = Path(room, "figures.md")
            words = [sys.executable, "-m", "build.figures", support.program(), "--small"]
            ran = subprocess.run(
                [*words, "--output", path],
                cwd=support.TOP,
                stdin=subprocess.DEVNULL,
                capture_output=True,
                text=True,
                check=False,
            )
            self.assertEqual(0, ran.returncode, ran.stderr)
            text = path.read_text(encoding="utf-8")
        for name in [kind.name for kind in bench_plans.KINDS] + [plan.name for plan in LARGE_PLANS]:
            with self.subTest(name):
                self.assertRegex(text, rf"\n\| {name}(, [\d,]+ ranks)? \|")
        for command in ("check", "wire_up-report"):
            row = rf"\n\| `{command} --large` \|( [\d.]+ \|){{3}} (under )?[\d.]+ \|\n"
            self.assertRegex(text, row)
        prose = re.sub(r"(?m)^\|.*\n", "", text)
        self.assertLessEqual(len(prose.split()), MOST_WORDS)

    def test_proofs(self) -> None:
        """The proofs of the program are told, and those that take longest."""
        self.assertIn("| the program and all below it | ", proofs())


class LargePlans(unittest.TestCase):
    """The plans of whole machines, made small."""

    def test_read(self) -> None:
        """The second reader reads each of them."""
        for plan in LARGE_PLANS:
            with self.subTest(plan.name):
                small = large_plans.LargePlan(plan.name, plan.what, 32, plan.of_node, plan.script)
                scripts = read("".join(small.pieces()).encode())
                self.assertEqual(32, len(scripts.procs))
                self.assertTrue(all(proc.calls for proc in scripts.procs))


if __name__ == "__main__":
    unittest.main()
