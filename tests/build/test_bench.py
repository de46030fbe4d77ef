"""Whether the tool that times the program on files near the limits still works."""
import subprocess
import sys
import unittest

from build import bench, bench_plans
from tests import support
from tests.support.needs import alone, needs_program


@needs_program
@alone
class Bench(unittest.TestCase):
    """The tool that `make bench` runs."""

    def test_small_files(self) -> None:
        """It prints a row of each table for each kind of file."""
        program = support.program()
        support.parts()
        words = [sys.executable, "-m", "build.bench", program, "--small", "--beside", program]
        ran = subprocess.run(
            words,
            cwd=support.TOP,
            stdin=subprocess.DEVNULL,
            capture_output=True,
            text=True,
            check=False,
        )
        self.assertEqual(0, ran.returncode, f"{ran.stdout}{ran.stderr}")
        tables, rows = 2 + len(bench.COMMANDS), len(bench_plans.KINDS) + 1
        self.assertGreaterEqual(ran.stdout.count("\n| "), tables * rows + len(bench.WHY) + 1)


if __name__ == "__main__":
    unittest.main()
