"""A soak of a few seconds: random files, most of them damaged."""
import subprocess
import sys
import unittest

from tests import support
from tests.support.needs import alone, needs_program


@needs_program
@alone
class Soak(unittest.TestCase):
    """The tool that `make soak` runs."""

    def soak(self, *words: str) -> str:
        """What a soak without differences writes."""
        ran = subprocess.run(
            [sys.executable, "-m", "build.soak", support.program(), *words, "--seed", "1"],
            cwd=support.TOP,
            stdin=subprocess.DEVNULL,
            capture_output=True,
            text=True,
            check=False,
        )
        self.assertEqual(0, ran.returncode, f"{ran.stdout}{ran.stderr}")
        self.assertTrue(ran.stdout.endswith("\n0 differences\n"), ran.stdout)
        return ran.stdout

    def test_soak(self) -> None:
        """It finds no difference, refuses some files, and holds some answers to the model."""
        wrote = self.soak("--seconds", "6")
        self.assertNotIn("(0 refused", wrote)
        self.assertNotIn("held to the model: \n", wrote)

    def test_waits(self) -> None:
        """Of patterns that wait for each other it says of some that every call is answered, and of
        some that one waits."""
        wrote = self.soak("--waits", "--seconds", "6")
        self.assertRegex(wrote, r"\d every call answered")
        self.assertRegex(wrote, r"\d waits\b")

    def test_portable(self) -> None:
        """Libraries for which a plan is portable are looked through."""
        wrote = self.soak("--portable", "--seconds", "6")
        self.assertRegex(wrote, r"held to the model: [\d,]+ check --portable, [\d,]+ library\b")

    def test_inferred(self) -> None:
        """Patterns that are inferred again have the verdict of the first ones. The first two files
        of this seed show both, so that a slow machine sees them too."""
        wrote = self.soak("--inferred", "--seconds", "6", "--seed", "1")
        for kind in ("clean again", "racy again"):
            self.assertRegex(wrote, rf"\d {kind}\b")


if __name__ == "__main__":
    unittest.main()
