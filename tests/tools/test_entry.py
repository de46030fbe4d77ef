"""Tests of the commands of the package, as pyproject.toml names them."""
import subprocess
import sys
import tomllib
import unittest

from tests.support import TOP

# What an installed command does: it calls a function of a module, and ends with what this answers.
START = "import sys; sys.argv[0] = {name!r}; from {module} import {called}; sys.exit({called}())"


class EntryTest(unittest.TestCase):
    """Each command."""

    def test_help(self) -> None:
        """It tells its usage, as the script of its name does."""
        with open(TOP / "pyproject.toml", "rb") as file:
            commands = tomllib.load(file)["project"]["scripts"]
        self.assertEqual({"wire_up-record", "wire_up-report", "wire_up-run"}, set(commands))
        for name, place in commands.items():
            module, _, called = place.partition(":")
            path = str(TOP / name)
            text = START.format(name=path, module=module, called=called)
            with self.subTest(name):
                self.assertEqual(self.tell([path]), self.tell(["-c", text]))

    def tell(self, words: list[str]) -> str:
        """What a command tells of itself."""
        ran = subprocess.run(
            [sys.executable, *words, "--help"],
            cwd=TOP / "python",
            capture_output=True,
            text=True,
            check=False,
        )
        self.assertEqual((0, ""), (ran.returncode, ran.stderr))
        return ran.stdout


if __name__ == "__main__":
    unittest.main()
