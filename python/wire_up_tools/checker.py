"""The program `wire_up`: where it is, and what it answers."""
import os
import re
import shutil
import subprocess
from dataclasses import dataclass
from pathlib import Path

NAME = "wire_up"
# The commands that don't take the option --large.
WITHOUT_LARGE = ("witness",)


@dataclass(frozen=True)
class Answer:
    """The status with which the program ended, and what it wrote."""

    status: int
    stdout: str
    stderr: str


@dataclass(frozen=True)
class Checker:
    """The program by its path. With `is_large` it takes plans past the limits of their version."""

    path: str
    is_large: bool = False

    def ask(self, command: str, *words: str, plan: bytes = b"") -> Answer:
        """Asks a command about a plan, which it reads from its standard input.

        Raises OSError, with the path of the program, if it can't be run.
        """
        large = ["--large"] if self.is_large and command not in WITHOUT_LARGE else []
        return self._run(command, *large, *words, plan=plan)

    def _run(self, *words: str, plan: bytes = b"") -> Answer:
        ran = subprocess.run([self.path, *words], input=plan, capture_output=True, check=False)
        stdout, stderr = (text.decode("utf-8", "replace") for text in (ran.stdout, ran.stderr))
        return Answer(ran.returncode, stdout, stderr)

    def version(self) -> str:
        """The version that it says; `unknown`, if it says none. Raises OSError."""
        words = self._run("--version").stdout.split()
        return words[-1] if words else "unknown"

    def takes(self, command: str, option: str) -> bool:
        """Whether a command takes an option, by what it says of itself. Raises OSError."""
        said = self._run(command, "--help").stdout
        return re.search(rf"(?<![\w-]){re.escape(option)}(?![\w-])", said) is not None

    def takes_large(self) -> bool:
        """Whether it can take plans past the limits of their version; not if it can't be run."""
        try:
            return self.takes("check", "--large")
        except OSError:
            return False


def find_checker(folder: str | Path) -> str | None:
    """The path of the program beside the commands in a folder, else on the path of commands.

    None where there is none.
    """
    beside = Path(folder, NAME)
    is_there = os.access(beside, os.X_OK) and beside.is_file()
    return str(beside) if is_there else shutil.which(NAME)
