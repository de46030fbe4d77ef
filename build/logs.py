"""Logs of what commands print."""
import subprocess
from collections.abc import Callable, Sequence
from pathlib import Path

from build.places import LOGS

# So many last lines of a log are told.
TAIL = 60
# How lines begin that only tell that something was proved or loaded.
ROUTINE = ("statements ", "by-macro: ", "logic /", "empty contracts: 0 ")


def log_at(name: str) -> Path:
    """The path of an empty log."""
    LOGS.mkdir(parents=True, exist_ok=True)
    path = LOGS / name
    path.write_bytes(b"")
    return path


def keep(
    words: Sequence[str],
    folder: Path,
    log: Path,
    take: Callable[[str], None],
    behind: Sequence[str] = (),
) -> int:
    """Runs a command behind some words, adds all that it prints to the log, hands each line on,
    and answers its status. It is killed where this is broken off."""
    started = [*behind, *words]
    with open(log, "a", encoding="utf-8") as to:
        to.write(f"$ {' '.join(words)}\n")
        with subprocess.Popen(
            started,
            cwd=folder,
            stdin=subprocess.DEVNULL,
            stdout=subprocess.PIPE,
            stderr=subprocess.STDOUT,
            text=True,
            errors="replace",
        ) as process:
            try:
                for line in process.stdout or ():
                    to.write(line)
                    to.flush()
                    take(line.rstrip("\n"))
            except BaseException:
                process.kill()
                raise
        to.write(f"(exit status {process.returncode})\n")
    return process.returncode


def is_routine(line: str) -> bool:
    """Whether a line only tells that something was proved or loaded."""
    return line.endswith(": proved\n") or line.startswith(ROUTINE)


def tail_of(log: Path) -> str:
    """The last lines that the last command in a log printed, and that aren't routine."""
    with open(log, encoding="utf-8", errors="replace") as file:
        lines = file.readlines()
    begun = max((n for n, line in enumerate(lines) if line.startswith("$ ")), default=0)
    return "".join([line for line in lines[begun:] if not is_routine(line)][-TAIL:])
