"""The commands, as a package that pip installs starts them (pyproject.toml). The scripts at the top
of the repository do the same, and find the package first."""
import sys
from collections.abc import Callable, Sequence
from pathlib import Path

INTERRUPTED = 130


def start(main: Callable[[Sequence[str], str], int]) -> int:
    """Runs a command on the words of this process. What is built in C, and `wire_up`, is looked for
    beside the command. Answers its status."""
    here = str(Path(sys.argv[0]).resolve().parent)
    try:
        return main(sys.argv[1:], here)
    except KeyboardInterrupt:
        print(f"{Path(sys.argv[0]).name}: interrupted", file=sys.stderr)
        return INTERRUPTED


def record() -> int:
    """`wire_up-record`."""
    from wire_up_tools.record.command_line import main

    return start(main)


def report() -> int:
    """`wire_up-report`."""
    from wire_up_tools.report.command_line import main

    return start(main)


def run() -> int:
    """`wire_up-run`."""
    from wire_up_tools.run.command_line import main

    return start(main)
