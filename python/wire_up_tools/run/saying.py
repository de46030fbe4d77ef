"""What `wire_up-run` says besides what it was asked for."""
import sys

NAME = "wire_up-run"


def say(what: str) -> None:
    """Writes a line on standard error."""
    print(f"{NAME}: {what}", file=sys.stderr)
