"""How a command of `make` ends: what failed is said, and nothing that it started goes on."""
import os
import sys
from collections.abc import Callable
from pathlib import Path
from typing import NoReturn

from build.logs import tail_of
from build.places import shown


def fail(what: str, log: Path) -> NoReturn:
    """Says what failed and where to read more, and ends."""
    print(tail_of(log), end="")
    sys.exit(f"{what}. The whole output is in {shown(log)}")


def leave(status: object | None) -> NoReturn:
    """Ends at once, and with it a proof that is under way: the guard of `rt` ends all that was
    started here."""
    if isinstance(status, str):
        print(status, file=sys.stderr)
    sys.stdout.flush()
    sys.stderr.flush()
    os._exit(status if isinstance(status, int) else 1 if status else 0)


def run_and_leave(main: Callable[[], int | None]) -> NoReturn:
    """Runs a command, and ends with its status."""
    try:
        leave(main())
    except SystemExit as why:
        leave(why.code)
    except OSError as why:
        leave(f"{why.filename or 'rt'}: {why.strerror}")
    except KeyboardInterrupt:
        leave("\nstopped")
