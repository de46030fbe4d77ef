"""Builds the unproved program of build/plain, which `check` is measured beside: out/plain.

Usage: python3 -m build.plain_program
Prints its path. It is built anew where a file of it changed. Where there is no rustc, or this one
can't build it, a line says so, and the status is 1.
"""
import shutil
import subprocess
import sys
import tempfile
from pathlib import Path

from build.places import LOGS, TOP, shown

SOURCE = TOP / "build" / "plain"
PLAIN = LOGS / "plain"


def is_built() -> bool:
    """Whether the program is there, and no file of it is newer."""
    if not PLAIN.exists():
        return False
    made = PLAIN.stat().st_mtime_ns
    return all(path.stat().st_mtime_ns < made for path in SOURCE.glob("*.rs"))


def build_plain() -> tuple[Path | None, str]:
    """Builds the program where that has to be. Answers its path; or None, and in some words why it
    can't be built."""
    rustc = shutil.which("rustc")
    if not rustc:
        return None, "there is no rustc"
    if is_built():
        return PLAIN, ""
    LOGS.mkdir(parents=True, exist_ok=True)
    with tempfile.TemporaryDirectory(prefix="plain-", dir=LOGS) as room:
        made = Path(room, "plain")
        options = ["-O", "--edition", "2021", "--crate-name", "plain", "-o", str(made)]
        words = [rustc, *options, str(SOURCE / "main.rs")]
        ran = subprocess.run(words, capture_output=True, text=True, errors="replace", check=False)
        if ran.returncode:
            wrong = next((line for line in ran.stderr.splitlines() if line.startswith("error")), "")
            return None, f"rustc can't build it: {wrong}"
        made.replace(PLAIN)
    return PLAIN, ""


def main() -> int:
    path, why = build_plain()
    if not path:
        print(f"the unproved program isn't built: {why}", file=sys.stderr)
        return 1
    print(shown(path))
    return 0


if __name__ == "__main__":
    sys.exit(main())
