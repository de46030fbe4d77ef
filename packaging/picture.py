"""Makes docs/report.png, the picture in README.md: the report of an example, as a browser shows it.
It needs Chromium.

Usage: python3 packaging/picture.py PROGRAM [FILE]     FILE is where the picture goes, else
docs/report.png
"""
import os
import re
import shutil
import subprocess
import sys
import tempfile
from collections.abc import Sequence

TOP = os.path.dirname(os.path.dirname(__file__))
PLAN = os.path.join(TOP, "examples", "early-get.plan")
PLACE = os.path.join(TOP, "docs", "report.png")
WIDTH, SECONDS = 960, 120
# How the browser runs without a screen, and where little memory is shared.
HEADLESS = [
    "--headless",
    "--no-sandbox",
    "--disable-gpu",
    "--disable-dev-shm-usage",
    "--hide-scrollbars",
]
SAID = re.compile(r'<pre id="said">(\d+)</pre>')
# Writes how high the report is. What stands below its diagram is left out: the plan, which
# README.md shows itself.
MEASURE = """\
<!DOCTYPE html>
<pre id="said"></pre>
<iframe src="report.html" width="{width}" height="600" frameborder="0" onload="
const last = this.contentDocument.querySelector('section.long');
const height = Math.ceil(last.getBoundingClientRect().top);
document.getElementById('said').textContent = height"></iframe>
"""


def browser() -> str | None:
    """The path of Chromium, or of a browser made from it; None where there is none."""
    for name in ("chromium", "chromium-browser", "google-chrome"):
        found = shutil.which(name)
        if found:
            return found
    return None


def run(words: Sequence[str]) -> "subprocess.CompletedProcess[str]":
    """Runs a program to its end."""
    return subprocess.run(
        words,
        stdin=subprocess.DEVNULL,
        capture_output=True,
        text=True,
        errors="replace",
        timeout=SECONDS,
        check=False,
    )


def shown(room: str, *words: str) -> str:
    """What the browser writes of a page."""
    how = [*HEADLESS, "--allow-file-access-from-files", f"--user-data-dir={room}/profile"]
    return run([browser() or "chromium", *how, *words]).stdout


def height_of(room: str) -> str | None:
    """How high the report in a folder is that is shown, in pixels."""
    with open(os.path.join(room, "measure.html"), "w", encoding="ascii") as file:
        file.write(MEASURE.format(width=WIDTH))
    page = f"file://{room}/measure.html"
    found = SAID.search(shown(room, "--virtual-time-budget=10000", "--dump-dom", page))
    return found[1] if found else None


def make_picture(program: str, path: str) -> str | None:
    """Makes the picture. Answers what was wrong, if anything."""
    with tempfile.TemporaryDirectory(prefix="wire-up-picture-", ignore_cleanup_errors=True) as room:
        page, made = os.path.join(room, "report.html"), os.path.join(room, "made.png")
        reporter = os.path.join(TOP, "wire_up-report")
        ran = run([sys.executable, reporter, "--checker", program, "-o", page, PLAN])
        if ran.returncode != 1:
            return ran.stderr or f"wire_up-report ended with status {ran.returncode}"
        height = height_of(room)
        if height:
            size = f"--window-size={WIDTH},{height}"
            shown(room, size, f"--screenshot={made}", f"file://{page}")
        if not os.path.exists(made):
            return "the browser made no picture"
        shutil.copyfile(made, path)
    return None


if __name__ == "__main__":
    if len(sys.argv) not in (2, 3):
        sys.exit(__doc__)
    if not os.access(sys.argv[1], os.X_OK):
        sys.exit(f"there is no {sys.argv[1]}: make run builds it")
    if not browser():
        sys.exit("there is no chromium: on Debian the package has that name")
    sys.exit(make_picture(os.path.abspath(sys.argv[1]), (*sys.argv[2:], PLACE)[0]))
