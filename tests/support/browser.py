"""A browser without a screen: tests tell it what to show, and ask it what it shows.

It is told over a pipe, by what Chromium calls its DevTools protocol.
"""
import base64
import fcntl
import json
import os
import select
import shutil
import subprocess
import sys
import tempfile
import time
import unittest
from pathlib import Path
from typing import Any

NAMES = ("chromium", "chromium-browser", "google-chrome")
# How the browser runs without a screen, and where little memory is shared.
HEADLESS = (
    "--headless",
    "--no-sandbox",
    "--disable-gpu",
    "--disable-dev-shm-usage",
    "--hide-scrollbars",
    "--remote-debugging-pipe",
)
# The browser reads from the file of number 3, and writes to that of number 4.
MOVE = (
    "import os, sys; os.dup2(int(sys.argv[1]), 3); os.dup2(int(sys.argv[2]), 4); "
    "os.execvp(sys.argv[3], sys.argv[3:])"
)
HIGH, BLOCK = 20, 1 << 20
# How long the browser may take for an answer, in seconds.
SECONDS = 120
LOADED = "Page.loadEventFired"
# What the browser says by itself of what is wrong with a page.
FAULTS = ("Log.entryAdded", "Runtime.exceptionThrown", "Runtime.consoleAPICalled")


def find_browser() -> str:
    """The path of Chromium, or of a browser made from it. A test is skipped where there is none."""
    for name in NAMES:
        path = shutil.which(name)
        if path:
            return path
    raise unittest.SkipTest("there is no chromium: what a browser shows is left out")


def open_pipe() -> tuple[int, int]:
    """The two ends of a pipe, under high numbers."""
    ends = os.pipe()
    high = [fcntl.fcntl(end, fcntl.F_DUPFD_CLOEXEC, HIGH) for end in ends]
    for end in ends:
        os.close(end)
    return high[0], high[1]


class Browser:
    """A browser with one page."""

    def __init__(self) -> None:
        program = find_browser()
        self.room = tempfile.TemporaryDirectory(
            prefix="wire-up-browser-", ignore_cleanup_errors=True
        )
        theirs, self.to = open_pipe()
        self.source, out = open_pipe()
        words = [sys.executable, "-c", MOVE, str(theirs), str(out), program, *HEADLESS]
        self.process = subprocess.Popen(
            [*words, f"--user-data-dir={self.room.name}"],
            pass_fds=(theirs, out),
            stdin=subprocess.DEVNULL,
            stdout=subprocess.DEVNULL,
            stderr=subprocess.DEVNULL,
        )
        os.close(theirs)
        os.close(out)
        self.begun, self.count, self.session = b"", 0, ""
        self.events: list[dict[str, Any]] = []
        page = self.call("Target.createTarget", url="about:blank")["targetId"]
        attached = self.call("Target.attachToTarget", targetId=page, flatten=True)
        self.session = attached["sessionId"]
        for word in ("Page", "Log", "Runtime"):
            self.call(f"{word}.enable")

    def close(self) -> None:
        """Ends the browser."""
        self.process.kill()
        self.process.wait()
        os.close(self.to)
        os.close(self.source)
        self.room.cleanup()

    def read(self) -> dict[str, Any]:
        """The next thing that the browser says."""
        until = time.monotonic() + SECONDS
        while b"\0" not in self.begun:
            ready, _, _ = select.select([self.source], [], [], until - time.monotonic())
            came = os.read(self.source, BLOCK) if ready else b""
            if not came:
                raise AssertionError("the browser says nothing any more")
            self.begun += came
        one, _, self.begun = self.begun.partition(b"\0")
        said: dict[str, Any] = json.loads(one)
        return said

    def call(self, method: str, **params: Any) -> dict[str, Any]:
        """Calls a method of the protocol. What else the browser says meanwhile is kept."""
        self.count += 1
        said: dict[str, Any] = {"id": self.count, "method": method, "params": params}
        if self.session:
            said["sessionId"] = self.session
        os.write(self.to, json.dumps(said).encode() + b"\0")
        while True:
            came = self.read()
            if came.get("id") != self.count:
                self.events.append(came)
            elif "error" in came:
                raise AssertionError(f"{method}: {came['error']}")
            else:
                result: dict[str, Any] = came["result"]
                return result

    def load(self, path: Path) -> None:
        """Shows a file."""
        self.events.clear()
        self.call("Page.navigate", url=f"file://{path}")
        while not any(event.get("method") == LOADED for event in self.events):
            self.events.append(self.read())

    def list_faults(self) -> list[str]:
        """What the browser found wrong with the file."""
        return [f"{event}" for event in self.events if event.get("method") in FAULTS]

    def resize(self, width: int, height: int) -> None:
        """Gives the page another size, in pixels."""
        size = {"width": width, "height": height, "deviceScaleFactor": 1, "mobile": False}
        self.call("Emulation.setDeviceMetricsOverride", **size)

    def prefer(self, scheme: str) -> None:
        """Says that its user likes pages `light` or `dark`."""
        wanted = [{"name": "prefers-color-scheme", "value": scheme}]
        self.call("Emulation.setEmulatedMedia", features=wanted)

    def show_printed(self, is_printed: bool) -> None:
        """Shows the page as it is printed, or again as on a screen."""
        self.call("Emulation.setEmulatedMedia", media="print" if is_printed else "")

    def point_at(self, x: float, y: float) -> None:
        """Moves the pointer to a place of the page."""
        self.call("Input.dispatchMouseEvent", type="mouseMoved", x=x, y=y)

    def ask(self, script: str) -> Any:
        """What a script gives in the page. The page's own rules keep it from none."""
        asked = {"expression": script, "returnByValue": True}
        said = self.call("Runtime.evaluate", **asked)
        if "exceptionDetails" in said:
            raise AssertionError(f"{said['exceptionDetails']}")
        return said["result"].get("value")

    def take_picture(self, path: Path) -> None:
        """Writes a picture of what is shown."""
        path.write_bytes(base64.b64decode(self.call("Page.captureScreenshot")["data"]))
