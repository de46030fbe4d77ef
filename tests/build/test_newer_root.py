"""`make newer-root` where the folder can't be made: nothing is left of it, and a line says why."""
import os
import shutil
import signal
import socket
import subprocess
import sys
import tempfile
import unittest
from pathlib import Path

from build.newer_root import ROOM
from tests import support

COMMAND = [sys.executable, "-m", "build.newer_root"]
# How long it may take to end, in seconds.
PATIENCE = 60


@unittest.skipUnless(
    os.geteuid() == 0 and shutil.which("debootstrap"), "it takes root and debootstrap"
)
class NewerRootTest(unittest.TestCase):
    """Each test has an empty folder in which the root is to be."""

    def setUp(self) -> None:
        self.above = tempfile.mkdtemp()
        self.addCleanup(shutil.rmtree, self.above)
        self.root = Path(self.above, "root")
        if shutil.disk_usage(self.above).free < ROOM:
            self.skipTest(f"there is no room in {self.above}")

    def start(self, mirror: str) -> "subprocess.Popen[str]":
        """Begins to make the folder from a mirror."""
        return subprocess.Popen(
            [*COMMAND, self.root],
            cwd=support.TOP,
            env={**os.environ, "DEBIAN_MIRROR": mirror},
            stdout=subprocess.PIPE,
            stderr=subprocess.PIPE,
            text=True,
        )

    def hold_ended(self, made: "subprocess.Popen[str]", why: str) -> None:
        """Fails unless the command ends for this reason, and leaves nothing."""
        _, said = made.communicate(timeout=PATIENCE)
        self.assertEqual(made.returncode, 1)
        self.assertRegex(said, rf"{self.root}: isn't made: {why}\n\Z")
        self.assertEqual(os.listdir(self.above), [])

    def test_no_mirror(self) -> None:
        """debootstrap finds no mirror."""
        self.hold_ended(self.start("file:///nowhere"), r"debootstrap ended with \d+")

    def test_stopped(self) -> None:
        """The command is stopped while a mirror doesn't answer."""
        with socket.create_server(("127.0.0.1", 0)) as mirror:
            made = self.start("http://127.0.0.1:%d" % mirror.getsockname()[1])
            mirror.settimeout(PATIENCE)
            mirror.accept()[0].close()
            made.send_signal(signal.SIGTERM)
            self.hold_ended(made, "it was stopped")


if __name__ == "__main__":
    unittest.main()
