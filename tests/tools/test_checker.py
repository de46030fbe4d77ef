"""Tests how the Python programs find and ask `wire_up`, by a program in its place."""
import os
import tempfile
import unittest
from pathlib import Path
from unittest import mock

from wire_up_tools.checker import Checker, find_checker

# Says its words, its input, and something on standard error.
SCRIPT = """#!/bin/sh
case "$*" in
--version) echo wire_up 1.2.3 ;;
'check --help') echo '      --large  lifts the limits' ;;
*) echo "$*"; cat; echo said >&2; exit 3 ;;
esac
"""


class CheckerTest(unittest.TestCase):
    """What a checker is asked, and answers."""

    def setUp(self) -> None:
        room = tempfile.TemporaryDirectory(prefix="wire-up-")
        self.addCleanup(room.cleanup)
        path = Path(room.name, "wire_up")
        path.write_text(SCRIPT, encoding="ascii")
        path.chmod(0o755)
        self.room, self.path = room.name, str(path)

    def test_ask(self) -> None:
        answer = Checker(self.path).ask("check", "--json", plan=b"plan\xff")
        said = answer.status, answer.stdout, answer.stderr
        self.assertEqual(said, (3, "check --json\nplan\ufffd", "said\n"))

    def test_large(self) -> None:
        checker = Checker(self.path, is_large=True)
        self.assertEqual(checker.ask("check").stdout, "check --large\n")
        self.assertEqual(checker.ask("witness", "a:0").stdout, "witness a:0\n")

    def test_what_it_says_of_itself(self) -> None:
        checker = Checker(self.path)
        self.assertEqual(checker.version(), "1.2.3")
        self.assertTrue(checker.takes_large())

    def test_one_that_cannot_be_run(self) -> None:
        checker = Checker(self.room)
        self.assertFalse(checker.takes_large())
        with self.assertRaises(OSError) as raised:
            checker.ask("check")
        self.assertEqual(raised.exception.filename, self.room)

    def test_find(self) -> None:
        with mock.patch.dict(os.environ, {"PATH": ""}):
            self.assertEqual(find_checker(self.room), self.path)
            self.assertIsNone(find_checker(Path(self.room, "bin")))
        with mock.patch.dict(os.environ, {"PATH": self.room}):
            self.assertEqual(find_checker(Path(self.room, "bin")), self.path)


if __name__ == "__main__":
    unittest.main()
