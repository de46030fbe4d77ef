"""Tests that files are written whole or not at all."""
import contextlib
import io
import os
import stat
import tempfile
import unittest
from pathlib import Path
from unittest import mock

from wire_up_tools.failures import explain
from wire_up_tools.files import try_to_write, write_each, write_file, write_whole


class WriteWholeTest(unittest.TestCase):
    """What `write_whole` leaves."""

    def setUp(self) -> None:
        room = tempfile.TemporaryDirectory(prefix="wire-up-")
        self.addCleanup(room.cleanup)
        self.room = room.name
        self.path = f"{self.room}/file"

    def read(self, path: str) -> str:
        """The text of a file."""
        return Path(path).read_text(encoding="utf-8")

    def test_a_new_file(self) -> None:
        write_whole(self.path, "a\nä\n")
        self.assertEqual(self.read(self.path), "a\nä\n")
        mask = os.umask(0)
        os.umask(mask)
        self.assertEqual(stat.S_IMODE(os.stat(self.path).st_mode), 0o666 & ~mask)
        self.assertEqual(os.listdir(self.room), ["file"])

    def test_a_file_that_is_there(self) -> None:
        write_whole(self.path, "old")
        write_whole(self.path, "new")
        self.assertEqual((self.read(self.path), os.listdir(self.room)), ("new", ["file"]))

    def test_a_failure_leaves_what_was_there(self) -> None:
        write_whole(self.path, "old")
        with mock.patch("os.replace", side_effect=OSError(28, "No space left")):
            with self.assertRaises(OSError):
                write_whole(self.path, "new")
        self.assertEqual((self.read(self.path), os.listdir(self.room)), ("old", ["file"]))

    def test_what_is_refused_names_the_file(self) -> None:
        """The file is the one that was asked for; others are written all the same."""
        nowhere = f"{self.room}/nowhere/file"
        for write in (write_file, write_whole):
            with self.assertRaises(OSError) as refused:
                write(nowhere, "new")
            said = f"{nowhere}: No such file or directory"
            self.assertEqual(said, explain(refused.exception))
        with self.assertRaises(OSError) as refused:
            write_each([("/dev/full", "1"), (nowhere, "2"), (self.path, "3")])
        self.assertEqual("/dev/full: No space left on device", explain(refused.exception))
        self.assertEqual("3", self.read(self.path))

    def test_a_link(self) -> None:
        """The link is replaced, and not what it leads to."""
        target = f"{self.room}/target"
        write_whole(target, "old")
        os.symlink(target, self.path)
        write_whole(self.path, "new")
        self.assertEqual((self.read(target), self.read(self.path)), ("old", "new"))
        self.assertFalse(Path(self.path).is_symlink())

    def test_a_file_that_is_open(self) -> None:
        """It is written to as it is: /dev/stdout stays what it is for all programs."""
        for folder in ("/dev/fd", "/proc/self/fd"):
            with self.subTest(folder), open(self.path, "w+b", buffering=0) as file:
                file.write(b"before ")
                link = Path(self.room, "link")
                link.symlink_to(f"{folder}/{file.fileno()}")
                try_to_write(str(link))
                write_whole(str(link), "text")
                file.seek(0)
                self.assertEqual(file.read(), b"before text")
                self.assertTrue(link.is_symlink())
                link.unlink()

    def test_no_name(self) -> None:
        with self.assertRaises(OSError) as refused:
            try_to_write("")
        self.assertEqual(explain(refused.exception), "'': No such file or directory")

    def test_a_pipe(self) -> None:
        """What isn't a regular file is written to as it is."""
        os.mkfifo(self.path)
        reader = os.open(self.path, os.O_RDONLY | os.O_NONBLOCK)
        self.addCleanup(os.close, reader)
        write_whole(self.path, "text")
        self.assertEqual(os.read(reader, 100), b"text")
        self.assertTrue(stat.S_ISFIFO(os.stat(self.path).st_mode))

    def test_standard_output(self) -> None:
        written = io.TextIOWrapper(io.BytesIO(), encoding="ascii")
        with contextlib.redirect_stdout(written):
            write_whole("-", "ä\n")
        written.seek(0)
        self.assertEqual(written.buffer.read(), "ä\n".encode())

    def test_a_failure_names_the_file(self) -> None:
        with self.assertRaises(OSError) as raised:
            write_whole(self.room, "text")
        self.assertEqual(explain(raised.exception), f"{self.room}: Is a directory")
        self.assertEqual(explain(OSError("said")), "said")


if __name__ == "__main__":
    unittest.main()
