"""Whether the program shows on a terminal what it is at, and nowhere else."""
import concurrent.futures
import os
import pty
import subprocess
import tempfile
import time
import unittest
from typing import IO, NamedTuple

from tests import support
from tests.support.running import (
    CARDS,
    EXAMPLE,
    NOTHING,
    RACY,
    READ,
    SECONDS,
    ProgramCase,
    Run,
    start,
)


# Commands that take long since their plan comes slowly: their words, and the plan.
SLOW = {
    "a slow check": (["check", "--large"], RACY),
    "a slow plan that is refused": (["replay"], b"rehearsal 1\n\nx\n"),
    "a slow plan with a call that waits": (
        ["replay", "--complete"],
        CARDS.replace(b"lookup-wait x", b"lookup-wait y"),
    ),
}
SHOWN = b"\rwire_up: reading 0 MB"
Stream = int | IO[bytes]


class Slow(NamedTuple):
    """How a command ended that took long: its status, and what came to each of its streams."""

    status: int
    wrote: bytes
    said: bytes


def left_on(told: bytes) -> bytes:
    """What is left on a terminal, in its rows, of what was written to it."""
    rows = []
    for line in told.decode().split("\n"):
        row: list[str] = []
        for part in line.split("\r"):
            row[: len(part)] = part
        rows.append("".join(row).rstrip())
    return "\n".join(rows).encode()


def from_terminal(end: int) -> bytes:
    """What was written to a terminal that no program has open any more."""
    told = b""
    try:
        while part := os.read(end, 1 << 16):
            told += part
    except OSError:
        pass
    os.close(end)
    return told


def slowly(program: str, words: list[str], given: bytes, wrote: Stream, said: Stream) -> int:
    """Runs a command that gets its bytes over two seconds. Answers its status."""
    with subprocess.Popen(
        [program, *words], stdin=subprocess.PIPE, stdout=wrote, stderr=said, cwd=support.TOP
    ) as run:
        if run.stdin:
            run.stdin.write(given[:10])
            run.stdin.flush()
        time.sleep(2)
        run.communicate(given[10:], timeout=SECONDS)
        return run.returncode


def to_files(program: str, words: list[str], given: bytes) -> Slow:
    """Runs a command slowly whose streams are files."""
    with tempfile.TemporaryFile() as wrote, tempfile.TemporaryFile() as said:
        status = slowly(program, words, given, wrote, said)
        wrote.seek(0)
        said.seek(0)
        return Slow(status, wrote.read(), said.read())


def to_terminal(program: str, words: list[str], given: bytes, is_output_shown: bool) -> Slow:
    """Runs a command slowly whose standard error is a terminal, and where it is to be shown its
    output, too."""
    ours, its = pty.openpty()
    with tempfile.TemporaryFile() as file:
        wrote: Stream = its if is_output_shown else file
        status = slowly(program, words, given, wrote, its)
        os.close(its)
        file.seek(0)
        return Slow(status, file.read(), from_terminal(ours))


class LineOfProgress(ProgramCase):
    """Runs that take long. Most of their time they wait, so they go on at once."""

    def plain(self, name: str) -> "subprocess.CompletedProcess[bytes]":
        """The run of a command that gets its plan at once."""
        words, given = SLOW[name]
        return start(self.program, Run(name, words, given=given))

    def test_none_in_files(self) -> None:
        """Without a terminal nothing else is written."""
        with concurrent.futures.ThreadPoolExecutor(len(SLOW)) as pool:
            ran = {text: pool.submit(to_files, self.program, *SLOW[text]) for text in SLOW}
        for name, slow in ran.items():
            with self.subTest(name):
                plain = self.plain(name)
                wanted = Slow(plain.returncode, plain.stdout, plain.stderr)
                self.told_alike(wanted, slow.result())

    def test_shown(self) -> None:
        """On a terminal the line is shown, and taken away before anything else comes there."""
        with concurrent.futures.ThreadPoolExecutor(2 * len(SLOW)) as pool:
            ran = {
                (name, is_output_shown): pool.submit(
                    to_terminal, self.program, *SLOW[name], is_output_shown
                )
                for name in SLOW
                for is_output_shown in (False, True)
            }
        for (name, is_output_shown), slow in ran.items():
            with self.subTest(name, is_output_shown=is_output_shown):
                self.hold_shown(name, is_output_shown, slow.result())

    def hold_shown(self, name: str, is_output_shown: bool, slow: Slow) -> None:
        plain = self.plain(name)
        shown, _, after = slow.said.rpartition(b" \r")
        left = (plain.stdout if is_output_shown else b"") + plain.stderr
        wrote = b"" if is_output_shown else plain.stdout
        self.told_alike((plain.returncode, wrote), (slow.status, slow.wrote))
        self.assertIn(SHOWN, shown)
        self.told_alike((left, left), (left_on(slow.said), after.replace(b"\r", b"")))

    def hold_on_terminal(self, words: list[str], ended: tuple[int, bytes, bytes]) -> None:
        """Tests with which status a short command ends, what it writes, and what it writes to a
        terminal on standard error."""
        ours, its = pty.openpty()
        ran = subprocess.run(
            [self.program, *words],
            cwd=support.TOP,
            stdin=subprocess.DEVNULL,
            stdout=subprocess.PIPE,
            stderr=its,
            timeout=SECONDS,
            check=False,
        )
        os.close(its)
        said = from_terminal(ours).replace(b"\r", b"")
        self.told_alike(ended, (ran.returncode, ran.stdout, said))

    def test_none_of_short_command(self) -> None:
        """A short command writes nothing to a terminal on standard error."""
        self.hold_on_terminal(["check", EXAMPLE], (0, NOTHING, b""))

    def test_files_that_are_not_there(self) -> None:
        """A terminal gets their names, and what the system says."""
        none = b"  no.file: No such file or directory (os error 2)\n"
        for words in (["check", "no.file"], ["follow", "no.file", EXAMPLE]):
            with self.subTest(words[0]):
                self.hold_on_terminal(words, (4, b"", READ + none))
        folder = b"  docs: Is a directory (os error 21)\n"
        self.hold_on_terminal(["replay", "docs"], (4, b"", READ + folder))

    def test_a_file_that_is_refused(self) -> None:
        """Without --explain the fault alone is told, on a terminal too."""
        said = b"wire_up: fault 2 TooLong 1\n"
        self.hold_on_terminal(["check", "/dev/zero"], (2, b"", said))


if __name__ == "__main__":
    unittest.main()
