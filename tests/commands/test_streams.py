"""Runs the built program with readers and writers that give and take little, fail, stop or go
away."""
import concurrent.futures
import errno
import fcntl
import os
import signal
import socket
import subprocess
import threading
import unittest
from collections.abc import Callable
from pathlib import Path
from typing import IO

from tests import support
from tests.models import grammar
from tests.soak.hostile_plans import COMMITS, HEAD, PLAN, REPORT, Form, forms, refused
from tests.soak.soak_runner import Runner
from tests.soak.soaking import difference_of
from tests.support.refusing import Outcome, library, run_with
from tests.support.running import (
    CARDS,
    EXAMPLE,
    RACE,
    RACY,
    READ,
    SECONDS,
    ProgramCase,
    Run,
    written,
)


PIPE_BYTES = 4096
# After how many bytes a reader goes away.
SIZES = (0, 1, 4095, 4096, 10_000)
# A stream to read from, and what hands bytes over to it.
Source = tuple[socket.socket | IO[bytes], Callable[[], None]]


def by_message(text: bytes) -> Source:
    """A stream each of whose messages, and so each read, is one byte."""
    ours, its = socket.socketpair(socket.AF_UNIX, socket.SOCK_SEQPACKET)

    def hand_over() -> None:
        try:
            for byte in text:
                ours.send(bytes([byte]))
        except OSError:
            pass
        ours.close()

    return its, hand_over


def by_pipe(text: bytes) -> Source:
    """A pipe into which bytes are written one by one."""
    its, ours = os.pipe()

    def hand_over() -> None:
        with os.fdopen(ours, "wb", buffering=0) as file:
            for byte in text:
                file.write(bytes([byte]))

    return os.fdopen(its, "rb"), hand_over


def by_reset(text: bytes) -> Source:
    """A stream that breaks after some bytes: the other end closes it with bytes of ours that it
    hasn't read."""
    ours, its = socket.socketpair(socket.AF_UNIX, socket.SOCK_STREAM)
    its.send(b"unread")

    def hand_over() -> None:
        ours.send(text[:20])
        ours.close()

    return its, hand_over


def feed(path: str, text: bytes) -> None:
    """Writes to a named pipe in a thread of its own."""

    def hand_over() -> None:
        with open(path, "wb") as file:
            file.write(text)

    threading.Thread(target=hand_over, daemon=True).start()


def large_forms(room: Path) -> list[Form]:
    """Commands that write more than a pipe takes."""
    calls = written(room, "calls.plan", HEAD + b"rank n0\n" + b"commit\n" * COMMITS)
    names = b"".join(b"publish x%d 1\n" % n for n in range(4096))
    twice = written(room, "twice.plan", HEAD + (b"rank n0\n" + names) * 2)
    nothing, last = written(room, "nothing.order", b""), str(COMMITS)
    return [
        Form("check", ["check", twice], b""),
        Form("replay", ["replay", calls], b""),
        Form("replay as JSON", ["replay", "--json", "--workers", "2", calls], b""),
        Form("replay anyway", ["replay", "--anyway", twice], b""),
        Form("follow", ["follow", nothing, calls], b""),
        Form("why", ["why", "app:0", "1", "app:0", last, calls], b""),
    ]


def small_pipe() -> tuple[int, int]:
    ours, its = os.pipe()
    fcntl.fcntl(its, fcntl.F_SETPIPE_SZ, PIPE_BYTES)
    return ours, its


def ignore_broken_pipes() -> None:
    signal.signal(signal.SIGPIPE, signal.SIG_IGN)


def counted(said: bytes) -> int | None:
    """The number that the fault of a write carries, or None."""
    words = said.split()
    is_fault = said.startswith(b"wire_up: fault 11 Write ") and len(words) == 5
    return int(words[4]) if is_fault else None


class Readers(ProgramCase):
    """Streams from which a command reads."""

    def read(self, form: Form, source: Source) -> Outcome:
        """How a command ends that reads a stream."""
        stream, hand_over = source
        thread = threading.Thread(target=hand_over, daemon=True)
        thread.start()
        with stream:
            ran = subprocess.run(
                [self.program, *form.words],
                stdin=stream.fileno(),
                capture_output=True,
                timeout=SECONDS,
                check=False,
            )
        thread.join()
        return Outcome(ran.returncode, ran.stdout, ran.stderr)

    def test_by_the_byte(self) -> None:
        for form in forms(self.room):
            usual = Outcome(form.status, form.wrote)
            with self.subTest(form.name, source="messages"):
                self.told_alike(usual, self.read(form, by_message(PLAN)))
            with self.subTest(form.name, source="a pipe"):
                self.told_alike(usual, self.read(form, by_pipe(PLAN)))

    def test_reset(self) -> None:
        for form in forms(self.room):
            with self.subTest(form.name):
                self.told_alike(Outcome(4, b"", READ), self.read(form, by_reset(PLAN)))

    def test_named_pipes(self) -> None:
        for form in forms(self.room):
            with self.subTest(form.name):
                path = f"{self.room}/{form.name}.pipe"
                os.mkfifo(path)
                feed(path, PLAN)
                self.hold(Run("", [*form.words, path], wrote=form.wrote, status=form.status))
        with self.subTest("an order"):
            order = f"{self.room}/order.pipe"
            os.mkfifo(order)
            feed(order, b"app:0\napp:0\napp:1\n")
            self.hold(Run("", ["follow", order, EXAMPLE], wrote=REPORT))


class Writers(ProgramCase):
    """Pipes to which a command writes."""

    def test_reader_goes_away(self) -> None:
        """A pipe whose reader goes away after so many bytes is told as the fault of a write, with
        the bytes that the pipe took."""
        for form in large_forms(self.room):
            for size in SIZES:
                for is_ignored in (False, True):
                    with self.subTest(form.name, size=size, is_signal_ignored=is_ignored):
                        self.hold_broken(form, size, is_ignored)

    def hold_broken(self, form: Form, size: int, is_ignored: bool) -> None:
        ours, its = small_pipe()
        with subprocess.Popen(
            [self.program, *form.words],
            stdin=subprocess.DEVNULL,
            stdout=its,
            stderr=subprocess.PIPE,
            preexec_fn=ignore_broken_pipes if is_ignored else None,
        ) as process:
            os.close(its)
            left = size
            while left and (part := os.read(ours, left)):
                left -= len(part)
            os.close(ours)
            said = process.communicate(timeout=SECONDS)[1]
        count = counted(said)
        self.assertEqual(4, process.returncode, f"said {said[:300]!r}")
        self.assertIsNotNone(count, f"said {said[:300]!r}")
        self.assertIn(count, range(size, size + 2 * PIPE_BYTES + 1))

    def test_full_pipe(self) -> None:
        """A pipe that doesn't wait, and that nobody reads, is told as the fault of a write after
        all that the pipe takes."""
        for form in large_forms(self.room):
            with self.subTest(form.name):
                ours, its = small_pipe()
                os.set_blocking(its, False)
                ran = subprocess.run(
                    [self.program, *form.words],
                    stdin=subprocess.DEVNULL,
                    stdout=its,
                    stderr=subprocess.PIPE,
                    timeout=SECONDS,
                    check=False,
                )
                os.close(its)
                with os.fdopen(ours, "rb") as file:
                    took = len(file.read())
                fault = b"wire_up: fault 11 Write %d\n" % took
                self.told_alike((4, fault), (ran.returncode, ran.stderr))
                self.assertTrue(took)


class Prefixes(ProgramCase):
    """Every prefix of a file is read or refused, by every command alike, and what is read has a
    canonical text that reads as the same."""

    def test_prefixes(self) -> None:
        runner = Runner(self.program, self.room)
        for size in range(len(CARDS) + 1):
            with self.subTest(f"the first {size} bytes of the cards"):
                found, _ = difference_of(runner, CARDS[:size], size)
                self.assertIsNone(found)

    def test_canonical_texts(self) -> None:
        """The library gives the canonical text of a file that the second reader gives, and that of
        this text too; or its fault."""
        parts = support.parts()
        for size in range(len(CARDS) + 1):
            with self.subTest(f"the first {size} bytes of the cards"):
                self.hold_read(parts, CARDS[:size])

    def hold_read(self, parts: str, text: bytes) -> None:
        try:
            wanted = Outcome(0, grammar.canonical(grammar.read(text)))
        except grammar.Refused as why:
            wanted = Outcome(2, b"", b"within\n" + why.said())
        for each_text in {text, wanted.wrote or text}:
            ran = subprocess.run(
                [parts, "read"], input=each_text, capture_output=True, timeout=SECONDS, check=False
            )
            self.told_alike(wanted, Outcome(ran.returncode, ran.stdout, ran.stderr))


class Broken(ProgramCase):
    """Reads and writes that give or take little, or fail."""

    library: Path
    plan: str
    readers: list[Form]
    writers: list[Form]

    @classmethod
    def setUpClass(cls) -> None:
        super().setUpClass()
        cls.library = library(cls.room)
        cls.plan = written(cls.room, "broken.plan", PLAN)
        racy = written(cls.room, "broken-racy.plan", RACY)
        cls.readers = forms(cls.room)
        cls.writers = [reader._replace(words=[*reader.words, cls.plan]) for reader in cls.readers]
        as_json = b'{"findings":["' + RACE + b'"]}\n'
        cls.writers += [
            Form("check a race", ["check", racy], RACE + b"\nfindings 1\n", 1),
            Form("replay a race as JSON", ["replay", "--json", racy], as_json, 1),
            Form("the version", ["--version"], b"wire_up 0.1.0\n"),
        ]

    def run_told(self, words: list[str], **told: int) -> tuple[Outcome, bytes]:
        return run_with(self.library, [self.program, *words], None, **told)

    def outcomes(self, words: list[str], told: list[dict[str, int]]) -> list[Outcome]:
        """How the runs of a command end, each with other settings of the library."""
        with concurrent.futures.ThreadPoolExecutor(os.cpu_count()) as pool:
            return list(pool.map(lambda item: self.run_told(words, **item)[0], told))

    def test_reads_by_the_byte(self) -> None:
        for form in self.readers:
            with self.subTest(form.name):
                outcome, _ = self.run_told([*form.words, self.plan], read_bytes=1)
                self.told_alike(Outcome(form.status, form.wrote), outcome)

    def test_reads_fail(self) -> None:
        """Each read that fails is told, and nothing is written."""
        for form in self.readers:
            with self.subTest(form.name):
                words = [*form.words, self.plan]
                reads = int(self.run_told(words, read_bytes=1)[1].split()[3])
                self.assertGreater(reads, len(PLAN))
                told = [
                    {"read_bytes": 1, "fail_read": n, "error": number}
                    for number in (errno.EIO, errno.EINTR, errno.EAGAIN)
                    for n in range(1, reads + 1)
                ]
                for settings, outcome in zip(told, self.outcomes(words, told)):
                    self.assertEqual(Outcome(4, b"", READ), outcome, str(settings))

    def test_writes_by_the_byte(self) -> None:
        for form in self.writers:
            with self.subTest(form.name):
                outcome, _ = self.run_told(form.words, write_bytes=1)
                self.told_alike(Outcome(form.status, form.wrote), outcome)

    def test_writes_fail(self) -> None:
        """Each write that fails, or takes nothing, is told with the bytes that went out, and
        exactly these went out."""
        for form in self.writers:
            with self.subTest(form.name):
                told = [
                    {"fail_write": n, "error": number}
                    for number in (errno.EIO, errno.EINTR, 0)
                    for n in range(len(form.wrote))
                ]
                for settings, outcome in zip(told, self.outcomes(form.words, told)):
                    count = settings["fail_write"]
                    fault = b"wire_up: fault 11 Write %d\n" % count
                    wanted = Outcome(4, form.wrote[:count], fault)
                    self.assertEqual(wanted, outcome, str(settings))

    def test_no_more_is_asked_for(self) -> None:
        """Of a file that never ends, no more is read than is needed to refuse it."""
        order = b"wire_up: fault 13 BadOrder 1\n"
        follow = ["follow", "/dev/zero", self.plan]
        rows = {
            "a file": (["check", "/dev/zero"], (4 << 20) + 1, refused("TooLong", 1)),
            "an order": (follow, (8 << 20) + 1 + len(PLAN), order),
        }
        for name, (words, most, said) in rows.items():
            with self.subTest(name):
                outcome, told = self.run_told(words)
                self.told_alike((Outcome(2, b"", said), most), (outcome, int(told.split()[5])))


if __name__ == "__main__":
    unittest.main()
