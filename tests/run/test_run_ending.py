"""How wire_up-run ends what it has started, without MPI: sessions, fake nodes, and signals."""
import contextlib
import functools
import io
import os
import shutil
import signal
import subprocess
import sys
import tempfile
import threading
import time
import unittest
from collections.abc import Callable, Sequence
from pathlib import Path
from types import FrameType
from unittest import mock

from wire_up_tools.failures import Refused
from wire_up_tools.plan_reading import read_plan
from wire_up_tools.run import ending, fake_nodes, interrupts
from wire_up_tools.run.interrupts import Interrupted, held, released
from wire_up_tools.run.launchers import Kind, Launcher
from wire_up_tools.run.live import Setting, Task, run_plan
from tests import support
from tests.support.live import run_plainly
from tests.support.needs import alone

SLEEP = ("sleep", "300")
NEEDED = ("unshare", "nsenter", "ip", "hostname")
# How long something may take, and how long a process is held that is to be waited for, in seconds.
PATIENCE, HOLD = 60.0, 0.5
# A program whose name has what stands in /proc behind a name.
ODD_NAME = "a) Z 1 1"
PLAN = b"rehearsal 1\nnode n0\njob app\nrank n0\n"
# Where a signal may come.
TRACED = ("/run/live.py", "/run/ending.py", "/run/interrupts.py")
# Asks whether a process is stopped.
STOPPED = os.WSTOPPED | os.WNOHANG
Process = subprocess.Popen[bytes]


def find_children(process: int) -> list[int]:
    """The processes that a process has started."""
    with open(f"/proc/{process}/task/{process}/children", encoding="ascii") as file:
        return [int(child) for child in file.read().split()]


@alone
class Started(unittest.TestCase):
    """Processes that tests start, none of which stays."""

    def start(self, words: Sequence[str], session: bool = True) -> Process:
        """Starts a process, in a session of its own unless that isn't asked for."""
        no = subprocess.DEVNULL
        process = subprocess.Popen(words, stdin=no, stderr=no, start_new_session=session)
        self.addCleanup(process.wait)
        self.addCleanup(process.kill)
        return process

    def wait_for(self, is_so: Callable[[], bool]) -> None:
        """Waits until something is so. Fails where it takes too long."""
        self.assertTrue(ending.is_within(PATIENCE, is_so))


class Sessions(Started):
    """What is left of a session, and how its first process ended."""

    def test_how_a_process_ended(self) -> None:
        """It is told again and again, until the end is taken; then too."""
        for script, status in (("exit 3", 3), ("kill -9 $$", -9)):
            process = self.start(["sh", "-c", script])
            self.assertTrue(ending.ends_within(process, PATIENCE))
            self.assertTrue(Path(f"/proc/{process.pid}").exists())
            found = [ending.find_status(process), process.wait(), ending.find_status(process)]
            self.assertEqual([status] * 3, found)

    def test_a_process_that_runs(self) -> None:
        process = self.start(SLEEP)
        self.assertFalse(ending.ends_within(process, 0.1))
        self.assertIsNone(ending.find_status(process))

    def test_what_is_left(self) -> None:
        """All of a session that haven't ended, whatever their names are."""
        with tempfile.TemporaryDirectory() as room:
            odd = Path(room, ODD_NAME)
            odd.symlink_to(shutil.which(SLEEP[0]) or "")
            process = self.start(["sh", "-c", '"$0" 300 & sleep 300 & wait', str(odd)])
            self.wait_for(lambda: len(find_children(process.pid)) == 2)
            odd_one, other = find_children(process.pid)
            self.wait_for(lambda: ODD_NAME in self.read_name(odd_one))
            left = [process.pid, odd_one, other]
            self.assertEqual(left, sorted(ending.list_left(process.pid)))
            process.kill()
            self.wait_for(lambda: ending.list_left(process.pid) == left[1:])
            for number in left[1:]:
                ending.kill_one(number, process.pid)
            self.wait_for(lambda: ending.list_left(process.pid) == [])

    def read_name(self, process: int) -> str:
        """The name of a program that runs."""
        with open(f"/proc/{process}/comm", encoding="utf-8") as file:
            return file.read()

    def test_another_that_has_the_number(self) -> None:
        """One of another session isn't killed."""
        process = self.start(SLEEP)
        ending.kill_one(process.pid, process.pid + 1)
        self.assertFalse(ending.ends_within(process, 0.1))

    def test_a_launcher_that_has_ended(self) -> None:
        """What it started and left is killed."""
        process = self.start(["sh", "-c", "sleep 300 & exit 3"])
        self.assertTrue(ending.ends_within(process, PATIENCE))
        self.assertTrue(ending.list_left(process.pid))
        ending.end_process(process, is_fake=False)
        self.assertEqual(3, process.returncode)
        self.wait_for(lambda: not ending.list_left(process.pid))


class WithNodes(Started):
    """What needs fake nodes."""

    @classmethod
    def setUpClass(cls) -> None:
        super().setUpClass()
        lacking = [text for text in NEEDED if not shutil.which(text)]
        if not lacking and run_plainly([*fake_nodes.write_start(None), "true"]).returncode:
            lacking.append("right to make fake nodes")
        if lacking:
            raise unittest.SkipTest(f"no fake nodes: there is no {', no '.join(lacking)}")


class FakeNodes(WithNodes):
    """Fake nodes are gone, whatever of them is killed."""

    def start_nodes(self) -> tuple[Process, int]:
        """Starts something among fake nodes. Answers `unshare`, and the first process of them."""
        process = self.start([*fake_nodes.write_start(None), *SLEEP])
        self.wait_for(lambda: bool(find_children(process.pid)))
        (first,) = find_children(process.pid)
        self.wait_for(lambda: bool(find_children(first)) and self.runs(find_children(first)[0]))
        return process, first

    def runs(self, process: int) -> bool:
        """Whether a process is the one that was to run."""
        with contextlib.suppress(OSError), open(f"/proc/{process}/cmdline", "rb") as file:
            return file.read().split(b"\0")[:-1] == [text.encode() for text in SLEEP]
        return False

    def hold(self, first: int) -> Process:
        """Starts a process among fake nodes whose end nobody takes: until that, they can't be gone.
        Answers the one that takes it once it goes on."""
        user = [] if not os.geteuid() else ["--user", "--preserve-credentials"]
        process = self.start(["nsenter", "--target", str(first), *user, "--pid", *SLEEP], False)
        self.wait_for(lambda: any(self.runs(child) for child in find_children(process.pid)))
        process.send_signal(signal.SIGSTOP)
        self.wait_for(lambda: os.waitid(os.P_PID, process.pid, STOPPED) is not None)
        return process

    def test_nothing_is_killed(self) -> None:
        """Then `unshare` takes the end of the first one."""
        process, first = self.start_nodes()
        ending.end_process(process, is_fake=True)
        self.assertIsNotNone(process.returncode)
        self.assertFalse(Path(f"/proc/{first}").exists())

    def test_one_is_killed(self) -> None:
        """What takes a moment to end is waited for."""
        for victim in range(3):
            process, first = self.start_nodes()
            killed = [process.pid, first, find_children(first)[0]][victim]
            holding = self.hold(first)
            os.kill(killed, signal.SIGKILL)
            timer = threading.Timer(HOLD, holding.send_signal, [signal.SIGCONT])
            timer.start()
            ending.end_process(process, is_fake=True)
            self.assertEqual([], ending.list_left(process.pid))
            self.assertFalse(ending.is_left(first, process.pid))
            self.assertIsNotNone(process.returncode)
            timer.join()

    def test_it_takes_too_long(self) -> None:
        """A line says so."""
        process, first = self.start_nodes()
        holding = self.hold(first)
        process.kill()
        with contextlib.redirect_stderr(io.StringIO()) as said:
            ending.end_process(process, is_fake=True, limit=HOLD)
        line = f"wire_up-run: killed, and not gone in {HOLD} seconds: process {first}\n"
        self.assertEqual(line, said.getvalue())
        holding.send_signal(signal.SIGCONT)
        self.wait_for(lambda: not ending.is_left(first, process.pid))

    def test_they_are_just_being_made(self) -> None:
        for wait in (0.0, 0.001, 0.002, 0.005, 0.01):
            process = self.start([*fake_nodes.write_start(None), *SLEEP])
            time.sleep(wait)
            ending.end_process(process, is_fake=True)
            self.assertEqual([], ending.list_left(process.pid))
            self.assertIsNotNone(process.returncode)


class Tracer:
    """Lets a signal come before a line of these files is run: the one of a number, of those that
    are run for the first time."""

    def __init__(self, number: int) -> None:
        self.number, self.seen = number, set[tuple[str, int]]()

    def __call__(self, frame: FrameType, event: str, _: object) -> "Tracer | None":
        name = frame.f_code.co_filename
        if not name.endswith(TRACED):
            return None
        if event == "line" and (name, frame.f_lineno) not in self.seen:
            self.seen.add((name, frame.f_lineno))
            if len(self.seen) == self.number:
                os.kill(os.getpid(), signal.SIGTERM)
        return self


@alone
class Caught(unittest.TestCase):
    """Tests to which signals come."""

    def setUp(self) -> None:
        for signals in interrupts.CAUGHT:
            self.addCleanup(signal.signal, signals, signal.getsignal(signals))
        self.catch()

    def catch(self) -> None:
        """Lets signals end what is done, as if none had come."""
        for signals in interrupts.CAUGHT:
            signal.signal(signals, interrupts.stop)


class Interruptions(Caught, WithNodes):
    """Runs that a signal ends."""

    def test_a_signal_at_any_line(self) -> None:
        """Whatever a run is about to do, nothing of it is left."""
        with tempfile.TemporaryDirectory() as room, mock.patch("tempfile.tempdir", room):
            number = 1
            while self.interrupt(number):
                # What was started begins a session. As the first process of a table this one has
                # others too, which have ended.
                left = [
                    child for child in find_children(os.getpid()) if ending.is_left(child, child)
                ]
                self.assertEqual(([], []), (os.listdir(room), left), number)
                number += 1
            self.assertGreater(number, 100)

    def interrupt(self, number: int) -> bool:
        """Runs a plan whose launcher ends at once, until a signal comes at a line. Answers whether
        it came."""
        setting = Setting(Launcher(Kind.OPEN_MPI_4, ["false"], ""), "true")
        task = Task(read_plan(PLAN))
        self.catch()
        try:
            sys.settrace(Tracer(number))
            run_plan(task, setting)
        except Interrupted:
            return True
        except Refused:
            return False
        finally:
            sys.settrace(None)
        return False


class Signals(Caught):
    """A signal ends what is done, but for what must not be cut short."""

    def setUp(self) -> None:
        super().setUp()
        self.done: list[str] = []

    def come(self, said: str, number: int = signal.SIGTERM) -> None:
        """Lets a signal come, and notes what is done after it."""
        os.kill(os.getpid(), number)
        self.done.append(said)

    def hold_interrupted(self, do: Callable[[], None], *done: str) -> None:
        """Fails where it isn't ended by the first signal, or other things were done."""
        with self.assertRaises(Interrupted) as why:
            do()
        self.assertEqual((signal.SIGTERM, list(done)), (why.exception.number, self.done))
        self.assertEqual(interrupts.Signals(), interrupts.SIGNALS)

    def test_it_comes_at_once(self) -> None:
        self.hold_interrupted(functools.partial(self.come, "never"))

    def test_it_is_put_off(self) -> None:
        """Until the end, at which nothing else can be raised in its place."""

        def do() -> None:
            with held():
                self.come("at the beginning")
                self.come("later", signal.SIGINT)
                raise OSError

        self.hold_interrupted(do, "at the beginning", "later")

    def test_it_comes_in_a_part(self) -> None:
        """It ends that part, and what is done after that isn't disturbed."""

        def do() -> None:
            with held():
                try:
                    with released():
                        self.come("never")
                finally:
                    self.come("at the end", signal.SIGINT)

        self.hold_interrupted(do, "at the end")

    def test_it_came_before_the_part(self) -> None:
        """Then the part doesn't begin."""

        def do() -> None:
            with held():
                self.come("before")
                with released():
                    self.done.append("never")

        self.hold_interrupted(do, "before")

    def test_another_thread(self) -> None:
        """It puts nothing off."""

        def do() -> None:
            with held():
                self.done.append("in the thread")
                begun.set()
                over.wait(PATIENCE)

        begun, over = threading.Event(), threading.Event()
        thread = threading.Thread(target=do)
        thread.start()
        begun.wait(PATIENCE)
        self.hold_interrupted(functools.partial(self.come, "never"), "in the thread")
        over.set()
        thread.join()

    def test_what_was_ignored_stays_ignored(self) -> None:
        script = (
            "import signal; from wire_up_tools.run.interrupts import catch_signals; "
            "catch_signals(); "
            "print(signal.getsignal(signal.SIGHUP) == signal.SIG_IGN, "
            "signal.getsignal(signal.SIGTERM) == signal.SIG_IGN)"
        )
        ran = subprocess.run(
            ["sh", "-c", 'trap "" HUP; exec "$0" -c "$1"', sys.executable, script],
            env={**os.environ, "PYTHONPATH": str(support.TOP / "python")},
            capture_output=True,
            text=True,
            check=True,
        )
        self.assertEqual("True False\n", ran.stdout)


if __name__ == "__main__":
    unittest.main()
