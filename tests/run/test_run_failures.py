"""What becomes of runs of wire_up-run that fail: a rank, a daemon or a launcher that is killed, a
launcher that isn't there or refuses a plan, and a full disk. One line says so, and nothing of it
stays."""
import functools
import os
import resource
import shutil
import signal
import subprocess
import time
import unittest

from tests import support
from tests.support import TOP
from tests.support.live import small_disk
from tests.support.live_runs import SECONDS, WAITS, LiveRuns, Ran, read_words


ENDS = TOP / "examples" / "ordered-get.plan"
# Ranks that wait on two nodes, and in two jobs.
OF_TWO_NODES = WAITS.replace(b"node n0\n", b"node n0\nnode n1\n") + b"rank n1\nget app:1 k\n"
OF_TWO_JOBS = b"rehearsal 1\nnode n0\njob a\nrank n0\nget b:0 k\njob b\nrank n0\nget a:0 k\n"
RANK, STARTER = "wire_up-rank", "start"
# The processes of Open MPI 4, and of later ones.
LAUNCHERS, DAEMONS = ("mpirun", "prterun"), ("orted", "prted")
# A launcher that says that it is one of Open MPI and refuses every plan; and one that runs one.
REFUSES = b"""\
#!/bin/sh
[ "$1" = --version ] && exec echo "mpirun (Open MPI) 4.1.4"
printf -- '----\\n\\n  There are not enough slots.\\n' >&2
exit 3
"""
RUNS_ONE = b"""\
#!/bin/sh
[ "$1" = --version ] && exec mpirun --version
mkdir "$0.ran" && exec mpirun "$@"
"""


class Killed(LiveRuns):
    """What is killed while ranks wait."""

    def begin(self, text: bytes, *words: str) -> "subprocess.Popen[str]":
        """Begins a run of a plan."""
        return subprocess.Popen(
            self.words("--quiet", "100", *words, self.write("it.plan", text)),
            stdin=subprocess.DEVNULL,
            stdout=subprocess.PIPE,
            stderr=subprocess.PIPE,
            text=True,
            env=self.environment(),
        )

    def start(self, text: bytes, *words: str) -> "subprocess.Popen[str]":
        """Begins a run of a plan, and waits until each of its ranks is in its call."""
        count = len(self.find_processes(RANK)) + text.count(b"\nrank ")
        process = self.begin(text, *words)
        self.wait_for(lambda: len(self.find_processes(RANK)) >= count)
        time.sleep(1)
        return process

    def end(self, process: "subprocess.Popen[str]") -> Ran:
        """What a run gave."""
        with process:
            stdout, stderr = process.communicate(timeout=SECONDS)
        return Ran(process.args, process.returncode, stdout, stderr)

    def find_victim(self, *names: str, last: str = "") -> int:
        """The last process whose program has one of these names, and whose command line ends
        so."""
        found = [process for name in names for process in self.find_processes(name)]
        return [number for number in found if read_words(number)[-2].endswith(last)][-1]

    def kill(self, text: bytes, *names: str, last: str = "") -> Ran:
        """Runs a plan, and kills such a process. Nothing stays."""
        process = self.start(text)
        os.kill(self.find_victim(*names, last=last), signal.SIGKILL)
        ran = self.end(process)
        self.hold_nothing_left()
        return ran

    def test_a_rank(self) -> None:
        """The line names the first that has ended."""
        self.hold_refused(self.kill(OF_TWO_NODES, RANK), " ended ")

    def test_a_rank_of_two_jobs(self) -> None:
        said = "b:0 ended at its call 1 get before the run did: "
        self.hold_refused(self.kill(OF_TWO_JOBS, RANK, last="1"), said)

    def test_what_starts_the_jobs(self) -> None:
        said = "the process that starts the jobs ended before the ranks did: "
        self.hold_refused(self.kill(OF_TWO_JOBS, RANK, last=STARTER), said)

    def test_the_launcher(self) -> None:
        """The line says that it has ended, although its ranks end with it."""
        self.hold_refused(self.kill(OF_TWO_NODES, *LAUNCHERS), "mpirun ended with status 137")

    def test_a_daemon(self) -> None:
        """What ranks reply that have no server any more isn't taken for the library's."""
        for _ in range(2):
            self.hold_refused(self.kill(OF_TWO_NODES, *DAEMONS), " before the run ")

    def test_the_nodes(self) -> None:
        """The first of the processes that run among fake nodes."""
        self.hold_refused(self.kill(OF_TWO_NODES, "unshare"), "mpirun ended by signal 9")

    def test_the_first_of_the_nodes(self) -> None:
        """The process that `unshare` started: all others end with it."""
        process = self.start(OF_TWO_NODES)
        unshare = self.find_victim("unshare")
        with open(f"/proc/{unshare}/task/{unshare}/children", encoding="ascii") as file:
            os.kill(int(file.read()), signal.SIGKILL)
        self.hold_refused(self.end(process), "mpirun ended ")
        self.hold_nothing_left()

    def test_the_launcher_of_a_host(self) -> None:
        hosts = self.write("hosts", os.uname().nodename.encode())
        process = self.start(WAITS, "--hosts", hosts)
        os.kill(self.find_victim(*LAUNCHERS), signal.SIGKILL)
        self.hold_refused(self.end(process), "mpirun ended by signal 9")
        self.wait_for(lambda: not self.find_processes())

    def test_the_command(self) -> None:
        """Where it can't end what it has started, that ends since nobody listens any more; its
        folder stays."""
        process = self.start(OF_TWO_NODES)
        process.kill()
        self.assertEqual(-signal.SIGKILL, self.end(process).returncode)
        self.wait_for(lambda: not self.find_processes())
        for path in self.room.glob("wire_up-run-*"):
            shutil.rmtree(path)

    def interrupt(self, process: "subprocess.Popen[str]", number: int) -> None:
        """Lets a signal end a run. Nothing is said, and nothing stays."""
        process.send_signal(number)
        ran = self.end(process)
        self.assertEqual((128 + number, "", ""), (ran.returncode, ran.stdout, ran.stderr))
        self.hold_nothing_left()

    def test_an_interrupt(self) -> None:
        """SIGTERM ends all."""
        self.interrupt(self.start(OF_TWO_NODES), signal.SIGTERM)

    def test_an_interrupt_while_the_ranks_start(self) -> None:
        """However far they are."""
        for seconds in (0, 0.05, 0.2, 0.5):
            process = self.begin(OF_TWO_NODES)
            self.wait_for(lambda: any(self.room.glob("wire_up-run-*")))
            time.sleep(seconds)
            self.interrupt(process, signal.SIGTERM)

    def test_an_interrupt_after_another_failure(self) -> None:
        """Just after it, and while what is left of the nodes is ended."""
        for seconds in (0, 0.06):
            process = self.start(OF_TWO_NODES)
            os.kill(self.find_victim("unshare"), signal.SIGKILL)
            time.sleep(seconds)
            process.send_signal(signal.SIGTERM)
            ran = self.end(process)
            self.assertIn(ran.returncode, (125, 128 + signal.SIGTERM), ran.stderr)
            self.assertLessEqual(len(ran.stderr.splitlines()), 1, ran.stderr)
            self.hold_nothing_left()


class NotStarted(LiveRuns):
    """What can't be started."""

    def write_program(self, name: str, text: bytes) -> str:
        """Writes a program, and answers its path."""
        path = self.write(name, text)
        os.chmod(path, 0o700)
        return path

    def test_launchers(self) -> None:
        """One that isn't there, is no launcher, ends at once, or starts nothing."""
        no_program = self.write("no-program", REFUSES)
        other = self.write_program("other", b"#!/bin/sh\necho other\n")
        refuses = self.write_program("refuses", REFUSES)
        runs = {
            "there is no no-such-launcher": ("--launcher", "no-such-launcher"),
            "there is no /": ("--launcher", no_program),
            "other: is no launcher of Open MPI, PRRTE or Slurm": ("--launcher", other),
            "there is no no-such-command": ("--command", "no-such-command -n 2"),
            "false ended with status 1 before the ranks did": ("--command", "false"),
            "sh ended by signal 9 before the ranks did": ("--command", "sh -c 'kill -9 $$'"),
            "refuses ended with status 3 before the ranks did: There are not enough slots.": (
                "--launcher",
                refuses,
            ),
            "only 0 of 2 ranks came up in 1 seconds: waits": (
                "--start",
                "1",
                "--command",
                "sh -c 'echo waits; sleep 99'",
            ),
        }
        for said, words in runs.items():
            with self.subTest(said):
                self.hold_refused(self.run_it(*words, ENDS), said)

    def test_plans(self) -> None:
        """One with a fault, one that isn't there, and what a launcher or a host file can't take."""
        bad = self.write("bad.plan", b"rehearsal\n")
        blank = self.room / "a b"
        blank.mkdir()
        said = "a launcher takes no path with a blank: set TMPDIR"
        self.hold_refused(self.run_it(ENDS, temporary=blank), said)
        two_nodes = self.write("nodes.plan", OF_TWO_NODES)
        two_jobs = self.write("jobs.plan", OF_TWO_JOBS)
        hosts = self.write("hosts", b"localhost\n")
        runs = {
            "fault 3 BadHeader": (bad,),
            "no-such.plan: No such file or directory": ("no-such.plan",),
            "the plan has 2 nodes, and there are 1 hosts": ("--hosts", hosts, two_nodes),
            "true starts one job: the plan has 2": ("--command", "true", two_jobs),
        }
        for said, words in runs.items():
            with self.subTest(said):
                self.hold_refused(self.run_it(*words), said)

    def test_the_suite(self) -> None:
        """If its first plan can't be run, no other is; if another can't, a line says so."""
        refuses = self.write_program("refuses", REFUSES)
        said = "refuses ended with status 3 before the ranks did: There are not enough slots."
        self.hold_refused(self.run_it("--launcher", refuses, "--suite"), said)
        runs_one = self.write_program("runs-one", RUNS_ONE)
        words = ("--launcher", runs_one, "--times", "1", "--suite", "fence-single", "no-calls")
        ran = self.run_it(*words)
        self.assertEqual(125, ran.returncode, ran.stderr)
        self.assertIn("\n  failed ", ran.stdout)
        self.assertTrue(ran.stdout.endswith("\nequal 1 different 0 unsteady 0 failed 1\n"))
        self.assertEqual("wire_up-run: a plan couldn't be run, and no other differs\n", ran.stderr)


class FullDisk(LiveRuns):
    """Where something can't be written."""

    def test_no_room_for_the_run(self) -> None:
        with small_disk(self, self.room, 4) as folder:
            ran = self.run_it(ENDS, temporary=folder)
            self.hold_refused(ran, "No space left on device")
            self.assertIn(f"wire_up-run: {folder}/wire_up-run-", ran.stderr)

    def test_no_room_for_the_library(self) -> None:
        """It says so to the rank, or its server writes it, and no rank comes up. Some can do with
        less room, or do without what they have no room for."""
        refused = 0
        for size in (64, 1024):
            with small_disk(self, self.room, size) as folder:
                ran = self.run_it("--start", "15", ENDS, temporary=folder)
            if ran.returncode:
                refused += 1
                self.hold_refused(ran, "wire_up-run: ")
                lost = "lost communication|ranks came up in 15 seconds: .*RESOURCE"
                self.assertRegex(ran.stderr, f"has the disk room|{lost}")
        self.assertTrue(refused)

    def test_no_file_may_be_as_large(self) -> None:
        """A limit of files is told as a full disk is."""
        ran = self.run_it(ENDS, set_up=functools.partial(limit_files, 10))
        self.hold_refused(ran, "File too large")

    def test_answers(self) -> None:
        """What can't be written is named, and all else is written."""
        ran = self.run_it("--junit", "/dev/full", self.write("it.plan", WAITS[:-29]))
        lines = [
            "wire_up-run: portable for OpenPMIx 4.2, 5.0 and 7.0",
            "wire_up-run: /dev/full: No space left on device",
        ]
        self.assertEqual((125, lines), (ran.returncode, ran.stderr.splitlines()))
        self.assertIn("differing 0 of ", ran.stdout)
        with open("/dev/full", "w", encoding="ascii") as full:
            ran = subprocess.run(
                self.words("--show", "no-calls"),
                stdout=full,
                stderr=subprocess.PIPE,
                text=True,
                timeout=SECONDS,
                check=False,
            )
        said = "wire_up-run: standard output: No space left on device\n"
        self.assertEqual((125, said), (ran.returncode, ran.stderr))


def limit_files(size: int) -> None:
    """Lets no file be larger."""
    resource.setrlimit(resource.RLIMIT_FSIZE, (size, size))


if __name__ == "__main__":
    support.program()
    unittest.main()
