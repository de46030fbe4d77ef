"""Tests that races are shown in programs that run, where MPI and PMIx are there, and a `wire_up`.

Where they aren't, all of this is skipped, and says what lacks.
"""
import contextlib
import glob
import json
import os
import re
import shutil
import signal
import socket
import subprocess
import sys
import tempfile
import threading
import time
import unittest
from pathlib import Path

from wire_up_tools.record.running import find_libraries, make_environment
from tests.programs.show_launchers import find_words
from tests.support import TOP
from tests.support.live import (
    ENVIRONMENT,
    LiveTest,
    Ran,
    find_python,
    mpirun,
    run_plainly,
    small_disk,
)
from tests.support.live_runs import read_words
from tests.support.tapes import COMMAND, PATIENCE, PROGRAMS, read_file, run_recorder

COMPILED_WITH_LIBRARY = {"hidden": "liblookups.so"}
# How long a hold lasts where nothing moves, in seconds, and in multiples of what two processes take
# that do nothing: longer than on a slow machine a process takes between two calls. And longer than
# a program polls: so long where it most likely isn't held in vain.
LEAST_HOLD, HOLD_TIMES, LONG_HOLD = 4.0, 6.0, 30.0
# How long a signal may take to end all, in seconds.
SOON = 45


def find_processes(path: str) -> list[int]:
    """The processes that run a program."""
    found = []
    for each_path in glob.glob("/proc/[0-9]*"):
        with contextlib.suppress(OSError):
            number = int(Path(each_path).name)
            found += [number] if path in read_words(number) else []
    return found


class ShowingCase(LiveTest):
    """Tests with programs that run again, of which nothing stays."""

    usual_hold: float

    @classmethod
    def setUpClass(cls) -> None:
        super().setUpClass()
        if cls.program is None:
            raise unittest.SkipTest("no race is shown: there is no wire_up")
        began = time.monotonic()
        run_plainly(mpirun(2, "true"))
        hold = HOLD_TIMES * (time.monotonic() - began)
        cls.usual_hold = min(LONG_HOLD, max(LEAST_HOLD, hold))

    def words(self, processes: int, name: str, *words: str) -> list[str]:
        """The words that start a program."""
        if name in COMPILED_WITH_LIBRARY:
            self.compile(COMPILED_WITH_LIBRARY[name])
        return mpirun(processes, self.compile(name), *words)

    def options(self, hold: float | None = None) -> list[str]:
        """The options that all runs have, with how long a hold lasts, if not as usual."""
        assert self.program is not None
        return ["--checker", self.program, "--hold", f"{hold or self.usual_hold:.1f}"]

    def show(
        self,
        task: list[str],
        words: list[str],
        hold: float | None = None,
        environment: dict[str, str] = ENVIRONMENT,
    ) -> Ran:
        """Runs the recorder. Nothing is left beside the plan."""
        options = self.options(hold)
        ran = run_recorder("-o", self.plan, *options, *task, *words, environment=environment)
        self.assertEqual([], [*self.room.glob("wire_up-record-*")])
        return ran

    def find_words(self, ran: Ran) -> list[str]:
        """What was said of each race or pair, by its first word."""
        return find_words(ran.stderr)


class ShownTest(ShowingCase):
    """Races that are shown by programs that other tests record too, and by some made for it."""

    def hold(
        self, expected: list[str], said: str, processes: int, *words: str, is_in_vain: bool = False
    ) -> str:
        """Fails where a program's races don't have these words, or nothing of the form is said.
        `is_in_vain`: some call is held in vain. Answers what was said."""
        hold = None if is_in_vain else LONG_HOLD
        ran = self.show(["--show"], self.words(processes, *words), hold)
        self.assertEqual(expected, self.find_words(ran), ran.stderr)
        self.assertRegex(ran.stderr, said)
        self.assertEqual(0, ran.returncode)
        return ran.stderr

    def test_messages_of_any_source(self) -> None:
        for word in ("wild1", "wild2"):
            self.hold(["shown"], "PMIX_ERR_NOT_FOUND", 3, "cases", word, is_in_vain=True)

    def test_a_collective_of_nothing(self) -> None:
        self.hold(["shown"], "and they end alike", 2, "cases", "scattered")

    def test_a_program_that_stops(self) -> None:
        said = self.hold(["shown"], r"ended status 0 \| status \d+", 2, "early")
        self.assertIn("and does again what it does to files", said.splitlines()[0])
        head = read_file(self.plan)
        self.assertRegex(
            head,
            r"(?m)^# Shown in this program on \d{4}-\d\d-\d\d: race app:0 \d+ app:1 \d+ name "
            r"solver: app:1 \d+ lookup: PMIX_SUCCESS \S+ and PMIX_ERR_NOT_FOUND; "
            r"ended status 0 and status \d",
        )
        self.assertRegex(head, r"(?m)^# Tried by: wire_up-record --of \S+ --show mpirun ")

    def test_other_ways_to_call(self) -> None:
        for words in (("unseen", "pmpi"), ("unseen", "barrier"), ("unseen", "looked-up")):
            self.hold(["shown"], "and they end alike", 2, *words)

    def test_fortran(self) -> None:
        for word in ("message", "barrier"):
            self.hold(["shown"], "and they end alike", 2, "mixed", word)

    def test_calls_that_do_not_block(self) -> None:
        self.hold(["shown"], "and they end alike", 2, "direct", "last")

    def test_a_request_that_is_begun_again(self) -> None:
        self.hold(["shown"], "and they end alike", 2, "handles", "restarted")

    def test_a_library_that_calls(self) -> None:
        self.hold(["shown"], "and they end alike", 2, "hidden", "behind")

    def test_another_branch_and_another_end(self) -> None:
        said = self.hold(["shown"], r"ended status 0 \| status 139", 2, "shown", "branch")
        self.assertRegex(said, r"goes on otherwise: app:1 after .*: fence \| publish own")
        # The launcher of Open MPI 5 can die of an abort itself.
        ended = r"ended status 0 \| (status 7|signal \d+)"
        self.hold(["shown"], ended, 2, "shown", "abort")

    def test_mpi_goes_on_while_a_call_is_held(self) -> None:
        self.hold(["shown"], "and they end alike", 2, "shown", "bigsend")

    def test_an_order_that_is_not_recorded(self) -> None:
        flag = f"{self.room}/flag"
        said = r"app:1 had left MPI_Barrier for \d+\.\d s: ordered by what isn't recorded"
        self.hold(["not-made"], said, 2, "shown", "file", flag, is_in_vain=True)

    def test_the_orders_of_the_witness(self) -> None:
        said = "two orders of `wire_up witness`"
        self.hold(["shown", "shown-later"], said, 3, "shown", "third", is_in_vain=True)
        three = ["shown", "shown-later", "shown"]
        self.hold(three, said, 3, "shown", "unpublished", is_in_vain=True)

    def test_a_job_that_another_started(self) -> None:
        """Both processes have the rank 0."""
        said = "race app0:0 [0-9]+ app1:0 [0-9]+ name port"
        self.hold(["shown"], said, 1, "shown", "children")

    def test_a_value_that_is_another_in_each_run(self) -> None:
        said = r"another in each run: app:2 lookup port: PMIX_SUCCESS v\d+ \| PMIX_SUCCESS v\d+"
        self.hold(["alike"], said, 3, "shown", "random")
        self.assertIn("nothing differs; another in each run: app:2 lookup", read_file(self.plan))

    def test_a_limit_of_time_that_strikes(self) -> None:
        """On a slow machine the other call may have begun by then."""
        said = "a limit of time can have struck: an alarm ended a process"
        ran = self.show(["--show"], self.words(2, "shown", "alarm"))
        self.assertIn(self.find_words(ran), (["not-made"], ["shown"]), ran.stderr)
        self.assertIn(said, ran.stderr)
        self.assertIn(said, read_file(self.plan))

    def test_what_is_seen_later(self) -> None:
        self.hold(["shown-later"], r"answered otherwise: app:2 lookup port: ", 3, "shown", "value")
        other = r"answered otherwise: app:2 lookup second"
        said = self.hold(["shown", "shown"], other, 3, "shown", "stop")
        self.assertRegex(said, r"goes on otherwise: app:1 after .*: publish second, fence \| fence")


class TurnedTest(ShowingCase):
    """Orders that are turned round."""

    def hold(self, expected: str, said: str, processes: int, *words: str) -> None:
        """Fails where what came of all pairs isn't this, or nothing of the form is said."""
        hold = LONG_HOLD if expected == "turned" else None
        ran = self.show(["--turn"], self.words(processes, *words), hold)
        self.assertEqual({expected}, set(self.find_words(ran)), ran.stderr)
        self.assertRegex(ran.stderr, said)

    def test_orders_that_programs_keep(self) -> None:
        self.hold("kept", r"kept .*: app:1 stood in a receive from 0, tag 0 for", 2, "told")
        said = r"(?m)^# Turned round in vain on \S+: 1 of 1 pairs, all that the plan orders$"
        self.assertRegex(read_file(self.plan), said)
        self.hold("kept", "orders that .*: 2 of 2", 4, "names")

    def test_a_job_that_another_started(self) -> None:
        self.hold("kept", "app1:0 had called nothing yet", 1, "shown", "heirs")

    def test_a_program_of_python(self) -> None:
        python = find_python()
        if not python:
            self.skipTest("there is no mpi4py")
        ran = self.show(["--turn"], mpirun(2, python, PROGRAMS / "cases.py"))
        self.assertEqual({"kept"}, set(self.find_words(ran)), ran.stderr)

    def test_a_get_that_is_given_up(self) -> None:
        """It waits by the rules, and so isn't among the orders that are turned round at first.
        Newer libraries may wait."""
        ran = self.show(["--turn", "--turn-waits", "2"], self.words(2, "cards", "waits"))
        self.assertIn(self.find_words(ran), (["gave-up"], ["kept"]), ran.stderr)
        said = r"gave-up app:0 2 commit, app:1 1 get: the library ended the wait with PMIX_ERR_"
        self.assertRegex(ran.stderr, f"{said}|stood in get 0 card")

    def test_what_an_earlier_get_brought(self) -> None:
        """In a store of the process's own, in which the library may have all that others have."""
        environment = {**ENVIRONMENT, "PMIX_MCA_gds": "hash"}
        ran = self.show(["--turn"], self.words(2, "cards", "own-store"), None, environment)
        expected = (["turned", "kept"], ["turned-alike", "kept"])
        self.assertIn(self.find_words(ran), expected, ran.stderr)
        self.assertIn("app:1 1 get, app:0 4 commit: the second was over first", ran.stderr)

    def test_a_get_with_a_limit(self) -> None:
        said = r"app:1 1 get: PMIX_SUCCESS address \| PMIX_ERR_TIMEOUT"
        self.hold("turned", said, 2, "cards", "brief")

    def test_calls_that_the_plan_leaves_out(self) -> None:
        """The library may answer a get of every key alike, whether the card is there or not."""
        said = r"app:1 lookup pmix-name: PMIX_SUCCESS v \| PMIX_ERR_NOT_FOUND"
        self.hold("turned", said, 2, "cards", "reserved")
        ran = self.show(["--turn"], self.words(2, "cards", "every"), LONG_HOLD)
        self.assertIn(self.find_words(ran), (["turned-alike"], ["turned"]), ran.stderr)
        self.assertIn("app:0 2 commit, app:1 get of every key of rank 0: the second", ran.stderr)

    def test_orders_by_luck(self) -> None:
        said = r"app:0 \d+ lookup: PMIX_SUCCESS port \| PMIX_ERR_NOT_FOUND"
        self.hold("turned", said, 2, "cases", "poll")
        self.assertRegex(read_file(self.plan), r"(?m)^# Turned round on \S+: app:1 \d+ publish, ")
        self.hold("turned", "doesn't hold for every run", 3, "luck", "several")

    def test_an_order_that_a_loop_of_polls_keeps(self) -> None:
        """--strict takes nothing from such polls, and finds a race."""
        self.hold("kept", "stood in a receive from 1, tag 0", 2, "luck", "asked")


class CommandTest(ShowingCase):
    """One race, a plan that is there, what goes wrong, and signals."""

    def test_a_race_of_a_plan_that_is_there(self) -> None:
        words = self.words(2, "shown", "branch")
        shown = self.room / "shown.json"
        self.assertEqual(0, self.record(*words).returncode)
        assert self.program is not None
        found = re.search(r"race (app:0 \d+ app:1 \d+) ", self.ask_checker())
        assert found is not None
        ran = run_recorder(
            "--of", self.plan, *self.options(), "--shown", shown, "--show-race", found[1], *words,
            environment=ENVIRONMENT,
        )
        self.assertEqual(["shown"], self.find_words(ran), ran.stderr)
        self.assertEqual(0, ran.returncode)
        race = json.loads(shown.read_text(encoding="utf-8"))["races"][0]
        self.assertEqual("shown", race["word"])
        self.assertEqual([0, 139], [item["status"] for item in race["runs"]])
        self.assertIn("# Shown in this program on ", read_file(self.plan))
        self.assertIn("race", self.ask_checker())

    def ask_checker(self) -> str:
        """What the checker says of the plan."""
        assert self.program is not None
        words = [self.program, "check", str(self.plan)]
        return subprocess.run(words, capture_output=True, text=True, check=False).stdout

    def test_a_plan_of_another_program(self) -> None:
        """What its head has stays."""
        ran = self.show(["--show"], self.words(2, "shown", "branch"))
        before = read_file(self.plan)
        self.assertIn("# Shown in this program", before)
        others = (
            (self.words(2, "told"), "a run never called app:0 publish port, app:1 lookup port"),
            (self.words(3, "shown", "branch"), "it has the processes app:0, app:1, and the run"),
            (["true"], "it has the processes app:0, app:1, and the run had none"),
        )
        for words, said in others:
            ran = self.try_plan("--show", words)
            self.assertEqual(125, ran.returncode, ran.stderr)
            self.assertIn(f"the plan isn't of this command: {said}", ran.stderr)
            self.assertEqual(before, read_file(self.plan))

    def test_what_was_tried_before_stays(self) -> None:
        """Where other races or orders are tried, each with its command."""
        words = self.words(3, "shown", "stop")
        self.assertEqual(0, self.record(*words).returncode)
        races = re.findall(r"race (app:\d \d+ app:\d \d+) ", self.ask_checker())
        for race in races[:2]:
            ran = self.try_plan("--show-race", race, words)
            self.assertEqual(["shown"], self.find_words(ran), ran.stderr)
        head = read_file(self.plan)
        found = re.findall(r"(?m)^# Shown .*: race (app:\S+ \S+ \S+ \S+)", head)
        self.assertEqual(races[:2], found)
        self.assertEqual(2, head.count("\n# Tried by: "))

    def try_plan(self, *task: object) -> Ran:
        """Tries races of the plan that is there; the words of a command come last."""
        *options, words = task
        assert isinstance(words, list)
        all_words = ["--of", self.plan, *self.options(), *map(str, options), *words]
        return run_recorder(*all_words, environment=ENVIRONMENT)

    def test_a_full_disk(self) -> None:
        """The plan of the first run is there where there is room for that, and nothing else; where
        there isn't, its recordings are left."""
        words, refused = self.words(2, "shown", "branch"), 0
        for size in (64, 80, 96):
            with small_disk(self, self.room, size) as folder:
                plan = folder / "plan"
                options = (*self.options(), "--show")
                ran = run_recorder("-o", plan, *options, *words, environment=ENVIRONMENT)
                if ran.returncode:
                    refused += 1
                    self.assertEqual(125, ran.returncode)
                    full = "No space left|no room|room for|is empty, and no recording"
                    self.assertRegex(ran.stderr.splitlines()[-1], full)
                    if plan.exists():
                        self.assertEqual(["plan"], os.listdir(folder))
                        self.assertNotIn("# Shown", read_file(plan))
        self.assertTrue(refused)

    def test_calls_that_are_none(self) -> None:
        words = self.words(2, "told")
        for race, said in (
            ("app:0 99 app:1 1", "app:0 99: this plan has no such call"),
            ("app:0 1 app:7 1", "app:7 1: this plan has no such call"),
        ):
            ran = self.show(["--show-race", race], words)
            self.assertEqual(125, ran.returncode)
            self.assertIn(said, ran.stderr)
            self.assertIn("rehearsal 1", read_file(self.plan))

    def test_a_program_that_never_ends(self) -> None:
        limit = f"{2 * self.usual_hold:.1f}"
        ran = self.show(["--show", "--limit", limit], self.words(2, "shown", "hang"))
        self.assertRegex(ran.stderr, r"ended status 0 \| no end")

    def test_input_that_all_runs_read(self) -> None:
        words, source = self.words(2, "shown", "input"), self.room / "input"
        source.write_text("some words\n", encoding="ascii")
        ran = self.show(["--show", "--input", str(source), "--keep", f"{self.room}/kept"], words)
        self.assertEqual(["shown"], self.find_words(ran), ran.stderr)
        for word in ("race-1-first", "race-1-second"):
            output = self.room / "kept" / word / "output"
            self.assertIn("read some words", read_file(output))
        with open(source, "rb") as come:
            refused = self.begin(["--show"], words, come.fileno())
            self.assertEqual(125, refused.wait(PATIENCE))
            assert refused.stderr is not None
            self.assertIn("--input FILE", refused.stderr.readline())
            refused.stderr.close()

    def begin(
        self, task: list[str], words: list[str], source: int | None = None
    ) -> "subprocess.Popen[str]":
        """Begins the recorder, in a group of its own. Signals end it, also where the tests run in
        the background of a shell that ignores them there."""
        return subprocess.Popen(
            [sys.executable, COMMAND, "-o", self.plan, *self.options(), *task, *words],
            env=ENVIRONMENT,
            stdin=subprocess.DEVNULL if source is None else source,
            stdout=subprocess.DEVNULL,
            stderr=subprocess.PIPE,
            text=True,
            start_new_session=True,
            preexec_fn=lambda: signal.signal(signal.SIGINT, signal.SIG_DFL),
        )

    def end(self, running: "subprocess.Popen[str]", number: int) -> str:
        """Sends a signal, and answers what is said. A launcher to which it comes while it begins
        may want it again, as that of Open MPI 5 does."""
        running.send_signal(number)
        try:
            return running.communicate(timeout=SOON)[1]
        except subprocess.TimeoutExpired:
            running.send_signal(number)
            return running.communicate(timeout=PATIENCE)[1]

    def test_signals_in_the_middle(self) -> None:
        """The plan is there and says so, and no process or folder is left."""
        for number in (signal.SIGINT, signal.SIGTERM):
            words = self.words(2, "shown", "hang")
            running = self.begin(["--show", "--limit", "60"], words)
            until = time.monotonic() + 4 * PATIENCE
            pattern = "wire_up-record-*/race-1-second/*.recording"
            while len([*self.room.glob(pattern)]) < 2 and time.monotonic() < until:
                time.sleep(0.1)
            said = self.end(running, number)
            self.assertEqual(128 + number, running.returncode, said)
            head = read_file(self.plan)
            self.assertRegex(head, rf"(?m)^# Trying was stopped on \S+ by signal {number}$")
            self.assertEqual([], [*self.room.glob("wire_up-record-*")])
            self.assertEqual([], find_processes(words[-2]))

    def test_a_signal_in_the_first_run(self) -> None:
        """The plan is there, and the command doesn't run again."""
        begun = self.room / "begun"
        first = " ".join(self.words(2, "early"))
        # Each run leaves a line, and the first waits for the signal.
        script = f"trap 'exit 3' INT; {first}; echo >>{begun}; while :; do sleep 0.1; done"
        running = self.begin(["--show"], ["sh", "-c", script])
        until = time.monotonic() + 4 * PATIENCE
        while not begun.exists() and time.monotonic() < until:
            time.sleep(0.1)
        running.send_signal(signal.SIGINT)
        _, said = running.communicate(timeout=PATIENCE)
        self.assertEqual(3, running.returncode, said)
        self.assertIn("wire_up-record: a signal came: the command doesn't run again\n", said)
        self.assertEqual("\n", read_file(begun))
        self.assertNotRegex(read_file(self.plan), "(?m)^# (Shown|Tried)")

    def test_another_launcher(self) -> None:
        """The launcher of PRRTE itself, whose namespaces have other numbers."""
        if not shutil.which("prterun"):
            raise unittest.SkipTest("no race is shown under prterun: there is none")
        words = ["prterun", "--map-by", ":OVERSUBSCRIBE", "-n", "2", self.compile("shown")]
        ran = self.show(["--show"], [*words, "branch"])
        self.assertEqual(["shown"], self.find_words(ran), ran.stderr)
        self.assertRegex(ran.stderr, r"ended status 0 \| s(tatus|ignal) \d+")


class TwoNodesTest(ShowingCase):
    """Programs on two nodes that are none."""

    def test_words(self) -> None:
        if os.geteuid():
            self.skipTest("only root can make nodes")
        words = [sys.executable, "-m", "tests.programs.show_launchers", "mpirun:2"]
        ran = subprocess.run(words, cwd=TOP, capture_output=True, text=True, check=False)
        self.assertEqual(0, ran.returncode, ran.stdout[-3000:] + ran.stderr[-3000:])


class WithoutServerTest(ShowingCase):
    """Programs whose server is gone go on."""

    def run_with(self, address: str) -> Ran:
        """Runs a program whose calls are named, with a server at an address."""
        folder = tempfile.mkdtemp(dir=self.room)
        calls = "call 0 0 1 publish port\ncall 0 1 1 lookup port\n"
        Path(folder, "hold").write_text(f"server {address} word\n{calls}", encoding="ascii")
        environment = {**ENVIRONMENT, **make_environment(find_libraries(TOP, True), folder)}
        return subprocess.run(
            self.words(2, "shown", "abort"),
            env=environment,
            capture_output=True,
            text=True,
            timeout=PATIENCE,
            check=False,
        )

    def test_none(self) -> None:
        for address in (f"{self.room}/talk", "127.0.0.1:1", "no.such.host:1", "x"):
            ran = self.run_with(address)
            self.assertEqual((0, "joined\n"), (ran.returncode, ran.stdout), ran.stderr)

    def test_one_that_closes(self) -> None:
        path, heard = f"{self.room}/talk", []
        with socket.socket(socket.AF_UNIX) as server:
            server.bind(path)
            server.listen(9)

            def serve() -> None:
                for _ in range(4):
                    connection, _ = server.accept()
                    heard.append(connection.recv(99).decode())
                    connection.close()

            thread = threading.Thread(target=serve, daemon=True)
            thread.start()
            ran = self.run_with(path)
            thread.join(PATIENCE)
        self.assertEqual((0, "joined\n"), (ran.returncode, ran.stdout), ran.stderr)
        said = ["word came 1\n", "word came 2\n", "word over 1\n", "word over 2\n"]
        self.assertEqual(said, sorted(heard))


if __name__ == "__main__":
    unittest.main()
