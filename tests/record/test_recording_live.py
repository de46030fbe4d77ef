"""Tests what is recorded of programs that run, where MPI and PMIx are there.

Where they aren't, all of this is skipped, and says what lacks. Without a built `wire_up` plans are
made, and not checked.
"""
import os
import re
import shutil
import signal
import subprocess
import sys
import tempfile
import time
import unittest
from collections.abc import Iterator, Mapping, Sequence
from pathlib import Path

from wire_up_tools.limits import VERSION_1
from wire_up_tools.record.calls import Collective, CollectiveEnd, Sources
from wire_up_tools.record.recordings import read_recordings
from wire_up_tools.words import OTHERWISE_AFTER, OTHERWISE_ALONE, OWN_CODE
from tests.support.live import ENVIRONMENT, LiveTest, find_python, mpirun, run_plainly
from tests.support.recorded import (
    CALLBACK,
    CASES,
    DIRECT,
    HANDLER,
    HANDLES,
    HIDDEN,
    IN_PART,
    LUCK,
    OTHERS,
    OTHER_WAYS,
    Program,
    drop_each_run,
    why_other_findings,
    why_wrong,
)
from tests.support.tapes import (
    COMMAND,
    PATIENCE,
    PROGRAMS,
    ask_program,
    read_file,
    read_scripts,
    run_recorder,
)

# What the test of 128 processes needs: cores, and bytes of memory.
CORES, MEMORY = 4, 8 << 30
# How long a signal may take to end a program that sleeps, in seconds.
SOON = 5.5

# The status of a program that needs what this MPI doesn't have.
TOO_OLD = 77

# Whose data each of the four processes waits for in the collectives of `messages`.
ALL, NONE, BELOW = Sources.ALL, Sources.NONE, Sources.BELOW
SOURCES: Mapping[str, Sequence[Sources | tuple[int, ...]]] = {
    "barrier": [ALL] * 4,
    "bcast": [NONE, (3,), (3,), (3,)],
    "gather": [NONE, NONE, ALL, NONE],
    "scatter": [(1,), NONE, (1,), (1,)],
    "reduce": [NONE, NONE, ALL, NONE],
    "scan": [BELOW] * 4,
    "exscan": [BELOW] * 4,
    "allgather": [ALL] * 4,
    "allgatherv": [(1, 3)] * 4,
    "alltoall": [ALL] * 4,
    "alltoallv": [NONE, (0,), (0, 1), ALL],
    "alltoallw": [NONE, (0,), (0, 1), ALL],
    "reduce_scatter": [ALL] * 4,
    "reduce_scatter_block": [ALL] * 4,
    "allreduce": [ALL] * 4,
    "comm_split": [ALL] * 4,
    "ibarrier": [ALL] * 4,
}
# How many steps `messages` has.
STEPS = 20


def wait_for_recordings(folder: Path, count: int) -> None:
    """Waits until so many recordings have the world of MPI in them: not for long, but on a slow
    machine."""
    for _ in range(2000):
        time.sleep(0.02)
        files = [*folder.glob("wire_up-record-*/*.recording")]
        if len(files) == count and all(" world " in read_file(file) for file in files):
            return


def find_faults(log: str) -> Iterator[str]:
    """The blocks of a log of memcheck whose first frame outside of the C library and Valgrind is
    the recorder's."""
    foreign = r"vgpreload|\(in [^)]*/libc\.so|\((?:strdup|clone|pthread_\w+)\.[cS]:"
    for block in re.split(r"==\d+== \n", log):
        frames = re.findall(r"(?:at|by) 0x[0-9A-F]+: .*", block)
        own = [frame for frame in frames if not re.search(foreign, frame)]
        if own and "/record" in own[0]:
            yield block


class ProgramsTest(LiveTest):
    """Programs that run as without the recorder, and whose plans are checked and replayed as it
    was."""

    def hold(self, name: str, *options: str) -> None:
        """Tests a program."""
        of = OTHERS[name]
        run = ["mpirun", *options, *mpirun(of.processes, self.compile(name))[1:]]
        self.record_alike(run, "--answers", self.answers)
        if self.program:
            self.assertIsNone(why_wrong(self.program, self.plan, self.answers, of.findings))

    def test_names(self) -> None:
        self.hold("names")

    def test_ring(self) -> None:
        self.hold("ring")

    def test_collectives(self) -> None:
        self.hold("collectives")

    def test_told(self) -> None:
        """With a variable that the launcher hands on by its option."""
        self.hold("told", "-x", "NAME=value")

    def test_spawn(self) -> None:
        self.hold("spawn")

    def test_errors(self) -> None:
        """Who ignores the statuses of requests is told of an error as without the recorder, and an
        error of one communicator isn't told to others."""
        run = mpirun(2, self.compile("errors"))
        if "0 without statuses: 0\n" in run_plainly(run).stdout:
            self.skipTest("MPI_Waitall of this MPI tells of no error without statuses")
        ran = self.record_alike(run)
        self.assertEqual((ran.returncode, ran.stdout.count("statuses: ")), (0, 8))
        self.assertIn("told to others: 0\n", ran.stdout)

    def test_a_program_that_is_named_like_a_component(self) -> None:
        """It isn't taken for a part of PMIx or MPI."""
        for folder in ("pmix-tests", "openmpi"):
            there = Path(self.folder.name, folder)
            there.mkdir()
            path = shutil.copy(self.compile("early"), there / "mca_early")
            self.record(*mpirun(2, path))
            self.assertEqual(read_file(self.plan).count("\npublish solver"), 1)

    def test_many_processes(self) -> None:
        """128 processes, where the machine isn't too small."""
        pages = os.sysconf("SC_PHYS_PAGES") * os.sysconf("SC_PAGE_SIZE")
        if len(os.sched_getaffinity(0)) < CORES or pages < MEMORY:
            self.skipTest("128 processes take 4 cores and 8 GiB of memory")
        ran = self.record(*mpirun(128, self.compile("collectives")))
        if not self.program and "this one would have" in ran.stderr:
            self.skipTest("so large a plan of this MPI is made with a checker alone")
        self.assertEqual(ran.returncode, 0, ran.stderr[:300])
        if self.program:
            self.assertIsNone(why_other_findings(self.program, self.plan, 0))

    def test_a_program_of_python(self) -> None:
        """A program of mpi4py has no false findings, and its calls come from its lines."""
        python = find_python()
        if not python:
            self.skipTest("there is no mpi4py")
        path = PROGRAMS / "cases.py"
        ran = self.record("--answers", self.answers, *mpirun(3, python, path))
        self.assertEqual(ran.returncode, 0, ran.stderr[:300])
        if self.program:
            self.assertIsNone(why_wrong(self.program, self.plan, self.answers, 0))
        number = read_scripts(read_file(self.plan))[0].index("publish told port") + 1
        source = read_file(path).splitlines()
        line = 1 + next(n for n, text in enumerate(source) if 'Publish_name("told"' in text)
        found = run_recorder("--where", "app:0", str(number), self.plan).stdout
        self.assertEqual(found, f"<module> (cases.py:{line})\n")


class CallsTest(LiveTest):
    """A program that calls PMIx in many ways."""

    def hold(self, puts: int, *options: str) -> None:
        """Tests that it is told the same with the recorder as without."""
        ran = self.record_alike(mpirun(2, self.compile("calls"), *options))
        self.assertEqual(ran.returncode, 0, ran.stderr[:300])
        self.assertEqual(read_file(self.plan).count("\nput "), puts)
        self.assertGreater(ran.stdout.count("\n"), 60)

    def test_calls(self) -> None:
        self.hold(14)

    def test_threads(self) -> None:
        self.hold(414, "threads")

    def test_a_process_that_is_killed(self) -> None:
        """Its recording is there up to its end."""
        ran = self.record(*mpirun(2, self.compile("calls"), "threads", "killed"))
        self.assertNotIn(ran.returncode, (0, 125))
        self.assertIn("the command ended", ran.stderr)
        plan = read_file(self.plan)
        scripts = read_scripts(plan)
        self.assertIn("PMIx_Finalize", plan)
        self.assertEqual(len(scripts), 2)
        self.assertEqual((scripts[1][-1], scripts[1].count("commit")), ("fence all", 2))


class CasesTest(LiveTest):
    """The small programs of `cases`, `direct`, `handles` and `luck`."""

    def hold(self, name: str, of: Program, compiled: str = "cases") -> None:
        """Tests one of them."""
        words = ("--checker", self.program or "/dev/null", "--answers", self.answers)
        ran = self.record(*words, *mpirun(of.processes, self.compile(compiled), name))
        self.assertEqual((ran.returncode, ran.stdout), (0, f"{name} done\n"), ran.stderr[:300])
        luck = of.says_otherwise(is_checked=self.program is not None, is_live=True)
        said = of.said or luck + (of.says_both if self.program else "")
        self.assertIn(said, ran.stderr)
        self.assertTrue(said or not drop_each_run(ran.stderr), ran.stderr[:300])
        if self.program:
            wrong = why_wrong(
                self.program, self.plan, self.answers, of.findings, of.is_replayed
            )
            self.assertIsNone(wrong)

    def test_cases(self) -> None:
        for name, of in CASES.items():
            with self.subTest(name):
                self.hold(name, of)

    def test_luck(self) -> None:
        for name, of in LUCK.items():
            with self.subTest(name):
                self.hold(name, of, "luck")

    def test_handles(self) -> None:
        for name, of in HANDLES.items():
            with self.subTest(name):
                self.hold(name, of, "handles")

    def test_direct(self) -> None:
        for name, of in DIRECT.items():
            with self.subTest(name):
                if name == "partial" and self.gives_nothing_in_part():
                    self.skipTest("this PMIx gives no value where one of two names isn't there")
                self.hold(name, of, "direct")

    def gives_nothing_in_part(self) -> bool:
        """Whether a lookup of two names gives neither value where one isn't there: so does
        OpenPMIx 5."""
        self.record("--answers", self.answers, *mpirun(2, self.compile("direct"), "partial"))
        return "PMIX_QUERY_PARTIAL_SUCCESS" in read_file(self.answers)

    def test_where(self) -> None:
        """The calls of a race lead to their lines, and to those that called a helper."""
        if not shutil.which("addr2line"):
            self.skipTest("there is no addr2line")
        self.hold("wild1", CASES["wild1"])
        source = read_file(PROGRAMS / "cases.c").splitlines()
        number = read_scripts(read_file(self.plan))[0].index("lookup first") + 1
        found = run_recorder("--where", "app:0", str(number), self.plan).stdout
        form = r"main \({0}\) -> wild \({0}\) -> look_up \({0}\)\n".format(r"cases\.c:(\d+)")
        read = re.fullmatch(form, found)
        assert read, found
        main, wild, look_up = (source[int(part) - 1] for part in read.groups())
        self.assertIn("wild(", main)
        self.assertIn('look_up("first")', wild)
        self.assertIn("MPI_Lookup_name", look_up)

    def test_callers(self) -> None:
        """Messages lead to those that called a helper, also where the stack is the same."""
        if not shutil.which("addr2line"):
            self.skipTest("there is no addr2line")
        self.record(*mpirun(2, self.compile("callers")))
        form = r"# at main \(callers\.c:\d+\) -> (\w+) \(callers\.c:\d+\) -> hand "
        found = re.findall(form, read_file(self.plan))
        self.assertEqual(found, ["first", "second", "with_room"] * 3 * 2)

    def test_strict(self) -> None:
        self.record("--strict", *mpirun(2, self.compile("cases"), "poll"))
        if self.program:
            self.assertIsNone(why_other_findings(self.program, self.plan, 1))

    def test_too_many_calls(self) -> None:
        """A program with more calls than a plan may have is told so, and its recordings stay."""
        kept = self.room / "kept"
        words = ("--checker", "/bin/false", "--keep", kept)
        ran = self.record(*words, *mpirun(2, self.compile("cases"), "toomany"))
        self.assertEqual((ran.returncode, ran.stdout), (125, "toomany done\n"))
        said = r"a plan has at most 16,384 calls, and this one would have 20,0\d\d\n"
        self.assertRegex(ran.stderr, said)
        self.assertEqual(len([*kept.glob("*.recording")]), 2)

    def test_a_script(self) -> None:
        """A script that holds `mpirun -x` is recorded, and its status is passed on."""
        run = " ".join(mpirun(2, self.compile("cases"), "split")[1:])
        ran = self.record("sh", "-c", f"WORD=1 mpirun -x WORD {run}; exit 3")
        self.assertEqual(ran.returncode, 3, ran.stderr[:300])
        if self.program:
            self.assertIsNone(why_other_findings(self.program, self.plan, 0))


class OtherWaysTest(LiveTest):
    """Programs that call MPI in another way than by its plain functions in C."""

    def hold(self, name: str) -> None:
        """Tests one of them."""
        of = OTHER_WAYS[name]
        path, *words = of.words
        words = [self.compile(word) if word.endswith(".so") else word for word in words]
        run = mpirun(of.processes, self.compile(path), *words)
        ran = self.record_alike(run, "--answers", self.answers)
        self.assertEqual((ran.returncode, drop_each_run(ran.stderr)), (0, of.says_in_part))
        if self.program:
            self.assertIsNone(why_wrong(self.program, self.plan, self.answers, of.findings))

    def test_hidden_calls(self) -> None:
        """They are seen, or the recorder says that a verdict holds only in part."""
        self.compile("liblookups.so")
        path = self.compile("hidden")
        for name, of in HIDDEN.items():
            with self.subTest(name):
                words = [self.compile(word) for word in of.words]
                run = mpirun(of.processes, path, name, *words)
                ran = self.record_alike(run, "--answers", self.answers)
                if name == "namespace" and ran.returncode:
                    self.skipTest("this MPI can't be opened twice")
                said = of.says_in_part + of.says_otherwise()
                self.assertEqual((ran.returncode, drop_each_run(ran.stderr)), (0, said))
                if self.program:
                    wrong = why_wrong(self.program, self.plan, self.answers, of.findings)
                    self.assertIsNone(wrong)

    def test_handlers_that_are_hard_to_notice(self) -> None:
        """One that ends with a jump, one deep below, and one after so many calls that the recorder
        no longer looks at who made each; and a function that MPI calls."""
        self.compile("liblookups.so")
        path = self.compile("hidden")
        hidden = dict.fromkeys(("jumping-handler", "deep-handler", "late-handler"), HANDLER)
        for name, told in {**hidden, "sum": CALLBACK}.items():
            with self.subTest(name):
                ran = self.record(*mpirun(2, path, name))
                said = f"wire_up-record: {IN_PART}{told}"
                self.assertEqual((ran.returncode, drop_each_run(ran.stderr)), (0, said))

    def test_a_rank_without_the_recorder(self) -> None:
        """A rank that left no recording is missed, where MPI doesn't say how many there are."""
        path = self.compile("alone")
        run = [*mpirun(2, path), ":", "-n", "1", "env", "-u", "LD_PRELOAD", path]
        if run_plainly(run).returncode:
            self.skipTest("this launcher can't start two programs at once")
        ran = self.record(*run)
        said = "1 process of a job that left no recording: its calls aren't in the plan\n"
        said = f"wire_up-record: {IN_PART}{said}"
        self.assertEqual((ran.returncode, drop_each_run(ran.stderr)), (0, said))

    def test_a_tool_of_pmix(self) -> None:
        """Also one whose name begins like that of a launcher."""
        path = self.compile("alone")
        for item in (path, shutil.copy(path, Path(self.folder.name, "prun_tests"))):
            ran = self.record(item, "tool")
            self.assertEqual((ran.returncode, drop_each_run(ran.stderr)), (0, ""))
            self.assertEqual(read_scripts(read_file(self.plan)), [["put global key number:1"]])

    def test_other_names(self) -> None:
        self.hold("pmpi")
        self.hold("barrier")

    def test_what_own_code_refers_to(self) -> None:
        """Messages of any source lead to no call that it doesn't have; but it has one if a function
        of PMIx or of names is in it, or another program, library or script can be: whatever name
        its own libraries have. That by which MPI reaches the machine opens drivers alone."""
        for name in ("event_x", "mca_common_x", "script", "hwloc"):
            self.compile(f"lib{name}.so")
        uses = ("system", "opening", "function", "script", "event_x", "mca_common_x")
        for name in ("own", "own-hwloc", *(f"own-{text}" for text in uses)):
            with self.subTest(name):
                ran = self.record(*mpirun(3, self.compile(name)))
                self.assertEqual((ran.returncode, ran.stdout), (0, "own done\n"))
                is_alone = name in ("own", "own-hwloc")
                head = read_file(self.plan).partition("\nrehearsal ")[0]
                self.assertEqual(f"# {OWN_CODE}\n" in head, is_alone)
                self.assertIn(OTHERWISE_ALONE if is_alone else OTHERWISE_AFTER, head)
                self.assertEqual("another run may do otherwise" not in ran.stderr, is_alone)

    def test_a_program_with_address_sanitizer(self) -> None:
        """It starts, though the recorder comes before the sanitizer's library, and the options that
        are chosen for that are kept."""
        try:
            path = self.compile("told-sanitized")
        except subprocess.CalledProcessError:
            self.skipTest("there is no AddressSanitizer")
        without_leaks = {**ENVIRONMENT, "ASAN_OPTIONS": "detect_leaks=0"}
        words = ("--checker", "/bin/false", "-o", self.plan)
        ran = run_recorder(*words, *mpirun(2, path), environment=without_leaks)
        self.assertEqual((ran.returncode, ran.stderr), (0, ""))
        self.assertIn("\nlookup solver\n", read_file(self.plan))

    def test_functions_that_are_looked_up(self) -> None:
        self.hold("looked-up")

    def test_a_library_that_calls_past_the_recorder(self) -> None:
        """MPI or PMIx, also where it is closed again."""
        for name in ("plugin", "closed", "past"):
            with self.subTest(name):
                self.hold(name)

    def test_a_tool(self) -> None:
        """A tool that the program is linked with still counts what the program sends."""
        self.compile("libprofiler.so")
        self.hold("profiled")

    def hold_if_new(self, name: str, what: str) -> None:
        """Tests one that needs a newer MPI."""
        if run_plainly([self.compile(name)]).returncode == TOO_OLD:
            self.skipTest(f"this MPI has no {what}")
        self.hold(name)

    def test_sessions(self) -> None:
        self.hold_if_new("sessions", "sessions")

    def test_sessions_after_the_end_of_mpi(self) -> None:
        """Their communicators are known too. The library's own keys are put twice then."""
        path = self.compile("sessions")
        if run_plainly([path]).returncode == TOO_OLD:
            self.skipTest("this MPI has no sessions")
        ran = self.record(*mpirun(2, path, "later"))
        self.assertEqual((ran.returncode, ran.stdout), (0, "sessions done\n"), ran.stderr[:300])
        if self.program:
            found = ask_program(self.program, "check", self.plan).stdout
            self.assertNotIn(" name ", found)

    def test_a_collective_that_is_started(self) -> None:
        """It is counted, and takes no message from those that are matched."""
        path = self.compile("persistent")
        if run_plainly([path]).returncode == TOO_OLD:
            self.skipTest("this MPI has no persistent collectives")
        ran = self.record_alike(mpirun(2, path))
        said = "not in the plan: 2 calls of MPI_Start of a collective or a partitioned message"
        said = f"wire_up-record: {IN_PART}{said}\n"
        self.assertEqual((ran.returncode, ran.stderr), (0, said))
        if self.program:
            self.assertIsNone(why_other_findings(self.program, self.plan, 0))

    def test_large_counts(self) -> None:
        self.hold_if_new("large", "functions with large counts")

    def test_a_duplicate_in_fortran(self) -> None:
        """Its handle stands nowhere once the call that begins it is over."""
        if not shutil.which("mpifort"):
            self.skipTest("there is no mpifort")
        ran = self.record_alike(mpirun(2, self.compile("duplicate")), "--answers", self.answers)
        self.assertEqual((ran.returncode, drop_each_run(ran.stderr)), (0, ""))
        if self.program:
            self.assertIsNone(why_wrong(self.program, self.plan, self.answers, 0))

    def test_fortran(self) -> None:
        """Alone and beside C, and its calls come from its lines."""
        if not shutil.which("mpifort"):
            self.skipTest("there is no mpifort")
        self.hold("mixed")
        self.hold("mixed-barrier")
        self.hold("fortran")
        source = read_file(PROGRAMS / "fortran.f90").splitlines()
        called, line = (
            1 + next(n for n, text in enumerate(source) if wanted in text)
            for wanted in ("call old_way(rank)", 'Publish_name("old"')
        )
        number = read_scripts(read_file(self.plan))[0].index("publish old port") + 1
        found = run_recorder("--where", "app:0", str(number), self.plan).stdout
        place = f"MAIN__ (fortran.f90:{called}) -> old_way_ (fortran.f90:{line})"
        self.assertEqual(found, f"{place}\n")


class MessagesTest(LiveTest):
    """Messages and collectives of all kinds."""

    def setUp(self) -> None:
        super().setUp()
        self.kept = self.room / "kept"
        ran = self.record("--keep", self.kept, *mpirun(4, self.compile("messages")))
        self.assertEqual(ran.returncode, 0, ran.stderr[:300])
        self.assertEqual(ran.stdout.count(f": {STEPS} steps, 0 wrong"), 4)

    def test_whom_processes_waited_for(self) -> None:
        for recording in read_recordings([str(self.kept)], VERSION_1):
            for call in recording.calls:
                if isinstance(call.action, Collective):
                    name = call.action.name
                    assert isinstance(call.end, CollectiveEnd), name
                    wanted = SOURCES[name][recording.rank]
                    self.assertEqual(call.end.sources, wanted, f"{name} of {recording.rank}")

    def test_they_order_what_they_must(self) -> None:
        if not self.program:
            self.skipTest("there is no built wire_up: WIRE_UP_PROGRAM names none")
        self.assertEqual(self.last_line(), "findings 0")
        run_recorder("--no-mpi", "-o", self.plan, "--from", self.kept)
        self.assertEqual(self.last_line(), f"findings {STEPS}")

    def last_line(self) -> str:
        """The last line that the checker writes about the plan."""
        return ask_program(self.program or "", "check", self.plan).stdout.splitlines()[-1]


class StatusesTest(LiveTest):
    """Statuses of commands, and signals."""

    def hold(self, words: Sequence[str], status: int, said: str) -> None:
        """Tests what a command ends with."""
        ran = self.record(*words)
        self.assertEqual(ran.returncode, status)
        self.assertIn(said, ran.stderr)
        self.assertNotIn("Traceback", ran.stderr)

    def test_a_status(self) -> None:
        self.hold(["sh", "-c", "exit 7"], 125, "there is no recording")

    def test_a_command_that_is_not_there(self) -> None:
        self.hold(["./no-such-command"], 127, "No such file")

    def test_a_command_that_cannot_be_run(self) -> None:
        self.hold([str(self.room)], 126, "Permission denied")

    def test_a_folder_that_is_not_empty(self) -> None:
        kept = self.folder.name
        self.hold(["--keep", kept, "true"], 125, f"wire_up-record: {kept}: isn't empty\n")

    def test_signals(self) -> None:
        """They reach the program, and what was recorded becomes a plan; nothing else is left."""
        for number in (signal.SIGTERM, signal.SIGINT, signal.SIGHUP):
            with self.subTest(number.name):
                self.hand_on(number)

    def test_a_launcher_that_is_killed(self) -> None:
        """What was recorded by then becomes a plan, which says that the run was cut off."""
        run = " ".join(mpirun(2, self.compile("cases"), "sleep"))
        number = self.room / "number"
        words = ["sh", "-c", f"echo $$ > {number}; exec {run}"]
        with subprocess.Popen(
            [sys.executable, COMMAND, "-o", self.plan, *words],
            stdout=subprocess.DEVNULL,
            stderr=subprocess.PIPE,
            text=True,
            env=ENVIRONMENT,
        ) as ran:
            wait_for_recordings(self.room, 2)
            os.kill(int(read_file(number)), signal.SIGKILL)
            said = ran.communicate(timeout=PATIENCE)[1]
        self.assertEqual(ran.returncode, 128 + signal.SIGKILL, said)
        self.assertIn(f"the run was cut off: {IN_PART}", said)
        self.assertIn("# The run was cut off", read_file(self.plan))

    def hand_on(self, number: signal.Signals) -> None:
        """Tests a signal."""
        run = mpirun(2, self.compile("cases"), "sleep")
        with tempfile.TemporaryDirectory(prefix="wire-up-") as here:
            words = [sys.executable, COMMAND, "-o", f"{here}/plan", *run]
            with subprocess.Popen(
                words,
                stdout=subprocess.DEVNULL,
                stderr=subprocess.PIPE,
                text=True,
                env=ENVIRONMENT,
            ) as ran:
                wait_for_recordings(Path(here), 2)
                began = time.monotonic()
                ran.send_signal(number)
                said = ran.communicate(timeout=PATIENCE)[1]
            self.assertLess(time.monotonic() - began, SOON)
            self.assertNotIn(ran.returncode, (0, 125))
            self.assertEqual(os.listdir(here), ["plan"])
            self.assertIn("the command ended", said)
            self.assertIn(f"the run was cut off: {IN_PART}", said)


class MemoryTest(LiveTest):
    """Valgrind's memcheck finds no fault of the recorder."""

    def hold(self, name: str, *options: str) -> None:
        """Tests a program of two processes."""
        if not shutil.which("valgrind"):
            self.skipTest("there is no valgrind")
        log = self.room / "memcheck.%p"
        words = ["valgrind", "-q", "--leak-check=full", f"--log-file={log}", self.compile(name)]
        ran = self.record(*mpirun(2, *words, *options))
        self.assertEqual(ran.returncode, 0, ran.stderr[:300])
        logs = [*self.room.glob("memcheck.*")]
        self.assertEqual(len(logs), 2)
        for path in logs:
            text = path.read_text(encoding="utf-8", errors="replace")
            self.assertEqual(list(find_faults(text)), [])

    def test_threads_and_callbacks(self) -> None:
        self.hold("calls", "threads")

    def test_messages(self) -> None:
        self.hold("told")


if __name__ == "__main__":
    unittest.main()
