"""Tests the command line of the recorder, for which it needn't be built."""
import itertools
import os
import re
import shutil
import signal
import stat
import sys
import tempfile
import unittest
from collections.abc import Sequence
from pathlib import Path

from wire_up_tools import VERSION
from wire_up_tools.failures import Refused
from wire_up_tools.record.command_line import OPTIONS
from wire_up_tools.record.running import OF_PMIX, find_library, make_folder
from tests import support
from tests.support import TOP, Word
from tests.support.needs import needs_program
from tests.support.tapes import (
    COMMAND,
    JUDGED,
    PROGRAMS,
    SHIPPED,
    Tape,
    ask_program,
    read_file,
    read_scripts,
    run_recorder,
    write_file,
)


class RoomTest(unittest.TestCase):
    """Tests in a folder of their own, with a recording in it."""

    def setUp(self) -> None:
        room = tempfile.TemporaryDirectory(prefix="wire-up-")
        self.addCleanup(room.cleanup)
        self.room = Path(room.name)
        self.plan = self.room / "plan"
        self.good = write_file(self.room / "good.recording", Tape(0).text())


class CommandLineTest(RoomTest):
    """What a command line ends with, and says."""

    def use(self, words: Sequence[Word], status: int, said: str = "") -> None:
        """Tests the status and a part of what is said."""
        with self.subTest(words):
            ran = run_recorder(*words)
            self.assertEqual(ran.returncode, status, ran.stderr[:300])
            self.assertIn(said, ran.stderr)
            self.assertNotIn("Traceback", ran.stderr)
            if not status:
                self.assertEqual(JUDGED.sub("", ran.stderr), "")

    def test_help(self) -> None:
        ran = run_recorder("--help")
        self.assertEqual((ran.returncode, ran.stderr), (0, ""))
        self.assertEqual(ran.stdout, run_recorder("-h").stdout)
        for option in OPTIONS:
            self.assertIn(f"\n  {option.written}  ", ran.stdout)
        self.assertNotRegex(ran.stdout, r"(?m) $")

    def test_two_texts_for_one_file(self) -> None:
        link = self.room / "link"
        link.symlink_to(self.plan)
        for option, path in (("--answers", self.plan), ("--pattern", link)):
            self.use(
                ["-o", self.plan, option, path, "--from", self.good],
                125,
                "each need a file of their own",
            )
        self.assertFalse(self.plan.exists())
        self.use(["-o", os.devnull, "--answers", os.devnull, "--from", self.good], 0)

    def test_folders_for_recordings(self) -> None:
        """None is made in place of the text, nor beside the name of an open file."""
        both = f"^{self.plan}: -o and --keep each need a path of their own$"
        with self.assertRaisesRegex(Refused, both):
            make_folder(f"{self.room}/./plan", str(self.plan))
        self.assertFalse(self.plan.exists())
        os.chdir(self.room)
        self.addCleanup(os.chdir, TOP)
        with open(self.good, "rb") as file:
            made = make_folder(f"/dev/fd/{file.fileno()}", None)
        self.assertEqual(Path(made).parent, self.room.resolve())

    def test_a_text_for_a_recording_that_is_read(self) -> None:
        """It isn't overwritten, by whichever way it is named."""
        copy, link = self.room / "0.recording", self.room / "link"
        shutil.copy(self.good, copy)
        link.symlink_to(copy)
        before = read_file(copy)
        outputs: tuple[Sequence[Word], ...] = (
            ["-o", copy], ["-o", link], ["-o", self.plan, "--answers", copy]
        )
        for words, named in itertools.product(outputs, (copy, self.room)):
            self.use([*words, "--from", named], 125, "is a recording that is read")
        self.assertEqual(before, read_file(copy))
        self.assertFalse(self.plan.exists())

    def test_what_is_no_file(self) -> None:
        self.use(["-o", self.plan, "--from", "/dev/zero"], 125, "/dev/zero: it is no file")
        folder = self.room / "folder"
        folder.mkdir()
        os.mkfifo(folder / "0.recording")
        self.use(["-o", self.plan, "--from", folder], 125, "0.recording: it is no file")

    def test_what_is_missing(self) -> None:
        self.use([], 125, "-o PLAN says where the plan goes")
        self.use(["-o", self.plan], 125, "which command?")
        self.use(["-o", self.plan, "--"], 125, "which command?")
        self.use(["true"], 125, "-o PLAN")
        self.use(["-o", self.plan, "--from"], 125, "which recordings?")

    def test_options(self) -> None:
        more = " (wire_up-record --help tells more)\n"
        said = f"wire_up-record: --loud is no option{more}"
        self.use(["-o", self.plan, "--loud", "true"], 125, said)
        self.use(["-o", self.plan, "--str", "true"], 125, "--str is no option")
        self.use(["-o", self.plan, "-5"], 125, "-5 is no option")
        self.use(["-o", self.plan, "--strict=yes", "true"], 125, "--strict=yes is no option")
        self.use(["-o", self.plan, "-o", self.plan, "true"], 125, "-o stands twice")
        self.use(["-o"], 125, "-o needs a file")
        self.use(["--keep"], 125, "--keep needs a folder")
        kept = ("--keep", f"{self.room}/kept", "--from", self.good)
        self.use(["-o", self.plan, *kept], 125, "--keep goes with a command")

    def test_an_error_is_one_line(self) -> None:
        ran = run_recorder("-o")
        said = "wire_up-record: -o needs a file (wire_up-record --help tells more)\n"
        self.assertEqual(ran.stderr, said)

    def test_recordings(self) -> None:
        self.use(["-o", self.plan, "--from", self.good], 0)
        self.use(["-o", "-", "--from", self.good], 0)
        self.use(["-o", self.plan, "--from", self.room], 0)
        twice = ("--from", self.good, "--", self.good)
        self.use(["-o", self.plan, *twice], 125, "is rank 0 of job once more")
        none = self.room / "none"
        self.use(["-o", self.plan, "--from", none], 125, "none: No such file")

    def test_where_the_plan_goes(self) -> None:
        no_place = self.room / "no" / "plan"
        self.use(["-o", no_place, "--from", self.good], 125, "No such file")
        self.use(["-o", "/dev/full", "--from", self.good], 125, "No space left")
        self.use(["-o", self.room, "--from", self.good], 125, "Is a directory")

    @needs_program
    def test_where_the_plan_of_a_command_goes(self) -> None:
        """It is tried before the command runs, and nothing is left there."""
        refused = {
            str(self.room): "Is a directory",
            "/dev/full": "No space left",
            f"{self.room}/no/plan": "No such",
        }
        for path, said in refused.items():
            for words in (["-o", path], ["-o", str(self.plan), "--answers", path]):
                self.refuse_before(words, f"wire_up-record: {path}: {said}")
        self.assertEqual([name for name in os.listdir("/dev") if "wire_up" in name], [])
        self.assertEqual(os.listdir(self.room), ["good.recording"])

    def refuse_before(self, words: Sequence[str], said: str) -> None:
        """Tests that a command isn't run, and what is said."""
        if not find_library(TOP, OF_PMIX):
            self.skipTest("the recorder isn't built")
        touched = self.room / "ran"
        self.use([*words, "touch", touched], 125, said)
        self.assertFalse(touched.exists())

    def test_options_after_recordings(self) -> None:
        """They mean the same there; behind a command they are the command's."""
        self.use(["--from", self.good, "-o", self.plan], 0)
        self.use(["--from", self.good, "--from", self.good, "-o"], 125, "-o needs a file")
        self.use(["true", "-o", self.plan], 125, "-o PLAN says where")
        self.assertTrue(self.plan.exists())

    def test_version(self) -> None:
        """Each command tells that of the program."""
        for name in ("record", "report", "run"):
            path = TOP / f"wire_up-{name}"
            for option in ("-V", "--version"):
                ran = ask_program(sys.executable, path, option)
                self.assertEqual((ran.returncode, ran.stderr), (0, ""))
                self.assertEqual(ran.stdout, f"wire_up-{name} {VERSION}\n")

    def test_a_signal_before_the_command_has_begun(self) -> None:
        """While its parts are read, one line says so."""
        for name in ("record", "report", "run"):
            room = self.room / name
            package = room / "python" / "wire_up_tools" / name
            package.mkdir(parents=True)
            shutil.copy(TOP / f"wire_up-{name}", room)
            write_file(package / "command_line.py", b"raise KeyboardInterrupt\n")
            ran = ask_program(sys.executable, room / f"wire_up-{name}")
            self.assertEqual(ran.returncode, 130)
            self.assertEqual(ran.stderr, f"wire_up-{name}: interrupted\n")

    def test_signals_while_it_ends(self) -> None:
        """Those that come after the first one don't disturb it."""
        sends = b"while kill -TERM $PPID; do sleep 0.002; done"
        words = b"#!/bin/sh\n(" + sends + b") > /dev/null 2>&1 < /dev/null &\nsleep 9\n"
        checker = write_file(self.room / "checker", words)
        os.chmod(checker, stat.S_IRWXU)
        ran = ask_program(COMMAND, "--checker", checker, "-o", self.plan, "--from", self.good)
        self.assertEqual(ran.returncode, 128 + signal.SIGTERM)
        self.assertEqual(ran.stderr, "wire_up-record: ended by signal 15\n")
        self.assertFalse(self.plan.exists())

    def test_a_link_is_replaced(self) -> None:
        link = self.room / "link"
        link.symlink_to(self.room / "elsewhere")
        self.use(["-o", link, "--from", self.good], 0)
        self.assertFalse(link.is_symlink())

    def test_the_command_by_a_link(self) -> None:
        link = self.room / "recorder"
        link.symlink_to(COMMAND)
        ran = ask_program(link, "-o", "-", "--from", self.good)
        self.assertEqual((ran.returncode, JUDGED.sub("", ran.stderr)), (0, ""))
        self.assertTrue(ran.stdout.startswith("# Recorded by wire_up-record on 2023-11-14"))


class LargeTest(RoomTest):
    """Plans past the plain limits."""

    def test_large(self) -> None:
        """They are written where the checker has --large, and say so at their head."""
        words = b"#!/bin/sh\necho '      --large  lifts the limits'\n"
        checker = write_file(self.room / "checker", words)
        os.chmod(checker, stat.S_IRWXU)
        tape = Tape()
        for _ in range(16385):
            tape.call("commit")
        large = write_file(self.room / "large.0", tape.text())
        ran = run_recorder("-o", "-", "--checker", checker, "--from", large)
        said = "# Larger than the plain limits: `wire_up check --large` reads it.\n"
        self.assertIn(said, ran.stdout)
        self.assertEqual((ran.returncode, ran.stdout.count("\ncommit")), (0, 16385))
        ran = run_recorder("-o", "-", "--checker", "/bin/false", "--from", large)
        self.assertEqual(ran.returncode, 125)


class InPartTest(RoomTest):
    """Plans that are more ordered than the program."""

    def test_in_part(self) -> None:
        """That is said beside the head of the plan too."""
        tapes = Tape(0), Tape(1)
        fence = tapes[0].begin("fence nb all pmix.collect=number:1:1")
        tapes[0].call("publish blocks m=text:x -").end(fence)
        tapes[1].call("fence blocks all pmix.collect=number:1:1")
        files = [
            write_file(self.room / f"part.{n}", tape.text())
            for n, tape in enumerate(tapes)
        ]
        ran = run_recorder("-o", self.plan, "--from", *files)
        said = (
            "a verdict over this plan holds only in part: "
            "1 call made while one that doesn't block was open"
        )
        self.assertEqual(ran.returncode, 0)
        self.assertIn(said, ran.stderr)


# A get of one key brings the others to the node, where another rank asks for one without waiting.
OWNER = (("put global a text:1", "0"), ("put global b text:2", "0"), ("commit", "0"))
ASKING = (
    ("get blocks job:0 :a -", "0 text:1"),
    ("get blocks job:0 :b pmix.immediate=number:1:1", "-46"),
)
OF_LIBRARY = "library OpenPMIx%204.2.2rc2%20(PMIx%20Standard)"


@needs_program
class LibraryTest(RoomTest):
    """What is said of the library that was recorded."""

    def record(self, library: str, namespace: str) -> str:
        """What the recorder says of a plan of three ranks that a library served."""
        scripts = (OWNER, ASKING[:1], ASKING[1:])
        for rank, script in enumerate(scripts):
            tape = Tape(rank, namespace, f"n{min(rank, 1)}")
            tape.lines[-1] = library
            for call, end in script:
                tape.call(call.replace("job:", f"{namespace}:"), end)
            write_file(self.room / f"{namespace}.{rank}.recording", tape.text())
        os.remove(self.good)
        ran = run_recorder("--checker", support.program(), "-o", self.plan, "--from", self.room)
        self.assertEqual(ran.returncode, 0, ran.stderr)
        return ran.stderr.splitlines()[-1] if ran.stderr else ""

    def say_libraries(self, library: str, namespace: str) -> str:
        """What the recorder says of libraries, of such a plan."""
        self.record(library, namespace)
        words = ("--checker", support.program(), "-o", self.plan, "--from", self.room)
        return run_recorder(*words, says_libraries=True).stderr.splitlines()[-1]

    def test_for_which_libraries_it_is_portable(self) -> None:
        """It names the version that was recorded."""
        said = self.say_libraries(OF_LIBRARY, "7001")
        self.assertTrue(said.startswith("wire_up-record: portable for no library"), said)
        named = "; OpenPMIx 4.2.2rc2, which was recorded, is none of these"
        self.assertTrue(said.endswith(named), said)

    def test_libraries_that_are_not_judged(self) -> None:
        """Nothing is known of OpenPMIx 5 under Slurm, nor of one that isn't known at all."""
        for library, namespace, unjudged in (
            ("OpenPMIx%205.0.7", "slurm.pmix.7.0", "OpenPMIx 5.0.7 under Slurm"),
            ("OpenPMIx%203.2.3", "7001", "OpenPMIx 3.2.3"),
        ):
            with self.subTest(unjudged):
                said = self.say_libraries(f"library {library}", namespace)
                self.assertTrue(said.endswith(f"; of {unjudged} it isn't known"), said)
                self.setUp()

    def test_calls_that_it_answers_otherwise(self) -> None:
        self.assertEqual(
            self.record(OF_LIBRARY, "7001"),
            "wire_up-record: OpenPMIx 4.2.2, which was recorded, is known to answer 1 of 5 calls "
            "otherwise than the rules (wire_up-run --predict openpmix-4.2 names them); the verdict "
            "says less of app:2 1 get-now: the reply can depend on which rank is fast",
        )

    def test_another_version_that_is_near(self) -> None:
        """What is known was measured with one version, and that is said."""
        said = self.record(OF_LIBRARY.replace("4.2.2rc2", "4.2.20"), "7001")
        near = ": OpenPMIx 4.2.20 was recorded, and OpenPMIx 4.2.2 is known to answer 1 of 5 calls"
        self.assertIn(near, said)

    def test_a_library_that_is_not_known(self) -> None:
        self.assertNotIn("otherwise", self.record(OF_LIBRARY.replace("4.2.2", "3.2.3"), "7001"))


class WhereTest(RoomTest):
    """Where in the program the calls of a plan come from."""

    def find(self, process: str, number: int) -> str:
        """Where a call of the plan comes from."""
        ran = run_recorder("--where", process, str(number), self.plan)
        self.assertEqual((ran.returncode, ran.stderr), (0, ""))
        return ran.stdout

    def test_a_race(self) -> None:
        """The calls of a finding lead to the lines of the program that made them."""
        ran = run_recorder("-o", self.plan, "--from", SHIPPED / "wild1")
        self.assertEqual(ran.returncode, 0)
        source = read_file(PROGRAMS / "cases.c").splitlines()
        scripts = read_scripts(read_file(self.plan))
        calls = (
            ("app:0", "lookup first", "look_up", "MPI_Lookup_name"),
            ("app:1", "publish first port", "publish", "MPI_Publish_name"),
        )
        for process, words, function, called in calls:
            number = scripts[int(process[-1])].index(words) + 1
            read = re.fullmatch(rf"{function} \(cases\.c:(\d+)\)\n", self.find(process, number))
            assert read, process
            self.assertIn(called, source[int(read[1]) - 1])

    def test_a_program_of_python(self) -> None:
        """A call of mpi4py comes from its line of Python."""
        run_recorder("-o", self.plan, "--from", SHIPPED / "mpi4py")
        number = read_scripts(read_file(self.plan))[0].index("publish told port") + 1
        source = read_file(PROGRAMS / "cases.py").splitlines()
        line = 1 + next(n for n, text in enumerate(source) if 'Publish_name("told"' in text)
        self.assertEqual(self.find("app:0", number), f"<module> (cases.py:{line})\n")

    def test_a_call_that_is_not_there(self) -> None:
        run_recorder("-o", self.plan, "--from", SHIPPED / "wild1")
        for process, number in (("app:0", "99"), ("app:9", "1"), ("other:0", "1")):
            ran = run_recorder("--where", process, number, self.plan)
            said = f"wire_up-record: {self.plan}: has no call {number} of {process}\n"
            self.assertEqual((ran.returncode, ran.stderr), (125, said))

    def test_words_that_are_wrong(self) -> None:
        plan = str(self.plan)
        more = ("app:0", "1", plan, "--", "app:1")
        wrong = ("app:0", "0", plan), ("app:0", "x", plan)
        for words in ((), ("app:0", "1"), more, *wrong):
            with self.subTest(words):
                ran = run_recorder("--where", *words)
                self.assertEqual(ran.returncode, 125)
                self.assertIn("--where needs a process, the number of a call", ran.stderr)

    @needs_program
    def test_the_finding_names_these_calls(self) -> None:
        program = support.program()
        run_recorder("-o", self.plan, "--from", SHIPPED / "wild1")
        first, second = read_scripts(read_file(self.plan))[:2]
        calls = first.index("lookup first") + 1, second.index("publish first port") + 1
        said = f"race app:0 {calls[0]} app:1 {calls[1]} name first"
        self.assertEqual(ask_program(program, "check", self.plan).stdout.splitlines()[0], said)


if __name__ == "__main__":
    unittest.main()
