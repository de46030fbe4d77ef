"""Tests what `wire_up-report` refuses, where it writes, and that it finds its parts."""
import os
import re
import shutil
import subprocess
import sys
import tempfile
import unittest
from pathlib import Path

from wire_up_tools.failures import Unusable
from wire_up_tools.report.command_line import HELP, read_options
from tests import support
from tests.support import Word, report_support
from tests.support.needs import needs_program
from tests.support.report_support import EARLY

FAILED = 125
KEPT = "kept"


class CommandCase(unittest.TestCase):
    """A test with a folder of its own, in which there is a page already."""

    def setUp(self) -> None:
        room = tempfile.TemporaryDirectory(prefix="wire-up-report-")
        self.addCleanup(room.cleanup)
        self.room = Path(room.name)
        self.kept = report_support.write(self.find("kept.html"), KEPT.encode())

    def find(self, name: str) -> Path:
        """A path in the folder."""
        return self.room / name


class RefusalsTest(CommandCase):
    """What can't be reported ends with status 125 and one line, and leaves what was there."""

    def refuse(self, said: str, *words: Word, checker: Word | None = None) -> None:
        """Tests that the command says this line, as a pattern, and writes nothing."""
        ran = report_support.run_report(*words, checker=checker)
        self.assertEqual((ran.returncode, ran.stdout), (FAILED, ""))
        self.assertRegex(ran.stderr, f"^{said}\n$")
        self.check_kept()

    def check_kept(self) -> None:
        """Tests that the page that was there is there, and nothing else is left."""
        self.assertEqual(report_support.read(self.kept), KEPT)
        self.assertEqual([name for name in os.listdir(self.room) if name.endswith(".new")], [])

    @needs_program
    def test_a_plan_that_is_refused(self) -> None:
        bad = report_support.write(self.find("bad.plan"), b"rehearsal 1\nnonsense\n")
        self.refuse("wire_up: fault 4 BadLine 2", "-o", self.kept, bad)

    @needs_program
    def test_a_plan_that_is_not_there(self) -> None:
        said = r"wire_up-report: \S+none: No such file or directory"
        self.refuse(said, "-o", self.kept, self.find("none"))

    @needs_program
    def test_a_folder_that_is_not_there(self) -> None:
        said = "wire_up-report: .*No such file or directory"
        self.refuse(said, "-o", self.find("no") / "x.html", EARLY)

    def test_a_checker_that_is_not_there(self) -> None:
        said = r"wire_up-report: \S+no: No such file or directory"
        self.refuse(said, "-o", self.kept, EARLY, checker=self.find("no"))

    def test_a_checker_that_is_another_program(self) -> None:
        said = "wire_up-report: .* is no finding"
        self.refuse(said, "-o", self.kept, EARLY, checker="/bin/true")

    def test_a_checker_that_ends_with_a_fault(self) -> None:
        said = "wire_up-report: .* ended with status 7"
        script = report_support.write(self.find("checker"), b"#!/bin/sh\nexit 7\n")
        script.chmod(0o755)
        self.refuse(said, "-o", self.kept, EARLY, checker=script)

    def refuse_line(self, line: str, *words: Word) -> None:
        """Tests that a command line is refused with this line alone."""
        ran = report_support.run_report(*words)
        self.assertEqual((ran.returncode, ran.stdout), (FAILED, ""))
        more = " (wire_up-report --help tells more)"
        self.assertEqual(ran.stderr, f"wire_up-report: {line}{more}\n")
        self.check_kept()

    @needs_program
    def test_no_plan(self) -> None:
        self.refuse_line("which plan?")

    @needs_program
    def test_two_plans(self) -> None:
        self.refuse_line("one plan at a time", EARLY, EARLY)

    @needs_program
    def test_an_option_after_the_plan(self) -> None:
        """It is one there too."""
        self.refuse_line("one plan at a time", EARLY, "--text", EARLY)
        said = report_support.run_report(EARLY, "--text")
        self.assertEqual(said.stdout, report_support.run_report("--text", EARLY).stdout)

    @needs_program
    def test_an_option_twice(self) -> None:
        self.refuse_line("-o stands twice", "-o", self.kept, "-o", self.kept, EARLY)

    @needs_program
    def test_an_option_that_is_none(self) -> None:
        self.refuse_line("--json is no option", "--json", EARLY)

    @needs_program
    def test_an_option_that_is_cut(self) -> None:
        self.refuse_line("--lar is no option", "--lar", EARLY)

    @needs_program
    def test_an_option_without_its_word(self) -> None:
        self.refuse_line("--source needs a folder", "--source")

    @needs_program
    def test_an_option_with_a_word_too_many(self) -> None:
        self.refuse_line("--text=yes is no option", "--text=yes", EARLY)

    @needs_program
    def test_what_looks_like_a_number(self) -> None:
        self.refuse_line("-1 is no option", "-1")


class OptionsTest(unittest.TestCase):
    """What the words of a command line mean."""

    def test_what_is_written_where(self) -> None:
        self.assertEqual(read_options(["plan"]).output, "report.html")
        self.assertEqual(read_options(["--text", "plan"]).output, "-")
        self.assertEqual(read_options(["--text", "-o", "file", "plan"]).output, "file")

    def test_a_plan_that_begins_with_a_dash(self) -> None:
        self.assertEqual(read_options(["--", "-plan"]).plan, "-plan")
        with self.assertRaises(Unusable):
            read_options(["-plan"])


@needs_program
class WritingTest(CommandCase):
    """Where the page goes."""

    def test_standard_output_has_what_a_file_has(self) -> None:
        ran = report_support.run_report("-o", "-", EARLY)
        command = [sys.executable, report_support.COMMAND, "--checker", support.program(), EARLY]
        subprocess.run(command, cwd=self.room, stdin=subprocess.DEVNULL, check=False)
        self.assertEqual(ran.returncode, 1)
        self.assertEqual(ran.stdout, report_support.read(self.find("report.html")))

    def test_a_device(self) -> None:
        ran = report_support.run_report("-o", "/dev/null", EARLY)
        self.assertEqual((ran.returncode, ran.stdout, ran.stderr), (1, "", ""))

    def test_a_plan_of_a_strange_name(self) -> None:
        name = self.find(os.fsdecode(b"\xff<b>.plan"))
        shutil.copy(EARLY, name)
        sarif: tuple[Word, ...] = ("--text", "--sarif", self.find("it.sarif"))
        for words in (("-o", "-"), sarif):
            ran = report_support.run_report(*words, name)
            self.assertEqual(ran.returncode, 1, ran.stderr)


# A checker that notes how it is started.
NOTING = """#!/bin/sh
echo "$*" >> "{room}/starts"
exec "{program}" "$@"
"""


@needs_program
class StartsTest(CommandCase):
    """How often a report starts the checker."""

    def count(self, plan: str) -> int:
        """How many times it is started for the page of a file among the examples."""
        text = NOTING.format(room=self.room, program=support.program())
        checker = report_support.write(self.find("checker"), text.encode())
        checker.chmod(0o755)
        path = report_support.EXAMPLES / plan
        report_support.run_report("-o", "/dev/null", path, checker=checker)
        return len(report_support.read(self.find("starts")).splitlines())

    def test_a_plan_with_a_race(self) -> None:
        # Its version, what is found as written and anywhere, its options, on which libraries each
        # run does as the rules say, two runs, and what comes of each.
        self.assertEqual(self.count("early-get.plan"), 8)

    def test_a_plan_without_findings(self) -> None:
        self.assertEqual(self.count("ordered-get.plan"), 6)

    def test_a_pattern(self) -> None:
        self.assertEqual(self.count("patterns/business-cards.pattern"), 2)


class PartsTest(CommandCase):
    """The command finds its parts, and the checker beside it."""

    def ask(self, command: Word, *words: Word) -> "subprocess.CompletedProcess[str]":
        """Runs a command that isn't that of the repository."""
        return subprocess.run(
            [sys.executable, command, *words], capture_output=True, text=True, check=False
        )

    def test_help(self) -> None:
        for option in ("-h", "--help"):
            ran = self.ask(report_support.COMMAND, option)
            self.assertEqual((ran.returncode, ran.stdout, ran.stderr), (0, HELP, ""))

    def test_called_by_a_link(self) -> None:
        link = self.find("report")
        link.symlink_to(report_support.COMMAND)
        self.assertEqual(self.ask(link, "--help").stdout, HELP)

    def install(self) -> Path:
        """Lays the command and its parts out as `make install` does. Answers its path."""
        parts = support.TOP / "python" / "wire_up_tools"
        shutil.copytree(parts, self.room / "share" / "wire_up" / "wire_up_tools")
        command = self.find("bin") / "wire_up-report"
        command.parent.mkdir()
        shutil.copy(report_support.COMMAND, command)
        return command

    def test_installed(self) -> None:
        self.assertEqual(self.ask(self.install(), "--help").stdout, HELP)

    @needs_program
    def test_the_checker_beside_it(self) -> None:
        command = self.install()
        (self.find("bin") / "wire_up").symlink_to(support.program())
        ran = self.ask(command, "--text", EARLY)
        self.assertEqual((ran.returncode, ran.stderr), (1, ""))
        self.assertTrue(re.match("early-get.plan: 1 race\n", ran.stdout), ran.stdout)

    def test_without_its_parts(self) -> None:
        ran = self.ask(shutil.copy(report_support.COMMAND, self.room), "--help")
        self.assertEqual((ran.returncode, ran.stdout), (FAILED, ""))
        self.assertRegex(ran.stderr, "^wire_up-report: .*wire_up_tools.*\n$")


if __name__ == "__main__":
    unittest.main()
