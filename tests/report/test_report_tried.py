"""Tests what pages, texts and SARIF say of races and orders that were tried in a program."""
import json
import subprocess
import sys
import tempfile
import unittest
from pathlib import Path
from types import SimpleNamespace
from typing import cast

from wire_up_tools.plan_reading import read_plan
from wire_up_tools.report.contents import Report
from wire_up_tools.report.findings import Finding
from wire_up_tools.report.runs import Outcome
from wire_up_tools.report.verdict import SHOWN_IN_PROGRAM, say_without_runs
from wire_up_tools.words import EACH_RUN_SENTENCE
from tests.support import Word, report_support
from tests.support.needs import needs_program

RACE = "race app:0 6 app:1 6 name solver"
TRIED_BY = "# Tried by: wire_up-record --of my.plan --show mpirun -n 2 './a <b>'\n"
TURNED = (
    "# Turned round on 2026-11-30: app:0 9 publish, app:1 10 lookup: app:1 10 lookup: "
    "PMIX_SUCCESS port and PMIX_ERR_NOT_FOUND\n"
)
CAUSE = {
    "shown": (
        "Shown in this program",
        "app:1 6 lookup: PMIX_SUCCESS port and PMIX_ERR_NOT_FOUND; ended status 0 and status 139",
        "Shown in your program",
    ),
    "shown-later": (
        "Shown later in this program",
        "app:0 fence: PMIX_SUCCESS and waiting; ended status 0 both times",
        "Shown in your program, in later calls",
    ),
    "alike": (
        "Alike in both orders",
        "both orders were made, and nothing differs",
        "Not seen in your program",
    ),
    "not-made": (
        "Not made in this program",
        "app:1 had left MPI_Barrier for 2.1 s: ordered by what isn't recorded, or not at all",
        "Not made in your program",
    ),
}


class TriedTest(unittest.TestCase):
    """Plans whose heads have what was tried."""

    def setUp(self) -> None:
        folder = tempfile.TemporaryDirectory()
        self.addCleanup(folder.cleanup)
        self.plan, self.page, self.sarif = (
            Path(folder.name, word) for word in ("my.plan", "page", "sarif")
        )

    def write(self, recording: str, *head: str) -> None:
        """Writes the plan of a recording, with these lines at the end of its head."""
        words: list[Word] = ["-o", self.plan, "--from", report_support.RECORDINGS / recording]
        subprocess.run([sys.executable, report_support.RECORDER, *words], check=True)
        text = report_support.read(self.plan)
        text = text.replace("rehearsal 1\n", "".join(head) + "rehearsal 1\n", 1)
        report_support.write(self.plan, text.encode())

    @needs_program
    def test_what_came_of_a_race(self) -> None:
        for word, (start, said, title) in CAUSE.items():
            with self.subTest(word):
                self.write("early", f"# {start} on 2026-11-30: {RACE}: {said}\n", TRIED_BY)
                ran = report_support.run_report("-o", self.page, "--sarif", self.sarif, self.plan)
                self.assertEqual(1, ran.returncode, ran.stderr)
                page = report_support.read(self.page)
                made = word.startswith("shown")
                orders = ", with app:0 6 first, and then with app:1 6 first" * made
                self.assertIn(f"<h3>{title}</h3><p>2026-11-30{orders}: ", page)
                self.assertIn("&#x27;./a &lt;b&gt;&#x27;</code>", page)
                result = json.loads(report_support.read(self.sarif))["runs"][0]["results"][0]
                self.assertEqual({"tried": word, "outcome": said}, result["properties"])
                level = "error" if word == "shown" else "warning"
                self.assertEqual(level, result["level"])
                text = report_support.run_report("--text", self.plan).stdout
                self.assertIn(f" {title} on 2026-11-30{orders}: ", " ".join(text.split()))
                self.assertIn("   This does it again: wire_up-record --of my.plan", text)

    def test_a_race_that_the_program_alone_shows(self) -> None:
        """Where `witness` has no two runs, and the program shows the race, the page says both."""
        body = "rehearsal 1\nnode n0\njob app\nrank n0\nlookup a\nrank n0\npublish a v\n"
        recorded = "# Recorded by wire_up-record on 2026-11-30: 2 processes\n"
        calls = (SimpleNamespace(name="app:0 1"), SimpleNamespace(name="app:1 1"))
        finding = cast(Finding, SimpleNamespace(calls=calls))
        for start, is_shown in (("Shown in this program", True), ("Alike in both orders", False)):
            tried = f"# {start} on 2026-11-30: race app:0 1 app:1 1 name a: x\n"
            plan = read_plan((recorded + tried + body).encode())
            report = cast(Report, SimpleNamespace(plan=plan))
            said = say_without_runs(report, finding, Outcome.NOT_SHOWN)
            self.assertEqual(is_shown, said == SHOWN_IN_PROGRAM, said)
            self.assertIn("No runs", say_without_runs(report, finding, Outcome.LATE))

    @needs_program
    def test_a_race_that_was_not_tried(self) -> None:
        other = RACE.replace("app:1 6", "app:1 5")
        self.write("early", f"# Shown in this program on 2026-11-30: {other}: x\n")
        report_support.run_report("-o", self.page, "--sarif", self.sarif, self.plan)
        self.assertNotIn("<h3>Shown in your program", report_support.read(self.page))
        result = json.loads(report_support.read(self.sarif))["runs"][0]["results"][0]
        self.assertEqual(("warning", False), (result["level"], "properties" in result))

    @needs_program
    def test_orders(self) -> None:
        in_vain = "# Turned round in vain on 2026-11-30: 12 of 13 pairs\n"
        every = "# Turned round in vain on 2026-11-30: 2 of 2 pairs, all that the plan orders\n"
        on = "# Turned round on 2026-11-30, "
        alike = f"{on}turned-alike: app:0 9 publish, app:1 10 lookup: the second was over first\n"
        gave_up = f"{on}gave-up: app:0 9 commit, app:1 10 get: the library ended the wait\n"
        said = "12 orders of 13 that were turned round in the program on 2026-11-30 held"
        for head, badge, found in (
            ((in_vain,), "no race", said),
            ((every,), "no race", "the later call never came first. These are all that the plan"),
            ((in_vain, TURNED), "in part", "an order of the recorded run isn"),
            ((alike,), "no race", "t imposed, but nothing differed: app:0 9 publish, app:1 10"),
            ((gave_up,), "no race", "t wait as the rules say: app:0 9 commit, app:1 10 get: the"),
        ):
            self.write("told", *head)
            report_support.run_report("-o", self.page, self.plan)
            page = report_support.read(self.page)
            self.assertIn(f'<span class="badge">{badge}</span>', page)
            self.assertIn(found, page)

    @needs_program
    def test_orders_that_are_all_kept(self) -> None:
        """Where each run makes the calls of the plan, that is said in stronger words."""
        every = "# Turned round in vain on 2026-11-30: 2 of 2 pairs, all that the plan orders\n"
        each = f"# {EACH_RUN_SENTENCE}\n"
        strong = "On 2026-11-30 it kept, though calls were held back, all that could change them: 2"
        for head, is_strong in (((each, every), True), ((each,), False), ((every,), False)):
            self.write("told", *head)
            ran = report_support.run_report("-o", self.page, "--sarif", self.sarif, self.plan)
            self.assertEqual(0, ran.returncode, ran.stderr)
            page = report_support.read(self.page)
            self.assertEqual(is_strong, f"{EACH_RUN_SENTENCE} {strong} orders." in page)
            said = json.loads(report_support.read(self.sarif))["runs"][0]["properties"]
            self.assertEqual(int(every in head), len(said["ordersKept"]))


if __name__ == "__main__":
    unittest.main()
