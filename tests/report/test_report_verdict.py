"""Tests the verdict line of a report: it says what is known, and no more."""
import tempfile
import unittest
from pathlib import Path

from wire_up_tools.plan_reading import read_plan
from wire_up_tools.report.partial import find_reasons, say_own_code
from wire_up_tools.words import (
    LEFT_TO_LUCK,
    OTHERWISE_AFTER,
    OTHERWISE_ALONE,
    OWN_CODE,
    RECORDED_BY,
    TAKEN,
)
from tests.support import report_support
from tests.support.needs import needs_program

HEAD = "# Recorded by wire_up-record on a day: 2 processes\n"
PLAN = "rehearsal 1\nnode n\njob app\nrank n\nput global k v\ncommit\n"
# The first line of the text of a report, by the name of the plan.
FIRST_LINES = {
    "process-map": "process-map.plan: no race; 2 calls fail",
    "card-fence": "card-fence.plan: no race; 1 call fails",
    "standstill": "standstill.plan: no race; 2 ranks wait for ever",
    "late": "late.plan: no race; 4 ranks wait for ever",
    "failing": "failing.plan: no race; 3 calls fail, 1 rank waits for ever",
    "business-card": "business-card.plan: no race",
    "recorded-ring": "recorded-ring.plan: no race",
    "recorded-sleep": (
        "recorded-sleep.plan: no race seen, in part "
        "(the run was cut off, 2 recordings end early: what came then isn't known)"
    ),
    "recorded-poll": (
        "recorded-poll.plan: no race seen, in part (the order of 1 polled request is that of this "
        "run: findings 0, and findings 1 with --strict)"
    ),
}


def find_reasons_in(*head: str) -> list[str]:
    """Why the verdict on a recorded plan with these lines at its head holds only in part."""
    return find_reasons(read_plan((HEAD + "".join(f"# {text}\n" for text in head) + PLAN).encode()))


@needs_program
class VerdictTest(unittest.TestCase):
    """The verdicts of plans."""

    def test_first_lines(self) -> None:
        for name, wanted in FIRST_LINES.items():
            with self.subTest(name):
                path = report_support.find_plan(name)
                older = report_support.make_older()
                ran = report_support.run_report("--text", path, checker=older)
                flat = " ".join(ran.stdout.split())
                self.assertTrue(flat.startswith(f"{wanted} "), flat[:300])

    def test_the_page_of_a_plan_in_part(self) -> None:
        page = report_support.read(report_support.make_page("recorded-poll").page)
        header = page.partition("<header")[2].partition("</header>")[0]
        for wanted in ('class="partly"', "in part</span>", "findings 1 with --strict)</span>"):
            self.assertIn(wanted, header)
        self.assertLess(header.index("--strict"), header.index("<details"))

    def test_calls_that_fail_are_listed(self) -> None:
        text = report_support.run_report("--text", report_support.find_plan("card-fence")).stdout
        self.assertIn("app:2 5 get-now, card-fence.plan:27: PMIX_ERR_NOT_FOUND", text)

    def test_a_race_in_part(self) -> None:
        with tempfile.TemporaryDirectory(prefix="wire-up-report-") as room:
            early = report_support.read(report_support.EARLY)
            more = "# More ordered than the program, so that a race can be missed:\n#   1 thread\n"
            path = Path(room, "a.plan")
            report_support.write(path, (HEAD + more + early).encode())
            said = report_support.run_report("--text", path).stdout
        self.assertTrue(said.startswith("a.plan: 1 race; others may be missed (1 thread)\n"), said)


class ReasonsTest(unittest.TestCase):
    """Why a verdict holds only in part, by the head of a plan."""

    def test_a_plan_that_is_whole(self) -> None:
        harmless = ("24 gets of a wildcard rank", "2 puts of reserved keys", "4 calls of MPI_File")
        self.assertEqual(find_reasons_in("Left out:", *(f"  {word}" for word in harmless)), [])
        self.assertEqual(find_reasons(read_plan(b"# Left out:\n#   3 calls\n" + PLAN.encode())), [])

    def test_what_was_left_out(self) -> None:
        found = find_reasons_in("Left out:", "  1 calls of PMIx_Spawn", "  3 puts that failed")
        self.assertEqual(found, ["not in the plan: 1 call of PMIx_Spawn, 3 puts that failed"])

    def test_threads(self) -> None:
        threads = "2 processes that called from several threads"
        title = "More ordered than the program, so that a race can be missed:"
        self.assertEqual(find_reasons_in(title, f"  {threads}"), [threads])

    def test_receives_that_could_have_got_another_message(self) -> None:
        what = "2 receives that could have got another message"
        found = find_reasons_in(OTHERWISE_AFTER, f"  {what}")
        self.assertEqual(found, [f"another run may do otherwise after {what}"])

    def test_own_code_that_has_no_call_of_pmix(self) -> None:
        """What luck decides is told quietly then, and neither list nor order holds in part."""
        what, polled = "2 receives that could have got another message", f"3 {LEFT_TO_LUCK} (x)"
        head = f"# {RECORDED_BY}\n# {polled}: {TAKEN}.\n"
        more = f"# {OWN_CODE}\n# {OTHERWISE_ALONE}\n#   {what}\n"
        plan = read_plan((head + more + PLAN).encode())
        self.assertEqual(find_reasons(plan), [])
        self.assertIn(f"may do otherwise after {what}, but ", say_own_code(plan) or "")
        plan = read_plan((head + PLAN).encode())
        self.assertEqual(len(find_reasons(plan)), 1)
        self.assertIsNone(say_own_code(plan))

    def test_a_recording_that_was_cut_off(self) -> None:
        title, last = "Left out:", "  1 last lines of recordings, which were cut"
        wanted = ["the run was cut off, 1 recording ends early: what came then isn't known"]
        self.assertEqual(find_reasons_in(title, last), wanted)
        title = "The run was cut off, so that a verdict holds only in part:"
        self.assertEqual(find_reasons_in(title, last), wanted)


if __name__ == "__main__":
    unittest.main()
