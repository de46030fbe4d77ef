"""Tests what a report says of a pattern, by a stand-in for a checker that judges patterns."""
import json
import os
import re
import tempfile
import unittest
from pathlib import Path

from wire_up_tools.report.patterns import is_pattern
from wire_up_tools.words import CUT_OFF, NO_CALL_RACES, NO_CALL_RACES_SENTENCE, PATTERN_BY
from tests import support
from tests.support import report_support
from tests.support.needs import needs_program

EVERYWHERE = "for every number of ranks on every placement"
CLEAN = f"findings 0 {EVERYWHERE}"
ANSWERED = "every call is answered for every number of ranks"
# All workers put their cards, and read those of the others after a fence.
CARDS = """\
# Every rank reads every card.
pattern 1
job app
one root
fence all
many workers
put global card v
commit
fence all collect
for workers
get-now each card
end
"""
# The root reads before the worker has committed.
EARLY = "pattern 1\njob app\none root\nput global k v\ncommit\nmany w\nget-now root k\n"
PLAN = """\
rehearsal 2
node n0
job app
rank n0
put global k v
commit
rank n0
get-now app:0 k
"""
FOUND = f"# counterexample, 2 ranks\n{PLAN}# race app:0 2 app:1 1 key app:0 k\n# findings 1\n"
SAID = "for every number of ranks: a counterexample with 2 ranks"
# A checker that judges patterns: what it says of one stands in a file.
CHECKER = """#!/bin/sh
case "$*" in
"check --pattern"*) cat > /dev/null; cat "{room}/said"; exit {status} ;;
*) exec "{program}" "$@" ;;
esac
"""


class PatternCase(unittest.TestCase):
    """A test with a folder of its own, for a pattern and what a checker says of it."""

    def setUp(self) -> None:
        room = tempfile.TemporaryDirectory(prefix="wire-up-report-")
        self.addCleanup(room.cleanup)
        self.room = room.name

    def write(self, name: str, text: str) -> str:
        """Writes a file in the folder. Answers its path."""
        return str(report_support.write(Path(self.room, name), text.encode()))

    def write_checker(self, said: str, status: int) -> str:
        """Writes the stand-in, which says this of every pattern."""
        self.write("said", said)
        text = CHECKER.format(program=support.program(), room=self.room, status=status)
        path = self.write("checker", text)
        os.chmod(path, 0o755)
        return path

    def report(self, checker: str, path: str, status: int) -> tuple[str, str]:
        """The text and the page of a file, in which all white space is one space."""
        page = Path(self.room, "page.html")
        sarif = ("--sarif", Path(self.room, "made.sarif"))
        ran = report_support.run_report("--text", path, checker=checker)
        paged = report_support.run_report("-o", page, *sarif, path, checker=checker)
        said = (ran.returncode, paged.returncode)
        self.assertEqual(said, (status, status), ran.stderr + paged.stderr)
        return " ".join(ran.stdout.split()), " ".join(report_support.read(page).split())


class FirstLineTest(unittest.TestCase):
    """Which files are patterns."""

    def test_the_first_line_that_is_not_skipped(self) -> None:
        for text in (b"pattern 1\n", b"# a\n\n \t# b\r\n\r\n  pattern 1", b"pattern"):
            self.assertTrue(is_pattern(text), text)
        for text in (b"", b"# pattern 1\n", b"patterns 1", b"rehearsal 1\npattern 1\n"):
            self.assertFalse(is_pattern(text), text)


@needs_program
class CleanTest(PatternCase):
    """A pattern in which nothing is found."""

    def test_nothing_waits(self) -> None:
        checker = self.write_checker(f"{CLEAN}\n{ANSWERED}\n", 0)
        text, page = self.report(checker, self.write("cards.pattern", CARDS), 0)
        said = "cards.pattern: no race, for every number of ranks on every placement"
        said += "; every call is answered at every size"
        self.assertTrue(text.startswith(f"{said} However many ranks"), text)
        self.assertIn('<header class="quiet">', page)
        self.assertIn(f"<h1>{said}</h1>", page)
        self.assertIn('<div id="line-11" class=""><b>11</b>get-now each card</div>', page)
        made = json.loads(report_support.read(Path(self.room, "made.sarif")))
        self.assertEqual(made["runs"][0]["results"], [])

    def test_no_calls(self) -> None:
        """That every call is answered isn't said where there is none."""
        checker = self.write_checker(f"{CLEAN}\n{ANSWERED}\n", 0)
        by = f"{PATTERN_BY}, from runs with 3 and 4 ranks, held against 8."
        head = f"# {by}\n# {NO_CALL_RACES}\n"
        for before, why in ((head, f" {NO_CALL_RACES_SENTENCE} {by}"), ("", "")):
            path = self.write("my.pattern", f"{before}pattern 1\njob app\nmany ranks\n")
            text, page = self.report(checker, path, 0)
            said = "my.pattern: no race, for every number of ranks on every placement"
            self.assertTrue(text.startswith(f"{said} It has no calls.{why}"), text)
            self.assertIn(f"<h1>{said}</h1>", page)
            self.assertIn(f"<p>It has no calls.{why}</p>", page)
            self.assertIn('<header class="quiet">', page)

    def test_calls_that_wait(self) -> None:
        said = f"{CLEAN}\nwaits root 1 fence\nwaits workers 4 get-now\n"
        checker = self.write_checker(f"{said}answers workers 4 get-now none\n", 1)
        text, page = self.report(checker, self.write("cards.pattern", CARDS), 0)
        said = "2 calls wait for ever in some of its plans: root 1 fence, workers 4 get-now"
        self.assertIn(f"on every placement; {said} ", text)
        self.assertIn("root 1 fence, cards.pattern:5: fence all ", text)
        self.assertIn("workers 4 get-now, cards.pattern:11: get-now each card", text)
        self.assertIn('<header class="waits">', page)
        self.assertIn('root 1 fence, <a href="#line-5">cards.pattern:5</a>', page)
        self.assertIn('<div id="line-5" class="named">', page)

    def test_a_pattern_of_a_plan_that_holds_in_part(self) -> None:
        """Its head has why. That of a pattern by hand says nothing."""
        checker = self.write_checker(f"{CLEAN}\n", 0)
        why = "2 processes whose recordings end before PMIx_Finalize: how they went on isn't known"
        for by, is_in_part in ((f"{PATTERN_BY}, from one run", True), ("By hand", False)):
            head = f"# {by}\n# {CUT_OFF}\n#   {why}\n"
            text, page = self.report(checker, self.write("my.pattern", head + CARDS), 0)
            said = "(the run was cut off, 2 recordings end early: what came then isn"
            for each_text in (text, page):
                self.assertEqual(said in each_text, is_in_part, each_text)
                self.assertEqual("it holds only in part." in each_text, is_in_part, each_text)
                self.assertEqual(
                    f"{PATTERN_BY}, from one run" in each_text.partition("pattern 1")[0], is_in_part
                )
            badge = '<span class="badge">in part</span>'
            self.assertEqual(badge in page, is_in_part)

    def test_calls_that_may_wait(self) -> None:
        checker = self.write_checker(f"{CLEAN}\n", 1)
        text, page = self.report(checker, self.write("cards.pattern", CARDS), 0)
        said = "That no call waits for ever is known of the plans that were judged alone."
        self.assertTrue(text.startswith(f"cards.pattern: no race, {EVERYWHERE} However "), text)
        self.assertIn(said, text)
        self.assertIn('<header class="partly">', page)
        self.assertIn('<span class="badge">calls may wait</span>', page)

    def test_at_least_so_many_ranks(self) -> None:
        said = f"{CLEAN}\nat least 2 workers\nat least 3 others\n{ANSWERED}\n"
        text, page = self.report(self.write_checker(said, 0), self.write("it.pattern", CARDS), 0)
        least = "(at least 2 workers and at least 3 others)"
        where = f"for every number of ranks {least} on every placement"
        self.assertIn(f"it.pattern: no race, {where}; every call is answered", text)
        self.assertIn(f"no race, {where}; every call is answered", page)

    def test_calls_that_fail(self) -> None:
        both = "PMIX_SUCCESS PMIX_ERR_NOT_FOUND"
        said = f"{CLEAN}\n{ANSWERED}\nanswers workers 4 get-now {both}\n"
        text, page = self.report(self.write_checker(said, 1), self.write("it.pattern", CARDS), 0)
        self.assertIn("; 1 call fails in some of its plans: workers 4 get-now; every call", text)
        where = "it.pattern:11: get-now each card"
        self.assertIn(f"workers 4 get-now, {where}, PMIX_SUCCESS, PMIX_ERR_NOT_FOUND", text)
        self.assertIn('<header class="fails">', page)
        self.assertIn("<h2>1 call fails in some plans</h2>", page)
        self.assertIn('<div id="line-11" class="named">', page)

    def test_a_call_that_fails_and_is_not_named(self) -> None:
        checker = self.write_checker(f"{CLEAN}\n{ANSWERED}\n", 1)
        text, page = self.report(checker, self.write("it.pattern", CARDS), 0)
        self.assertIn("; a call fails in some of its plans; every call is answered", text)
        self.assertIn('<header class="fails">', page)


@needs_program
class ShippedTest(PatternCase):
    """Patterns that are shipped, by the built program."""

    def badge(self, name: str) -> str:
        """The words of the verdict on the page of a pattern that is shipped."""
        path = support.TOP / "examples" / "patterns" / f"{name}.pattern"
        page = report_support.run_report("-o", "-", path)
        self.assertEqual(page.returncode, 0, page.stderr)
        (found,) = re.findall('<span class="badge">(.*?)</span>', page.stdout)
        return str(found)

    def test_green_only_where_each_call_succeeds(self) -> None:
        self.assertEqual(self.badge("business-cards"), "no race")
        self.assertEqual(self.badge("node-local"), "calls fail")
        self.assertEqual(self.badge("least-size"), "calls wait for ever")


@needs_program
class CounterexampleTest(PatternCase):
    """A pattern of which a plan has a race."""

    def test_a_pattern(self) -> None:
        checker = self.write_checker(FOUND, 1)
        text, page = self.report(checker, self.write("early.pattern", EARLY), 1)
        self.assertRegex(text, f"^early.pattern: 1 race; {SAID}(; | The replies)")
        self.assertIn("app:1 1 get-now, counterexample.plan:9, early.pattern:7 ", text)
        self.assertIn("wire_up check --pattern early.pattern > counterexample.plan", text)
        self.assertIn("<h2>The counterexample</h2>", page)
        self.assertIn(f"1 race; {SAID}", page)
        self.assertIn('<figure id="diagram-1">', page)

    def test_sarif_names_the_pattern(self) -> None:
        checker, path = self.write_checker(FOUND, 1), self.write("early.pattern", EARLY)
        self.report(checker, path, 1)
        made = json.loads(report_support.read(Path(self.room, "made.sarif")))
        (result,) = made["runs"][0]["results"]
        where = result["locations"][0]["physicalLocation"]
        self.assertTrue(where["artifactLocation"]["uri"].endswith("/early.pattern"))
        self.assertEqual(where["region"]["startLine"], 5)
        said = result["relatedLocations"][0]["message"]["text"]
        self.assertEqual(said, "app:0 2 commit in counterexample.plan")

    def test_a_counterexample_in_a_file(self) -> None:
        path = self.write("found.plan", FOUND)
        text, page = self.report(support.program(), path, 1)
        self.assertRegex(text, f"^found.plan: 1 race; {SAID}(; | The replies)")
        self.assertIn("app:1 1 get-now, found.plan:9 ", text)
        self.assertIn(SAID, page)
        self.assertIn("<h2>The plan</h2>", page)

    def test_plans_that_are_none(self) -> None:
        for text in (FOUND.replace("# race", "#  race"), FOUND.replace("# count", "# a count")):
            path = self.write("other.plan", text)
            ran = report_support.run_report("--text", path)
            self.assertNotIn("every number of ranks", ran.stdout)


@needs_program
class RefusalsTest(PatternCase):
    """Patterns that aren't told."""

    def refuse(self, checker: str, line: str, text: str = EARLY) -> None:
        """Tests that a pattern is refused with this line, as a pattern."""
        ran = report_support.run_report(self.write("it.pattern", text), checker=checker)
        self.assertEqual((ran.returncode, ran.stdout), (125, ""))
        self.assertRegex(ran.stderr, f"^{line}\n$")

    def test_an_older_checker(self) -> None:
        older = self.write_checker("", 5)
        self.refuse(older, r"wire_up-report: \S+: judges no patterns, and \S+it.pattern is one")

    def test_an_older_checker_that_judges_patterns(self) -> None:
        checker = self.write_checker(f"{CLEAN}\n", 0)
        older = 'case "$*" in *--answers*) exit 5 ;; esac\ncase'
        self.write("checker", report_support.read(checker).replace("case", older, 1))
        ran = report_support.run_report("--text", self.write("it.pattern", EARLY), checker=checker)
        self.assertEqual((ran.returncode, ran.stderr), (0, ""))

    def test_a_pattern_with_a_fault(self) -> None:
        checker = self.write_checker("", 2)
        fault = 'echo "wire_up: fault 4 BadLine 6" >&2; exit'
        text = report_support.read(checker).replace("exit 2", f"{fault} 2")
        self.write("checker", text)
        self.refuse(checker, "wire_up: fault 4 BadLine 6")

    def test_an_answer_of_another_form(self) -> None:
        for said in ("", "findings 0\n", f"{CLEAN}\nwaits root get\n"):
            checker = self.write_checker(said, 0)
            self.refuse(checker, "wire_up-report: .* is no verdict on a pattern")

    def test_a_line_that_is_not_known(self) -> None:
        checker = self.write_checker(f"{CLEAN}\n{ANSWERED}\nat most 2 workers\n", 0)
        self.refuse(checker, "wire_up-report: .* is no verdict on a pattern")


if __name__ == "__main__":
    unittest.main()
