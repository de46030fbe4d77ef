"""Tests the text that `wire_up-report` writes for a terminal, and what it says."""
import re
import tempfile
import unittest
from pathlib import Path

from tests import support
from tests.support import Word, report_support
from tests.support.needs import needs_program


# What the text of a report must have, by the name of the plan.
SAYS = {
    "circle": (
        "a:0 waits for a:1, which waits for a:2, which waits for a:0.",
        "4 ranks wait for ever",
        "a:3 1 fence",
        "wait for ever before this fence",
    ),
    "late": (
        "the rank itself hasn't put own before",
        "a:0 would publish p later, and waits for ever before that",
        "a:1 never puts none",
        "a:2 puts k and never commits it",
    ),
    "closing-service": ("o 1 publish solver.port", "come from 1 mistake"),
    "recorded-ring": ("MPI_Send to 1", "MPI_Recv from 0"),
    "ring": ("o 3 get addr <- ring:1", "o 3 get addr <- ring:2", "o 3 get addr <- ring:0"),
    "names": (
        "Only the first publish of a name holds",
        "Put a fence of a set that has both ranks between the two calls",
    ),
    "hostile": ('a&b".c:3', "puts the key <script>"),
    "recorded-wild1": (
        "look_up (cases.c:30)",
        "publish (cases.c:23)",
        "36 gets of a wildcard rank",
        "or wait for the name with PMIX_WAIT",
        'A PMIx_Lookup of the name "first" can come before the PMIx_Publish',
        "between cases.c:178 and cases.c:44, in look_up (cases.c:30)",
        "app:1 sends app:0 a message after its PMIx_Publish (MPI_Send to 0, tag 0, at",
        "but app:0 receives from any source, and may have it only after its PMIx_Lookup, at",
        "received it from app:1 before its PMIx_Lookup, the PMIx_Publish would come first.",
        "Move the PMIx_Lookup of look_up (cases.c:30) after the MPI_Recv of wild (cases.c:44) that",
        "or receive from app:1 in place of MPI_ANY_SOURCE before the PMIx_Lookup of look_up (",
        "MPI_Recv from 1, tag 0",
        "A recording; apart from that, what is left out can hide no race",
    ),
    "recorded-wild2": (
        "wild (cases.c:43), in look_up (cases.c:30), called from main (cases.c:245)",
        "wild (cases.c:38), in publish (cases.c:23), called from main (cases.c:245)",
        "Move the PMIx_Lookup of wild (cases.c:43) after the MPI_Recv of wild (cases.c:44) that",
    ),
    "recorded-sleep": ("in part (the run was cut off, 2 recordings end early: what came then",),
    "recorded-unwaited": ("in part (1 call of the program that doesn't block",),
    "early-get": ("early-get.plan:7", "Use get in place of get-now", "<race> app:1"),
    "foreign-fence": ("Let the reader meet in the fence itself", "3 fence: comes <race> app:1"),
    "kept-card": (
        "The plan keeps what gets bring",
        "Use get in place of get-now",
        "<race> app:2",
    ),
    "standstill": (
        "; 2 ranks wait for ever",
        "app:0 waits for app:1, which waits for app:0.",
    ),
    "large": ("31,744 races", "takes no plan past the limits of its version"),
    "large-fence": ("no race", "and 2,047 like it"),
    "twice": (
        "app:0 puts the key card twice: app:1 and app:2 may get either value",
        "main (a.c:31), in put_card (a.c:8), first value: v31",
        "main (a.c:33), in put_card (a.c:8), second value: v33",
        "main (a.c:35), in read_card (a.c:15), reads it",
        "app:0 puts it at a.c:31 and again at a.c:33; the next PMIx_Commit replaces",
        "app:1 and app:2 get it at a.c:35 and a.c:37, and nothing orders that with this commit",
        "app:0 calls it after the PMIx_Commit of a.c:33, app:1 before the PMIx_Get of a.c:35,",
        "app:2 before the PMIx_Get of a.c:37.",
    ),
    "turns": (
        "main (a.c:35), in find (a.c:5)",
        "app:1 calls it after the PMIx_Lookup of a.c:35, app:0 before the PMIx_Unpublish of a.c:39",
        "app:2 after the MPI_Bcast of a.c:32, app:3 after the MPI_Send of a.c:36.",
    ),
    "changed-card": (
        "1 key put twice",
        "app:0 puts the key card twice: app:1 may get either value",
        "app:0 1 put, changed-card.plan:7, first value: 10.0.0.1:7000",
        "app:1 1 get, changed-card.plan:12, reads it",
        "Put the key once; or put each value under a key of its own; or if the second value is",
        "a bug, unless either will do",
    ),
}


@needs_program
@report_support.for_each_plan
class TextsTest(report_support.PlanCase):
    """The text of each plan: nothing in it is a command to a terminal, and it says what it must."""

    def check(self, name: str) -> None:
        path, options = report_support.find_plan(name), report_support.list_options(name)
        ran = report_support.run_report("--text", *options, path)
        self.assertIn(ran.returncode, (0, 1), ran.stderr)
        self.assertEqual(ran.stderr, "")
        wrong = [text for text in ran.stdout if not (text.isprintable() or text == "\n")]
        self.assertEqual(wrong, [])
        self.assertGreater(ran.stdout.count("\n"), 2)
        flat = " ".join(ran.stdout.split())
        missing = [text for text in SAYS.get(name, ()) if text not in flat]
        self.assertEqual(missing, [], ran.stdout[:3000])


# A checker that has `witness`, and answers it by itself.
CHECKER = """#!/bin/sh
case "$1" in
witness) cat > /dev/null; {answer} ;;
*) exec "{program}" "$@" ;;
esac
"""
SHOWN = (
    '{"first":{"order":["app:0","app:0","app:1"],"reply":"PMIX_SUCCESS","value":"10.0.0.1:7000"},'
    '"race":true,'
    '"second":{"order":["app:1","app:0","app:0"],"reply":"PMIX_ERR_NOT_FOUND"},'
    '"shown":{"call":1,"proc":"app:1","verb":"get-now"}}'
)
NOT_SHOWN = '{"race":true,"shown":null}'
# A checker that has no such command.
WITHOUT_WITNESS = """#!/bin/sh
case "$1" in
witness) exit 5 ;;
*) exec "{program}" "$@" ;;
esac
"""


@needs_program
class RunsTest(unittest.TestCase):
    """The two runs that a report shows, or what it says where there are none."""

    def setUp(self) -> None:
        room = tempfile.TemporaryDirectory(prefix="wire-up-report-")
        self.addCleanup(room.cleanup)
        self.room = room.name

    def write_checker(self, script: str, **words: str) -> Path:
        """Writes a program that stands before the built one."""
        text = script.format(program=support.program(), **words)
        path = report_support.write(Path(self.room, "checker"), text.encode())
        path.chmod(0o755)
        return path

    def check(self, checker: Word, wanted: tuple[str, ...]) -> None:
        """Tests that the text and the page of a plan have these words."""
        page = Path(self.room, "page.html")
        early = report_support.EARLY
        text = report_support.run_report("--text", early, checker=checker)
        paged = report_support.run_report("-o", page, early, checker=checker)
        self.assertEqual((text.returncode, paged.returncode), (1, 1), text.stderr + paged.stderr)
        for said in (text.stdout, re.sub(r"<[^>]*>", "", report_support.read(page))):
            flat = " ".join(said.split())
            self.assertEqual(
                [each_text for each_text in wanted if each_text not in flat], [], flat[:3000]
            )

    def test_runs_that_are_shown(self) -> None:
        answer = f"printf '%s\\n' '{SHOWN}'; exit 1"
        wanted = (
            "If the commit (app:0 2) comes first",
            "If the get-now (app:1 1) comes first",
            "app:1 1 get-now: PMIX_SUCCESS 10.0.0.1:7000",
            "app:1 1 get-now: PMIX_ERR_NOT_FOUND",
        )
        self.check(self.write_checker(CHECKER, answer=answer), wanted)

    def test_runs_of_the_built_program(self) -> None:
        self.check(support.program(), ("If the commit (app:0 2) comes first",))

    def test_no_run_shows_it(self) -> None:
        checker = self.write_checker(CHECKER, answer=f"printf '%s\\n' '{NOT_SHOWN}'")
        self.check(checker, ("No run that was tried shows a difference",))

    def test_a_checker_without_witness(self) -> None:
        checker = self.write_checker(WITHOUT_WITNESS)
        self.check(checker, ("This wire_up has no command that looks for two runs.",))


if __name__ == "__main__":
    unittest.main()
