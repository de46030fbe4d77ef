"""What the Python programs make of `check --portable`: the recorder's last line, the page's verdict
and SARIF, and what `wire_up-run` says of a library that breaks an axiom."""
import contextlib
import io
import stat
import tempfile
import unittest
from collections.abc import Iterator
from pathlib import Path

from wire_up_tools.checker import Checker
from wire_up_tools.portable import (
    Portable,
    find_portable,
    read_portable,
    say_portable,
    say_promise,
)
from wire_up_tools.run.answers import Runs, Seen
from wire_up_tools.run.expected import Expected
from wire_up_tools.run.libraries.traits import LIBRARIES
from wire_up_tools.run.live import Outcome
from wire_up_tools.run.reports import Difference, Line, Place, Report
from wire_up_tools.run.tasks import PlanRequest, say_of_library

CALL = '{"call":2,"libraries":["4.2"],"proc":"app:2","rule":"far-get","verb":"get"}'
SAID = f'{{"findings":[],"portable":["5.0","7.0"],"unportable":[{CALL}]}}\n'
EVERY = '{"findings":[],"portable":["4.2","5.0","7.0"],"unportable":[]}'
NONE = f'{{"findings":[],"portable":[],"unportable":[{CALL.replace("4.2", "7.0")}]}}'


def take(text: str) -> Portable:
    """What is read, which has to be there."""
    found = read_portable(text)
    assert found is not None
    return found


@contextlib.contextmanager
def checker_that(said: str, option: str = "--portable", status: int = 1) -> Iterator[Checker]:
    """A checker that has an option, and answers so."""
    with tempfile.TemporaryDirectory() as folder:
        path = Path(folder, "wire_up")
        script = f"#!/bin/sh\ncase \"$*\" in *--help) echo '{option}'; exit 0;; esac\n"
        script += f"cat > /dev/null\nprintf '%s' '{said}'\nexit {status}\n"
        path.write_text(script, encoding="ascii")
        path.chmod(stat.S_IRWXU)
        yield Checker(str(path))


class Reading(unittest.TestCase):
    """What the checker wrote."""

    def test_reads(self) -> None:
        found = take(SAID)
        self.assertEqual(["5.0", "7.0"], found.libraries)
        self.assertEqual(
            ["app:2 2 get"], [str(unportable) for unportable in found.blamed("openpmix-4.2")]
        )
        self.assertEqual([], found.blamed("openpmix-5.0"))
        self.assertEqual((False, True), tuple(map(found.is_for, ("openpmix-4.2", "openpmix-7.0"))))

    def test_which_is_judged(self) -> None:
        """A version of a line that is judged, but none under Slurm, whatever its version."""
        found = take(SAID)
        for name, version, wanted in (
            ("openpmix-4.2", "OpenPMIx 4.2.9rc1 (PMIx Standard: 4.2)", True),
            ("openpmix-4.2", "OpenPMIx 4.1.2", False),
            ("openpmix-5.0", "OpenPMIx 5.0.7", True),
            ("slurm-24.11", "OpenPMIx 5.0.7", False),
        ):
            self.assertIs(wanted, found.is_judged(name, version), f"{name} {version}")

    def test_reads_nothing_else(self) -> None:
        for text in ("", "{}", "[]", '{"portable":["5.0"]}', '{"portable":[],"unportable":[1]}'):
            self.assertIsNone(read_portable(text), text)

    def test_says(self) -> None:
        says = {text: say_portable(take(text)) for text in (SAID, EVERY, NONE)}
        self.assertEqual(
            "portable for OpenPMIx 5.0 and 7.0, for no other by 1 call (wire_up check --portable)",
            says[SAID],
        )
        self.assertEqual("portable for OpenPMIx 4.2, 5.0 and 7.0", says[EVERY])
        self.assertEqual(
            "portable for no library that is known, by 1 call (wire_up check --portable)",
            says[NONE],
        )

    def test_promises(self) -> None:
        said = {text: say_promise(take(text)) for text in (SAID, EVERY, NONE)}
        by_call = "(by 1 call: check --portable)"
        promise = "under mpirun or prterun, if it keeps axioms, each run does as the rules say"
        self.assertEqual(f"On OpenPMIx 5.0 and 7.0 {promise}, on no other {by_call}.", said[SAID])
        self.assertEqual(f"On OpenPMIx 4.2, 5.0 and 7.0 {promise}.", said[EVERY])
        none = f"The plan is portable for no known library {by_call}."
        self.assertEqual(none, said[NONE])

    def test_asks(self) -> None:
        """A checker without the option isn't asked, and one that refuses the plan tells nothing."""
        cases: list[tuple[str, int, Portable | None]] = [
            ("--portable", 1, take(SAID)),
            ("--portable", 2, None),
            ("--anywhere", 1, None),
        ]
        for option, status, wanted in cases:
            with self.subTest(option, status=status), checker_that(SAID, option, status) as checker:
                self.assertEqual(wanted, find_portable(checker, b"rehearsal 1\n"))
        self.assertIsNone(find_portable(Checker("/there/is/none"), b""))


class Running(unittest.TestCase):
    """What `wire_up-run` says."""

    def say(
        self,
        text: str,
        is_same: bool,
        findings: int = 0,
        library: str = "openpmix-5.0",
        version: str = "OpenPMIx 5.0.7",
    ) -> list[str]:
        """What is said of a run under a library of which something is known, or of none, by what
        its ranks tell of its version."""
        place = Place("app:0", 1, "get")
        report = Report([Line(place, "PMIX_SUCCESS v")])
        differences = [] if is_same else [Difference(place, "PMIX_SUCCESS v", "waiting")]
        outcome = Outcome(report, version, ())
        expected = Expected(report, findings=findings)
        runs = Runs(expected, [Seen(outcome, 3, differences)], "a launcher", 6.0)
        with contextlib.redirect_stderr(io.StringIO()) as said:
            say_of_library(runs, LIBRARIES.get(library), take(text), PlanRequest("my.plan"))
        return said.getvalue().splitlines()

    def test_a_library_that_is_not_judged(self) -> None:
        """It breaks no axiom, whatever it answers."""
        unjudged = "; of OpenPMIx 5.0.7 under a launcher it isn't known"
        for library in ("slurm-24.11", "openpmix-4.2", "none"):
            (said,) = self.say(EVERY, is_same=False, library=library)
            self.assertTrue(said.endswith(unjudged), said)
        self.assertNotIn("known", self.say(EVERY, is_same=True)[0])

    def test_a_library_that_no_rank_told(self) -> None:
        """Where no rank has a call, none tells which library it has: nothing is said of that."""
        (said,) = self.say(EVERY, is_same=True, library="none", version="")
        self.assertEqual("wire_up-run: portable for OpenPMIx 4.2, 5.0 and 7.0", said)

    def test_an_axiom_is_broken(self) -> None:
        """Where the plan is portable for the library, nothing is found, and a call differs."""
        told = self.say(SAID, is_same=False)
        self.assertEqual(2, len(told))
        self.assertIn("OpenPMIx 5.0.7 breaks an axiom", told[1])
        self.assertIn("wire_up-run --times 3 --json my.plan", told[1])
        for text, is_same, findings in ((SAID, True, 0), (NONE, False, 0), (SAID, False, 1)):
            self.assertEqual(1, len(self.say(text, is_same, findings)))


if __name__ == "__main__":
    unittest.main()
