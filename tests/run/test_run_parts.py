"""Parts of wire_up-run that need no MPI: reports, launchers, orders, and its command line."""
import contextlib
import ipaddress
import json
import socket
import subprocess
import sys
import tempfile
import unittest
from collections.abc import Sequence
from pathlib import Path
from xml.etree import ElementTree

from wire_up_tools.failures import Refused
from wire_up_tools.plan import Rank
from wire_up_tools.plan_reading import read_plan
from wire_up_tools.run import channels, fake_nodes, launchers, ranks, turns
from wire_up_tools.run.answers import Case, Seen, write_junit
from wire_up_tools.run.channels import Channel
from wire_up_tools.run.expected import Expected, read_order
from wire_up_tools.run.launchers import Kind, Launcher, Start
from wire_up_tools.run.libraries.traits import LIBRARIES
from wire_up_tools.run.live import Outcome
from wire_up_tools.run.profile import BY_LABEL, ProfileRule
from wire_up_tools.run.reports import Difference, Place, compare, read_report
from wire_up_tools.run.suite import Kind as Verdicts
from wire_up_tools.run.suite import SuitePlan, Verdict, is_predicted, read_suite
from wire_up_tools.run.suite_answers import (
    SuiteResult,
    list_suite_cases,
    write_suite,
    write_suite_json,
)
from wire_up_tools.run.tables import read_table, write_table
from tests.support import TOP

COMMAND = TOP / "wire_up-run"
# A host elsewhere, of those that are kept for documents.
OTHER = "192.0.2.77"
PLAN = b"""\
rehearsal 1
node n0
node n1
job a
rank n0
fence all
get b:0 k
job b
rank n1
fence a:*,b:0 collect
"""
RULES = "a:0 1 put PMIX_SUCCESS\na:0 2 get PMIX_SUCCESS v\na:1 1 get waiting\nwaiting 1\n"
LIBRARY = "a:0 1 put PMIX_SUCCESS\na:0 2 get PMIX_ERR_NOT_FOUND\na:1 1 get ready\nwaiting 0\n"
DIFFERS = "differs a:0 2 get rules PMIX_SUCCESS v v library PMIX_ERR_NOT_FOUND"
# What a launcher says of itself, and what it is.
SAID = {
    "mpirun (Open MPI) 4.1.4": Kind.OPEN_MPI_4,
    "mpirun (Open MPI) 5.0.7": Kind.PRRTE,
    "prterun (PRRTE) 3.0.8": Kind.PRRTE,
    "slurm 24.11.5": Kind.SLURM,
    "HYDRA build details:": None,
}
# Command lines that can't be read or done, and a part of the line that says so.
WRONG = {
    ("--times", "0", "it.plan"): "--times needs a number from 1",
    ("--quiet", "soon", "it.plan"): "--quiet needs a number of seconds",
    ("--times",): "--times needs a number",
    (): "which plan?",
    ("one.plan", "two.plan"): "one plan at a time",
    ("--witness", "app:0", "it.plan"): "--witness needs two calls and a plan",
    ("--order", "o", "--free", "it.plan"): "--order and --free don't go together",
    ("--launcher", "a", "--command", "b", "it.plan"): "--launcher and --command don't go together",
    ("--such", "it.plan"): "--such is no option",
}


def run(*words: str) -> "subprocess.CompletedProcess[str]":
    """Runs the command to its end."""
    return subprocess.run(
        [sys.executable, COMMAND, *words],
        stdin=subprocess.DEVNULL,
        capture_output=True,
        text=True,
        timeout=300,
        check=False,
    )


def make_live(node: str, host: str, replies: Sequence[str] = ()) -> ranks.LiveRank:
    """A rank on a host, with replies."""
    rank = Rank(f"a:{node}{host}", "a", node, 0)
    channel = Channel.__new__(Channel)
    return ranks.LiveRank(rank, channel, host, "space", list(replies))


class Reports(unittest.TestCase):
    """Reports, and where they differ."""

    def test_a_report_is_written_as_it_was_read(self) -> None:
        self.assertEqual(RULES, read_report(RULES).write())

    def test_what_is_no_report_is_refused(self) -> None:
        with self.assertRaises(Refused):
            read_report("race app:0 2\n")

    def test_each_call_that_differs_is_told(self) -> None:
        """A call that could go on isn't judged."""
        found = compare(read_report(RULES), read_report(LIBRARY))
        self.assertEqual([DIFFERS], [str(difference) for difference in found])

    def test_a_report_that_is_the_same_has_no_difference(self) -> None:
        self.assertEqual([], compare(read_report(RULES), read_report(RULES)))

    def test_junit_counts_failures(self) -> None:
        text = write_junit("it", [Case("a", "1"), Case("a", "2", 'differs "<')])
        read = ElementTree.fromstring(text.partition("\n")[2])
        self.assertEqual(("2", "1"), (read.get("tests"), read.get("failures")))
        self.assertEqual('differs "<', read[1][0].get("message"))


class Launchers(unittest.TestCase):
    """What launchers are, and their command lines."""

    def test_kinds(self) -> None:
        self.assertEqual(SAID, {said: launchers.tell_kind(said) for said in SAID})

    def write(self, kind: Kind, has_several_jobs: bool) -> str:
        """The command line of a launcher for two ranks."""
        start = Start(["program"], ["n0", "n1"], has_several_jobs, Path("/f"), Path("/f/agent"))
        return " ".join(launchers.write_command(Launcher(kind, ["it"], ""), start))

    def test_command_lines(self) -> None:
        """One job is placed rank by rank; several are begun by one process."""
        self.assertIn("--mca rmaps seq -np 2 program", self.write(Kind.OPEN_MPI_4, False))
        self.assertIn("-np 1 --map-by slot program", self.write(Kind.OPEN_MPI_4, True))
        self.assertIn("--map-by seq:OVERSUBSCRIBE -np 2 program", self.write(Kind.PRRTE, False))
        self.assertIn("--mpi=pmix", self.write(Kind.SLURM, False))
        self.assertEqual("it program", self.write(Kind.OWN, False))

    def test_hosts_of_fake_nodes(self) -> None:
        """A name that a launcher could take for something else is replaced."""
        names = ("n0", "localhost", "10.0.0.1", "a,b")
        hosts = [fake_nodes.name_host(*name) for name in enumerate(names)]
        self.assertEqual(["n0", "wire-up-node-1", "wire-up-node-2", "wire-up-node-3"], hosts)

    def test_a_command_that_is_not_there_is_refused(self) -> None:
        for word in ("no-such-command -n 2", "'", ""):
            with self.assertRaises(Refused):
                launchers.read_command(word)


class Halls(unittest.TestCase):
    """Where a run listens: at no more addresses than its hosts need."""

    def test_hosts_that_are_this_machine(self) -> None:
        """Then nothing outside can reach it."""
        for hosts in (["localhost"], [socket.gethostname(), "127.0.0.1"]):
            with contextlib.closing(channels.open_hall(Path(), hosts)) as hall:
                (listener,) = hall.listeners
                self.assertEqual("127.0.0.1", listener.getsockname()[0])
                self.assertEqual(f"127.0.0.1:{listener.getsockname()[1]}", hall.address)

    def test_another_host(self) -> None:
        """The address is that from which it is reached."""
        if channels.find_own_address(OTHER) is None:
            self.skipTest("no way leads out of this machine")
        (address,) = channels.find_addresses(["localhost", OTHER])
        self.assertFalse(ipaddress.ip_address(address).is_loopback)

    def test_a_host_that_is_not_known(self) -> None:
        """Then it is every address."""
        self.assertEqual([""], channels.find_addresses(["localhost", ""]))

    def test_several_addresses(self) -> None:
        """They have one port."""
        listeners, told = channels.listen_at(["127.0.0.1", "127.0.0.2"])
        ports = {listener.getsockname()[1] for listener in listeners}
        for listener in listeners:
            listener.close()
        self.assertEqual(f"127.0.0.1,127.0.0.2:{ports.pop()}", told)
        self.assertFalse(ports)


class Scripts(unittest.TestCase):
    """What ranks are told, and what becomes of it."""

    def test_script(self) -> None:
        """Jobs are told by their numbers."""
        plan = read_plan(PLAN)
        spaces = {"a": "one", "b": "two"}
        told = [ranks.write_script(plan, rank, spaces) for rank in plan.ranks]
        names = ["space 0 one", "space 1 two"]
        self.assertEqual([*names, "call fence all", "call get 1:0 k", "go"], told[0])
        self.assertEqual([*names, "call fence 0:*,1:0 collect", "go"], told[1])

    def test_steps(self) -> None:
        """A fence is two steps."""
        kinds = [step.kind.value for step in turns.read_steps(read_plan(PLAN), ["a:0"] * 3)]
        self.assertEqual(["arrive", "leave", "call"], kinds)

    def test_order(self) -> None:
        self.assertEqual(["a:0", "b:0"], read_order("# first\na:0\n\nb:0 \n"))

    def test_places(self) -> None:
        """Ranks of a node share a host, and those of different nodes don't."""
        good = [make_live("n0", "h0"), make_live("n1", "h1"), make_live("n0", "h0")]
        self.assertEqual({"h0": "n0", "h1": "n1"}, ranks.hold_places(good))
        for bad in (make_live("n0", "h1"), make_live("n1", "h0")):
            with self.assertRaises(Refused):
                ranks.hold_places([make_live("n0", "h0"), bad])

    def test_host_names_become_nodes(self) -> None:
        reply = ranks.translate_host("PMIX_SUCCESS h0", {"h0.example": "n0"})
        self.assertEqual("PMIX_SUCCESS n0", reply)

    def test_a_call_that_the_library_gave_up_on_waits(self) -> None:
        plan = read_plan(PLAN)
        live = make_live("n0", "h0", ["PMIX_SUCCESS", ranks.TIMEOUT])
        calls = plan.calls_of["a:0"]
        told = [ranks.write_reply(call, live, {}, is_held=False) for call in calls]
        self.assertEqual(["PMIX_SUCCESS", "waiting"], told)


class SuiteAnswers(unittest.TestCase):
    """How what the suite gave is told."""

    def make(self, rule: ProfileRule, kind: Verdicts, *reports: str) -> Verdict:
        """What came of a plan, by the library's reports."""
        rules, read = read_report(RULES), [read_report(report) for report in reports]
        seen = [Seen(Outcome(report, "Library 1"), 1, compare(rules, report)) for report in read]
        return Verdict(SuitePlan(f"{rule.label}-{kind.value}", rule, ""), kind, seen, "no host")

    def make_all(self) -> SuiteResult:
        """A result with each kind."""
        failing = LIBRARY.replace("ready", "waiting")
        verdicts = [
            self.make(ProfileRule.LOOKUP, Verdicts.EQUAL, RULES),
            self.make(ProfileRule.LOOKUP, Verdicts.DIFFERENT, failing),
            self.make(ProfileRule.MAP, Verdicts.UNSTEADY, RULES, failing),
            self.make(ProfileRule.GET_OWN, Verdicts.EQUAL, RULES),
            self.make(ProfileRule.UNPUBLISH, Verdicts.FAILED),
        ]
        return SuiteResult(verdicts, "it", 2, 6.0, None)

    def test_lines(self) -> None:
        """Each rule has a line, below which the calls stand."""
        lines = write_suite(self.make_all()).splitlines()
        said = DIFFERS.removeprefix("differs ")
        self.assertIn(f"  different lookup-different {said}", lines)
        self.assertIn(f"  unsteady map-unsteady {said} (1 of 2)", lines)
        self.assertIn("  failed unpublish-failed: no host", lines)
        self.assertEqual("equal 2 different 1 unsteady 1 failed 1", lines[-1])
        states = [line.split()[:2] for line in lines if line.split()[1] in BY_LABEL]
        wanted = ["kept get-own", "not-kept lookup", "not-run unpublish", "unsteady map"]
        self.assertEqual(wanted, sorted(" ".join(state) for state in states))
        counts = {line.split()[1]: " ".join(line.split()[2:6]) for line in lines}
        self.assertEqual("1 of 1 plans:", counts["get-own"])
        self.assertEqual("1 of 2 plans:", counts["lookup"])

    def test_plans_whose_replies_depend_on_timing(self) -> None:
        """What a known rule calls unsteady is explained, whichever reply came; else the reply
        must be the one that is known."""
        plan = next(
            suite_plan for suite_plan in read_suite() if suite_plan.name == "later-key-other-node"
        )
        rules = read_report(
            "app:0 1 put PMIX_SUCCESS\napp:0 2 commit PMIX_SUCCESS\napp:0 3 fence PMIX_SUCCESS\n"
            "app:0 4 put PMIX_SUCCESS\napp:0 5 commit PMIX_SUCCESS\napp:1 1 fence PMIX_SUCCESS\n"
            "app:1 2 get PMIX_SUCCESS 2\n"
        )
        expected = Expected(rules)
        known = LIBRARIES["openpmix-4.2"]
        cases = (
            ("app:1 2 get", ("PMIX_ERR_NOT_FOUND", "PMIX_ERR_TIMEOUT"), True),
            ("app:1 1 fence", ("PMIX_ERR_NOT_FOUND",), False),
        )
        for call, replies, is_known in cases:
            for reply in replies:
                with self.subTest(call, reply=reply):
                    place = Place(call.split()[0], int(call.split()[1]), call.split()[2])
                    differs = [Difference(place, "PMIX_SUCCESS", reply)]
                    seen = Seen(Outcome(rules, "Library 1"), 1, differs)
                    self.assertEqual(is_known, is_predicted(plan, expected, seen, known))

    def test_table(self) -> None:
        """A table says again what was written; what couldn't be run isn't in it."""
        with tempfile.TemporaryDirectory() as room:
            path = Path(room, "it")
            text = write_table({"library": "it"}, self.make_all().verdicts)
            path.write_text(text, encoding="ascii")
            table = read_table(path)
        self.assertEqual({"library": "it"}, table.head)
        found = {name: [str(d) for d in plan.differences] for name, plan in table.plans.items()}
        self.assertEqual([DIFFERS], found["lookup-different"])
        self.assertEqual([], found["get-own-equal"])
        self.assertNotIn("unpublish-failed", found)

    def test_json_and_junit(self) -> None:
        """Programs find the same there."""
        result = self.make_all()
        states = {
            load["rule"]: load["state"] for load in json.loads(write_suite_json(result))["rules"]
        }
        self.assertEqual("not-kept", states["lookup"])
        failures = [bool(each_case.failure) for each_case in list_suite_cases(result)]
        self.assertEqual([False, True, True, False, True], failures)


class CommandLine(unittest.TestCase):
    """What can't be read or done gets one line."""

    def test_wrong_words(self) -> None:
        for words, said in WRONG.items():
            with self.subTest(said):
                ran = run(*words)
                self.assertEqual((125, ""), (ran.returncode, ran.stdout))
                self.assertIn(said, ran.stderr)
                self.assertEqual(1, ran.stderr.count("\n"))
                self.assertTrue(ran.stderr.endswith(" (wire_up-run --help tells more)\n"))

    def test_help(self) -> None:
        ran = run("--help")
        self.assertEqual((0, ""), (ran.returncode, ran.stderr))
        self.assertIn("--witness P N Q M PLAN", ran.stdout)

    def test_a_plan_that_is_not_there(self) -> None:
        ran = run("no-such.plan")
        said = (125, "", "wire_up-run: no-such.plan: No such file or directory\n")
        self.assertEqual(said, (ran.returncode, ran.stdout, ran.stderr))


if __name__ == "__main__":
    unittest.main()
