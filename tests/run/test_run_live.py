"""wire_up-run on the library that is there, by Open MPI's mpirun on fake nodes: what it answers.
What becomes of runs that fail is in test_run_failures."""
import json
import socket
import unittest

from wire_up_tools.run.tables import read_table
from tests import support
from tests.support import TOP
from tests.support.live_runs import WAITS, LiveRuns

EARLY = TOP / "examples" / "early-get.plan"
FOUND, MISSED = "PMIX_SUCCESS 10.0.0.1:7000", "PMIX_ERR_NOT_FOUND"


class Live(LiveRuns):
    """Runs of plans."""

    def test_a_race_both_ways(self) -> None:
        """The library shows the race of the example as the rules do."""
        ran = self.run_it("--witness", "app:0", "2", "app:1", "1", EARLY)
        wanted = f"shown app:1 1 get-now\nfirst {FOUND}\nsecond {MISSED}\ndiffering 0 of 2\n"
        self.assertEqual((0, wanted), (ran.returncode, ran.stdout), ran.stderr)

    def test_the_same_in_json(self) -> None:
        """A plan in an order, which the library answers as the rules do."""
        order = TOP / "examples" / "early-get.order"
        ran = self.run_it("--json", "--order", order, EARLY)
        self.assertEqual(0, ran.returncode, ran.stdout + ran.stderr)
        seen = json.loads(ran.stdout)["seen"]
        self.assertEqual([], seen[0]["differs"])
        self.assertEqual({"reply": MISSED, "verb": "get-now"}, seen[0]["ranks"][1]["calls"][0])

    def test_a_call_that_differs(self) -> None:
        """OpenPMIx 4.2.2 takes a second publish."""
        text = WAITS.replace(b"get app:1 k", b"publish x 1\npublish x 2")
        path, junit = self.write("it.plan", text), self.room / "it.xml"
        ran = self.run_it("--junit", junit, path)
        if "OpenPMIx 4" not in self.ask_library(path):
            raise unittest.SkipTest("another library than OpenPMIx 4")
        differs = "rules PMIX_ERR_DUPLICATE_KEY v library PMIX_SUCCESS\ndiffering 1 of 2\n"
        self.assertEqual(1, ran.returncode, ran.stderr)
        self.assertTrue(ran.stdout.endswith(f"differs app:0 2 publish {differs}"), ran.stdout)
        self.assertIn('failures="1"', junit.read_text(encoding="utf-8"))

    def ask_library(self, path: str) -> str:
        """What the library says of its version."""
        library: str = json.loads(self.run_it("--json", path).stdout)["library"]
        return library

    def test_a_rank_that_waits(self) -> None:
        ran = self.run_it("--quiet", "1", self.write("it.plan", WAITS))
        judged = "judged by time: waiting after 1 seconds without progress\n"
        wanted = f"app:0 1 get waiting\nwaiting 1\n{judged}differing 0 of 1\n"
        self.assertEqual((0, wanted), (ran.returncode, ran.stdout), ran.stderr)

    def test_suite(self) -> None:
        """A rule that is kept and one that isn't, and random plans, which the known rules of the
        library explain."""
        table, names = self.room / "it.table", ["random-1-0", "random-1-7"]
        plans = ("fence-single", "scope-local-direct", *names)
        ran = self.run_it("--times", "1", "--table", table, "--suite", *plans)
        self.assertEqual(1, ran.returncode, ran.stderr)
        self.assertIn("\nkept fence-barrier 1 of 1 plans: ", ran.stdout)
        if "library OpenPMIx 4" in ran.stdout:
            self.assertIn("\nnot-kept scope-local 1 of 1 plans: ", ran.stdout)
            self.assertIn("\nknown openpmix-4.2 explains ", ran.stdout)
            self.assertNotIn("\nunexplained", ran.stdout)
        self.assertEqual({*plans}, {*read_table(table).plans})

    def test_a_host_file(self) -> None:
        """The node of a plan is this machine."""
        plan = WAITS.replace(b"get app:1 k", b"get app:1 PMIX_HOSTNAME")
        for host in (socket.gethostname(), "localhost"):
            hosts = self.write("hosts", f"# this machine\n{host}\n".encode())
            ran = self.run_it("--hosts", hosts, self.write("it.plan", plan))
            self.assertIn("app:0 1 get PMIX_SUCCESS n0\n", ran.stdout, ran.stderr)


if __name__ == "__main__":
    support.program()
    unittest.main()
