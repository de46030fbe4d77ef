"""What is known of libraries: the plans of the suite, the tables of what libraries did, and their
rules, which predict it. The tables are held to those that a forerunner made."""
import unittest
from collections.abc import Mapping

from wire_up_tools.plan_reading import read_plan
from wire_up_tools.run.expected import Expected
from wire_up_tools.run.libraries.judging import judge
from wire_up_tools.run.libraries.predicting import Way, explain_differences, predict
from wire_up_tools.run.libraries.rules import Rule
from wire_up_tools.run.libraries.traits import LIBRARIES, Library
from wire_up_tools.run.profile import ProfileRule
from wire_up_tools.run.reports import Report, read_report
from wire_up_tools.run.suite import Kind, read_suite
from wire_up_tools.run.tables import Recorded, read_table
from tests.models import grammar, model, model_runs
from tests.run.test_run_parts import run
from tests.support import TOP
from tests.support.running import ProgramCase, text_of, written

# Plans that differ, and that the rules of a library don't explain, by the library's name: some keys
# that begin with `pmix` are its own.
UNEXPLAINED: dict[str, list[str]] = {"openpmix-4.2": ["reserved-known"]}
# Plans whose runs differ in a way that `--predict` doesn't tell. In the first two a get that waits
# for a rank of its node isn't found in one of ten runs, though its key comes; in the others a fence
# of two jobs sometimes never ends. No rule is known that says when.
UNTOLD = {
    "openpmix-4.2": {
        "get-then-now-samenode",
        "jobs-get-same-node",
        "jobs-fence",
        "jobs-fence-get",
    },
}
# The tables of a forerunner, and plans with which a library did something else then, since one of
# their replies depends on which rank is fast.
EARLIER = TOP / "tests" / "earlier_tables"
UNLIKE = {
    "openpmix-4.2": {"get-then-now-samenode", "jobs-fence"},
    "openpmix-5.0": {"collect-mixed-one-node"},
    "openpmix-7.0": {"collect-mixed-one-node"},
    "slurm-24.11": {"collect-mixed-one-node"},
}
PLANS = {suite_plan.name: suite_plan for suite_plan in read_suite()}
# A recorded plan: a barrier and a message of MPI, by which a key is there when it is asked for. As
# calls of PMIx Slurm would fail the message, and wait with the fence for nobody.
OF_MPI = """\
rehearsal 1
node a
node b
job app
rank a
put global early 1
commit
put global late 2
commit
# MPI: barrier
fence all
# MPI: send, tag 0
publish mpi.0.1.1 sent
rank b
# MPI: barrier
fence all
get app:0 late
# MPI: receive, tag 0
lookup-wait mpi.0.1.1
"""


def rules_report(text: str) -> Report:
    """The report of the rules, by the model of the tests."""
    scripts = grammar.read(text.encode())
    return read_report(model_runs.Run(model.Plan(scripts)).go().report().decode())


def list_seen(recorded: Recorded) -> set[str]:
    """The calls that a library answered otherwise, each with its reply."""
    return {str(difference) for difference in recorded.differences}


REPORTS = {name: rules_report(plan.text) for name, plan in PLANS.items()}


class Suite(unittest.TestCase):
    """The plans of the suite."""

    def test_no_plan_races(self) -> None:
        """Each has one report: at most a key is put twice."""
        for plan in PLANS.values():
            found = model.Plan(grammar.read(plan.text.encode())).findings()
            self.assertNotIn(b"race", found, plan.name)

    def test_names_are_different(self) -> None:
        self.assertEqual(len(PLANS), len(read_suite()))

    def test_each_rule_has_a_plan(self) -> None:
        self.assertEqual(set(ProfileRule), {plan.rule for plan in PLANS.values()})


class Predictions(unittest.TestCase):
    """The rules of each library, held to the table of what it did."""

    def found(self, library: Library, name: str) -> list[str]:
        """What the rules of a library predict of a plan."""
        plan = read_plan(PLANS[name].text.encode())
        found = explain_differences(plan, library.traits, REPORTS[name])
        return [str(difference.difference) for difference in found]

    def list_wrong(self, library: Library, plans: Mapping[str, Recorded]) -> list[str]:
        """The plans that are predicted otherwise than they were recorded."""
        steady = {
            name: each_recorded
            for name, each_recorded in plans.items()
            if each_recorded.kind is not Kind.UNSTEADY
        }
        recorded = {
            name: [str(d) for d in each_recorded.differences]
            for name, each_recorded in steady.items()
        }
        return [name for name, row in recorded.items() if self.found(library, name) != row]

    def test_tables(self) -> None:
        """Each plan that differs is explained, but those listed, and no other is predicted to."""
        for name, library in LIBRARIES.items():
            with self.subTest(name):
                table = read_table(library.table)
                self.assertGreater(len(table.plans), 90)
                self.assertEqual(name, table.head["library"])
                wrong = self.list_wrong(library, table.plans)
                self.assertEqual(UNEXPLAINED.get(name, []), wrong)

    def test_what_is_told(self) -> None:
        """`--predict` tells exactly what was seen of a plan whose runs are alike: nothing of one
        that is equal. Where runs differ it tells each call that did, and that it is unsteady, but
        for the plans that are listed."""
        for library in LIBRARIES.values():
            untold = set()
            for name, recorded in read_table(library.table).plans.items():
                plan = read_plan(PLANS[name].text.encode())
                of = judge(plan, library, Expected(REPORTS[name]))
                places = {p.difference.place for p in of.found}
                if recorded.kind is Kind.UNSTEADY:
                    if not {d.place for d in recorded.differences} <= places or not of.timed:
                        untold.add(name)
                elif name not in UNEXPLAINED.get(library.name, []):
                    told = {str(p.difference) for p in of.found}
                    self.assertEqual(list_seen(recorded), told, f"{library.name} {name}")
            self.assertEqual(UNTOLD.get(library.name, set()), untold)

    def test_unsteady_plans(self) -> None:
        """Where runs differed, each reply that is predicted is the rules' or one that was seen."""
        for library in LIBRARIES.values():
            for name, recorded in read_table(library.table).plans.items():
                if recorded.kind is Kind.UNSTEADY:
                    seen = [str(d) for d in recorded.differences]
                    wrong = [d for d in self.found(library, name) if d not in seen]
                    self.assertEqual([], wrong, f"{library.name} {name}")

    def test_an_equal_plan_has_no_recorded_difference(self) -> None:
        for library in LIBRARIES.values():
            for name, recorded in read_table(library.table).plans.items():
                is_same = not recorded.differences
                self.assertEqual(recorded.kind is Kind.EQUAL, is_same, f"{library.name} {name}")

    def test_without_rules_a_library_keeps_the_profile(self) -> None:
        """Each rule of the first library is needed for a plan, and the call that differs names
        it."""
        traits = LIBRARIES["openpmix-4.2"].traits
        needed: set[Rule] = set()
        for name in read_table(LIBRARIES["openpmix-4.2"].table).plans:
            plan = read_plan(PLANS[name].text.encode())
            for difference in explain_differences(plan, traits, REPORTS[name]):
                needed.update(difference.rules)
        self.assertEqual(traits.rules, needed)

    def test_what_stands_for_mpi(self) -> None:
        """It is none of a library's calls: it does what it does by the rules."""
        without = OF_MPI.replace("# MPI: ", "# ")
        verbs = {"publish", "get", "lookup-wait"}
        for text, wanted in ((OF_MPI, set()), (without, verbs)):
            plan, expected = read_plan(text.encode()), Expected(rules_report(text))
            of = judge(plan, LIBRARIES["slurm-24.11"], expected)
            self.assertEqual(wanted, {predicted.difference.place.verb for predicted in of.found})

    def test_an_order_is_taken(self) -> None:
        """The steps of an order come first."""
        plan = read_plan(text_of("examples/early-get.plan"))
        traits = LIBRARIES["openpmix-4.2"].traits
        late = predict(plan, traits, way=Way(["app:1"])).lines[-1].reply
        self.assertEqual("PMIX_ERR_NOT_FOUND", late)


def are_alike(one: Recorded, other: Recorded) -> bool:
    """Whether two measurements of a plan say the same."""
    return one.kind is other.kind and list_seen(one) == list_seen(other)


def can_be_one(one: Recorded, other: Recorded) -> bool:
    """Whether two measurements of a plan can be of one library: in one the runs differ, and each
    difference that the other has was seen among them."""
    steady, unsteady = sorted((one, other), key=lambda recorded: recorded.kind is Kind.UNSTEADY)
    return unsteady.kind is Kind.UNSTEADY and list_seen(steady) <= list_seen(unsteady)


class Agreement(unittest.TestCase):
    """The tables of the suite say what a forerunner of it saw, on the plans that both have."""

    def test_earlier_tables(self) -> None:
        """They are alike, but for the plans that are listed."""
        for name, listed in UNLIKE.items():
            with self.subTest(name):
                earlier = read_table(EARLIER / f"{name}.txt").plans
                now = read_table(LIBRARIES[name].table).plans
                self.assertEqual(set(), earlier.keys() - now.keys())
                self.assertGreater(len(earlier), 95)
                unlike = {
                    each_text
                    for each_text, seen in earlier.items()
                    if not are_alike(seen, now[each_text])
                }
                self.assertEqual(listed, unlike)
                for text in unlike:
                    self.assertTrue(can_be_one(earlier[text], now[text]), text)


class CommandLine(ProgramCase):
    """`--predict` and `--show`."""

    def test_predict(self) -> None:
        """Each call that differs is told with the rule, and these with their words."""
        path = written(self.room, "it.plan", PLANS["scope-local-direct"].text.encode())
        ran = run("--checker", self.program, "--predict", "openpmix-4.2", path)
        self.assertEqual(1, ran.returncode, ran.stderr)
        lines = ran.stdout.splitlines()
        outside, error = "PMIX_ERR_EXISTS_OUTSIDE_SCOPE", "PMIX_STATUS(-13,HANDSHAKE-FAILED)"
        rules = "local-elsewhere,owner-answers"
        wanted = f"differs app:1 1 get rules {outside} v library {error} by {rules}"
        self.assertEqual(wanted, lines[0])
        self.assertEqual("differing 1 of 3", lines[-1])

    def test_a_library_that_is_not_known(self) -> None:
        ran = run("--checker", self.program, "--predict", "mine", "it.plan")
        self.assertEqual((125, ""), (ran.returncode, ran.stdout))
        self.assertIn("mine isn't known: openpmix-4.2", ran.stderr)

    def test_show(self) -> None:
        """The plan comes with the rule that it is about."""
        ran = run("--show", "scope-local-direct")
        self.assertEqual(0, ran.returncode, ran.stderr)
        self.assertTrue(ran.stdout.endswith(PLANS["scope-local-direct"].text))
        self.assertTrue(ran.stdout.startswith("# scope-local-direct: scope-local, "))

    def test_a_name_that_the_suite_has_not(self) -> None:
        ran = run("--checker", self.program, "--suite", "such")
        said = "wire_up-run: the suite has no plan and no rule such\n"
        self.assertEqual((125, said), (ran.returncode, ran.stderr))


if __name__ == "__main__":
    unittest.main()
