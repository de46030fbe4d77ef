"""Patterns: the reference by the examples, by faults and by the model of plans, and `check
--pattern` of the built program beside the reference."""
import glob
import json
import random
import tempfile
import unittest
from collections.abc import Iterator
from pathlib import Path

from tests import support
from tests.models import grammar, model, model_runs, pattern_faults, pattern_reference
from tests.models.pattern_plan import Plan, Verdict, answered
from tests.soak import pattern_soaking, random_patterns
from tests.soak.pattern_soaking import Instance
from tests.soak.soak_runner import Runner
from tests.support.forms import one_line, pattern_as_json
from tests.support.running import ProgramCase, Run, Runs, as_lines, start


FOLDER = support.TOP / "examples" / "patterns"
EXPECTED = support.TOP / "tests" / "examples" / "patterns"
# How many random patterns are tried, of at most so many instances.
PATTERNS, MOST_INSTANCES = 200, 64
# For which instances the answers may be.
EVERY, JUDGED = "every number of ranks", "the instances that are judged"
# A key of the root, with its scope, which workers look for after a fence that collects.
CARD = (
    "pattern 1 / job app / one root / put {} card v / commit / fence all collect / many w"
    " / fence all collect / get-now root card / get-now root other / get-now self card"
    " / get-now root PMIX_RANK / get-now root PMIX_NONE / lookup-wait x / get-now root card"
)
SUCCESS, NOT_FOUND, OUTSIDE = (
    "PMIX_SUCCESS",
    "PMIX_ERR_NOT_FOUND",
    "PMIX_ERR_EXISTS_OUTSIDE_SCOPE",
)
# What the workers are answered on all placements, by the scope, and for the other calls.
OF_SCOPE = {
    "global": SUCCESS,
    "local": f"{SUCCESS} {NOT_FOUND}",
    "remote": f"{SUCCESS} {OUTSIDE}",
}
OF_OTHERS = {3: NOT_FOUND, 4: NOT_FOUND, 5: SUCCESS, 6: NOT_FOUND, 8: "none"}


def text_at(path: str | Path) -> bytes:
    return Path(path).read_bytes()


def examples(ending: str) -> list[str]:
    """The examples of patterns that have a file of this ending, without it; what is expected of
    them stands in a folder of its own."""
    names = [name for text in (FOLDER, EXPECTED) for name in glob.glob(f"*{ending}", root_dir=text)]
    return sorted(str(FOLDER / name.removesuffix(ending)) for name in names)


def expected_of(path: str, ending: str) -> bytes:
    """What is expected of an example, by its path without an ending."""
    return text_at(EXPECTED / f"{Path(path).name}{ending}")


def small_patterns(count: int) -> list[bytes]:
    """Random patterns that the reference soon judges."""
    found: list[bytes] = []
    seed = 0
    while len(found) < count:
        seed += 1
        lines = random_patterns.pattern_lines(random.Random(seed))
        text = pattern_reference.text_of([b" ".join(line) for line in lines])
        try:
            pattern = pattern_reference.read_pattern(text)
        except grammar.Refused:
            continue
        if pattern_reference.instance_count(pattern) <= MOST_INSTANCES:
            found.append(text)
    return found


class Reference(unittest.TestCase):
    """What the reference says, without the program."""

    def test_examples(self) -> None:
        """Each example has the verdict, or the fault, that is expected."""
        for example in examples(".verdict"):
            with self.subTest(example):
                _, wrote, more = pattern_reference.judge(text_at(f"{example}.pattern"))
                verdict = pattern_reference.without_answered(expected_of(example, ".verdict"))
                self.assertEqual(verdict, wrote + more)
        for each_example in examples(".fault"):
            with self.subTest(each_example):
                with self.assertRaises(grammar.Refused) as refused:
                    pattern_reference.read_pattern(text_at(f"{each_example}.pattern"))
                self.assertEqual(expected_of(each_example, ".fault"), refused.exception.said())

    def test_all_examples_have_one(self) -> None:
        both = examples(".verdict") + examples(".fault")
        self.assertEqual(examples(".pattern"), sorted(both))

    def test_faults(self) -> None:
        for refusal in pattern_faults.refusals():
            with self.subTest(refusal.lines[:200]):
                with self.assertRaises(grammar.Refused) as refused:
                    pattern_reference.read_pattern(refusal.text)
                found = refused.exception
                self.assertEqual((refusal.fault, refusal.line), (found.name, found.line))

    def test_taken(self) -> None:
        for text in pattern_faults.taken():
            with self.subTest(text[:200]):
                pattern_reference.read_pattern(pattern_faults.text_of(text))

    def test_statuses(self) -> None:
        """A status is named if some placement brings it, in the order of the statuses."""
        for scope, of_card in OF_SCOPE.items():
            with self.subTest(scope):
                said = pattern_reference.judge(pattern_faults.text_of(CARD.format(scope)))
                told = {2: of_card, **OF_OTHERS}
                answers = as_lines(
                    f"answers w {number} get-now {of}" for number, of in told.items()
                )
                waits = pattern_reference.CLEAN + b"\nwaits w 7 lookup-wait\n"
                self.assertEqual((0, waits, answers), said)


class Checker(unittest.TestCase):
    """The checker of tests/models/pattern_plan.py beside the model of plans."""

    def hold(self, instance: Instance) -> None:
        """Fails where they find something else, or nothing and another end."""
        text = instance.text
        plan = Plan(instance.ranks.pattern.keeps, instance.scripts)
        verdict, modelled = Verdict(plan), model.Plan(grammar.read(text))
        found = verdict.findings(instance.nodes)
        lines = [pattern_reference.finding_text(instance.ranks, finding) for finding in found]
        lines.append(b"findings %d" % len(found))
        self.assertEqual(modelled.findings(), pattern_reference.text_of(lines), text)
        if not found:
            report = model_runs.Run(modelled).go().report().splitlines()[:-1]
            wanted = [line.split(b" ")[2:4] for line in report]
            self.assertEqual(wanted, [*ends(instance, verdict, wanted)], text)

    def test_beside_the_model(self) -> None:
        for number, text in enumerate(small_patterns(PATTERNS)):
            dice, pattern = random.Random(number), pattern_reference.read_pattern(text)
            with self.subTest(number=number):
                self.hold(pattern_soaking.random_instance(pattern, dice, 0, 3))


def ends(instance: Instance, verdict: Verdict, wanted: list[list[bytes]]) -> Iterator[list[bytes]]:
    """The verb of each call, and what became of it. What another call than a get-now is answered is
    as wanted, unless it is no status."""
    rest = iter(wanted)
    for script, count in zip(instance.scripts, answered(verdict.plan)):
        for number, (call, at) in enumerate(zip(script.calls, script.firsts)):
            said = next(rest)[1]
            if number >= count:
                said = b"waiting" if number == count else b"unreached"
            elif call.verb == b"get-now":
                said = verdict.status((script.rank, at), call, instance.nodes)
            elif not said.startswith(b"PMIX_"):
                said = b"a status"
            yield [call.verb, said]


class Program(ProgramCase):
    """`check --pattern` of the built program."""

    @classmethod
    def setUpClass(cls) -> None:
        super().setUpClass()
        if not pattern_soaking.has_patterns(cls.program):
            raise unittest.SkipTest("this wire_up has no check --pattern")

    def runs_of_examples(self) -> Runs:
        for example in examples(".verdict"):
            verdict = expected_of(example, ".verdict")
            status = int(verdict.startswith(b"#"))
            lines = verdict.splitlines(True)
            short = b"".join(line for line in lines if not line.startswith(b"answers "))
            words = ["check", "--pattern"]
            yield Run(
                f"{example} in short", [*words, f"{example}.pattern"], status=status, wrote=short
            )
            if not pattern_soaking.has_answers(self.program):
                continue
            words.append("--answers")
            yield Run(example, [*words, f"{example}.pattern"], status=status, wrote=verdict)
        for each_example in examples(".fault"):
            said = expected_of(each_example, ".fault")
            yield Run(
                each_example, ["check", "--pattern", f"{each_example}.pattern"], status=2, said=said
            )

    def test_examples(self) -> None:
        self.hold_all(self.runs_of_examples())

    def runs_as_json(self) -> Runs:
        """The examples as JSON. With `--answers` there is a list of these, if nothing is found."""
        words = ["check", "--pattern", "--json"]
        for example in examples(".verdict"):
            verdict, path = expected_of(example, ".verdict"), f"{example}.pattern"
            status = int(verdict.startswith(b"#"))
            lines = verdict.splitlines(True)
            short = b"".join(line for line in lines if not line.startswith(b"answers "))
            wrote = pattern_as_json(short)
            yield Run(f"{example} as JSON", [*words, path], status=status, wrote=wrote)
            told: dict[str, object] = {} if status else {"answers": [], "answers_for": EVERY}
            told.update(json.loads(pattern_as_json(verdict)))
            wrote = one_line(told)
            asked = ["--answers", path]
            yield Run(
                f"{example} with answers, as JSON", [*words, *asked], status=status, wrote=wrote
            )
        for each_example in examples(".fault"):
            said = expected_of(each_example, ".fault")
            yield Run(
                f"{each_example} as JSON", [*words, f"{each_example}.pattern"], status=2, said=said
            )

    def test_examples_as_json(self) -> None:
        self.hold_all(self.runs_as_json())

    def test_answers_for(self) -> None:
        """For which instances the answers are: for all but where a rank may stand at a lookup-wait
        of a name that isn't published once."""
        script = "put global k 1 / commit / get-now self k"
        for last, scope in (("fence w,root", EVERY), ("lookup-wait port", JUDGED)):
            roles = f"one root / many w / {script} / {last}"
            given = pattern_faults.text_of(f"pattern 1 / job app / {roles}")
            words = ["check", "--pattern", "--answers", "--json"]
            told = json.loads(start(self.program, Run(last, words, given)).stdout)
            self.assertEqual(["answers w 3 get-now PMIX_SUCCESS"], told["answers"])
            self.assertEqual(scope, told["answers_for"])
            self.assertEqual(1, len(told["waits"]))

    def test_json_is_a_plan(self) -> None:
        """The string of a counterexample is the very text of its plan, and `check` finds in it what
        is told. A key and a value may have quotes and backslashes."""
        root, key = "pattern 1 / job app / one root", '"a\\'
        given = pattern_faults.text_of(
            f'{root} / put global {key} \\"# / commit / many w / get-now root {key}'
        )
        plain = start(self.program, Run("plain", ["check", "--pattern"], given))
        ran = start(self.program, Run("as JSON", ["check", "--pattern", "--json"], given))
        told = json.loads(ran.stdout)
        self.assertEqual((1, pattern_as_json(plain.stdout)), (ran.returncode, ran.stdout))
        plan = told["counterexample"].encode()
        found = one_line({"findings": told["findings"]})
        self.hold(Run("the plan", ["check", "--json"], plan, status=1, wrote=found))

    def test_complete_as_json(self) -> None:
        """`--complete` changes the status alone."""
        path = str(FOLDER / "node-local.pattern")
        words = ["check", "--pattern", "--complete", "--json", path]
        clean = pattern_reference.CLEAN + b"\n"
        wrote = pattern_as_json(clean + pattern_reference.ANSWERED)
        self.hold(Run("answers that fail, as JSON", words, status=1, wrote=wrote))

    def test_complete_where_a_call_waits(self) -> None:
        """The get-now is answered with success alone, but with three ranks never."""
        top = "pattern 1 / job app / many w / put global k v / commit"
        ring = "for w cyclic / fence self,each / end / get-now self k"
        given = pattern_faults.text_of(f"{top} / {ring}")
        wrote = pattern_reference.CLEAN + b"\nwaits w 3 fence\n"
        words = ["check", "--pattern"]
        self.hold(Run("a call waits", words, given, wrote=wrote))
        self.hold(Run("with --complete", [*words, "--complete"], given, status=1, wrote=wrote))

    def test_faults(self) -> None:
        for refusal in pattern_faults.refusals():
            said = grammar.Refused(refusal.fault, refusal.line).said()
            words = ["check", "--pattern"]
            with self.subTest(refusal.lines[:200]):
                self.hold(Run(refusal.lines, words, given=refusal.text, status=2, said=said))

    def test_taken(self) -> None:
        """The largest patterns that are read are judged too."""
        for text in pattern_faults.taken():
            with self.subTest(text[:200]):
                given = pattern_faults.text_of(text)
                ran = start(self.program, Run(text, ["check", "--pattern"], given))
                self.assertIn(ran.returncode, (0, 1), ran.stderr)
                count = pattern_reference.instance_count(pattern_reference.read_pattern(given))
                if count <= MOST_INSTANCES:
                    status, wrote, _ = pattern_reference.judge(given)
                    said = pattern_reference.without_answered(ran.stdout)
                    self.assertEqual((status, wrote), (ran.returncode, said))

    def test_random_patterns(self) -> None:
        """What is written of random patterns is what the reference says, and holds of larger
        instances."""
        with tempfile.TemporaryDirectory(prefix="wire-up-") as room:
            runner = Runner(self.program, room)
            for number, text in enumerate(small_patterns(PATTERNS)):
                with self.subTest(number=number):
                    pattern_soaking.look(runner, text, number)
            self.assertEqual(PATTERNS, runner.held["check --pattern"])
            self.assertGreater(runner.held["a larger instance"], PATTERNS)
            self.assertGreater(runner.held["an answered instance"], PATTERNS)
            self.assertGreater(runner.held["a complete instance"], 0)
            self.assertGreater(runner.held["a status where ranks wait"], PATTERNS)
            self.assertGreater(runner.held["a status where none waits"], PATTERNS)

    def test_damaged_patterns(self) -> None:
        """Random patterns that are damaged are refused, or read, as the second reader does."""
        kinds = set()
        with tempfile.TemporaryDirectory(prefix="wire-up-") as room:
            runner = Runner(self.program, room)
            for number in range(PATTERNS):
                text, _ = random_patterns.random_file(random.Random(-number))
                with self.subTest(number=number):
                    kinds.add(pattern_soaking.look(runner, text, number))
        self.assertIn("refused", kinds)


if __name__ == "__main__":
    unittest.main()
