"""`check --portable` of the built program: the table of rows/portable.py, each form of its answer,
and what it says of small random plans beside all that libraries may do by the axioms."""
import itertools
import unittest
from collections import Counter
from collections.abc import Iterator

from tests.models import pattern_faults
from tests.models.library_axioms import LIBRARIES
from tests.models.library_plans import Facts
from tests.models.portable_conditions import JUDGED, blame
from tests.models.portable_histories import find_divergence
from tests.rows.portable import ROWS, Told
from tests.soak.portable_soaking import MOST_STATES, hold
from tests.soak.small_plans import make_small
from tests.soak.soak_runner import Runner
from tests.support import TOP
from tests.support.running import PORTABLE_MISUSED, ProgramCase, Run, Runs, start


CHECK, PORTABLE, ANYWHERE = "check", "--portable", "--anywhere"
# So many of the random plans are portable for a library at least: else the test says little.
SEED, COUNT, LEAST = 73, 250, 80
LATE = (
    "rehearsal 1 / node n0 / job app / rank n0 / put global a 1 / commit / put global z 2 / commit"
    " / rank n0 / get app:0 z / rank n0 / get app:0 z"
)
EARLY = "examples/early-get.plan"
# A fence whose calls spell their set in two ways: nobody leaves it, so it brings nothing.
APART = (
    "rehearsal 1 / node n0 / node n1 / job app / rank n0 / put global a 1 / commit"
    " / fence app:0,app:1 collect / rank n1 / fence app:1,app:0,app:1 collect / rank n1"
    " / get-now app:0 a"
)


def lines_of(text: str) -> bytes:
    """Lines that stand in one with ` / ` between them."""
    return "".join(f"{part}\n" for part in text.split(" / ")).encode()


class Rows(ProgramCase):
    """The table, behind the findings that `check` has."""

    def hold_row(self, row: Told, told: str, *options: str) -> None:
        """Tests what is told of a row, and the status."""
        plan = pattern_faults.text_of(row.lines)
        found = start(self.program, Run(row.name, [CHECK, *options], plan))
        told_of = start(self.program, Run(row.name, [CHECK, PORTABLE, *options], plan))
        self.assertEqual(found.stdout + lines_of(told), told_of.stdout)
        is_clean = not found.returncode and "unportable" not in told
        self.assertEqual(0 if is_clean else 1, told_of.returncode)

    def test_rows(self) -> None:
        for row in ROWS:
            with self.subTest(row.name):
                self.hold_row(row, row.here)
                self.hold_row(row, row.anywhere, ANYWHERE)

    def test_rows_have_every_rule(self) -> None:
        words = " / ".join(f"{row.here} / {row.anywhere}" for row in ROWS).split(" / ")
        rules = {word.split()[4] for word in words if word.startswith("unportable")}
        self.assertEqual(15, len(rules))


class Forms(ProgramCase):
    """The forms of the answer, and what doesn't go together."""

    def runs_of_forms(self) -> Runs:
        plan = lines_of(LATE)
        wrote = b"findings 0\n<stdin>:10: 2 unportable by near-get in 4.2,5.0,7.0: app:1 1 get\n"
        words = [CHECK, PORTABLE, "--lines"]
        yield Run("groups", words, plan, status=1, wrote=wrote + b"portable none\n")
        call = (
            '{"call":1,"libraries":["4.2","5.0","7.0"],%s"proc":"app:%d","rule":"near-get",'
            '"verb":"get"}'
        )
        plain = ",".join(call % ("", number) for number in (1, 2))
        wrote = f'{{"findings":[],"portable":[],"unportable":[{plain}]}}\n'.encode()
        yield Run("JSON", [CHECK, PORTABLE, "--json"], plan, status=1, wrote=wrote)
        placed = ",".join(call % (f'"line":{8 + 2 * number},', number) for number in (1, 2))
        wrote = (
            f'{{"findings":[],"groups":[],"portable":[],"unportable":[{placed}]}}\n'.encode()
        )
        words = [CHECK, PORTABLE, "--json", "--lines"]
        yield Run("JSON with lines", words, plan, status=1, wrote=wrote)
        wrote = b"race app:0 2 app:1 1 key app:0 card\nfindings 1\nportable 4.2,5.0,7.0\n"
        yield Run("a race alone", [CHECK, PORTABLE, EARLY], status=1, wrote=wrote)
        told = b"unportable app:1 1 fence fence-spelling 4.2,5.0,7.0\nportable none\n"
        words = [CHECK, PORTABLE]
        yield Run("a set spelt apart", words, lines_of(APART), status=1, wrote=(told,))
        yield Run("the help", [CHECK, "--help"], wrote=(b"--portable",))

    def test_forms(self) -> None:
        self.hold_all(self.runs_of_forms())

    def runs_misused(self) -> Runs:
        pattern = "examples/patterns/business-cards.pattern"
        for others in (["--same", ANYWHERE], ["--same"], ["--answers"], ["--complete"]):
            words = [CHECK, PORTABLE, *others, EARLY]
            yield Run(f"--portable with {others}", words, status=5, said=PORTABLE_MISUSED)
        words = [CHECK, PORTABLE, "--pattern", pattern]
        yield Run("--portable with --pattern", words, status=5, said=PORTABLE_MISUSED)
        yield Run("a bad plan", [CHECK, PORTABLE], b"rehearsal 3\n", status=2, said=(b"BadHeader",))

    def test_misused(self) -> None:
        self.hold_all(self.runs_misused())


class Examples(ProgramCase):
    """The examples, which are known to be portable or not."""

    def test_examples(self) -> None:
        found: dict[str, str] = {}
        for path in sorted((TOP / "examples").glob("*.plan")):
            ran = start(self.program, Run(path.name, [CHECK, PORTABLE, str(path)]))
            found[path.stem] = ran.stdout.decode().splitlines()[-1]
        for name in ("business-card", "optimistic", "standstill", "waiting-lookup", "kept-fence"):
            self.assertEqual("portable 4.2,5.0,7.0", found[name], name)
        for name in ("card-fence", "leaders", "shared-fence"):
            self.assertEqual("portable 4.2,7.0", found[name], name)
        for name in ("ordered-get", "ring", "second-card", "service"):
            self.assertEqual("portable 5.0,7.0", found[name], name)
        for name in ("closed-service", "kept-card", "foreign-fence", "process-map", "two-jobs"):
            self.assertEqual("portable none", found[name], name)


class Random(ProgramCase):
    """Small random plans."""

    def judge(self, facts: Facts) -> Iterator[tuple[str, bool, bool]]:
        """Of each library that can be looked through: whether the plan is portable for it, and
        whether it may do otherwise than the rules."""
        for library, name in JUDGED.items():
            for found in find_divergence(facts, LIBRARIES[library], MOST_STATES):
                yield name, not blame(facts, library), found is not None

    def test_no_library_differs_on_a_portable_plan(self) -> None:
        """And on most of the others it may."""
        counts: Counter[tuple[str, bool, bool]] = Counter()
        runner = Runner(self.program, self.room)
        for text in itertools.islice(make_small(SEED), COUNT):
            hold(runner, text.encode())
            counts.update(self.judge(Facts(text.encode())))
        for name in JUDGED.values():
            self.assertGreater(counts[name, True, False], LEAST)
            self.assertGreater(counts[name, False, True], 4 * counts[name, False, False])


if __name__ == "__main__":
    unittest.main()
