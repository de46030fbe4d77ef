"""`check --pattern` of the built program: whether every call is answered with any number of ranks,
for the table of rows/answered.py, beside what `replay` says of instances of each pattern. And with
`--explain`, who waits for ever in the first instance in which a rank does, or in that of the first
size with which one does."""
import json
import unittest
from collections.abc import Iterator

from tests.models import pattern_faults, pattern_reference
from tests.models.pattern_grammar import Pattern
from tests.models.pattern_reference import Ranks, Wait
from tests.rows.answered import ANSWERED, JUDGED, ROWS, SIZES, UP_TO_3, Told
from tests.soak.pattern_soaking import Instance
from tests.support.forms import one_line, pattern_as_json
from tests.support.running import ProgramCase, Run, Runs, start

CHECK = ["check", "--pattern"]
EXPLAIN = [*CHECK, "--explain"]
# How `replay --explain` begins on standard error where ranks wait.
WAIT = b"wire_up: ranks wait for ever\n"


def instance(pattern: Pattern, size: int) -> Wait:
    """The plan of a pattern in which all groups have so many ranks, with all turns, each rank on a
    node of its own."""
    ranks = Ranks(pattern, [1 if role.least is None else size for role in pattern.roles])
    scripts = [ranks.script(number, frozenset()) for number in range(ranks.count)]
    return Wait(ranks, Instance(ranks, scripts, [*range(ranks.count)]).text, [])


def instances(row: Told) -> Iterator[tuple[int, bytes]]:
    """These plans, from the largest `min` on, to SIZES."""
    pattern = pattern_reference.read_pattern(pattern_faults.text_of(row.lines))
    least = max(role.least or 0 for role in pattern.roles)
    for size in range(least, SIZES + 1):
        yield size, instance(pattern, size).text


def find_shown(row: Told, pattern: Pattern) -> Wait | None:
    """The instance that is explained: the first that is judged in which a rank waits, or that with
    as many ranks of each group as the first line says."""
    first = pattern_reference.find_first_wait(pattern)
    if first or not row.told.startswith(b"later "):
        return first
    return instance(pattern, int(row.told.split()[1]))


class Answered(ProgramCase):
    """The table."""

    def runs_of_rows(self) -> Runs:
        for row in ROWS:
            given = pattern_faults.text_of(row.lines)
            wrote = pattern_reference.CLEAN + b"\n" + row.told
            yield Run(row.name, CHECK, given, wrote=wrote)
            complete = [*CHECK, "--complete"]
            yield Run(f"{row.name}: complete", complete, given, status=row.status, wrote=wrote)
            yield Run(f"{row.name}: JSON", [*CHECK, "--json"], given, wrote=pattern_as_json(wrote))

    def test_rows(self) -> None:
        self.hold_all(self.runs_of_rows())

    def explained(self, row: Told, given: bytes) -> Iterator[Run]:
        """What `--explain` adds, by what it adds to `replay` of the first plan that waits."""
        said = pattern_reference.CLEAN + b"\n" + row.told
        form = json.loads(pattern_as_json(said))
        first = find_shown(row, pattern_reference.read_pattern(given))
        form["where"] = None
        if first:
            ran = start(self.program, Run(row.name, ["replay", "--explain"], first.text))
            self.assertTrue(ran.stderr.startswith(WAIT), ran.stderr)
            said += first.line() + first.not_taken() + ran.stderr[len(WAIT):]
            ran = start(self.program, Run(row.name, ["replay", "--json", "--explain"], first.text))
            form["where"] = {word: json.loads(ran.stdout)[word] for word in ("deadlock", "never")}
            form["where"] |= {"plan": first.text.decode(), "with": first.words().decode()}
            form["where"]["not_taken"] = [turn.decode() for turn in first.left]
        yield Run(f"{row.name}: explained", EXPLAIN, given, wrote=said)
        yield Run(f"{row.name}: explained, JSON", [*EXPLAIN, "--json"], given, wrote=one_line(form))

    def test_explained(self) -> None:
        for row in ROWS:
            self.hold_all(self.explained(row, pattern_faults.text_of(row.lines)))

    def hold_instance(self, row: Told, size: int, plan: bytes) -> None:
        """Tests that a rank of an instance waits where it is to, and of a pattern with status 0
        that each call succeeds."""
        ran = start(self.program, Run(row.name, ["replay", "--complete"], plan))
        waits = row.first is not None and size >= row.first
        last = ran.stdout.splitlines()[-1]
        self.assertEqual(waits, last != b"waiting 0", last)
        if not row.status:
            self.assertEqual(0, ran.returncode, ran.stderr)

    def test_instances(self) -> None:
        """The size that a row names is the first with which a call waits."""
        for row in ROWS:
            for size, plan in instances(row):
                with self.subTest(row.name, size=size):
                    self.hold_instance(row, size, plan)

    def test_rows_have_every_case(self) -> None:
        """A call waits at a size that is judged, or at a larger one alone; it is known that none
        does, or it isn't; and of those where none does a call fails."""
        told = [ANSWERED in row.told for row in ROWS]
        self.assertTrue(any(row.first and b"waits " in row.told for row in ROWS))
        self.assertTrue(any(row.told.startswith(b"later %d " % (row.first or 0)) for row in ROWS))
        self.assertTrue(any(UP_TO_3 in row.told for row in ROWS))
        self.assertTrue(any(JUDGED in row.told for row in ROWS))
        self.assertTrue(any(known and row.status for known, row in zip(told, ROWS)))
        self.assertFalse(any(known and row.first for known, row in zip(told, ROWS)))
        self.assertFalse(any(not known and not row.status for known, row in zip(told, ROWS)))


if __name__ == "__main__":
    unittest.main()
