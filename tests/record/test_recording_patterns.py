"""Tests patterns that are made of plans: they expand to the plan that they come from."""
import re
import tempfile
import unittest
from collections.abc import Mapping, Sequence
from pathlib import Path

from wire_up_tools.failures import Refused
from wire_up_tools.record.patterning import find_pattern, holds_in_part
from wire_up_tools.record.patterns.expanding import expand, read_pattern
from wire_up_tools.record.patterns.finding import Broken
from wire_up_tools.record.patterns.indexing import index_numbers, index_order
from wire_up_tools.record.patterns.scripts import Script
from wire_up_tools.record.patterns.writing import Pattern, make_pattern, say_broken
from wire_up_tools.words import CUT_OFF
from tests.support.tapes import (
    SHIPPED,
    Tape,
    make_world,
    plan_tapes,
    read_file,
    run_recorder,
    write_file,
)

CARDS = """\
pattern 1
job app
many ranks
put global card v
commit
fence all collect
for ranks
get-now each card
end
"""
# Each with the number of ranks in its groups.
WHOLE = {
    CARDS: 4,
    CARDS.replace("for ranks", "for ranks cyclic"): 4,
    """\
pattern 1
job app
one root
put global port[self] v
commit
for workers
fence self,each collect
get each card
end
publish last v
many workers
put global card v
commit
fence root,self collect
for workers
get-now each card
end
lookup-wait last
""": 3,
    """\
pattern 1
job app
many ranks
for ranks
put global note[each] v
commit
end
fence all collect
for ranks
get-now each note[self]
end
for ranks
fence self,each
end
unpublish *
""": 4,
    """\
pattern 1
job app0
one root.app0
publish port v
fence app0:*,app1:*
job app1
many ranks.app1
lookup-wait port
fence app0:*,app1:*
""": 3,
}
# A script of some neighbours, and whom each rank asks.
NEIGHBOURS = CARDS.replace("for ranks", "for some ranks").replace("get-now", "get")
ASKED = {0: (1, 3), 1: (2,), 2: (), 3: (0, 1, 2)}


def make_plan(text: str, size: int, choices: Mapping[int, Sequence[int]] | None = None
              ) -> list[Script]:
    """The scripts of a pattern with so many ranks in each group. Its fourth item is the loop of
    which some turns are chosen."""
    roles = read_pattern(text)
    sizes = {role.name: size for role in roles if role.is_group}
    chosen = {
        ("ranks", 3, f"app:{rank}"): [f"app:{number}" for number in them]
        for rank, them in (choices or {}).items()
    }
    expanded = expand(roles, sizes, chosen)
    return [Script(rank, rank.partition(":")[0], calls) for rank, calls in expanded.items()]


def make_scripts(*scripts: str) -> list[Script]:
    """The scripts of a job, each by its calls with semicolons between them."""
    return [
        Script(f"app:{n}", "app", [part.split() for part in calls.split("; ")])
        for n, calls in enumerate(scripts)
    ]


class PatternTest(unittest.TestCase):
    """The patterns of small plans."""

    def find(self, plan: Sequence[Script]) -> Pattern:
        """The pattern of a plan that has one."""
        found = make_pattern(plan)
        if isinstance(found, Broken):
            self.fail(say_broken(found, plan))
        return found

    def hold(self, plan: Sequence[Script], text: str) -> None:
        """Tests that a plan has this pattern, below its comment."""
        found = self.find(plan)
        self.assertEqual(found.text.partition("\n")[2], text)
        self.assertFalse(found.has_other_values)

    def refuse(self, plan: Sequence[Script], said: str) -> None:
        """Tests which call breaks the pattern of a plan."""
        found = make_pattern(plan)
        assert isinstance(found, Broken), found
        self.assertEqual(say_broken(found, plan), said)

    def test_whole_loops(self) -> None:
        for text, size in WHOLE.items():
            with self.subTest(text):
                self.hold(make_plan(text, size), text)

    def test_neighbours(self) -> None:
        self.hold(make_plan(NEIGHBOURS, 4, ASKED), NEIGHBOURS)

    def test_a_neighbour_with_calls_of_its_own(self) -> None:
        """The first rank publishes a port, and is a neighbour of others."""
        scripts = [
            f"publish n[app:{n}] v; fence all; lookup n[app:{(n - 1) % 4}]" for n in range(4)
        ]
        scripts[0] = f"publish port v; {scripts[0]}"
        found = self.find(make_scripts(*scripts))
        self.assertIn("for some workers,root\nlookup n[each]\nend\n", found.text)

    def test_business_cards_that_differ(self) -> None:
        """Values of their own are left out; those that all ranks have stay."""
        scripts = (f"put global card 10.0.0.{n}; put local kind tcp; commit" for n in range(4))
        found = self.find(make_scripts(*scripts))
        self.assertIn("put global card v\nput local kind tcp\n", found.text)
        self.assertTrue(found.has_other_values)

    def test_what_breaks_it(self) -> None:
        self.refuse(
            make_scripts("commit", "commit; fence all", "commit; lookup x", "commit; fence all"),
            "app:2 2: `lookup x`",
        )
        self.refuse(make_scripts("commit", "commit", "commit; commit"), "app:2 2: `commit`")
        self.refuse(
            make_scripts(*["fence all; fence app:0,app:1,app:2"] * 4),
            "app:0 2: `fence app:0,app:1,app:2`: names two ranks of a group besides its caller",
        )
        self.refuse(
            make_scripts(*["fence all; publish a[b v"] * 3),
            "app:0 2: `publish a[b v`: has a key with brackets",
        )

    def test_no_other_order(self) -> None:
        """A loop goes in rank order, or from the next rank on."""
        asked = ("3 2 1", "3 2 0", "3 1 0", "2 1 0")
        scripts = ("; ".join(f"get app:{n} card" for n in them.split()) for them in asked)
        plan = make_scripts(*scripts)
        found = self.find(plan)
        self.assertEqual(found.text.count("for some"), 3)

    def test_a_put_that_waits(self) -> None:
        """No commit stands in a loop over all while a put waits for one."""
        found = self.find(make_scripts(*[
            "put global a v; " + "; ".join(f"put global n[app:{m}] v; commit" for m in others)
            for others in ((1, 2), (0, 2), (0, 1))
        ]))
        self.assertNotIn("for ranks\n", found.text)


class IndexTest(unittest.TestCase):
    """Numbers of ranks in keys and names."""

    def index(self, *scripts: str) -> list[str]:
        """The scripts of a job, with the numbers of ranks in their keys as indices."""
        found = index_numbers(make_scripts(*scripts))
        return ["; ".join(" ".join(words) for words in number.calls) for number in found]

    def test_a_number_that_is_the_rank(self) -> None:
        self.assertEqual(
            self.index("publish port0 v", "publish port1 v", "lookup port1; unpublish *"),
            ["publish port#[app:0] v", "publish port#[app:1] v",
             "lookup port#[app:1]; unpublish *"],
        )
        self.assertEqual(
            self.index("put global q-0-7 v", "get-now app:0 q-0-7; get app:2 q-2-7", "commit"),
            ["put global q-#-7[app:0] v", "get-now app:0 q-#-7[app:0]; get app:2 q-#-7[app:2]",
             "commit"],
        )

    def test_numbers_that_stay(self) -> None:
        """One that is no rank, always the same, with a 0 in front, or in another index."""
        for names in (("a0", "a3"), ("a1", "a1"), ("a00", "a01"), ("a0[x]", "a1[x]"), ("#0", "#1")):
            scripts = [f"lookup {name}" for name in names]
            self.assertEqual(self.index(*scripts), scripts)

    def test_no_two_names_become_one(self) -> None:
        scripts = [f"lookup a{n}; lookup a{n}b; lookup {n}a; lookup {n}a{n}" for n in range(3)]
        found = [words for text in self.index(*scripts) for words in text.split("; ")]
        self.assertEqual(len(set(found)), len(found))

    def test_names_of_order(self) -> None:
        """A message, one that is for all, one that has begun, and one of several jobs."""
        one = {str(n): f"app:{n}" for n in range(3)}
        two = {f"app{n}.{m}": f"app{n}:{m}" for n in range(2) for m in range(2)}
        for name, ranks, indexed in (
            ("mpi.1.0.2", one, "mpi.2[app:1,app:0]"),
            ("mpi.1.all.2", one, "mpi.all.2[app:1]"),
            ("mpi.0.1.1.begun", one, "mpi.1.begun[app:0,app:1]"),
            ("fence_.2.1", one, "fence_.1[app:2]"),
            ("mpi.app0.1.app1.0.3", two, "mpi.3[app0:1,app1:0]"),
        ):
            self.assertEqual(index_order(name, ranks), indexed)


def gather(size: int) -> list[Tape]:
    """The tapes of a job whose ranks each send a message to rank 0."""
    tapes = make_world(size)
    for rank in range(1, size):
        tapes[rank].begin("send 1 0 0 4")
        tapes[0].call(f"receive 1 {rank} 0", f"0 {rank} 0 4")
    return tapes


GATHERED = """\
pattern 1
job app
one root
for workers
lookup-wait mpi.1[each,self]
end
many workers
publish mpi.1[self,root] sent
"""


class RecordedTest(unittest.TestCase):
    """The patterns of recordings."""

    def test_messages(self) -> None:
        """Their names have the ranks as indices, so that no two senders publish one."""
        found = find_pattern(plan_tapes(gather(4)))
        self.assertEqual(found.text.partition("\n")[2], GATHERED)

    def test_two_ranks(self) -> None:
        """They would fit any pattern."""
        with self.assertRaisesRegex(Refused, "^there is no pattern: the job app has 2 ranks, and"):
            find_pattern(plan_tapes(gather(2)))

    def test_numbers_that_are_no_ranks(self) -> None:
        """Below the number of ranks are others too: then the names stay as they are."""
        tapes = [Tape(n).call("publish blocks a0=text:x -") for n in range(3)]
        for tape in tapes:
            tape.call("lookup blocks :a1 -", "-46 -")
        self.assertIn("publish a0 x\nlookup a1\n", find_pattern(plan_tapes(tapes)).text)

    def test_what_holds_in_part(self) -> None:
        """The head of the pattern has why."""
        tapes = [tape.text(n > 0) for n, tape in enumerate(gather(3))]
        plan = plan_tapes(tapes)
        self.assertTrue(holds_in_part(plan))
        why = "1 processes whose recordings end before PMIx_Finalize: how they went on isn't known"
        head = find_pattern(plan).text.partition("pattern 1\n")[0].splitlines()
        self.assertEqual(head[1:3], [f"# {CUT_OFF}", f"#   {why}"])
        self.assertFalse(holds_in_part(plan_tapes(gather(3))))


class CommandTest(unittest.TestCase):
    """The command with `--pattern`."""

    def setUp(self) -> None:
        room = tempfile.TemporaryDirectory(prefix="wire-up-")
        self.addCleanup(room.cleanup)
        self.room = room.name
        self.plan, self.pattern = (Path(room.name, word) for word in ("plan", "pattern"))

    def run_on(self, *files: str) -> str:
        """Makes the pattern of a recording, and answers what is said."""
        words = ("--checker", "/bin/false", "--pattern", self.pattern)
        ran = run_recorder("-o", self.plan, *words, "--from", *files)
        self.assertEqual((ran.returncode, ran.stdout), (0, ""))
        return ran.stderr

    def write_tapes(self, texts: Sequence[bytes]) -> list[str]:
        """Writes recordings, and answers their paths."""
        return [
            write_file(Path(self.room, f"{n}.recording"), text)
            for n, text in enumerate(texts)
        ]

    def test_a_recording_with_a_pattern(self) -> None:
        files = self.write_tapes([tape.text() for tape in gather(3)])
        self.assertEqual(self.run_on(*files), "")
        expanded = expand(read_pattern(read_file(self.pattern)), {"workers": 2}, {})
        body = read_file(self.plan).partition("\nrehearsal 1\n")[2]
        lines = [
            line for line in body.splitlines() if not line.startswith(("#", "node", "job", "rank"))
        ]
        names = {line: re.sub(r"(mpi)\.(\d)\.(\d)\.", r"\1.", line) for line in lines}
        indexed = [" ".join(row) for them in expanded.values() for row in them]
        self.assertEqual([re.sub(r"\[.*?\]", "", text) for text in indexed], list(names.values()))

    def test_a_recording_in_part(self) -> None:
        files = self.write_tapes([tape.text(False) for tape in gather(3)])
        said = self.run_on(*files)
        in_part = f"{self.pattern}: a verdict over this pattern holds only in part, as one over the"
        self.assertIn(in_part, said)

    def test_a_recording_without(self) -> None:
        said = self.run_on(str(SHIPPED / "collectives"))
        self.assertRegex(said, r"^wire_up-record: there is no pattern: app:\d+ \d+: `fence .*\n$")
        self.assertFalse(self.pattern.exists())


if __name__ == "__main__":
    unittest.main()
