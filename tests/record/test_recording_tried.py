"""Tests of trying races and orders, as far as that needs no MPI: values of which less is compared,
orders of calls that the plan leaves out, which orders come first, and how long all may take."""
import os
import tempfile
import time
import unittest
from collections.abc import Sequence
from pathlib import Path

from wire_up_tools.checker import Checker
from wire_up_tools.failures import Refused
from wire_up_tools.plan_reading import read_plan
from wire_up_tools.record.running import OF_PMIX, find_library
from wire_up_tools.record.showing.asking import Asked, read_race
from wire_up_tools.record.showing.by_time import find_by_time
from wire_up_tools.record.showing.comparing import compare
from wire_up_tools.record.showing.earlier import find_earlier, follow_race
from wire_up_tools.record.showing.held_runs import HeldRun, OutOfTime, Session, run_held
from wire_up_tools.record.showing.holds import Holds
from wire_up_tools.record.showing.naming import Naming
from wire_up_tools.record.showing.orders import Trial
from wire_up_tools.record.showing.pace import Pace, begin_pace
from wire_up_tools.record.showing.pairs import ASK, Pair, find_pairs, list_limited
from wire_up_tools.record.showing.plain_runs import PlainRuns
from wire_up_tools.record.showing.saying import say_unseen
from wire_up_tools.record.showing.server import Patience
from wire_up_tools.record.showing.showing import search
from wire_up_tools.record.showing.traces import say_value
from wire_up_tools.record.showing.unplanned import find_unplanned
from tests import support
from tests.record.test_recording_shown import BOTH, make_run
from tests.support.running import ProgramCase
from tests.support.tapes import Recorded, run_recorder

HEAD = "rehearsal 1\nnode n0\njob app\n"
PUBLISHED: Recorded = ("publish blocks port=text:v -", "0")


def make_session(until: float = float("inf")) -> Session:
    """A session that runs nothing."""
    return Session((), (), Path(), None, None, Patience(2, 60), 300, until)


def name_pairs(pairs: Sequence[Pair]) -> list[tuple[str, str]]:
    """The calls of pairs."""
    return [(one.title, other.title) for one, other in pairs]


class ValuesTest(unittest.TestCase):
    """Values that a recording doesn't have whole."""

    def test_values_in_words(self) -> None:
        for value, said in (
            ("text:v", "v"),
            ("number:4:-7", "-7"),
            ("real:8:0.500000", "0.500000"),
            ("bytes:48:abcdefgh", "48 bytes, checksum abcdefgh"),
            ("bytes:48", "48 bytes"),
            ("long:2000:abcdefgh", "2000 bytes of text, checksum abcdefgh"),
            ("type:22", "a value of type 22"),
            ("type:39:k%3Dtext%3Av%252C%2Cbtl.tcp.5.0%3Dbytes%3A48%3Aabcdefgh", "keys k=v%2C"),
            ("type:39:pmix.hname%3Dtext%3Avm", "no key of the program"),
            ("type:39:%", "no key of the program"),
        ):
            self.assertEqual(said, say_value(value))

    def find(self, *values: str) -> HeldRun:
        """A run in which the lookup was answered with these values."""
        found = ",".join(f"k{n}={value}" for n, value in enumerate(values))
        return make_run([[PUBLISHED], [("lookup blocks :port -", f"0 {found}")]])

    def test_bytes_of_one_size(self) -> None:
        runs = [self.find("bytes:4:aaaaaaaa"), self.find("bytes:4:bbbbbbbb")]
        compared = compare(runs, BOTH)
        self.assertEqual(
            ["app:1 1 lookup: PMIX_SUCCESS 4 bytes, checksum aaaaaaaa | "
             "PMIX_SUCCESS 4 bytes, checksum bbbbbbbb"],
            list(map(str, compared.targets)),
        )
        self.assertEqual([], list(say_unseen(compared)))

    def test_what_was_not_compared_is_said(self) -> None:
        for value, said in (("type:22", "type 22"), ("bytes:4", "4 bytes")):
            compared = compare([self.find("text:v", value)] * 2, BOTH)
            self.assertEqual(
                [f"  of this value no more was compared: app:1 lookup port: {said}"],
                list(say_unseen(compared)),
            )
        self.assertEqual([], list(say_unseen(compare([self.find("text:v")] * 2, BOTH))))


class UnplannedTest(unittest.TestCase):
    """Orders of calls that a plan leaves out."""

    def find(self, body: str, *own: Sequence[Recorded]) -> list[list[tuple[str, str]]]:
        """The pairs of a plan with these ranks and a run with these calls."""
        text = HEAD + body
        plan, session = read_plan(text.encode()), make_session()
        trial = Trial(session, None, plan, text, Naming(plan), {}, PlainRuns(session))
        return [name_pairs(row) for row in find_unplanned(trial, make_run(own).traces)]

    def test_every_key(self) -> None:
        body = "rank n0\nput global k v\ncommit\nrank n0\n"
        calls: Sequence[Recorded] = [("put global k text:v", "0"), ("commit", "0")]
        get = ("get blocks job:0 every pmix.immediate=number:1:1", "0 type:39")
        later: Sequence[Recorded] = [("fence nb all -", "0")] * 3
        pair = ("app:0 2 commit", "app:1 get of every key of rank 0")
        self.assertEqual([[pair], []], self.find(body, calls, [*later, get]))
        of_library: Sequence[Recorded] = [("put global btl.tcp.5.0 text:v", "0"), ("commit", "0")]
        self.assertEqual([[], []], self.find("rank n0\nrank n0\n", of_library, [get]))

    def test_reserved_names(self) -> None:
        ranks = "rank n0\nrank n0\nrank n0\n"
        publish = ("publish blocks - pmixer=text:v", "0")
        look_up = ("lookup blocks :pmixer -", "0 pmixer=text:v")
        pairs = [
            [("app:0 publish pmixer", "app:1 lookup pmixer")],
            [("app:0 publish pmixer", "app:2 lookup pmixer")],
        ]
        self.assertEqual(pairs, self.find(ranks, [publish], [look_up], [look_up]))
        waits = ("lookup blocks :pmixer pmix.wait=number:4:1", "0 pmixer=text:v")
        self.assertEqual([[], []], self.find(ranks, [publish], [waits], []))
        failed = ("publish blocks - pmixer=text:v", "-47")
        self.assertEqual([[], []], self.find(ranks, [failed], [look_up], []))

    def test_calls_of_the_plan(self) -> None:
        """The plan has their order, if there is one."""
        body = "rank n0\npublish port v\nrank n0\nlookup port\n"
        look_up = ("lookup blocks :port -", "0 port=text:v")
        self.assertEqual([[], []], self.find(body, [PUBLISHED], [look_up]))


class ByTimeTest(unittest.TestCase):
    """Orders that no rule gives, but by which a library may go."""

    puts: Sequence[Recorded] = [("put global a text:1", "0"), ("commit", "0")]
    second: Sequence[Recorded] = [("put global b text:2", "0"), ("commit", "0")]

    def find(
        self, get: str, nodes: Sequence[str], *own: Sequence[Recorded]
    ) -> list[list[tuple[str, str]]]:
        """The pairs of a plan whose second process, on another node or not, gets so, and of a run
        with these calls."""
        puts = "put global a 1\ncommit\nput global b 2\ncommit\n"
        text = (
            "rehearsal 1\nnode n0\nnode n1\njob app\n"
            f"rank {nodes[0]}\n{puts}rank {nodes[1]}\nget app:0 a\n{get} app:0 b\n"
        )
        plan, session = read_plan(text.encode()), make_session()
        trial = Trial(session, None, plan, text, Naming(plan), {}, PlainRuns(session))
        return [name_pairs(found) for found in find_by_time(trial, make_run(own).traces)]

    def test_own_store(self) -> None:
        """What isn't there had not come along with the get before it; else the times tell."""
        before = ("get blocks job:0 :a -", "0 text:1")
        get_first = [[("app:1 1 get", "app:0 4 commit")], []]
        commit_first = [[("app:0 4 commit", "app:1 1 get")], []]
        later: Sequence[Recorded] = [("fence nb all -", "0")] * 5
        for fences, end, expected in (
            ([], "-46", get_first),
            ([], "0 text:2", get_first),
            (later, "-46", get_first),
            (later, "0 text:2", commit_first),
        ):
            get = ("get blocks job:0 :b pmix.optional=number:1:1", end)
            calls = [*fences, before, get]
            found = self.find("get-now", ("n0", "n0"), [*self.puts, *self.second], calls)
            self.assertEqual(expected, found)
        get = ("get blocks job:0 :b pmix.immediate=number:1:1", "-46")
        found = self.find("get-now", ("n0", "n0"), [*self.puts, *self.second], [before, get])
        self.assertEqual([[], []], found)

    def test_gets_that_do_not_wait(self) -> None:
        """From another node alone, and of keys that are for it."""
        get = ("get blocks job:0 :b -", "-46")
        before = ("get blocks job:0 :a -", "0 text:1")
        pair = [[("app:1 2 get-now", "app:0 4 commit")], []]
        for nodes, puts, end, expected in (
            (("n0", "n1"), self.second, "-46", pair),
            (("n0", "n0"), self.second, "-46", [[], []]),
            (("n0", "n1"), self.second, "0 text:2", [[], []]),
            (("n0", "n1"), [("put local b text:2", "0"), ("commit", "0")], "-46", [[], []]),
        ):
            calls = [before, (get[0], end)]
            self.assertEqual(expected, self.find("get-now", nodes, [*self.puts, *puts], calls))


class SearchTest(ProgramCase):
    """How long orders are looked for."""

    def find(self, until: float, most: int) -> tuple[int, bool, list[str]]:
        """How many of three orders are found, whether these are said to be all, and what is
        said."""
        text = f"{HEAD}rank n0\npublish a v\nfence all\nrank n0\nfence all\n"
        text += "lookup a\n" * 3
        plan, said = read_plan(text.encode()), list[str]()
        session = make_session(until)
        trial = Trial(
            session, Checker(self.program), plan, text, Naming(plan), {}, PlainRuns(session)
        )
        found, are_all = search(find_pairs(trial, ASK), most, trial, said.append)
        return len(found), are_all, said

    def test_all_and_some(self) -> None:
        self.assertEqual((3, True, []), self.find(float("inf"), 3))
        self.assertEqual((2, False), self.find(float("inf"), 2)[:2])

    def test_no_time_is_left(self) -> None:
        found = "with 0 found: give more by --within"
        said = f"the search for orders ended after half of 300 s, {found}"
        self.assertEqual((0, False, [said]), self.find(time.monotonic() + 100, 3))


class KindsTest(ProgramCase):
    """Which orders are taken, and which come first."""

    def test_waits_with_a_short_limit(self) -> None:
        """Such as the library of MPI has are as good as none."""
        text = f"{HEAD}rank n0\nput global k v\ncommit\nrank n0\nget app:0 k\n"
        plan, session = read_plan(text.encode()), make_session()
        trial = Trial(
            session, Checker(self.program), plan, text, Naming(plan), {}, PlainRuns(session)
        )
        puts: Sequence[Recorded] = [("put global k text:v", "0"), ("commit", "0")]
        for limit, places in (("number:4:5", ["app:1 1"]), ("number:4:600", []), ("type:9", [])):
            get = (f"get blocks job:0 :k pmix.timeout={limit}", "0 text:v")
            limited = list_limited(trial, make_run([puts, [get]]).traces)
            self.assertEqual(places, sorted(limited))
            found = [other.place for _, other in find_pairs(trial, ASK, limited)]
            self.assertEqual(places, found)

    def test_one_of_each_kind_comes_first(self) -> None:
        text = HEAD + (
            "rank n0\n# at main (a.c:1)\npublish a v\n# at main (a.c:2)\npublish b v\nfence all\n"
            "rank n0\nfence all\n# at main (a.c:3)\nlookup a\nlookup a\n"
            "# at main (a.c:4)\nlookup b\n"
        )
        plan, session = read_plan(text.encode()), make_session()
        trial = Trial(
            session, Checker(self.program), plan, text, Naming(plan), {}, PlainRuns(session)
        )
        found = [(one.place, other.place) for one, other in find_pairs(trial, ASK)]
        first, second = ("app:0 1", "app:1 2"), ("app:0 2", "app:1 4")
        self.assertEqual([first, second, ("app:0 1", "app:1 3")], found)

    def test_the_end_of_all_names(self) -> None:
        text = HEAD.replace("1", "2", 1) + (
            "rank n0\npublish a v\nfence all\nunpublish *\n"
            "rank n0\nlookup a\nfence all\nlookup b\n"
        )
        plan, session = read_plan(text.encode()), make_session()
        trial = Trial(
            session, Checker(self.program), plan, text, Naming(plan), {}, PlainRuns(session)
        )
        found = [(one.place, other.place) for one, other in find_pairs(trial, ASK)]
        self.assertIn(("app:1 1", "app:0 3"), found)


class PaceTest(unittest.TestCase):
    """How long all may take."""

    def begin(self, seconds: float) -> tuple[Pace, list[str]]:
        """Begins two runs that may hold two calls in vain, after a first that took so long."""
        text = f"{HEAD}rank n0\n"
        plan, session, said = read_plan(text.encode()), make_session(), list[str]()
        first = HeldRun(Holds(()), Path(), 0, 0.0, seconds, {}, {})
        plains = PlainRuns(session, [first])
        trial = Trial(session, None, plan, text, Naming(plan), {}, plains)
        return begin_pace(trial, "2 orders", 2, 2, said.append), said

    def test_what_is_said(self) -> None:
        pace, said = self.begin(20.0)
        self.assertIn("2 orders: the command runs 2 times more at least (about 44 s; a ", said[0])
        self.assertIn("doesn't end is ended after 60 s, see --limit; none begins", said[0])
        self.assertIn("none begins after 300 s, see --within), and does again what it", said[0])
        pace.say_next(0, 2)
        pace.say_next(1, 2)
        self.assertRegex(said[1], r"^1 of 2 done, after \d s$")
        self.assertEqual(1, pace.say_left("orders", 1, 2))
        left = "orders that weren't tried: 1 of 2, since 300 s are over: give more by --within"
        self.assertEqual([left], said[2:])

    def test_short_runs_say_less(self) -> None:
        pace, said = self.begin(0.5)
        pace.say_next(1, 2)
        self.assertEqual(1, len(said))

    def test_no_run_begins_later(self) -> None:
        with tempfile.TemporaryDirectory() as room, self.assertRaises(OutOfTime):
            run_held(make_session(0.0), Holds(()), f"{room}/run")


@unittest.skipUnless(find_library(support.TOP, OF_PMIX), "the recorder isn't built")
class RefusedRaceTest(unittest.TestCase):
    """Calls that an earlier plan doesn't have are refused before the command runs."""

    def try_race(self, text: str, race: str) -> tuple[int, str, bool]:
        """What comes of a race with a plan that is there: the status, what is said, and whether the
        command ran."""
        with tempfile.TemporaryDirectory() as room:
            plan, ran = Path(room, "plan"), Path(room, "ran")
            plan.write_text(text, encoding="ascii")
            tried = run_recorder("-o", plan, "--show-race", race, "touch", ran)
            return tried.returncode, tried.stderr, ran.exists()

    def test_orders_of_mpi(self) -> None:
        head = "# Recorded by wire_up-record on 2026-12-01: 2 processes\n"
        body = f"{HEAD}rank n0\npublish a v\n# MPI: barrier\nfence all\nrank n0\nlookup a\n"
        for race, said in (
            ("app:0 2 app:1 1", "app:0 2: is an order of MPI, and no call of PMIx: so "),
            ("app:0 1 app:1 9", "app:1 9: this plan has no such call: so "),
        ):
            status, told, has_run = self.try_race(head + body, race)
            self.assertEqual((125, False), (status, has_run))
            self.assertIn(said, told)
        self.assertTrue(self.try_race(head + body, "app:0 1 app:1 1")[2])
        self.assertTrue(self.try_race(body, "app:0 2 app:1 1")[2], "another file isn't read")
        self.assertTrue(self.try_race(f"{head}nonsense\nrank\n", "app:0 2 app:1 1")[2])


def ask_race(race: tuple[str, int, str, int] | None) -> Asked:
    """Asks for two calls of the plan of this run, and for nothing else."""
    return Asked(
        does_show=False,
        race=race,
        does_turn=False,
        turn_waits=0,
        of=None,
        most=8,
        hold=None,
        limit=None,
        within=300.0,
        source=None,
        shown=None,
    )


class EarlierRaceTest(unittest.TestCase):
    """Calls that are named by the numbers of an earlier plan."""

    def follow(self, more: str, name: str = "a") -> tuple[object, list[str]]:
        """The race that is taken in a run's plan, which has more calls before those of the earlier
        one, and what is said."""
        head, said = "# Recorded by wire_up-record on 2026-12-01: 2 processes\n", list[str]()
        first, second = (f"rank n0\n{more}publish {name} v\n", "rank n0\nlookup a\n")
        race = read_race("race app:0 1 app:1 1 name a")
        with tempfile.TemporaryDirectory() as room:
            path = Path(room, "plan")
            path.write_text(f"{head}{HEAD}rank n0\npublish a v\n{second}", encoding="ascii")
            earlier = find_earlier(race, str(path))
        asked = ask_race(race)
        return follow_race(asked, earlier, f"{head}{HEAD}{first}{second}", said.append).race, said

    def test_the_same_numbers(self) -> None:
        self.assertEqual((("app:0", 1, "app:1", 1), []), self.follow(""))

    def test_other_numbers(self) -> None:
        said = "app:0 1 of the plan that was there is app:0 3 in that of this run"
        race = ("app:0", 3, "app:1", 1)
        self.assertEqual((race, [said]), self.follow("put local k v\ncommit\n"))

    def test_a_call_that_is_no_more(self) -> None:
        with self.assertRaisesRegex(Refused, r"app:0 1 publish \(publish a\) of the plan that was"):
            self.follow("", "b")

    def test_no_earlier_plan(self) -> None:
        asked = ask_race(("a:0", 1, "a:1", 1))
        self.assertEqual((), find_earlier(asked.race, os.devnull))
        self.assertEqual(asked, follow_race(asked, (), "", self.fail))


if __name__ == "__main__":
    unittest.main()
