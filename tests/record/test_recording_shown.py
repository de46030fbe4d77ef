"""Tests how races are shown in a program, as far as that needs no MPI: names of calls, traces, what
differs, where a process stood, the server, options, and the head of a plan."""
import socket
import tempfile
import threading
import time
import unittest
from collections.abc import Sequence
from pathlib import Path

from wire_up_tools.checker import Checker
from wire_up_tools.failures import Refused
from wire_up_tools.plan_reading import read_plan
from wire_up_tools.record.planning import Choices, Plan, make_plan
from wire_up_tools.record.recordings import read_recordings
from wire_up_tools.limits import LARGE
from wire_up_tools.record.showing.comparing import Compared, compare
from wire_up_tools.record.showing.heads import insert_in_head
from wire_up_tools.record.showing.held_runs import HeldRun, Session, refuse_lost
from wire_up_tools.record.showing.holds import Course, Holds, Until, Wait, write_holds
from wire_up_tools.record.showing.messages import find_swaps
from wire_up_tools.record.showing.missing import find_missed
from wire_up_tools.record.showing.motion import Motion
from wire_up_tools.record.showing.naming import Naming, Target, name_call, number_job
from wire_up_tools.record.showing.orders import Trial
from wire_up_tools.record.showing.pairs import ASK, WAIT, find_pairs
from wire_up_tools.record.showing.plain_runs import PlainRuns, leave_out_own
from wire_up_tools.record.showing.same_program import hold_to_plan
from wire_up_tools.record.showing.server import Patience, Server, open_hall_for
from wire_up_tools.record.showing.showing import NOTHING_TO_SHOW, ONLY_REWRITES, find_races
from wire_up_tools.record.showing.strikes import tell_strikes
from wire_up_tools.record.showing.traces import Traces, read_traces
from wire_up_tools.record.writing import write_plan
from wire_up_tools.words import EACH_RUN_SENTENCE
from tests.support.running import ProgramCase
from tests.support.tapes import PATIENCE, SHIPPED, Recorded, Tape, run_recorder

PUBLISH = Target("app:0", 1, 0, 0, "publish port", 1, "publish")
LOOKUP = Target("app:1", 1, 0, 1, "lookup port", 1, "lookup")
BOTH = (PUBLISH, LOOKUP)


def write_tapes(folder: Path, tapes: Sequence[Tape]) -> None:
    """Writes recordings, with the zeros that may follow them."""
    for number, tape in enumerate(tapes):
        with open(folder / f"job.{number}.n0.{number}.recording", "wb") as to:
            to.write("".join(f"{line}\n" for line in tape.lines).encode() + b"\0" * 10)


def make_traces(tapes: Sequence[Tape]) -> Traces:
    """The traces of recordings."""
    with tempfile.TemporaryDirectory() as room:
        write_tapes(Path(room), tapes)
        return read_traces(Path(room))


def make_run(
    own: Sequence[Sequence[Recorded]],
    status: int | None = 0,
    courses: Sequence[Course] = (Course(1, 1, 2), Course(1, 2, 3)),
    output: bytes = b"",
) -> HeldRun:
    """A run in which the processes made these calls."""
    tapes = []
    for rank, calls in enumerate(own):
        tapes.append(Tape(rank))
        for what, end in calls:
            tapes[-1].call(what, end)
    found = dict(enumerate(courses, 1))
    return HeldRun(Holds(BOTH), Path(), status, 0.0, 1.0, found, make_traces(tapes), output)


class NamesTest(unittest.TestCase):
    """Names of calls."""

    def test_what_a_call_is(self) -> None:
        for text, name in (
            ("put global card text:v", "put card"),
            ("commit", "commit"),
            ("fence nb job:0,job:1 pmix.collect=number:1:1", "fence"),
            ("get blocks job:12 :card -", "get 12 card"),
            ("get blocks job:* every -", "get * every"),
            ("lookup blocks :a pmix.wait=number:4:1", "lookup a"),
            ("unpublish blocks every -", "unpublish every"),
            ("publish nb port%2F123456.7=text:v -", "publish port%2F#.7"),
            ("send 1 2 7 400", "send 1 2 7"),
        ):
            with self.subTest(text):
                self.assertEqual([name], name_call(text))
        self.assertEqual(["publish a", "publish b"], name_call("publish nb a=text:v,b=text:w -"))

    def test_jobs(self) -> None:
        for namespace, number in (
            ("1941831681", 1941831681 & 0xFFFF),
            ("prterun-node0-9502@12", 12),
            ("slurm.pmix.7.0", 0),
        ):
            self.assertEqual(number, number_job(namespace))

    def test_names_of_a_plan_are_those_of_its_recordings(self) -> None:
        """The count over the lines of a plan alone is that of the recording, in each that ships,
        but for calls of several names and of fences that others stand for."""
        for folder in sorted(path for path in SHIPPED.iterdir() if any(path.glob("*.rec*"))):
            try:
                plan = make_plan(read_recordings([str(folder)], LARGE), Choices(most=LARGE))
            except Refused:
                continue
            with self.subTest(folder.name):
                self.hold_names(read_traces(folder), plan)

    def hold_names(self, traces: Traces, plan: Plan) -> None:
        """Compares the names of the calls of a plan with those of its recordings."""
        naming = Naming(read_plan(write_plan(plan).encode()))
        for process, lines in plan.draft.lines.items():
            for number, line in enumerate(lines, 1):
                if not line.is_of_program or line.verb == "fence":
                    continue
                target = naming.find(process.name, number)
                call = traces[process.name].find(target.key)
                self.assertIsNotNone(call, f"{target} {line.words}")

    def test_what_is_no_call(self) -> None:
        text = (
            "rehearsal 1\nnode n0\njob app\nrank n0\npublish a v\n# MPI: barrier\nfence all\n"
            "rank n0\n# MPI: barrier\nfence all\n"
        )
        naming = Naming(read_plan(text.encode()))
        self.assertEqual("publish a", naming.find("app:0", 1).name)
        for process, number, said in (
            ("app:0", 2, "is an order of MPI"),
            ("app:0", 3, "has no such call"),
            ("app:2", 1, "has no such call"),
        ):
            with self.assertRaisesRegex(Refused, said):
                naming.find(process, number)

    def test_job_that_a_run_does_not_tell(self) -> None:
        body = "rehearsal 1\nnode n0\njob app0\nrank n0\nlookup a\njob app1\nrank n0\nlookup a\n"
        with self.assertRaisesRegex(Refused, "isn't known in a run"):
            Naming(read_plan(body.encode())).find("app0:0", 1)
        head = "# The job app1 is the namespace prterun-n0-7@3.\n"
        naming = Naming(read_plan((head + body).encode()))
        self.assertEqual((3, 0), (naming.find("app1:0", 1).job, naming.find("app1:0", 1).rank))


class DifferencesTest(unittest.TestCase):
    """What differs between two runs, and why an order wasn't made."""

    published = ("publish blocks port=text:v -", "0")

    def look_up(self, end: str) -> Recorded:
        """A lookup that ends so."""
        return "lookup blocks :port -", end

    def test_replies_and_partings(self) -> None:
        found = self.look_up("0 port=text:123456.0")
        runs = [
            make_run([[self.published], [found, ("fence nb all -", "0")]], 0, output=b"a 1234567"),
            make_run([[self.published], [self.look_up("-46 -")]], -11, output=b"a 7654321"),
        ]
        compared = compare(runs, BOTH)
        self.assertEqual(
            [("app:1", "1 lookup", "PMIX_SUCCESS #.0", "PMIX_ERR_NOT_FOUND")],
            [
                (target.process, target.what, target.first, target.second)
                for target in compared.targets
            ],
        )
        self.assertEqual(
            [("app:1", "after lookup port", "fence", "nothing more")],
            [
                (parting.process, parting.what, parting.first, parting.second)
                for parting in compared.partings
            ],
        )
        self.assertTrue(compared.ends_otherwise)
        self.assertFalse(compared.writes_otherwise)
        self.assertFalse(compared.is_alike)

    def test_endings(self) -> None:
        for status, said in (
            (0, "status 0"),
            (1, "status 1"),
            (139, "status 139 (SIGSEGV)"),
            (200, "status 200"),
            (-9, "signal 9"),
            (None, "no end"),
        ):
            self.assertEqual(said, make_run([], status).ending)

    def test_alike(self) -> None:
        runs = [make_run([[self.published], [self.look_up("0 port=text:a")]])] * 2
        self.assertTrue(compare(runs, BOTH).is_alike)

    def test_where_calls_part(self) -> None:
        fence = ("fence nb all -", "0")
        for before, said in (((), "from the start"), ((fence,) * 2, "after fence, number 2")):
            runs = [make_run([[*before, pair]]) for pair in (self.published, ("commit", "0"))]
            self.assertEqual([said], [parting.what for parting in compare(runs, ()).partings])

    def test_addresses_of_the_library_are_not_compared(self) -> None:
        other = ("get blocks job:0 :btl.tcp.5.0 -", "0 text:a")
        runs = [make_run([[self.published], [other]]), make_run([[self.published], []])]
        self.assertEqual([], list(compare(runs, ()).partings))

    def test_where_it_stood(self) -> None:
        began = 1700000000.0
        for end, said in (
            (None, "app:0 stood in MPI_Barrier for 9.0 s: ordered by this library alone"),
            ("0", "app:0 had left MPI_Barrier for 9.0 s: ordered by what isn't recorded"),
        ):
            tape = Tape(0)
            number = tape.begin("collective barrier 1")
            if end:
                tape.end(number, end)
            run = make_run([])
            run.traces = make_traces([tape, Tape(1)])
            run.courses = {1: Course(), 2: Course(began, began + 9, began + 9, began + 9)}
            missed = find_missed(run, PUBLISH, LOOKUP)
            self.assertIn(said, str(missed))

    def test_why_not_made(self) -> None:
        for courses, said in (
            ((Course(), Course()), "neither app:0 1 nor app:1 1 came"),
            ((Course(1, 1, 2), Course()), "app:1 1 didn't come"),
            ((Course(), Course(1, 2)), "app:0 1 didn't come"),
            ((Course(1, 1), Course(2, 5, 6, 5)), "app:1 1 was held, and app:0 1 came but"),
            ((Course(1, 1, is_passed=True), Course(1, 2)), "app:0 1 wasn't held: a callback"),
            ((Course(), Course(2, 5, 6, 5)), "app:0 had called nothing yet"),
        ):
            missed = find_missed(make_run([[], []], courses=courses), PUBLISH, LOOKUP)
            self.assertIn(said, str(missed))
        self.assertIsNone(find_missed(make_run([[], []]), PUBLISH, LOOKUP))

    def test_messages_that_could_have_come_otherwise(self) -> None:
        first, second = (Tape(rank).call("send 1 0 7 4", "0") for rank in (1, 2))
        root = Tape(0).call("receive 1 any 7", "0 2 7 4 wait").call("receive 1 1 7", "0 1 7 4 wait")
        swaps = find_swaps(make_traces([root, first, second]))
        self.assertEqual(["app:2 send 1 0 7 after app:1"], [str(swap) for swap in swaps])


class OwnTest(unittest.TestCase):
    """Values that each run has otherwise, and what plain runs have otherwise too."""

    def make(self, value: str, *more: Recorded, end: str = "0") -> HeldRun:
        """A run in which the name had this value."""
        found = ("lookup blocks :port -", f"{end} port=text:{value}" if end == "0" else f"{end} -")
        return make_run([[("publish blocks port=text:v -", "0")], [found, *more]])

    def test_numbers_that_can_be_those_of_a_run(self) -> None:
        """A large number that plain runs share is a difference; what each run has otherwise isn't
        even told."""
        held = [self.make(word) for word in ("1000001", "1000002")]
        shared = self.leave_out(held, [self.make("1000001")] * 2)
        self.assertEqual(
            [("PMIX_SUCCESS 1000001", "PMIX_SUCCESS 1000002")],
            [(target.first, target.second) for target in shared.targets],
        )
        other = self.leave_out(held, [self.make(word) for word in ("1000003", "1000004")])
        self.assertTrue(other.is_alike)
        self.assertEqual(([], []), (other.own, other.plain))

    def leave_out(self, held: Sequence[HeldRun], plain: Sequence[HeldRun]) -> Compared:
        """What is left of the differences between two runs."""
        session = Session((), (), Path(), None, None, Patience(1, 1))
        compared = compare(held, BOTH)
        return leave_out_own(compared, held, BOTH, PlainRuns(session, list(plain)))

    def test_a_value_that_is_another_in_each_run(self) -> None:
        held, plain = ([self.make(text) for text in pair] for pair in (["a", "b"], ["c", "d"]))
        found = self.leave_out(held, plain)
        self.assertTrue(found.is_alike)
        said = "app:1 1 lookup: PMIX_SUCCESS a | PMIX_SUCCESS b"
        self.assertEqual([said], list(map(str, found.own)))
        shared = self.leave_out([plain[0], held[0]], plain)
        self.assertTrue(shared.is_alike)

    def test_a_value_that_comes_again(self) -> None:
        """It can be that of one of two publishes."""
        held = [self.make("a"), self.make("b")]
        found = self.leave_out(held, [self.make("a"), self.make("b")])
        self.assertEqual((1, 0, 1), (len(found.targets), len(found.own), len(found.plain)))

    def test_a_status(self) -> None:
        held = [self.make("a"), self.make("", end="-46")]
        found = self.leave_out(held, [self.make("c"), self.make("d")])
        self.assertEqual((1, 0), (len(found.targets), len(found.own)))

    def test_names_that_are_others_in_each_run(self) -> None:
        runs = [self.make("v", (f"lookup blocks :n{number} -", "-46 -")) for number in range(4)]
        found = self.leave_out(runs[:2], runs[2:])
        self.assertEqual(([], 1), (list(found.partings), len(found.own)))
        other = self.make("v", ("fence nb all -", "0"))
        found = self.leave_out([runs[0], other], runs[2:])
        self.assertEqual((1, 0), (len(found.partings), len(found.own)))


class StrikesTest(unittest.TestCase):
    """Limits of time that can have struck while a call was held."""

    def tell(self, calls: Sequence[Recorded], status: int = 0, held: float = 5.0) -> list[str]:
        """What is told of a run in which the publish was held so long from the first second on."""
        run = make_run([[], calls], status)
        began = min(trace.began for trace in run.traces.values())
        courses = {1: Course(began, began + held, began + held), 2: Course(began, began, began)}
        holds = Holds(BOTH, {1: [Wait(2)]})
        run.holds, run.courses = holds, courses
        return tell_strikes(run)

    def test_a_call_that_is_given_up(self) -> None:
        said = self.tell([("get blocks job:0 :k pmix.timeout=number:5:1", "-24")])
        self.assertEqual(1, len(said))
        self.assertRegex(said[0], r"^app:1 get 0 k: PMIX_ERR_TIMEOUT after \d\.\d s$")
        self.assertEqual([], self.tell([("get blocks job:0 :k -", "0 text:a")]))

    def test_a_poll(self) -> None:
        miss, hit = ("lookup blocks :port -", "-46 -"), ("lookup blocks :port -", "0 port=text:v")
        said = self.tell([miss, miss, miss])
        self.assertRegex(said[0], r"^app:1 lookup port: 3 times in \d\.\d s$")
        self.assertEqual([], self.tell([miss, miss, hit]))
        self.assertEqual([], self.tell([miss]))

    def test_an_alarm(self) -> None:
        self.assertEqual(["an alarm ended a process"], self.tell([], 142))
        self.assertEqual([], self.tell([], 139))


class SameProgramTest(unittest.TestCase):
    """Whether a run is one of the command of a plan."""

    def hold(self, *own: Sequence[Recorded]) -> str:
        """What is said of a run in which the processes made these calls."""
        text = (
            "rehearsal 1\nnode n0\njob app\nrank n0\npublish port v\n"
            "rank n0\nlookup port\nlookup more\n"
        )
        plan = read_plan(text.encode())
        session = Session((), (), Path(), None, None, Patience(1, 1))
        trial = Trial(session, None, plan, text, Naming(plan), {}, PlainRuns(session))
        return hold_to_plan(trial, make_run(own))

    def test_what_a_run_lacks(self) -> None:
        publish = ("publish blocks port=text:v -", "0")
        look_up, more = (("lookup blocks :port -", "0"), ("lookup blocks :more -", "0"))
        self.assertEqual("", self.hold([publish], [look_up, more]))
        said = "a run by itself lacks 1 of the plan's calls: app:1 lookup more"
        self.assertEqual(said, self.hold([publish], [look_up]))
        with self.assertRaisesRegex(Refused, "a run never called app:0 publish port, app:1 lookup"):
            self.hold([look_up], [publish])
        with self.assertRaisesRegex(Refused, r"processes app:0, app:1, and the run had app:0 \("):
            self.hold([publish])


class LostTest(unittest.TestCase):
    """Runs that are recorded in part."""

    def test_what_a_recorder_says(self) -> None:
        said = b"out\nwire_up-record: /a/b.recording: no room; what follows isn't recorded\nout\n"
        with self.assertRaisesRegex(Refused, "b.recording: no room; what follows isn't recorded$"):
            refuse_lost(Path("/"), said)
        refuse_lost(Path("/"), b"out\n")


class NothingToShowTest(ProgramCase):
    """What is said of a plan that has no race."""

    def test_what_is_said(self) -> None:
        head, put = "rehearsal 1\nnode n0\njob app\nrank n0\n", "put global k v\n"
        for body, is_rewrite in ((put, False), (put * 2, True)):
            said: list[str] = []
            plan = read_plan((head + body).encode())
            session = Session((), (), Path(), None, None, Patience(1, 1))
            trial = Trial(
                session, Checker(self.program), plan, head + body, Naming(plan), {},
                PlainRuns(session),
            )
            self.assertEqual([], find_races(trial, 8, said.append))
            self.assertEqual([ONLY_REWRITES if is_rewrite else NOTHING_TO_SHOW], said)


class PairsTest(ProgramCase):
    """Pairs that a plan orders."""

    text = (
        "rehearsal 1\nnode n0\njob app\n"
        "rank n0\npublish a v\nput global k v\nput global btl.tcp.5.0 v\ncommit\npublish b v\n"
        "fence all\n"
        "rank n0\nlookup b\nlookup-wait a\nfence all\nlookup a\nget-now app:0 k\n"
        "get-now app:0 btl.tcp.5.0\n"
    )

    def find(self, verbs: Sequence[str]) -> list[tuple[str, str]]:
        """The pairs, by their calls."""
        plan = read_plan(self.text.encode())
        session = Session((), (), Path(), None, None, Patience(1, 1))
        trial = Trial(
            session, Checker(self.program), plan, self.text, Naming(plan), {}, PlainRuns(session)
        )
        return [(one.place, other.place) for one, other in find_pairs(trial, verbs)]

    def test_those_that_ask_at_once(self) -> None:
        """A race is none, nor what MPI's own library puts."""
        pairs = [("app:0 1", "app:1 4"), ("app:0 4", "app:1 5")]
        self.assertEqual(pairs, self.find(ASK))

    def test_those_that_wait(self) -> None:
        self.assertEqual([("app:0 1", "app:1 2")], self.find(WAIT))


class ServerTest(unittest.TestCase):
    """The server that lets calls go."""

    def setUp(self) -> None:
        folder = tempfile.TemporaryDirectory()
        self.addCleanup(folder.cleanup)
        self.folder = Path(folder.name)

    def make_server(self, holds: Holds, hold: float) -> Server:
        """A server, whose hall is open until the test is over."""
        halls = open_hall_for(None)
        hall = halls.__enter__()
        self.addCleanup(halls.__exit__, None, None, None)
        return Server(hall, holds, Motion(self.folder), Patience(hold, PATIENCE))

    def serve(self, holds: Holds, hold: float) -> Server:
        """Begins to serve, until the test is over."""
        server, is_over = self.make_server(holds, hold), threading.Event()

        def run() -> None:
            while not is_over.is_set():
                server.serve(0.01)

        thread = threading.Thread(target=run)
        thread.start()
        self.addCleanup(thread.join)
        self.addCleanup(is_over.set)
        return server

    def say(self, server: Server, what: str, which: int, word: str = "") -> socket.socket:
        """Says something of a call, over a connection of its own."""
        made = socket.socket(socket.AF_UNIX)
        made.settimeout(PATIENCE)
        made.connect(server.hall.address)
        made.sendall(f"{word or server.hall.word} {what} {which}\n".encode())
        self.addCleanup(made.close)
        return made

    def test_second_waits_until_the_first_is_over(self) -> None:
        server = self.serve(Holds(BOTH, {2: [Wait(1)]}), hold=60)
        second = self.say(server, "came", 2)
        first = self.say(server, "came", 1)
        self.assertEqual(b"go\n", first.recv(9))
        second.settimeout(0.3)
        with self.assertRaises(TimeoutError):
            second.recv(9)
        self.say(server, "over", 1)
        second.settimeout(PATIENCE)
        self.assertEqual(b"go\n", second.recv(9))
        self.assertIsNone(server.courses[2].late)

    def test_where_nothing_moves_a_hold_ends(self) -> None:
        server = self.serve(Holds(BOTH, {2: [Wait(1)]}), hold=0.3)
        began = time.monotonic()
        self.assertEqual(b"go\n", self.say(server, "came", 2).recv(9))
        self.assertIsNotNone(server.courses[2].late)
        self.assertLess(time.monotonic() - began, server.patience.limit)

    def test_where_a_run_is_ended_a_hold_was_in_vain(self) -> None:
        server = self.serve(Holds(BOTH, {2: [Wait(1)]}), hold=60)
        self.say(server, "came", 2)
        until = time.monotonic() + PATIENCE
        while not server.waiting and time.monotonic() < until:
            time.sleep(0.01)
        server.end_holds()
        self.assertEqual((None, None), (server.courses[1].late, server.courses[2].gone))
        self.assertIsNotNone(server.courses[2].late)

    def test_where_a_recording_grows_a_hold_lasts(self) -> None:
        """By the seconds that the server is told."""
        server = self.make_server(Holds(BOTH, {2: [Wait(1)]}), hold=3)
        course, server.moved = server.courses[2], 100.0
        course.came = 100.0
        with open(self.folder / "job.0.n0.1.recording", "ab", 0) as to:
            for now in range(101, 120):
                to.write(b"= 0 1 0.000001 other more\n")
                server.look(now)
                self.assertFalse(server.is_in_vain(course, now))
        server.look(120)
        self.assertFalse(server.is_in_vain(course, 122))
        self.assertTrue(server.is_in_vain(course, 124))

    def test_one_of_several_is_enough_and_one_that_has_come(self) -> None:
        targets = [*BOTH, LOOKUP]
        server = self.serve(Holds(targets, {1: [Wait(2), Wait(3)]}, frozenset([1])), hold=60)
        first = self.say(server, "came", 1)
        self.say(server, "over", 3)
        self.assertEqual(b"go\n", first.recv(9))
        server = self.serve(Holds(BOTH, {2: [Wait(1, Until.HAS_COME)]}), hold=60)
        second = self.say(server, "came", 2)
        self.say(server, "came", 1)
        self.assertEqual(b"go\n", second.recv(9))

    def test_a_wrong_word_says_nothing(self) -> None:
        server = self.serve(Holds(BOTH, {2: [Wait(1)]}), hold=60)
        second = self.say(server, "came", 2)
        self.say(server, "over", 1, word="0" * 32)
        second.settimeout(0.3)
        with self.assertRaises(TimeoutError):
            second.recv(9)

    def test_file_of_holds(self) -> None:
        write_holds(Holds(BOTH), self.folder, "/a/talk", "word")
        said = (self.folder / "hold").read_text(encoding="ascii")
        self.assertEqual(
            "server /a/talk word\ncall 0 0 1 publish port\ncall 0 1 1 lookup port\n", said
        )


class CommandTest(unittest.TestCase):
    """Options that can't be, and the head of a plan."""

    def test_bad_input(self) -> None:
        show = ("--show-race", "app:0 1 app:1 1")
        for words, said in (
            (("--show-race", "app:0 1 app:1"), "needs two calls"),
            (("--show-race", "app:0 1 app:1 x"), "needs two calls"),
            (("--show-race", "race app:0 1 app:1 2 name"), "needs two calls"),
            (("--show-race", "app:0 1 app:1 0"), "needs two calls"),
            (("--show-race", "app:0 1 app:0 2"), "both calls are of app:0"),
            ((*show, "--hold", "0"), "needs a number of seconds above 0"),
            ((*show, "--hold", "x"), "needs a number of seconds above 0"),
            ((*show, "--hold", "5", "--limit", "4"), "--limit is below --hold"),
            ((*show, "--most", "0"), "needs a number from 1"),
            (("--show", *show), "two tasks"),
            (("--most", "2"), "--most goes with --show"),
            (("--of", "plan"), "--of goes with --show"),
            (("--show", "--turn-waits", "2"), "--turn-waits goes with --turn"),
        ):
            with self.subTest(words):
                ran = run_recorder("-o", "plan", *words, "true")
                self.assertEqual(125, ran.returncode)
                self.assertIn(said, ran.stderr.splitlines()[0])
                self.assertFalse(Path("plan").exists())

    def test_what_goes_with_no_command(self) -> None:
        ran = run_recorder("-o", "plan", "--show", "--from", SHIPPED)
        self.assertEqual(125, ran.returncode)
        self.assertIn("--from has none", ran.stderr.splitlines()[0])
        ran = run_recorder("--show", "true")
        self.assertIn("-o PLAN says", ran.stderr.splitlines()[0])

    def test_plan_that_was_not_recorded(self) -> None:
        with tempfile.TemporaryDirectory() as folder:
            path = Path(folder, "plan")
            path.write_text("rehearsal 1\nnode n0\njob app\nrank n0\n", encoding="ascii")
            ran = run_recorder("--of", path, "--show", "true")
            self.assertEqual((125, ""), (ran.returncode, ran.stdout))
            self.assertIn("isn't a plan that wire_up-record wrote", ran.stderr)

    def test_head(self) -> None:
        text = "# Recorded by wire_up-record\n# Tried by: x\nrehearsal 1\n# at a\n"
        self.assertEqual(
            "# Recorded by wire_up-record\n# Tried by: a?b\nrehearsal 1\n# at a\n",
            insert_in_head(text, ["# Tried by: a\tb"]),
        )

    def test_head_of_what_was_tried_before(self) -> None:
        """Other races stay, each with its command; the same one is told anew."""
        shown = "# Shown in this program on 2026-11-30: race app:0 1 app:1 1 name a: x"
        other = shown.replace("app:1 1", "app:1 2")
        text = f"# Recorded\n{shown}\n# Tried by: a\n{other}\n# Tried by: b\nrehearsal 1\n"
        for new, left in (
            (shown.replace(": x", ": y"), [other, "# Tried by: b"]),
            ("# Turned round on 2026-11-30: x", [shown, "# Tried by: a", other, "# Tried by: b"]),
        ):
            made = insert_in_head(text, [new, "# Tried by: c"]).splitlines()
            self.assertEqual(["# Recorded", *left, new, "# Tried by: c", "rehearsal 1"], made)

    def test_head_where_an_order_is_not_imposed(self) -> None:
        each = f"# {EACH_RUN_SENTENCE}\n"
        for line, left in (
            ("# Turned round on 2026-11-30: app:0 1 publish, ..", ""),
            ("# Turned round on 2026-11-30, turned-alike: app:0 1 publish, ..", each),
            ("# Turned round in vain on 2026-11-30: 1 of 2 pairs", each),
        ):
            made = insert_in_head(f"# Recorded\n{each}rehearsal 1\n", [line])
            self.assertEqual(f"# Recorded\n{left}{line}\nrehearsal 1\n", made)


if __name__ == "__main__":
    unittest.main()
