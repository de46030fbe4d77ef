"""Tests what calls of PMIx become in a plan."""
import unittest
from collections.abc import Sequence
from dataclasses import dataclass, replace

from wire_up_tools.record.planning import Choices
from wire_up_tools.record.writing import write_plan
from wire_up_tools.words import (
    LEFT_OUT_HARMLESS,
    MORE_ORDERED,
    OTHERWISE_AFTER,
    OTHERWISE_ALONE,
    OWN_CODE,
)
from tests.support.tapes import Recorded, Tape, make_world, plan_tapes, read_scripts, write_plan_of

PUT, COMMIT, FENCE = ("put global k text:v", "0"), ("commit", "0"), ("fence blocks all -", "0")
COLLECTS = ("fence nb job:* pmix.collect=number:1:1", "0")
LISTED = ("fence blocks job:1,job:0 pmix.collect=number:1:0", "0")
BLOCKS_AND_COLLECTS = ("fence blocks all pmix.collect=number:1:1", "0")
WAITS = "pmix.wait=number:4:0"


@dataclass(frozen=True)
class Case:
    """The recorded calls of ranks 0 and 1, the lines that they become, and a comment that the
    plan has."""

    calls: Sequence[Recorded]
    lines: Sequence[str]
    comment: str | None = None
    more_calls: Sequence[Recorded] = ()
    more_lines: Sequence[str] = ()


def one(call: str, line: str, comment: str | None = None, end: str = "0") -> Case:
    """A case of one call, which becomes a line, or none."""
    return Case([(call, end)], [line] if line else [], comment)


def get_of_put(
    call: str, line: str, end: str = "0 text:v", put: Sequence[Recorded] = (PUT, COMMIT)
) -> Case:
    """A case in which rank 1 gets what rank 0 has put."""
    lines = ["put global k v", "commit"][:len(put)]
    return Case(put, lines, None, [(call, end)], [line])


class CallsTest(unittest.TestCase):
    """Each call becomes its line, or the head says why not."""

    def hold(self, cases: dict[str, Case]) -> None:
        """Tests cases by their names."""
        for name, case in cases.items():
            with self.subTest(name):
                tapes = Tape(0), Tape(1)
                for tape, calls in zip(tapes, (case.calls, case.more_calls)):
                    for what, end in calls:
                        tape.call(what, end)
                plan = write_plan_of(tapes)
                self.assertEqual(read_scripts(plan), [[*case.lines], [*case.more_lines]])
                self.assertIn(case.comment or "", plan)

    def test_values(self) -> None:
        no_word, no_text = "1 texts that no word", "1 values that aren't text"
        x255 = "x" * 255
        self.hold({
            "a text": one("put global k text:v", "put global k v"),
            "bytes": one("put local k bytes:24", "put local k bytes:24", no_text),
            "a number": one("put remote k number:4:7", "put remote k number:4", no_text),
            "spaces": one("put global k text:a%20b", "put global k text:3", no_word),
            "an empty text": one("put global k text:", "put global k text:0", no_word),
            "a long text": one("put global k long:5000", "put global k text:5000", no_word),
            "past the limit": one(f"put global k text:{x255}x", "put global k text:256", no_word),
            "at the limit": one(f"put global k text:{x255}", f"put global k {x255}"),
            "not ASCII": one("put global k text:%C3%A4", "put global k text:2", no_word),
        })

    def test_keys(self) -> None:
        k63 = "k" * 63
        both = [("put global a%20b text:v", "0"), ("put global a%2520b text:v", "0")]
        self.hold({
            "a space": one(
                "put global a%20b text:v", "put global a%20b v", "The key a%20b is a b."
            ),
            "two keys that would be one": Case(
                both, ["put global a%20b~2 v", "put global a%20b v"], "The key a%20b~2 is a b."
            ),
            "a star": one("put global * text:v", "put global %2A v", "The key %2A is *."),
            "an empty key": one("put global % text:v", "put global % v", "The key % is (empty)."),
            "a long key": one(f"put global {k63}k text:v", f"put global {k63} v", f"is {k63}k."),
            "one that a plan would take for reserved": one(
                "put global PMIX_x text:v", "put global %50MIX_x v", "The key %50MIX_x is"
            ),
        })

    def test_puts_and_commits(self) -> None:
        self.hold({
            "a reserved key": one("put global pmix.hname text:n0", "", "1 puts of reserved keys"),
            "another scope": one("put other k text:v", "", "1 puts of a scope"),
            "for itself alone": one("put internal k text:v", "", "1 puts for the process alone"),
            "in two scopes": Case(
                [("put internal k text:v", "0"), PUT], ["put global k v"], "1 puts of a scope"
            ),
            "a put that failed": one("put global k text:v", "", "1 puts that failed", "-27"),
            "a commit": one("commit", "commit"),
            "a commit that failed": one("commit", "", "1 commits that failed", "-25"),
        })

    def test_gets(self) -> None:
        at_once = "pmix.immediate=number:1:1"
        self.hold({
            "a get": get_of_put("get blocks job:0 :k -", "get app:0 k"),
            "of its own job": get_of_put("get nb %:0 :k -", "get app:0 k"),
            "at once": get_of_put(
                f"get blocks job:0 :k {at_once}", "get-now app:0 k", "-46", [PUT]
            ),
            "optional": get_of_put(
                "get blocks job:0 :k pmix.optional=number:1:1", "get-now app:0 k", "-46", [PUT]
            ),
            "no directive at all": get_of_put(
                "get blocks job:0 :k pmix.optional=number:1:0", "get app:0 k"
            ),
            "an own get": Case(
                [PUT, ("get blocks job:0 :k -", "0 text:v")], ["put global k v", "get app:0 k"]
            ),
        })

    def test_gets_that_failed(self) -> None:
        failed = [("get blocks job:0 :k -", "-46")]
        timeout = [("get blocks job:0 :k pmix.timeout=number:4:2", "-24")]
        self.hold({
            "a get that failed": Case(
                [PUT], ["put global k v"], "1 gets that were answered", failed, ["get-now app:0 k"]
            ),
            "out of scope": Case(
                [("put remote k text:v", "0")], ["put remote k v"], None, failed, ["get app:0 k"]
            ),
            "with a timeout": Case(
                [PUT],
                ["put global k v"],
                "1 directives pmix.timeout",
                timeout,
                ["get-now app:0 k"],
            ),
        })

    def test_gets_that_are_left_out(self) -> None:
        not_there, failed = "1 gets of keys whose put isn't recorded", "-27"
        got = [("get blocks job:0 :k -", "0 text:v")]
        self.hold({
            "a wildcard rank": one(
                "get blocks job:* :k -", "", "1 gets of a wildcard rank", "0 number:4:2"
            ),
            "an undefined rank": one(
                "get blocks job:undefined :k -", "", "1 gets of an undefined rank", "-46"
            ),
            "a reserved key": one(
                "get blocks job:0 :pmix.lrank -", "", "1 gets of reserved keys", "0 number:2:0"
            ),
            "every key": one("get blocks job:0 every -", "", "1 gets of every key", failed),
            "no process": one("get blocks none :k -", "", "1 gets that name no process", failed),
            "another job": one(
                "get blocks other:0 :k -", "", "1 gets of processes that aren't recorded", "-46"
            ),
            "what isn't put": Case([], [], not_there, got),
            "what isn't committed": Case([PUT], ["put global k v"], not_there, got),
            "an own get of what isn't put": Case(got, [], not_there),
            "an own get of what is for itself alone": Case(
                [("put internal k text:v", "0"), *got], [], "1 gets of what is put for the"
            ),
            "another's get of it": Case([("put internal k text:v", "0")], [], not_there, got),
        })

    def test_fences(self) -> None:
        failed = [("fence blocks all -", "-24"), BLOCKS_AND_COLLECTS]
        fine = [FENCE, BLOCKS_AND_COLLECTS]
        refused = [("fence blocks all -", "-27"), FENCE]
        collect = ["fence all collect"]
        self.hold({
            "a fence": Case([FENCE], ["fence all"], None, [FENCE], ["fence all"]),
            "that collects": Case([COLLECTS], collect, None, [COLLECTS], collect),
            "of a list": Case([LISTED], ["fence all"], None, [LISTED], ["fence all"]),
            "of one": one("fence blocks job:0 -", "fence app:0"),
            "that failed at one": Case(
                failed, collect, "2 fences that failed at one", fine, collect
            ),
            "that never began": Case(
                refused, ["fence all"], "1 fences that failed", [FENCE], ["fence all"]
            ),
            "of another job": one(
                "fence blocks other:* -", "", "1 fences with processes that aren't recorded"
            ),
            "without the caller": one(
                "fence blocks job:1 -", "", "1 fences with processes that aren't recorded", "-27"
            ),
        })

    def test_publishes(self) -> None:
        self.hold({
            "a publish": one("publish blocks n=text:v -", "publish n v"),
            "of two": Case(
                [("publish nb n=text:v,m=bytes:3 pmix.range=type:33", "0")],
                ["publish n v", "publish m bytes:3"],
                "1 calls of publish with several keys",
            ),
            "twice": one("publish blocks n=text:v -", "publish n v", None, "-53"),
            "that failed": one("publish blocks n=text:v -", "", "1 publishes that failed", "-47"),
            "of nothing": one("publish blocks - -", "", "1 publishes of no key", "-27"),
            "of a reserved key": one("publish blocks pmix.n=text:v -", "", "1 publishes of no key"),
        })

    def test_lookups(self) -> None:
        self.hold({
            "a lookup": one("lookup blocks :n -", "lookup n", None, "0 n=text:v"),
            "that waits": one(f"lookup nb :n {WAITS}", "lookup-wait n", None, "0 n=text:v"),
            "of two that waits for both": Case(
                [(f"lookup blocks :n,:m {WAITS}", "0 n=text:v,m=text:w")],
                ["lookup-wait n", "lookup-wait m"],
                "1 calls of lookup with several keys",
            ),
            "of two that waits for one": Case(
                [("lookup blocks :n,:m pmix.wait=number:4:1", "0 n=text:v")],
                ["lookup n", "lookup m"],
                "1 lookups that wait for some of their keys",
            ),
            "that was to wait and failed": one(
                f"lookup blocks :n {WAITS}", "lookup n", "1 lookups that were to wait", "-24 -"
            ),
            "of a reserved key": one(
                "lookup blocks :pmix.n -", "", "1 lookups of reserved keys", "-46 -"
            ),
            "of no key": one("lookup nb every -", "", "1 lookups that name no key", "-27 -"),
        })

    def test_what_may_go_otherwise(self) -> None:
        """A verdict holds only in part, if a call can give up soon, or if whoever published a name
        isn't there."""
        time, published = "pmix.timeout=number:4", "publish blocks n=text:v"
        looked = f"lookup blocks :n {WAITS},{time}"
        cases = {
            (f"fence blocks all {time}:5", "0"): "1 waits for less than a minute at most",
            (f"fence blocks all {time}:0", "0"): "",
            (f"fence blocks all {time}:600", "0"): "",
            (f"{looked}:5", "0 n=text:v"): "1 waits for less than a minute at most",
            (f"{looked}:5", "-24 -"): "",
            (f"{looked}:600", "0 n=text:v"): "",
            (f"lookup blocks :n {time}:5", "0 n=text:v"): "",
            ("lookup blocks :m -", "0 m=text:v"): "1 lookups of names that no recorded process",
            ("lookup blocks :m -", "-46 -"): "",
        }
        for (what, end), said in cases.items():
            with self.subTest(what, end=end):
                tape = Tape(0).call(f"{published} -").call(what, end)
                plan = write_plan_of([tape])
                self.assertEqual(MORE_ORDERED in plan, bool(said))
                self.assertIn(said, plan)

    def test_calls_whose_result_depends_on_speed(self) -> None:
        """They are told apart from calls that are left out."""
        names = (
            "Accumulate",
            "Cancel of a receive",
            "Fetch_and_op",
            "Iprobe in a communicator that isn't known",
            "Recv of any source in a communicator that isn't known",
            "Waitany of sends",
            "Win_lock_all",
        )
        tape = Tape(0).say("other MPI_Win_flush")
        for name in names:
            tape.say(f"other MPI_{name}")
        plan = write_plan_of([tape])
        said = "".join(f"#   1 calls of MPI_{each_name}\n" for each_name in names)
        self.assertIn(f"{OTHERWISE_AFTER}\n{said}", plan)
        self.assertIn(f"{LEFT_OUT_HARMLESS}\n#   1 calls of MPI_Win_flush\n", plan)

    def test_own_code_that_has_no_call_of_pmix(self) -> None:
        """What luck decides can lead to none then, if that is known of each process; and the order
        that it takes hides none, or it would be said."""
        for uses, is_alone in {
            ("uses nothing", "uses nothing"): True,
            ("uses nothing", "uses PMIx_Put"): False,
            ("uses PMIx_Put", "uses nothing"): False,
            ("uses nothing", "thread"): False,
        }.items():
            with self.subTest(uses):
                tapes = [Tape(rank).say(each_text) for rank, each_text in enumerate(uses)]
                plan = plan_tapes([tapes[0].say("polled MPI_Test 1"), tapes[1]])
                told = f"{OTHERWISE_ALONE if is_alone else OTHERWISE_AFTER}\n#   1 calls of"
                text = write_plan(plan)
                self.assertIn(told, text)
                self.assertEqual(f"# {OWN_CODE}\n" in text, is_alone)
                differ = replace(plan, mpi=replace(plan.mpi, verdicts="findings 0, and findings 1"))
                self.assertNotIn(OWN_CODE, write_plan(differ))

    def test_own_code_of_a_process_that_begins_again(self) -> None:
        """What it referred to once it may call."""
        tape = Tape(0).say("uses dlopen").say("finalize").say("uses nothing")
        self.assertNotIn(OWN_CODE, write_plan_of([tape.say("polled MPI_Test 1")]))

    def test_own_code_where_nothing_is_luck(self) -> None:
        self.assertNotIn(OWN_CODE, write_plan_of([Tape(0).say("uses nothing")]))

    def test_calls_that_are_counted(self) -> None:
        """The last count of a process is that of its calls, besides those with a record each."""
        tape = Tape(0).say("other MPI_Cancel").say("others MPI_Get 1").say("others MPI_Get 2")
        plan = write_plan_of([tape.say("others MPI_Cancel 4"), Tape(1).say("others MPI_Get 5")])
        self.assertIn(f"{OTHERWISE_AFTER}\n#   5 calls of MPI_Cancel\n", plan)
        self.assertIn(f"{LEFT_OUT_HARMLESS}\n#   7 calls of MPI_Get\n", plan)

    def test_a_wait_of_another_thread(self) -> None:
        """A thread that only waits makes a process one of several threads."""
        for thread in (1, 2):
            with self.subTest(thread=thread):
                first, second = make_world(2)
                number = first.begin("receive 1 1 0")
                first.thread = thread
                first.end(number, "0 1 0 4 wait")
                second.begin("send 1 0 0 4")
                plan = write_plan_of([first, second])
                said = "1 processes that called from several threads" in plan
                self.assertEqual(said, thread == 2)

    def test_a_thread_without_a_call_of_its_own(self) -> None:
        plan = write_plan_of([Tape(0).say("thread").say("thread")])
        self.assertIn("#   1 processes that called from several threads", plan)

    def test_calls_that_are_not_seen(self) -> None:
        """Of a library elsewhere, of a child, of a handler: each is told, also without MPI."""
        said = {
            "namespace /lib/libmpi.so.40.1": "1 processes with libmpi in a namespace of its own",
            "child fork": "1 processes of which a child called PMIx or MPI by fork",
            "handler signal": "1 processes that called in a handler of a signal",
        }
        for what, told in said.items():
            for choices in (Choices(), Choices(with_mpi=False)):
                with self.subTest(what, with_mpi=choices.with_mpi):
                    plan = write_plan_of([Tape(0).say(f"unseen {what}")], choices)
                    self.assertIn(f"{MORE_ORDERED}\n#   {told}: ", plan)

    def test_processes_without_a_recording(self) -> None:
        """As many as the library says that the job has, and those that are started."""
        missing = "1 processes of a job that left no recording: their calls aren't in the plan\n"
        for size in (2, 3):
            tapes = [Tape(rank).say(f"job {size}") for rank in range(2)]
            self.assertEqual(missing in write_plan_of(tapes), size == 3)
        started = "1 calls that started processes which left no recording: "
        tape = Tape(0).say("other PMIx_Spawn")
        self.assertIn(started, write_plan_of([tape]))
        other = Tape(0, namespace="other", began=1700000001)
        self.assertNotIn(started, write_plan_of([tape, other]))

    def test_handlers_of_events(self) -> None:
        plan = write_plan_of([Tape(0).say("others PMIx_Register_event_handler 2")])
        self.assertIn(f"{OTHERWISE_AFTER}\n#   2 calls of PMIx_Register_event_handler\n", plan)

    def test_values_that_a_process_stores_itself(self) -> None:
        """Its gets of them don't wait, but in the plan they do."""
        plan = write_plan_of([Tape(0).say("unseen stored PMIx_Store_internal")])
        self.assertIn(f"{MORE_ORDERED}\n#   1 processes that called PMIx_Store_internal: in", plan)

    def test_polls_that_found_a_request(self) -> None:
        """The last count of a process is that of all its polls by a function."""
        tape = Tape(0).say("found MPI_Test 1").say("found MPI_Test 2")
        plan = write_plan_of([tape, Tape(1).say("found MPI_Test 4")])
        said = "6 calls of MPI_Test that found a request complete"
        self.assertIn(f"{OTHERWISE_AFTER}\n#   {said}\n", plan)

    def test_polls_that_found_nothing(self) -> None:
        """The last count of a process is that of all its polls by a function."""
        first = Tape(0).say("polled MPI_Test 1").say("polled MPI_Test 2").say("polled MPI_Test 3")
        second = Tape(1).say("polled MPI_Iprobe 1").say("polled MPI_Test 4")
        plan = write_plan_of([first, second])
        told = ("1 calls of MPI_Iprobe", "7 calls of MPI_Test")
        said = "".join(f"#   {word} that found nothing\n" for word in told)
        self.assertIn(f"{OTHERWISE_AFTER}\n{said}", plan)

    def test_a_name_that_goes_away(self) -> None:
        """At its first read, if another may look it up, or with its process; though it is published
        once more, to stay."""
        told = "number:1:{}".format
        kept = [(told(number), 2, False) for number in (0, 3, 4)] + [("type:30", 2, False)]
        gone = [(told(2), 0, True), (told(255), 0, True), ("text:app", 0, True)]
        for how, count, is_said in (*kept, *gone, (told(1), 1, False), (told(1), 2, True)):
            with self.subTest(how, lookups=count):
                tape = Tape(0).call(f"publish blocks n=text:v pmix.persist={how}")
                for _ in range(count):
                    tape.call("lookup blocks :n -", "0 n=text:v")
                plan = write_plan_of([tape.call("publish blocks n=text:v -")])
                self.assertEqual("1 names that go away by themselves" in plan, is_said)

    def test_a_name_that_goes_away_with_its_application(self) -> None:
        """If another one looks it up: one of another job, or with another number in it."""
        said = "#   1 names that go away with their application, and that another looks up: "
        ways = (("-", False), ("pmix.persist=number:1:3", False), ("pmix.persist=number:1:0", True))
        for how, is_kept in ways:
            for other, number, is_other in (("job", 0, False), ("job", 1, True), ("more", 0, True)):
                with self.subTest(how, other=other, number=number):
                    first = Tape(0).call(f"publish blocks n=text:v {how}")
                    rank = int(other == "job")
                    asks = f"get blocks {other}:{rank} :pmix.appnum -"
                    second = Tape(rank, other).call(asks, f"0 number:4:{number}")
                    second.call("lookup blocks :n -", "0 n=text:v")
                    plan = write_plan_of([first, second])
                    self.assertEqual(said in plan, is_other and not is_kept)

    def test_a_name_whose_application_is_still_there(self) -> None:
        """A process of it meets the other, or hears of it, after the lookup: but not before."""
        both = ("fence blocks job:0,more:0 -", "0")
        looked = ("lookup blocks :n -", "0 n=text:v")
        told = ("publish blocks m=text:v pmix.persist=number:1:0", "0")
        heard = ("lookup blocks :m pmix.wait=number:1:1", "0 m=text:v")
        ways: list[tuple[list[Recorded], list[Recorded], bool]] = [
            ([both], [looked, both], False),
            ([both], [both, looked], True),
            ([heard], [looked, told], False),
            ([heard], [told, looked], True),
        ]
        for own, other, is_said in ways:
            with self.subTest(own, other=other):
                first, second = Tape(0).call("publish blocks n=text:v -"), Tape(0, "more")
                for call in own:
                    first.call(*call)
                for call in other:
                    second.call(*call)
                plan = write_plan_of([first, second])
                self.assertEqual("1 names that go away with their application" in plan, is_said)

    def test_what_the_library_tells_of_a_process(self) -> None:
        """Its application, and its node, which its system may call otherwise."""
        first = Tape(0).say("application 0").say("node n0").call("publish blocks n=text:v -")
        second = Tape(1, host="box").say("application 1").say("node n0")
        plan = write_plan_of([first, second.call("lookup blocks :n -", "0 n=text:v")])
        self.assertIn("1 names that go away with their application", plan)
        self.assertEqual(plan.count("\nnode "), 1)

    def test_jobs_of_several_launches(self) -> None:
        """Nobody knows whether they share names: unless one started the other."""
        said = "#   2 jobs that none of them started"
        tapes = [Tape(0).call(*FENCE), Tape(0, "more").call(*FENCE)]
        self.assertIn(said, write_plan_of(tapes))
        tapes[0].say("other PMIx_Spawn")
        self.assertNotIn(said, write_plan_of(tapes))

    def test_unpublishes(self) -> None:
        everything = [("publish blocks n=text:v -", "0"), ("unpublish blocks every -", "0")]
        self.hold({
            "an unpublish": one("unpublish blocks :n -", "unpublish n"),
            "of two": Case(
                [("unpublish nb :n,:m -", "0")],
                ["unpublish n", "unpublish m"],
                "1 calls of unpublish with several",
            ),
            "of everything": Case(
                everything, ["publish n v", "unpublish n"], "1 unpublishes of every name"
            ),
            "that failed": one("unpublish blocks :n -", "", "1 unpublishes that failed", "-47"),
        })


if __name__ == "__main__":
    unittest.main()
