"""Tests programs with a race that a plan of one run doesn't have, or with a premise that fails:
each is found, or a line says what the verdict rests on: on standard error, in the head and on the
page."""
import unittest
from collections.abc import Sequence

from wire_up_tools.report.singular import say_counted
from wire_up_tools.report.verdict import say_recording
from wire_up_tools.words import LEFT_OUT, LEFT_OUT_HARMLESS, MORE_ORDERED, OTHERWISE_AFTER
from tests.record.test_recording_premises import COLLECTING, PremisesCase, exchange_cards
from tests.support.needs import needs_program
from tests.support.tapes import Tape, in_world, make_world, read_file, read_scripts

IN_PART = "a verdict over this plan holds only in part: "
AT_ONCE = "pmix.immediate=number:1:1"


def look_up_behind(tapes: Sequence[Tape], name: str = "n") -> None:
    """One rank publishes a name, and the other, which found that it had come so far, waits for it:
    else it would have looked it up at once."""
    tapes[0].call(f"publish blocks {name}=text:v -")
    tapes[1].call(f"lookup blocks :{name} pmix.wait=number:4:1", f"0 {name}=text:v")


class SilentCase(PremisesCase):
    """What is said of recordings."""

    def hold(self, tapes: Sequence[Tape], title: str, what: str, *words: str) -> str:
        """Tests that it is said everywhere, and answers what is said on standard error."""
        said = self.record(tapes, *words)
        self.assertIn(say_counted(what), said)
        self.assertNotIn("each run", said)
        head = read_file(self.plan).partition("\nrehearsal 1\n")[0]
        self.assertIn(f"\n# {title}\n", head)
        self.assertIn(f"\n#   {what}", head.partition(f"\n# {title}")[2])
        reasons = self.report().reasons
        self.assertTrue(any(say_counted(what) in reason for reason in reasons), reasons)
        return said

    def hold_harmless(self, tapes: Sequence[Tape], what: str) -> None:
        """Tests that what is left out stands in the head, and nothing is in part."""
        self.assertNotIn("in part", self.record(tapes))
        self.assertIn(f"\n# {LEFT_OUT_HARMLESS}\n#   {what}\n", read_file(self.plan))
        self.assertEqual(self.report().reasons, [])


@needs_program
class LuckTest(SilentCase):
    """What decided by luck which arm of the program was taken."""

    def test_what_a_file_held(self) -> None:
        """One reads what another may have written. What nobody writes is told at the start."""
        tapes = make_world(2)
        look_up_behind(tapes)
        tapes[1].say("others MPI_File_read_at 1")
        self.hold_harmless(tapes, "1 calls of MPI_File_read_at")
        tapes[0].say("others MPI_File_write_at 1")
        self.hold(tapes, OTHERWISE_AFTER, "1 calls of MPI_File_read_at")

    def test_ways_to_read_a_file(self) -> None:
        for way in ("read", "iread_at", "read_at_all_begin", "read_all_c", "read_ordered_end"):
            tapes = make_world(2)
            tapes[0].say("others MPI_File_write 1").say(f"others MPI_File_{way} 2")
            with self.subTest(way):
                self.hold(tapes, OTHERWISE_AFTER, f"2 calls of MPI_File_{way}")

    def test_whether_a_file_was_there(self) -> None:
        for what in ("open with MPI_MODE_EXCL", "open that failed", "delete that failed"):
            tapes = make_world(2)
            tapes[0].say(f"other MPI_File_{what}")
            with self.subTest(what):
                self.hold(tapes, OTHERWISE_AFTER, f"1 calls of MPI_File_{what}")

    def hold_file(self, calls: Sequence[tuple[int, str, int]], function: str) -> None:
        """Tests that the last of calls on a file, each of a rank and with when the file had changed
        before, in seconds since the first rank began, makes a call of a function luck."""
        what = f"1 calls of {function} of a file that was made, changed or deleted"
        for at in range(1, len(calls) + 1):
            tapes = make_world(2)
            look_up_behind(tapes)
            for on, said, when in calls[:at]:
                tapes[on].say(f"file {said} a%20file {1700000000 + when}.000000")
            if at == len(calls):
                self.hold(tapes, OTHERWISE_AFTER, what)
            else:
                self.assertNotIn("otherwise", self.record(tapes))
                self.assertEqual(self.report().reasons, [])

    def test_files_that_another_made(self) -> None:
        """It may not be there yet, or no more. What was there at the start, or was opened by the
        process itself, is there, unless another deletes it."""
        self.hold_file([(0, "create", 1), (1, "open", 1)], "MPI_File_open")
        self.hold_file([(0, "create", 1), (1, "delete", 0)], "MPI_File_delete")
        self.hold_file([(0, "create", 1), (0, "open", 2), (1, "open", 0)], "MPI_File_open")
        self.hold_file([(0, "open", -1), (1, "open", -1), (0, "delete", 2)], "MPI_File_open")

    def test_files_that_were_there(self) -> None:
        tapes = make_world(2)
        tapes[0].say("file open a 1699999999.500000").say("file create b 1700000001.000000")
        tapes[0].say("file open b 1700000002.000000").say("file delete b 1700000002.000000")
        self.hold_harmless(tapes, "1 calls of MPI_File_delete")
        self.assertIn("\n#   3 calls of MPI_File_open\n", read_file(self.plan))

    def test_a_full_buffer(self) -> None:
        for function in ("MPI_Bsend", "MPI_Ibsend", "MPI_Bsend_init"):
            tapes = make_world(2)
            look_up_behind(tapes)
            tapes[0].say(f"others {function}_beyond_room 3")
            with self.subTest(function):
                what = f"3 calls of {function} whose buffer may have been full"
                self.hold(tapes, OTHERWISE_AFTER, what)

    def test_what_a_server_is_asked(self) -> None:
        """It may tell how far others are, as which groups there are. What a library of MPI asks is
        no matter of the program."""
        for name in ("PMIx_Query_info", "PMIx_Query_info_nb"):
            tapes = make_world(2)
            look_up_behind(tapes)
            tapes[1].say(f"others {name} 1")
            with self.subTest(name):
                self.hold_harmless(tapes, f"1 calls of {name}")
                tapes[1].say(f"others {name}_of_program 1")
                self.hold(tapes, OTHERWISE_AFTER, f"1 calls of {name}")

    def test_a_shared_window(self) -> None:
        """Its memory may be read without MPI_Win_shared_query; but not that of one process."""
        tapes = make_world(2)
        for tape in tapes:
            tape.call("collective win_allocate_shared 1", "0 all")
        look_up_behind(tapes)
        self.hold(tapes, OTHERWISE_AFTER, "2 calls of MPI_Win_allocate_shared")
        alone = [in_world(0, 1).call("collective win_allocate_shared 1", "0 all")]
        self.assertNotIn("shared", self.record(alone))

    def test_a_poll_that_gives_up(self) -> None:
        """The verdicts with and without --strict are the same; the branch isn't."""
        for words in ((), ("--strict",)):
            tapes = make_world(2)
            tapes[0].begin("send 1 1 3 4")
            tapes[1].call("receive 1 0 3", "0 0 3 4 poll")
            look_up_behind(tapes)
            said = self.record(tapes, *words)
            ends = "1 ends of requests that another run may have found open"
            told = "1 end of requests that another run may have found open"
            self.assertIn(f"{told}: another run may do otherwise after it\n", said)
            self.assertIn(f"\n# {ends}", read_file(self.plan))
            self.assertIn("1 polled request", self.report().reasons[0])


@needs_program
class OrderTest(SilentCase):
    """What orders processes, and hides no race where it is left out."""

    def make_jobs(self, *said: str) -> list[Tape]:
        """Two jobs, of which the first started the other, and says more."""
        tapes = [Tape(0, "first"), Tape(0, "second")]
        for line in ("others PMIx_Spawn 1", *said):
            tapes[0].say(line)
        return tapes

    def test_jobs_that_are_started(self) -> None:
        """Where each start made a job that is recorded."""
        settled = "1 calls of PMIx_Spawn, since they can't change a finding"
        self.hold_harmless(self.make_jobs(), settled)
        self.hold(self.make_jobs("others PMIx_Spawn 2"), LEFT_OUT, "2 calls of PMIx_Spawn")

    def test_jobs_that_are_connected(self) -> None:
        """They get one another's keys: it matters to a get that doesn't wait."""
        what = "1 calls of PMIx_Connect"
        self.hold_harmless(
            self.make_jobs("others PMIx_Connect 1"), f"{what}, since they can't change a finding"
        )
        tapes = self.make_jobs("others PMIx_Connect 1")
        tapes[1].call("put global a text:1").call("commit")
        tapes[0].call(f"get blocks second:0 :a {AT_ONCE}", "0 text:1")
        self.hold(tapes, LEFT_OUT, what)

    def test_peers_that_are_asked_for(self) -> None:
        """Those of a job are known at its start."""
        what = "1 calls of PMIx_Resolve_peers"
        tapes = [Tape(0).say("others PMIx_Resolve_peers 1")]
        self.hold_harmless(tapes, f"{what}, since they can't change a finding")
        self.hold(self.make_jobs("others PMIx_Resolve_peers 1"), LEFT_OUT, what)

    def test_messages_in_unknown_communicators(self) -> None:
        """The page of a race says that they may order its calls."""
        tapes = make_world(2)
        tapes[0].say("other MPI_Send in a communicator that isn't known")
        self.hold_harmless(tapes, "1 calls of MPI_Send in a communicator that isn't known")
        tapes = make_world(2)
        tapes[0].call("publish blocks n=text:v -")
        tapes[0].say("other MPI_Send in a communicator that isn't known")
        tapes[1].call("lookup blocks :n -", "0 n=text:v")
        self.record(tapes)
        said = "what is left out can hide no race, but can order the calls of one"
        self.assertIn(said, say_recording(self.report()))

    def test_groups_that_are_refused(self) -> None:
        tapes = make_world(2)
        tapes[0].call("group construct :g job:0,job:1 -", "-47")
        self.hold_harmless(
            tapes,
            "1 calls that make or end groups, and that the library refused, since they can't "
            "change a finding",
        )

    def test_events_that_are_sent(self) -> None:
        """They are told of where there is a handler."""
        tapes = [Tape(0).say("others PMIx_Notify_event 1")]
        self.hold_harmless(tapes, "1 calls of PMIx_Notify_event")


@needs_program
class GetsTest(SilentCase):
    """Gets that a rule can't have."""

    def test_the_own_store(self) -> None:
        """PMIX_OPTIONAL asks what the caller's own store has, whatever was brought to its node."""
        tapes = make_world(2)
        exchange_cards(tapes)
        tapes[1].call("get blocks job:0 :card pmix.optional=number:1:1", "0 text:card")
        tapes[1].say("others PMIx_Get_of_own_store 1")
        self.hold(tapes, MORE_ORDERED, "1 gets of what is in the caller's own store")

    def test_an_error_from_another_node(self) -> None:
        """The get-now that is written for it can't race with a commit there."""
        what = "1 gets from another node that were answered with an error in place of waiting"
        tapes = [Tape(0, host="n0"), Tape(1, host="n1")]
        tapes[0].call("put remote a text:1").call("commit")
        tapes[1].call("get blocks job:0 :a -", "-46")
        self.hold(tapes, MORE_ORDERED, what)
        self.assertEqual(read_scripts(read_file(self.plan))[1], ["get-now app:0 a"])

    def test_an_error_from_the_own_node(self) -> None:
        """The race is found. Of a key that is never put there is none."""
        tapes = make_world(2)
        tapes[0].call("put global a text:1").call("commit")
        tapes[1].call("get blocks job:0 :a -", "-46")
        self.record(tapes)
        self.assertEqual(self.report().status, 1)
        tapes = [Tape(0, host="n0"), Tape(1, host="n1")]
        tapes[1].call("get blocks job:0 :none -", "-46")
        self.assertNotIn("in part", self.record(tapes))

    def test_all_keys(self) -> None:
        tapes = make_world(2)
        tapes[0].call("put global a text:1").call("commit")
        tapes[1].call(f"get blocks job:0 every {AT_ONCE}", "0")
        said = self.hold(tapes, LEFT_OUT, "1 gets of every key")
        self.assertIn(f"{IN_PART}not in the plan: 1 get of every key\n", said)

    def test_names_and_keys_that_begin_like_those_of_pmix(self) -> None:
        tapes = make_world(2)
        tapes[0].call("publish blocks - pmixer-port=text:v")
        tapes[1].call("lookup blocks :pmixer-port -", "0 pmixer-port=text:v")
        self.hold(tapes, LEFT_OUT, "1 directives pmixer-port")
        self.hold(tapes, LEFT_OUT, "1 lookups of reserved keys")
        tapes = make_world(2)
        tapes[0].call("put global pmix.own text:v").call("commit")
        tapes[1].call(f"get blocks job:0 :pmix.own {AT_ONCE}", "0 text:v")
        self.hold(tapes, LEFT_OUT, "1 gets of reserved keys that a process puts")
        tapes = make_world(2)
        tapes[0].call("put global pmix.hname text:v").call("commit")
        tapes[1].call(f"get blocks job:0 :pmix.hname {AT_ONCE}", "0 text:v")
        self.hold_harmless(tapes, "1 gets of reserved keys")


@needs_program
class DirectivesTest(SilentCase):
    """Directives, as a library takes them."""

    def ask(self, directive: str) -> list[Tape]:
        """Two ranks of which one asks for what the other has, with a directive."""
        tapes = make_world(2)
        tapes[0].call("put global a text:1").call("commit")
        tapes[1].call(f"get blocks job:0 :a {directive}", "0 text:1")
        return tapes

    def test_short_times(self) -> None:
        """Of every type of a number: `real` is that of a float or a double."""
        what = "1 waits for less than a minute at most (pmix.timeout)"
        for time in ("number:4:1", "number:8:59", "real:8:1.000000", "real:4:0.500000"):
            with self.subTest(time):
                self.hold(self.ask(f"pmix.timeout={time}"), MORE_ORDERED, what)

    def test_long_times(self) -> None:
        for time in ("number:4:60", "number:4:0", "real:8:600.000000", "real:8:0.000000"):
            with self.subTest(time):
                self.hold_harmless(self.ask(f"pmix.timeout={time}"), "1 directives pmix.timeout")

    def test_times_that_cannot_be_read(self) -> None:
        for time in ("other:8", "type:18", "text:1", "none"):
            with self.subTest(time):
                what = "1 directives pmix.timeout of a time that can't be read"
                self.hold(self.ask(f"pmix.timeout={time}"), LEFT_OUT, what)

    def find_verb(self, directive: str) -> str:
        """The verb with which a get is written."""
        self.record(self.ask(directive))
        return read_scripts(read_file(self.plan))[1][0].split(" ")[0]

    def test_numbers_and_texts_for_truths(self) -> None:
        """OpenPMIx takes a number that is no `bool` for no truth, and texts for yes or no."""
        for value in ("number:1:1", "text:1", "text:true", "text:Yes", "none"):
            self.assertEqual(self.find_verb(f"pmix.immediate={value}"), "get-now", value)
        for value in ("number:1:0", "number:4:1", "number:8:1", "real:8:1.000000", "text:0"):
            self.assertEqual(self.find_verb(f"pmix.immediate={value}"), "get", value)

    def test_a_fence_that_is_to_collect_by_a_number(self) -> None:
        tapes = make_world(2)
        for tape in tapes:
            tape.call("fence blocks all pmix.collect=number:4:1").call(COLLECTING)
        self.record(tapes)
        found = read_scripts(read_file(self.plan))[0]
        self.assertEqual(found, ["fence all", "fence all collect"])

    def publish(self, own: str, other: str) -> list[Tape]:
        """Two ranks of which one publishes a name in a range, and one looks it up in another."""
        tapes = make_world(2)
        tapes[0].call(f"publish blocks n=text:v pmix.range={own}")
        tapes[1].call(f"lookup blocks :n pmix.wait=number:4:1,pmix.range={other}", "0 n=text:v")
        return tapes

    def test_usual_ranges(self) -> None:
        """Those of the session and of all; and of the namespace, where there is one."""
        for own, other in ((4, 4), (5, 5), (4, 5), (3, 3)):
            tapes = self.publish(f"number:1:{own}", f"number:1:{other}")
            with self.subTest((own, other)):
                self.hold_harmless(tapes, "2 directives pmix.range")

    def test_numbers_of_a_lookup(self) -> None:
        """Open MPI 5.0.7 looks names up with a number that it never set."""
        for number in (0, 1, 2, 6, 7, 17, 212):
            tapes = self.publish("number:1:4", f"number:1:{number}")
            with self.subTest(number):
                self.hold_harmless(tapes, "2 directives pmix.range")

    def test_other_ranges(self) -> None:
        what = "1 directives pmix.range of some processes"
        for number in (1, 2, 6, 7, 17):
            with self.subTest(number):
                tapes = self.publish(f"number:1:{number}", "number:1:4")
                self.hold(tapes, LEFT_OUT, what)
        for value in ("type:33", "text:4"):
            with self.subTest(value):
                self.hold(self.publish("number:1:4", value), LEFT_OUT, what)
                self.hold(self.publish(value, "number:1:4"), LEFT_OUT, what)

    def test_the_range_of_one_of_several_jobs(self) -> None:
        tapes = [Tape(0, "first"), Tape(0, "second")]
        tapes[0].call("publish blocks n=text:v pmix.range=number:1:3").say("others PMIx_Spawn 1")
        self.hold(tapes, LEFT_OUT, "1 directives pmix.range of some processes")


if __name__ == "__main__":
    unittest.main()
