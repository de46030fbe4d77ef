"""Tests the order that messages of MPI bring into a plan."""
import unittest
from collections.abc import Sequence

from wire_up_tools.record.planning import Choices
from wire_up_tools.words import MORE_ORDERED
from tests.support.order_case import BARRIER, MARK, SENT, WAITS, OrderTest
from tests.support.tapes import (
    Recorded,
    Recordings,
    Tape,
    in_world,
    make_world,
    read_scripts,
    write_plan_of,
)


class MessagesTest(OrderTest):
    """Messages of MPI that are the same pairs in every run."""

    def test_two_tags(self) -> None:
        """A message overtakes nothing, but messages of two tags do."""
        tapes = make_world(2)
        tapes[0].begin("send 1 1 5 4")
        tapes[0].call(MARK)
        tapes[0].begin("send 1 1 6 4")
        tapes[1].call("receive 1", "0 0 6 4").call("receive 1", "0 0 5 4")
        first = [SENT.format(2), "publish m x", SENT.format(1)]
        self.become(tapes, [first, [WAITS.format(1), WAITS.format(2)]])

    def test_a_synchronous_send(self) -> None:
        """It ends after its receive has begun."""
        tapes = make_world(2)
        tapes[0].call("send 1 1 0 4")
        tapes[1].call("receive 1", "0 0 0 4")
        begun = "mpi.0.1.1.begun"
        first = [SENT.format(1), f"lookup-wait {begun}"]
        self.become(tapes, [first, [f"publish {begun} sent", WAITS.format(1)]])

    def test_a_synchronous_send_that_is_found_complete(self) -> None:
        """By a poll, or as one of several: its end orders as much, and is counted."""
        for how in ("poll", "some"):
            tapes = make_world(2)
            tapes[0].call("send 1 1 0 4", f"0 {how}")
            tapes[1].call("receive 1", "0 0 0 4")
            first = [SENT.format(1), "lookup-wait mpi.0.1.1.begun"]
            second = ["publish mpi.0.1.1.begun sent", WAITS.format(1)]
            self.become(tapes, [first, second], "1 ends of requests that another run")
            strict = read_scripts(write_plan_of(tapes, Choices(is_strict=True)))
            self.assertEqual(strict, [[SENT.format(1)], [WAITS.format(1)]])

    def test_a_synchronous_send_to_a_receive_that_is_not_recorded(self) -> None:
        """The one that is there may be of the next message, and had perhaps not begun."""
        tapes = make_world(2)
        tapes[0].call("send 1 1 0 4").begin("send 1 1 0 4")
        tapes[1].say("other MPI_Mrecv").call("receive 1 0 0", "0 0 0 4")
        self.become(tapes, [[SENT.format(1)], [WAITS.format(1)]], "1 calls of MPI_Mrecv")

    def test_a_synchronous_send_and_a_receive_that_was_cancelled(self) -> None:
        """That one had perhaps got the message in its place, and had begun before."""
        tapes = make_world(2)
        tapes[0].call("send 1 1 0 4")
        tapes[1].call("receive 1 any 0", "1").call("receive 1 0 0", "0 0 0 4 wait")
        self.become(tapes, [[SENT.format(1)], [WAITS.format(1)]])

    def test_a_send_that_failed(self) -> None:
        """No message is sent."""
        tapes = make_world(2)
        tapes[0].call("send 1 1 0 4", "1").call(MARK).begin("send 1 1 0 4")
        tapes[1].call("receive 1", "0 0 0 4")
        first = ["publish m x", SENT.format(1)]
        self.become(tapes, [first, [WAITS.format(1)]], "#   1 sends that failed\n")

    def test_a_receive_that_failed(self) -> None:
        """It isn't one that was cancelled, which the recorder counts."""
        for status, is_counted in (("1", False), ("2", True)):
            tapes = make_world(2)
            tapes[0].begin("send 1 1 0 4")
            tapes[1].call("receive 1 0 0", status).call("receive 1 0 0", "0 0 0 4 wait")
            self.become(tapes, [[SENT.format(1)], [WAITS.format(1)]])
            self.assertEqual("1 receives that failed" in write_plan_of(tapes), is_counted)

    def test_a_message_of_another_size(self) -> None:
        tapes = make_world(2)
        tapes[0].begin("send 1 1 0 4")
        tapes[1].call("receive 1", "0 0 0 8")
        self.become(tapes, [[], []], "1 messages that can't be matched")

    def test_more_receives_than_sends(self) -> None:
        tapes = make_world(2)
        tapes[0].begin("send 1 1 0 4")
        tapes[1].call("receive 1", "0 0 0 4").call("receive 1", "0 0 0 4")
        self.become(tapes, [[], []], "2 messages that can't be matched")

    def test_sends_of_two_threads(self) -> None:
        tapes = make_world(2)
        for thread in (1, 2):
            tapes[0].thread = thread
            tapes[0].begin("send 1 1 0 4")
        tapes[1].call("receive 1", "0 0 0 4")
        self.become(tapes, [[], []], "1 messages that can't be matched")

    def test_a_name_that_looks_like_ours(self) -> None:
        tapes = make_world(2)
        tapes[0].call("publish blocks mpi.0.1.1=text:x -").begin("send 1 1 0 4")
        tapes[1].call("receive 1", "0 0 0 4")
        first = ["publish mpi.0.1.1 x", "publish mpi_.0.1.1 sent"]
        self.become(tapes, [first, ["lookup-wait mpi_.0.1.1"]], "`mpi_.`")

    def test_a_send_to_no_rank(self) -> None:
        """A send to a rank that isn't there, which MPI refused."""
        self.become([in_world(0, 2).call("send 1 -5 0 4"), in_world(1, 2)], [[], []])

    def test_a_poll(self) -> None:
        """The order of a poll that succeeded is taken, and counted."""
        tapes = make_world(2)
        tapes[0].begin("send 1 1 0 4")
        tapes[1].call("receive 1 0 0", "0 0 0 4 poll")
        comment = "# 1 ends of requests that another run may have found open"
        self.become(tapes, [[SENT.format(1)], [WAITS.format(1)]], comment)

    def test_strict(self) -> None:
        """Nothing is taken from polls, and from one of several."""
        ordered = [[SENT.format(1), "fence all"], [WAITS.format(1), "fence all"]]
        for how, scripts in (("poll", [[], []]), ("some", [[], []]), ("wait", ordered)):
            with self.subTest(how):
                tapes = make_world(2)
                tapes[0].begin("send 1 1 0 4")
                tapes[1].call("receive 1 0 0", f"0 0 0 4 {how}")
                for tape in tapes:
                    tape.call("collective ibarrier 1", f"0 all {how}")
                plan = write_plan_of(tapes, Choices(is_strict=True))
                self.assertEqual(read_scripts(plan), scripts)


class ChosenTest(unittest.TestCase):
    """Messages whose peer one of any source may have named: with --strict they order nothing."""

    def hold(self, tapes: Recordings, is_certain: bool) -> None:
        """Tests whether the message with tag 1 orders something with --strict; without, it does."""
        for is_strict in (False, True):
            plan = write_plan_of(tapes, Choices(is_strict=is_strict))
            is_taken = is_certain or not is_strict
            self.assertEqual("# MPI: receive, tag 1\nlookup-wait mpi." in plan, is_taken)
            self.assertEqual("# 1 ends of requests" in plan, not is_certain)

    def test_a_receive_from_whom_a_message_came(self) -> None:
        """Not where none but one can have sent, or where it was asked for one."""
        for size, asked, is_certain in ((3, "any", False), (3, "1", True), (2, "any", True)):
            with self.subTest(size=size, asked=asked):
                tapes = make_world(size)
                for rank in range(1, size):
                    tapes[rank].call(f"publish blocks n{rank}=text:x -").begin("send 1 0 0 4")
                tapes[1].begin("send 1 0 1 4")
                tapes[0].call(f"receive 1 {asked} 0", "0 1 0 4 wait")
                tapes[0].call("receive 1 1 1", "0 1 1 4 wait")
                tapes[0].call("lookup blocks :n1 -", "0 n1=text:x")
                self.hold(tapes, is_certain)

    def test_a_send_to_whom_a_message_came_from(self) -> None:
        for asked, is_certain in (("any", False), ("1", True)):
            with self.subTest(asked=asked):
                tapes = make_world(3)
                tapes[1].begin("send 1 0 0 4")
                tapes[0].call(f"receive 1 {asked} 0", "0 1 0 4 wait")
                tapes[0].call("publish blocks n=text:x -").begin("send 1 1 1 4")
                tapes[1].call("receive 1 0 1", "0 0 1 4 wait")
                tapes[1].call("lookup blocks :n -", "0 n=text:x")
                self.hold(tapes, is_certain)

    def test_a_message_that_came_later(self) -> None:
        """A receive that is open while the process sends names nobody yet."""
        tapes = make_world(3)
        tapes[1].begin("send 1 0 0 4")
        number = tapes[0].begin("receive 1 any 0")
        tapes[0].call("publish blocks n=text:x -").begin("send 1 1 1 4")
        tapes[0].end(number, "0 1 0 4 wait")
        tapes[1].call("receive 1 0 1", "0 0 1 4 wait").call("lookup blocks :n -", "0 n=text:x")
        self.hold(tapes, True)


class UnseenTest(OrderTest):
    """Signs that calls of MPI weren't seen."""

    def is_said(self, tapes: Recordings, what: str) -> None:
        """Tests that the head of a plan says something of tapes; nothing, where it is empty."""
        titled = f"{MORE_ORDERED}\n#   {what}" if what else ""
        plan = write_plan_of(tapes)
        self.assertIn(titled, plan)
        self.assertEqual(MORE_ORDERED in plan, bool(what))

    def test_a_library_that_calls_past_the_recorder(self) -> None:
        tapes = make_world(2)
        tapes[1].say("unseen object /lib/a%20b.so")
        self.is_said(tapes, "1 processes in which a b.so calls MPI past the recorder")
        tapes[0].say("unseen call MPI_Send").say("unseen call MPI_Send")
        self.is_said(tapes, "2 calls of MPI_Send that a library took elsewhere")

    def test_without_mpi(self) -> None:
        tapes = make_world(1)
        tapes[0].say("unseen call MPI_Send")
        self.assertNotIn(MORE_ORDERED, write_plan_of(tapes, Choices(with_mpi=False)))
        tapes[0].say("unseen pmix /lib/a.so")
        plan = write_plan_of(tapes, Choices(with_mpi=False))
        self.assertIn(f"{MORE_ORDERED}\n#   1 processes in which a.so calls PMIx past the", plan)

    def test_messages_that_nothing_got(self) -> None:
        for tag in (3, 4):
            tapes = make_world(2)
            tapes[0].begin("send 1 1 3 4")
            tapes[0].begin(f"send 1 1 {tag} 4")
            tapes[1].call("receive 1 0 3", "0 0 3 4")
            self.is_said(tapes, "1 inboxes in which messages and receives don't fit")

    def test_messages_whose_receive_may_be_there(self) -> None:
        """It is counted, has no end, or would have come later."""
        for said in ("other MPI_Mrecv", "other MPI_Isendrecv", ""):
            tapes = make_world(2)
            tapes[0].begin("send 1 1 3 4")
            if said:
                tapes[1].say(said)
            else:
                tapes[1].begin("receive 1 0 3")
            self.is_said(tapes, "")
        tapes = make_world(2)
        tapes[0].begin("send 1 1 3 4")
        self.is_said([tapes[0].text(), tapes[1].text(is_over=False)], "")

    def test_receives_of_what_was_not_sent(self) -> None:
        for size, times in ((8, 1), (4, 2)):
            tapes = make_world(2)
            tapes[0].begin("send 1 1 3 4")
            for _ in range(times):
                tapes[1].call("receive 1 0 3", f"0 0 3 {size}")
            self.is_said(tapes, "1 inboxes in which messages and receives don't fit")

    def test_sends_that_are_only_counted(self) -> None:
        """One may have been sent before that which is seen: nothing is matched."""
        tapes = make_world(2)
        tapes[0].say("other MPI_Isendrecv").begin("send 1 1 3 4")
        tapes[1].call("receive 1 0 3", "0 0 3 4")
        self.become(tapes, [[], []], "1 messages that can't be matched")

    def test_starts_of_what_is_not_known(self) -> None:
        """One may have sent before that which is seen: nothing is matched, and the head tells."""
        tapes = make_world(2)
        tapes[0].say("other MPI_Start of a request that isn't known").begin("send 1 1 3 4")
        tapes[1].call("receive 1 0 3", "0 0 3 4")
        self.become(tapes, [[], []], "1 messages that can't be matched")
        self.is_said(tapes, "1 starts of requests that aren't known")

    def test_collectives_that_do_not_fit(self) -> None:
        for name in ("barrier", "bcast"):
            tapes = make_world(2)
            tapes[0].call(*BARRIER).call(*BARRIER)
            tapes[1].call(*BARRIER)
            if name != "barrier":
                tapes[1].call(f"collective {name} 1", "0 none")
            self.is_said(tapes, "1 communicators in which the collectives")


class FreeReceivesTest(OrderTest):
    """Receives that may get one of several messages, and probes."""

    one, other = ("receive 1 any 0", "0 1 0 4 wait"), ("receive 1 any any", "0 2 0 4 wait")
    commit = ("commit", "0")
    both = ["lookup-wait mpi.1.0.1", "lookup-wait mpi.2.0.1"]
    sent = [["publish mpi.1.0.1 sent"], ["publish mpi.2.0.1 sent"]]
    of_several = "{} receives that could have got messages of several"

    def send_two(self, calls: Sequence[Recorded]) -> list[Tape]:
        """The tapes of ranks 1 and 2 that send to 0, which makes some calls."""
        tapes = make_world(3)
        for tape in tapes[1:]:
            tape.begin("send 1 0 0 4")
        for what, end in calls:
            tapes[0].call(what, end)
        return tapes

    def test_two_receives_from_anywhere(self) -> None:
        tapes = self.send_two([self.one, self.commit, self.other, self.commit])
        first = ["commit", *self.both, "commit"]
        self.become(tapes, [first, *self.sent], self.of_several.format(2))

    def test_one_receive_from_anywhere(self) -> None:
        self.become(self.send_two([self.one]), [[], [], []], self.of_several.format(1))

    def test_a_probe_from_anywhere(self) -> None:
        probe, receive = ("probe 1 any 0", "0 1 0 4 wait"), ("receive 1 1 0", "0 1 0 4 wait")
        tapes = self.send_two([probe, receive])
        self.become(tapes, [[], [], []], self.of_several.format(1))

    def test_a_probe_of_what_is_left(self) -> None:
        tapes = self.send_two([self.one, ("probe 1 any 0", "0 2 0 4 wait"), self.commit])
        first = [*self.both, "commit"]
        self.become(tapes, [first, *self.sent], self.of_several.format(1))

    def test_a_receive_of_one_among_those_of_any(self) -> None:
        tapes = self.send_two([("receive 1 2 0", "0 2 0 4 wait"), self.commit, self.one])
        first = [self.both[1], "commit", self.both[0]]
        self.become(tapes, [first, *self.sent], self.of_several.format(2))

    def test_a_process_that_ended_badly(self) -> None:
        """Where a process may have sent more than is recorded, nothing is taken from a receive
        from anywhere."""
        tapes: list[bytes] = [tape.text() for tape in self.send_two([self.one, self.other])[:2]]
        tapes.append(self.send_two([])[2].text(False))
        self.become(tapes, [[], [], []], "2 messages that can't be matched")

    def test_two_receives_before_a_barrier(self) -> None:
        """What is sent after a barrier can't have come before it."""
        tapes = self.send_two([self.one, self.other])
        for tape in tapes:
            tape.call("collective barrier 1", "0 all wait")
        for tape in tapes[1:]:
            tape.begin("send 1 0 0 4")
        scripts = [[*self.both, "fence all"], *([*row, "fence all"] for row in self.sent)]
        self.become(tapes, scripts, self.of_several.format(2))


if __name__ == "__main__":
    unittest.main()
