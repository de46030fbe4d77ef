"""Tests the order of fences, of calls that don't block, and of collectives, in a plan."""
import unittest
from collections.abc import Sequence

from wire_up_tools.words import MORE_ORDERED
from tests.support.order_case import BARRIER, COLLECTS, MARK, OrderTest
from tests.support.tapes import Tape, make_world, write_plan_of

PUT, FENCE = ("put global k text:v", "commit"), "fence blocks all -"


class FencesTest(OrderTest):
    """Fences of PMIx, and calls that don't block."""

    def test_a_fence_that_does_not_block(self) -> None:
        """With a call before its end, arriving and leaving stand apart."""
        tapes = Tape(0), Tape(1)
        fence = tapes[0].begin("fence nb all -")
        tapes[0].call(MARK).end(fence)
        tapes[1].call("fence blocks all -")
        first = ["publish fence.0.1 sent", "publish m x", "lookup-wait fence.1.1"]
        second = ["publish fence.1.1 sent", "lookup-wait fence.0.1"]
        self.become(tapes, [first, second], "2 calls of fences among")

    def test_a_fence_that_collects_and_does_not_block(self) -> None:
        """That can't be said."""
        tapes = Tape(0), Tape(1)
        fence = tapes[0].begin(f"fence nb all {COLLECTS}")
        tapes[0].call(MARK).end(fence)
        tapes[1].call(f"fence blocks all {COLLECTS}")
        scripts = [["fence all collect", "publish m x"], ["fence all collect"]]
        self.become(tapes, scripts, "1 calls made while one")

    def test_a_fence_of_many_that_does_not_block(self) -> None:
        """Too many for names: it stands where it began."""
        tapes = [Tape(rank) for rank in range(33)]
        fence = tapes[0].begin("fence nb all -")
        tapes[0].call(MARK).end(fence)
        for tape in tapes[1:]:
            tape.call("fence blocks all -")
        scripts = [["fence all", "publish m x"], *[["fence all"]] * 32]
        self.become(tapes, scripts, "1 calls made while one")

    def test_a_fence_that_another_lets_collect(self) -> None:
        """Names would bring no data."""
        tapes = Tape(0), Tape(1)
        fence = tapes[0].begin("fence nb all -")
        tapes[0].call(MARK).end(fence)
        tapes[1].call(f"fence blocks all {COLLECTS}")
        scripts = [["fence all", "publish m x"], ["fence all collect"]]
        self.become(tapes, scripts, "1 calls made while one")

    def test_a_get_without_a_line_in_a_fence(self) -> None:
        """What isn't in the plan isn't more ordered there."""
        tapes = Tape(0), Tape(1)
        fence = tapes[0].begin(f"fence nb all {COLLECTS}")
        tapes[0].call("get blocks job:* :pmix.job.size -", "0 number:4:2").end(fence)
        tapes[1].call(f"fence blocks all {COLLECTS}")
        plan = write_plan_of(tapes)
        self.assertIn("1 gets of a wildcard rank", plan)
        self.assertNotIn(MORE_ORDERED, plan)

    def hold_get_in_a_fence(
        self, owner: Sequence[str], is_settled: bool, get: str = "-", first: str = FENCE
    ) -> None:
        """Tests a get of rank 0, while a fence is open after a first one."""
        tapes = Tape(0).call(first), Tape(1)
        for call in (*owner, f"fence blocks all {COLLECTS}"):
            tapes[1].call(call)
        fence = tapes[0].begin(f"fence nb all {COLLECTS}")
        tapes[0].call(f"get blocks job:1 :k {get}", "0 text:v").end(fence)
        self.assertEqual(MORE_ORDERED not in write_plan_of(tapes), is_settled)

    def test_a_get_of_what_is_there_in_a_fence(self) -> None:
        """It isn't more ordered if it waits, and its owner puts the key before an earlier fence of
        both, and never again."""
        self.hold_get_in_a_fence([*PUT, FENCE], True)
        self.hold_get_in_a_fence([FENCE, *PUT], False)
        self.hold_get_in_a_fence([*PUT, FENCE, *PUT], False)
        self.hold_get_in_a_fence([PUT[0], FENCE, PUT[1]], False)
        self.hold_get_in_a_fence([*PUT, FENCE], False, get="pmix.immediate=number:1:1")
        self.hold_get_in_a_fence(PUT, False, first="fence blocks job:0 -")

    def test_a_get_that_does_not_block(self) -> None:
        """It is where it ends."""
        tapes = Tape(0), Tape(1)
        get = tapes[0].begin("get nb job:1 :k -")
        tapes[0].call(MARK).end(get, "0 text:v")
        tapes[1].call("put global k text:v").call("commit")
        self.become(tapes, [["publish m x", "get app:1 k"], ["put global k v", "commit"]])

    def test_half_a_fence(self) -> None:
        """A fence that ended for one although the other's isn't there."""
        tapes = Tape(0).call("fence blocks all -"), Tape(1)
        self.become(tapes, [[], []], "1 fences that ended although")

    def test_half_a_fence_that_hangs(self) -> None:
        tapes = Tape(0), Tape(1)
        tapes[0].begin("fence blocks all -")
        self.become(tapes, [["fence all"], []])

    def test_a_fence_with_no_rank(self) -> None:
        """A fence with a rank that isn't there, which PMIx refused."""
        tapes = Tape(0).call("fence blocks job:0,job:7 -", "-27"), Tape(1)
        self.become(tapes, [[], []], "1 fences with processes that aren't recorded")


class GroupsTest(OrderTest):
    """The making of groups of PMIx, and their ends."""

    MADE, GONE = "group construct :g job:0,job:1 -", "group destruct :g all -"
    FENCE = "fence app:0,app:1"

    def make_tapes(self, directives: str = "-") -> list[Tape]:
        """Tapes of three processes, of which two make and end a group."""
        tapes = [Tape(rank) for rank in range(3)]
        for tape in tapes[:2]:
            tape.call(f"{self.MADE[:-1]}{directives}").call(self.GONE)
        return tapes

    def test_a_group(self) -> None:
        none: list[str] = []
        scripts = [[self.FENCE, self.FENCE], [self.FENCE, self.FENCE], none]
        self.become(self.make_tapes(), scripts, "# PMIx: construct g\nfence")
        self.become(self.make_tapes("pmix.grp.actxid=number:1:1"), scripts, "# PMIx: destruct g")

    def test_a_group_that_waits_for_a_short_time(self) -> None:
        plan = write_plan_of(self.make_tapes("pmix.timeout=number:4:1"))
        self.assertIn("2 waits for less than a minute", plan)

    def test_a_group_that_need_not_be_whole(self) -> None:
        tapes = self.make_tapes("pmix.grp.opt=number:1:1")
        self.become(tapes, [[], [], []], "4 calls that make or end groups")

    def test_a_group_that_was_refused(self) -> None:
        tapes = [Tape(0), Tape(1)]
        for tape in tapes:
            tape.call(self.MADE, "-27").call(self.GONE, "-46")
        said = "2 calls that make or end groups, and that the library refused, since they can't"
        self.become(tapes, [[], []], said)

    def test_groups_in_two_orders(self) -> None:
        """The library matches them by their names."""
        tapes = [Tape(0), Tape(1)]
        made = [self.MADE, self.MADE.replace(":g", ":h")]
        for tape, calls in zip(tapes, (made, made[::-1])):
            for call in calls:
                tape.call(call)
            tape.call("fence blocks all -")
        self.become(tapes, [["fence all"], ["fence all"]], "4 calls that make or end groups")

    def test_a_group_that_one_did_not_make(self) -> None:
        tapes = [Tape(0).call(self.MADE).call("fence blocks all -"), Tape(1)]
        tapes[1].call("fence blocks all -")
        self.become(tapes, [["fence all"], ["fence all"]], "1 calls that make or end groups")


class EndsTest(OrderTest):
    """Recordings that end badly."""

    def test_a_cut_line(self) -> None:
        tapes = Tape(0).call("put global k text:v").text()[:-4], Tape(1).text()
        comment = "1 last lines of recordings, which were cut"
        self.become(tapes, [["put global k v"], []], comment)

    def test_a_process_that_ended_badly(self) -> None:
        tapes = Tape(0).text(False), Tape(1).text()
        comment = "1 processes whose recordings end before PMIx_Finalize"
        self.become(tapes, [[], []], comment)


class CollectivesTest(OrderTest):
    """Collectives of MPI."""

    def test_a_barrier_among_fences(self) -> None:
        """A barrier beside a fence over the same processes, in the same order."""
        tapes = make_world(2)
        for tape in tapes:
            tape.call(f"fence blocks all {COLLECTS}").call(*BARRIER).call("fence nb all -")
        scripts = [["fence all collect", "fence all", "fence all"]] * 2
        self.become(tapes, scripts, "0 messages and 1 collective. ")

    def test_a_barrier_and_a_fence_in_two_orders(self) -> None:
        """By a fence that doesn't block: it is names."""
        tapes = make_world(2)
        fence = tapes[0].begin("fence nb all -")
        tapes[0].call(*BARRIER).end(fence)
        tapes[1].call(*BARRIER).call("fence blocks all -")
        first = ["publish fence.0.1 sent", "fence all", "lookup-wait fence.1.1"]
        second = ["fence all", "publish fence.1.1 sent", "lookup-wait fence.0.1"]
        self.become(tapes, [first, second])

    def test_a_call_in_a_barrier(self) -> None:
        """It isn't before the barrier, nor after."""
        tapes = make_world(2)
        barrier = tapes[0].begin("collective barrier 1")
        tapes[0].call(MARK).end(barrier, "0 all")
        tapes[1].call(*BARRIER)
        first = ["publish mpi.0.all.1 sent", "publish m x", "lookup-wait mpi.1.all.1"]
        second = ["publish mpi.1.all.1 sent", "lookup-wait mpi.0.all.1"]
        self.become(tapes, [first, second])

    def test_a_get_in_a_barrier(self) -> None:
        """A get that waits is no such call: the barrier is a fence before it."""
        tapes = make_world(2)
        barrier = tapes[0].begin("collective barrier 1")
        tapes[0].call("get blocks job:1 :k -", "0 text:v").end(barrier, "0 all")
        tapes[1].call("put global k text:v").call("commit").call(*BARRIER)
        scripts = [["fence all", "get app:1 k"], ["put global k v", "commit", "fence all"]]
        self.become(tapes, scripts)

    def test_a_broadcast(self) -> None:
        """An allreduce of nothing orders nothing, and a broadcast only the root."""
        tapes = make_world(2)
        for rank, tape in enumerate(tapes):
            tape.call("collective allreduce 1", "0 none")
            tape.call("collective bcast 1", f"0 {'none' if rank == 0 else 0}")
        self.become(tapes, [["publish mpi.0.all.2 sent"], ["lookup-wait mpi.0.all.2"]])

    def test_a_barrier_beside_a_publish(self) -> None:
        """A publish that doesn't block, and a barrier before its end: the plan says that the
        barrier waited for it, and tells so."""
        tapes = make_world(2)
        publish = tapes[0].begin("publish nb m=text:x -")
        tapes[0].call(*BARRIER).end(publish)
        tapes[1].call(*BARRIER)
        scripts = [["publish m x", "fence all"], ["fence all"]]
        self.become(tapes, scripts, "1 calls made while one")

    def test_collectives_of_two_kinds(self) -> None:
        tapes = make_world(2)
        tapes[0].call(*BARRIER).call(*BARRIER)
        tapes[1].call(*BARRIER).call("collective bcast 1", "0 none")
        self.become(tapes, [["fence all"], ["fence all"]], "2 collectives that can't be matched")

    def test_collectives_that_failed(self) -> None:
        """Each process has one that met none of the other: the plan takes it that they met."""
        tapes = make_world(2)
        tapes[0].call(*BARRIER).call(MARK).call("collective barrier 1", "1 none")
        tapes[1].begin("collective barrier 1")
        tapes[1].call(*BARRIER)
        first = ["lookup-wait mpi.1.all.1", "publish m x", "publish mpi.0.all.2 sent"]
        scripts = [first, ["publish mpi.1.all.1 sent", "lookup-wait mpi.0.all.2"]]
        self.become(tapes, scripts, "#   2 collectives that failed, or were left by a jump")

    def test_a_barrier_of_some(self) -> None:
        """A barrier of a communicator of some, and one in which not all came."""
        tapes = make_world(3)
        for rank in (0, 2):
            tapes[rank].say("comm 2 1 c1 2,0").call("collective barrier 2", "0 all")
        tapes[0].begin("collective barrier 1")
        self.become(tapes, [["fence app:0,app:2"], [], ["fence app:0,app:2"]])

    def test_a_communicator_without_its_process(self) -> None:
        """As no recorder writes them."""
        tapes = [
            Tape(rank)
            .say(f"world {rank} 3")
            .say(f"comm 1 0 w0 {ranks}")
            .call("collective scan 1", "0 below")
            for rank, ranks in enumerate(("1-2", "1-2", "0-1"))
        ]
        comment = "2 collectives in communicators that aren't recorded"
        self.become(tapes, [[], [], []], comment)


if __name__ == "__main__":
    unittest.main()
