"""Tests how a report says a fix: which call it lets come first, and what rank makes it where."""
import unittest

from wire_up_tools.plan import Plan
from wire_up_tools.plan_reading import read_plan
from wire_up_tools.report import explaining
from wire_up_tools.report.findings import read_line
from wire_up_tools.report.messages import explain_late, find_early, find_late
from wire_up_tools.report.orders import find_order
from wire_up_tools.report.readers import list_told
from wire_up_tools.words import LEFT_TO_LUCK, NOT_WAITED, WITHOUT_MPI

HEAD = "rehearsal 2\nnode n\njob a\n"
RECORDED = "# Recorded by wire_up-record on a day: 3 processes\n"
# The publish, a message after it, and a lookup before that is received, each with its place.
PUBLISH = "# at serve (s.c:3)\npublish port v\n"
SEND = "# at main (m.c:5)\n# MPI: send, tag 7\npublish mpi.0.1.1 sent\n"
LOOKUP = "# at main (m.c:8)\nlookup port\n"
RECEIVE = "# at main (m.c:9)\n# MPI: receive from any source, tag 7\nlookup-wait mpi.0.1.1\n"
BARRIER = "# at main (m.c:6)\n# MPI: barrier\nfence all\n"


def read(*scripts: str, is_recorded: bool = True) -> Plan:
    """A plan with the scripts of its ranks."""
    ranks = "".join(f"rank n\n{script}" for script in scripts)
    return read_plan(f"{RECORDED * is_recorded}{HEAD}{ranks}".encode())


def fix(plan: Plan, line: str) -> str:
    """The fix of a finding, by the line of the checker."""
    return explaining.fix(read_line(plan, line), find_order(plan))


class FixesTest(unittest.TestCase):
    """What fixes say."""

    def test_a_publish_comes_first(self) -> None:
        said = fix(read(PUBLISH, LOOKUP), "race a:0 1 a:1 1 name port")
        self.assertEqual(
            said,
            "Wait for the name with PMIX_WAIT: it is published once and never taken away "
            "(MPI_Lookup_name can't: receive a message before it that is sent after the "
            "MPI_Publish_name); or put an MPI_Barrier of MPI_COMM_WORLD between the two calls: a:0 "
            "calls it after the PMIx_Publish of serve (s.c:3), a:1 before the PMIx_Lookup of "
            "m.c:8.",
        )

    def test_a_poll_of_a_name(self) -> None:
        """It is said where one line asks again and again, and one call could wait."""
        said = "It is called 3 times there: if that is a poll until the name is found, runs differ"
        line = "race a:0 1 a:1 1 name port"
        for scripts, is_said in (
            ((PUBLISH, LOOKUP + 2 * "lookup port\n"), True),
            ((PUBLISH, LOOKUP), False),
            ((PUBLISH, LOOKUP + LOOKUP.replace("8", "9") + "lookup other\n"), False),
            ((PUBLISH + "unpublish port\n", LOOKUP + 2 * "lookup port\n"), False),
        ):
            plan = read(*scripts)
            found = explaining.explain(read_line(plan, line), find_order(plan))
            self.assertEqual(said in found, is_said, found)
            self.assertEqual("is one call that waits" in found, is_said)

    def test_a_publish_of_another_job_comes_first(self) -> None:
        text = f"{RECORDED}{HEAD}rank n\n{PUBLISH}job b\nrank n\n{LOOKUP}"
        said = fix(read_plan(text.encode()), "race a:0 1 b:0 1 name port")
        again = "(MPI_Lookup_name can't: call it until it finds the name; the race is still rep"
        self.assertIn(again, said)

    def test_a_get_that_may_have_no_directive(self) -> None:
        """The head says so. A plan that doesn't say it names the directives alone."""
        scripts = "rank n\nput global k v\ncommit\nrank n\nget-now a:0 k\n"
        more = ", if it has one of them: else this library answered it with an error"
        for head, is_open in ((f"#   1 {NOT_WAITED}\n", True), ("", False)):
            plan = read_plan(f"{RECORDED}{head}{HEAD}{scripts}".encode())
            said = fix(plan, "race a:0 2 a:1 1 key a:0 k")
            self.assertIn("Leave out PMIX_IMMEDIATE and PMIX_OPTIONAL, so that the get", said)
            self.assertEqual(more in said, is_open)

    def test_a_program_without_mpi(self) -> None:
        text = f"{RECORDED}# {WITHOUT_MPI}: a race\n{HEAD}rank n\n{PUBLISH}rank n\n{LOOKUP}"
        said = fix(read_plan(text.encode()), "race a:0 1 a:1 1 name port")
        self.assertIn("with PMIX_WAIT: it is published once and never taken away; or", said)

    def test_a_lookup_comes_before_an_unpublish(self) -> None:
        # Rank 2 sends before the barrier, since rank 0 receives that before its unpublish.
        receive, send = RECEIVE.replace("mpi.0.1.1", "mpi.2.0.1"), SEND.replace("0.1.1", "2.0.1")
        unpublish = f"{receive}# at main (m.c:4)\nunpublish port\n"
        said = fix(read(unpublish, LOOKUP, send), "race a:0 2 a:1 1 name port")
        turns = (
            "a:1 calls it after the PMIx_Lookup of m.c:8, a:0 before the PMIx_Unpublish of m.c:4, "
            "a:2 after the MPI_Send of m.c:5"
        )
        self.assertTrue(said.endswith(f"{turns}."), said)
        self.assertNotIn("PMIX_WAIT", said)

    def test_a_commit_comes_first(self) -> None:
        plan = read("put global k v\ncommit\n", "get-now a:0 k\n", is_recorded=False)
        self.assertEqual(
            fix(plan, "race a:0 2 a:1 1 key a:0 k"),
            "Use get in place of get-now; or put a fence of a set that has both ranks between the "
            "two calls: a:0 calls it after its commit (call 2), a:1 before its get-now (call 1).",
        )

    def test_neither_publish_is_the_better_first(self) -> None:
        plan = read("publish port v\n", "publish port v\n", is_recorded=False)
        said = fix(plan, "race a:0 1 a:1 1 name port")
        turns = "a:0 calls it after its publish (call 1), a:1 before its publish (call 1)."
        self.assertTrue(said.endswith(turns), said)


class BarriersTest(unittest.TestCase):
    """The fix by a barrier: where every rank calls it, or which call moves past one there is."""

    def test_every_rank_calls_it(self) -> None:
        # Rank 2 sends what rank 0 receives first. Ranks 3 to 5 have only begun.
        begin = "# at main (m.c:1)\nfence all\n"
        receive, send = RECEIVE.replace("mpi.0.1.1", "mpi.2.0.1"), SEND.replace("0.1.1", "2.0.1")
        plan = read(begin + receive + PUBLISH, begin + LOOKUP, begin + send, *[begin] * 3)
        said = fix(plan, "race a:0 3 a:1 2 name port")
        turns = (
            "a:0 calls it after the PMIx_Publish of serve (s.c:3), a:1 before the PMIx_Lookup of "
            "m.c:8, a:2 after the MPI_Send of m.c:5, a:3, a:4, a:5 after m.c:1"
        )
        where = "an MPI_Barrier of MPI_COMM_WORLD between the two calls"
        self.assertTrue(said.endswith(f"{where}: {turns}."), said)

    def test_ranks_without_calls(self) -> None:
        said = fix(read(PUBLISH, LOOKUP, "", SEND), "race a:0 1 a:1 1 name port")
        self.assertIn("of m.c:8, a:2 anywhere, a:3 before the MPI_Send of m.c:5.", said)

    def test_a_collective_stays_whole(self) -> None:
        # Ranks 1 and 2 call the barrier after a broadcast, since rank 0 does.
        cast = "# at main (m.c:2)\n# MPI: bcast\n"
        root, leaf = f"{cast}publish mpi.0.all.1 sent\n", f"{cast}lookup-wait mpi.0.all.1\n"
        said = fix(read(root + PUBLISH, leaf + LOOKUP, leaf), "race a:0 2 a:1 2 name port")
        self.assertIn("of m.c:8, a:2 after the MPI_Bcast of m.c:2.", said)
        said = fix(read(root + PUBLISH, LOOKUP + leaf), "race a:0 2 a:1 1 name port")
        moved = "a:1 after the MPI_Bcast of m.c:2 and moves the PMIx_Lookup of m.c:8 behind it"
        self.assertIn(moved, said)

    def test_all_at_one_line_where_they_can(self) -> None:
        begin, own = "# at main (m.c:1)\nfence all\n", PUBLISH.replace("port", "own")
        second, last = begin + own + LOOKUP, begin + own.replace("3", "4")
        plan = read(begin + PUBLISH, second, begin + own, last)
        said = fix(plan, "race a:0 2 a:1 3 name port")
        turns = "a:0 and a:2 call it after the PMIx_Publish of serve (s.c:3), a:1 before the"
        self.assertIn(f"{turns} PMIx_Lookup of m.c:8, a:3 after m.c:1.", said)
        # What rank 2 does before it is there comes after the lookup.
        late = f"{begin}{RECEIVE.replace('mpi.0.1.1', 'mpi.1.2.1')}{own}"
        sent = begin + LOOKUP + SEND.replace("0.1.1", "1.2.1")
        said = fix(read(begin + PUBLISH, sent, late), "race a:0 2 a:1 2 name port")
        self.assertIn("a:0 calls it after the PMIx_Publish of serve (s.c:3), a:1 before", said)
        self.assertIn("a:2 after m.c:1.", said)

    def test_without_mpi_two_ranks_meet(self) -> None:
        ranks = f"rank n\n{PUBLISH}rank n\n{LOOKUP}rank n\n{PUBLISH}"
        plan = read_plan(f"{RECORDED}# {WITHOUT_MPI}: more\n{HEAD}{ranks}".encode())
        said = fix(plan, "race a:0 1 a:1 1 name port")
        self.assertIn("Put a PMIx_Fence of a set that has both ranks between", said)
        self.assertTrue(said.endswith("before the PMIx_Lookup of m.c:8. To wait for the name with "
                                      "PMIX_WAIT isn't enough: it is published more than once."))

    def test_a_call_moves_past_a_barrier(self) -> None:
        later = BARRIER.replace("6", "60")
        plan = read(PUBLISH + BARRIER + later, LOOKUP + BARRIER + later, BARRIER + later)
        said = fix(plan, "race a:0 1 a:1 1 name port")
        self.assertTrue(
            said.endswith("or move the PMIx_Lookup of m.c:8 after the MPI_Barrier of m.c:6."), said
        )
        plan = read(BARRIER + PUBLISH, BARRIER + LOOKUP)
        said = fix(plan, "race a:0 2 a:1 2 name port")
        moved = "move the PMIx_Publish of serve (s.c:3) before the MPI_Barrier of m.c:6"
        self.assertIn(moved, said)

    def test_no_call_moves_into_another_race(self) -> None:
        """Behind the barrier the name is taken away; or what is published is received before."""
        gone = "# at main (m.c:7)\nunpublish port\n"
        said = fix(read(PUBLISH + BARRIER + gone, LOOKUP + BARRIER), "race a:0 1 a:1 1 name port")
        self.assertIn("Put an MPI_Barrier of MPI_COMM_WORLD", said)
        waits = "wait for the name with PMIX_WAIT: it is published once, and taken away only after"
        last = f"{waits} the PMIx_Lookup. The race is still reported then."
        self.assertTrue(said.endswith(f"before the PMIx_Lookup of m.c:8; or {last}"), said)
        waiting = LOOKUP.replace("lookup", "lookup-wait")
        for ranks, wanted in (
            ((PUBLISH + BARRIER + gone, waiting + BARRIER), "it finds the name in every run."),
            ((PUBLISH + gone, waiting), "or wait for ever."),
        ):
            plan = read(*ranks)
            finding = read_line(plan, "race a:0 1 a:1 1 name port")
            self.assertIn(wanted, explaining.explain(finding, find_order(plan)))
        said = fix(read(PUBLISH + gone, LOOKUP), "race a:0 1 a:1 1 name port")
        why = "To wait for the name with PMIX_WAIT isn't enough: it is taken away again."
        self.assertTrue(said.endswith(f"before the PMIx_Lookup of m.c:8. {why}"), said)
        got = f"{BARRIER}{RECEIVE}{PUBLISH}"
        said = fix(read(got, BARRIER + LOOKUP), "race a:0 3 a:1 2 name port")
        self.assertIn("put an MPI_Barrier of MPI_COMM_WORLD", said)


class MessagesTest(unittest.TestCase):
    """The message that would order two calls."""

    def test_it_is_told_and_is_the_fix(self) -> None:
        plan = read(PUBLISH + SEND, LOOKUP + RECEIVE)
        order, finding = find_order(plan), read_line(plan, "race a:0 1 a:1 1 name port")
        late = find_late(order, finding)
        assert late
        self.assertEqual(
            explain_late(plan, late),
            "a:0 sends a:1 a message after its PMIx_Publish (MPI_Send to 1, tag 7, at m.c:5), but "
            "a:1 receives from any source, and may have it only after its PMIx_Lookup, at m.c:9. "
            "If a:1 received it from a:0 before its PMIx_Lookup, the PMIx_Publish would come "
            "first.",
        )
        self.assertEqual(
            explaining.fix(finding, order),
            "Move the PMIx_Lookup of m.c:8 after the MPI_Recv of m.c:9 that follows it; or "
            "receive from a:0 in place of MPI_ANY_SOURCE before the PMIx_Lookup of m.c:8; or wait "
            "for the name with PMIX_WAIT: it is published once and never taken away "
            "(MPI_Lookup_name can't).",
        )

    def test_one_that_waits_for_the_lookup_is_none(self) -> None:
        plan = read(PUBLISH + BARRIER + SEND, LOOKUP + BARRIER + RECEIVE)
        finding = read_line(plan, "race a:0 1 a:1 1 name port")
        self.assertIsNone(find_late(find_order(plan), finding))

    def test_one_that_is_sent_too_early(self) -> None:
        got = RECEIVE.replace(" from any source", "")
        moved = "move the MPI_Send of m.c:5 after the PMIx_Publish of serve (s.c:3)"
        said = fix(read(SEND + PUBLISH, got + LOOKUP), "race a:0 2 a:1 2 name port")
        self.assertTrue(said.lower().startswith(moved.lower()), said)
        wild = RECEIVE.replace("0.1.1", "1.0.1")
        reply = SEND.replace("0.1.1", "1.0.1")
        other, other_got = SEND.replace("0.1.1", "0.2.1"), got.replace("0.1.1", "0.2.1")
        awaited = got.replace("0.1.1", "1.0.1") + PUBLISH
        for name, ranks, number in (
            ("of any source", (SEND + PUBLISH, RECEIVE + LOOKUP), 2),
            ("a wait between", (SEND + awaited, got + reply + LOOKUP), 3),
            ("a wait that stands later", (SEND + PUBLISH + wild, got + reply + LOOKUP), 2),
            ("another message between", (SEND + other + PUBLISH, got + LOOKUP, other_got), 3),
            ("received later", (SEND + PUBLISH, LOOKUP + got), 2),
        ):
            with self.subTest(name):
                plan = read(*ranks)
                lookup = next(call for call in plan.list_single() if call.verb == "lookup")
                line = f"race a:0 {number} a:1 {lookup.number} name port"
                self.assertIsNone(find_early(plan, read_line(plan, line)))
        for note in ("# Left out:\n#   2 messages that can't change a finding\n",
                     f"# 1 {LEFT_TO_LUCK} (1 by MPI_Test): nothing is taken from them.\n"):
            with self.subTest(note):
                ranks_too = f"rank n\n{SEND}{PUBLISH}rank n\n{got}{LOOKUP}"
                plan = read_plan(f"{RECORDED}{note}{HEAD}{ranks_too}".encode())
                finding = read_line(plan, "race a:0 2 a:1 2 name port")
                self.assertIsNone(find_early(plan, finding))


class RewritesTest(unittest.TestCase):
    """A key that is put twice: who reads it, and how it is mended."""

    def explain(self, *readers: str) -> str:
        """What it means that a key is put before and after a barrier, with these readers."""
        put = "# at main (p.c:{0}) -> share (p.c:3)\nput global k v{0}\ncommit\n"
        plan = read(put.format(10) + BARRIER + put.format(20), *readers)
        order, finding = find_order(plan), read_line(plan, "rewrite a:0 1 4 key k")
        told = list_told(order, finding)
        self.told = [call.name for call in told]
        self.roles = [explaining.role(finding, call) for call in told]
        self.title = explaining.title(finding, (), order)
        self.fix = explaining.fix(finding, order)
        return explaining.explain(finding, order)

    def test_readers_of_either_value(self) -> None:
        get = "# at join (j.c:2)\nget a:0 k\n"
        said = self.explain(get + BARRIER + get, BARRIER + get)
        self.assertTrue(
            said.endswith(
                "a:1 and a:2 get it at join (j.c:2), and nothing orders that with this commit: "
                "each of these gets may give either value."
            ),
            said,
        )
        again = "a:0 puts it at p.c:10 and again at p.c:20; the next PMIx_Commit replaces the first"
        self.assertTrue(said.startswith(again), said)
        self.assertEqual(self.title, "a:0 puts the key k twice: a:1 and a:2 may get either value")
        self.assertEqual(self.told, ["a:0 1", "a:0 4", "a:1 3", "a:2 2"])
        roles = ["first value: v10", "second value: v20", "reads it", "reads it"]
        self.assertEqual(self.roles, roles)
        self.assertEqual(
            self.fix,
            "Put the key once; or put each value under a key of its own; or if the second value is "
            "meant, put an MPI_Barrier of MPI_COMM_WORLD between the PMIx_Commit and the PMIx_Get: "
            "a:0 calls it after the PMIx_Commit of p.c:20, a:1 and a:2 before the PMIx_Get of join "
            "(j.c:2). The second put is still reported then.",
        )

    def test_a_get_that_does_not_wait(self) -> None:
        self.explain("get-now a:0 k\n" + BARRIER)
        only = "Put the key once; or put each value under a key of its own."
        self.assertEqual(self.fix, only)

    def test_a_reader_before_the_second_put(self) -> None:
        said = self.explain("# at main (j.c:2)\nget a:0 k\n" + BARRIER)
        self.assertTrue(said.endswith("a:1 gets it at j.c:2, always before or always after that."))
        self.assertEqual(self.title, "a:0 puts the key k twice")

    def test_no_reader(self) -> None:
        said = self.explain(BARRIER)
        self.assertTrue(said.endswith("No other rank gets it in this plan."), said)
        self.assertEqual(self.told, ["a:0 1", "a:0 4"])

    def test_one_commit_or_none(self) -> None:
        plan = read("put global k v\nput global k w\ncommit\nput global k x\n")
        order = find_order(plan)
        for line, wanted in (("1 2", "only the second value"), ("1 4", "No commit follows")):
            finding = read_line(plan, f"rewrite a:0 {line} key k")
            self.assertIn(wanted, explaining.explain(finding, order))


if __name__ == "__main__":
    unittest.main()
