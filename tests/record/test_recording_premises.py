"""Tests what the recorder says of the premises of a verdict: that each run of the program makes the
calls of the plan, or which calls the library answered otherwise than the rules."""
import json
import os
import shutil
import tempfile
import unittest
from collections.abc import Sequence
from pathlib import Path

from wire_up_tools.checker import Checker
from wire_up_tools.report.asking import Asker
from wire_up_tools.report.contents import Report, make_report
from wire_up_tools.report.html_page import choose_badge, write_page
from wire_up_tools.report.markup import escape
from wire_up_tools.report.sarif import write_sarif
from wire_up_tools.report.terminal_text import write_text
from tests import support
from tests.support.needs import needs_program
from tests.support.recorded import EACH_RUN
from tests.support.tapes import SHIPPED, Tape, make_world, read_file, run_recorder, write_file

SENTENCE = "Each run of this program on these nodes makes these calls, if it goes by them alone."
NOT_OF_RUN = "Answered otherwise than by the rules, so that the verdict doesn't hold of this run:"
COLLECTING = "fence blocks all pmix.collect=number:1:1"


def exchange_cards(tapes: Sequence[Tape], card: str = "text:card", got: str = "") -> None:
    """Each puts a card, and gets those of all others: `got`, if that isn't empty."""
    for tape in tapes:
        tape.call(f"put global card {card}").call("commit").call(COLLECTING)
    for tape in tapes:
        for other in range(len(tapes)):
            tape.call(f"get blocks job:{other} :card -", f"0 {got or card}")


class PremisesCase(unittest.TestCase):
    """Plans of recordings, in a folder of their own."""

    def setUp(self) -> None:
        room = tempfile.TemporaryDirectory(prefix="wire-up-")
        self.addCleanup(room.cleanup)
        self.room, self.plan = room.name, Path(room.name, "plan")
        self.program = support.program()

    def record(self, tapes: Sequence[Tape], *words: str, ends: bool = True) -> str:
        """What the recorder says of the plan of recordings, of which the last may not have
        ended."""
        files = [
            write_file(Path(self.room, f"{n}.recording"), tape.text(ends or n == 0))
            for n, tape in enumerate(tapes)
        ]
        ran = run_recorder("-o", self.plan, "--checker", self.program, *words, "--from", *files)
        self.assertEqual(ran.returncode, 0, ran.stderr)
        return ran.stderr

    def report(self) -> Report:
        """What is reported of the plan."""
        data = read_file(self.plan).encode()
        return make_report(str(self.plan), Asker(Checker(self.program), data))

    def hold_silent(self, said: str) -> None:
        """Tests that nowhere each run is said to make these calls."""
        self.assertNotIn("each run", said)
        self.assertNotIn(SENTENCE, read_file(self.plan))
        self.assertFalse(SENTENCE in write_page(self.report()))


@needs_program
class EachRunTest(PremisesCase):
    """Programs of which each run makes the calls of the plan."""

    def test_it_is_said_in_each_place(self) -> None:
        tapes = make_world(3)
        exchange_cards(tapes)
        self.assertEqual(self.record(tapes), EACH_RUN)
        self.assertIn(f"\n# {SENTENCE}\n", read_file(self.plan))
        report = self.report()
        self.assertEqual(choose_badge(report)[0], "quiet")
        self.assertTrue(SENTENCE in write_page(report))
        self.assertIn(SENTENCE, write_text(report))
        told = json.loads(write_sarif(report, None))["runs"][0]["properties"]
        self.assertEqual((told["eachRun"], told["inPart"]), (True, []))

    def test_programs_without_mpi(self) -> None:
        tapes = [Tape(0), Tape(1)]
        exchange_cards(tapes, "number:4:7")
        self.assertEqual(self.record(tapes), EACH_RUN)

    def test_a_ring_of_messages(self) -> None:
        """Of several recordings of it too."""
        folder = SHIPPED / "ring"
        words = ("-o", self.plan, "--checker", self.program, "--from", folder)
        self.assertEqual(run_recorder(*words).stderr, EACH_RUN)
        said = run_recorder(*words, "--from", folder).stderr
        self.assertTrue(said.startswith(EACH_RUN), said)

    def test_without_a_checker(self) -> None:
        folder = SHIPPED / "ring"
        ran = run_recorder("-o", self.plan, "--checker", "/dev/null", "--from", folder)
        self.assertEqual((ran.returncode, ran.stderr), (0, ""))
        self.assertNotIn(SENTENCE, read_file(self.plan))

    def test_a_race(self) -> None:
        tapes = make_world(2)
        tapes[0].call("publish blocks name=text:v -")
        tapes[1].call("lookup blocks :name -", "0 name=text:v")
        self.hold_silent(self.record(tapes))

    def test_other_placements(self) -> None:
        """What is found elsewhere says nothing of these nodes."""
        tapes = [Tape(0, host="n0"), Tape(1, host="n1")]
        tapes[0].call("put global k text:v").call("commit")
        tapes[1].call("get blocks job:0 :k pmix.immediate=number:1:1", "-46")
        said = self.record(tapes)
        self.assertIn(EACH_RUN, said)
        self.assertIn("on other placements of its ranks", said)


@needs_program
class SilentTest(PremisesCase):
    """Where a premise isn't known to hold, nothing is said of each run."""

    def hold(self, *calls: tuple[str, str]) -> None:
        """Tests two ranks that exchange cards, of which one makes calls besides."""
        tapes = make_world(2)
        exchange_cards(tapes)
        for call, end in calls:
            tapes[0].call(call, end)
        with self.subTest(calls):
            self.hold_silent(self.record(tapes))

    def hold_told(self, told: str) -> None:
        """Tests two ranks that exchange cards, of which one is said to have done something."""
        tapes = make_world(2)
        exchange_cards(tapes)
        tapes[0].say(told)
        with self.subTest(told):
            self.hold_silent(self.record(tapes))

    def test_a_process_that_was_cut(self) -> None:
        tapes = make_world(2)
        exchange_cards(tapes)
        self.hold_silent(self.record(tapes, ends=False))

    def test_a_rank_that_waits(self) -> None:
        tapes = make_world(2)
        tapes[1].begin("get blocks job:0 :card -")
        self.hold_silent(self.record(tapes, ends=False))

    def test_without_the_order_of_mpi(self) -> None:
        tapes = make_world(2)
        exchange_cards(tapes)
        self.hold_silent(self.record(tapes, "--no-mpi"))

    def test_mpi_that_is_not_recorded(self) -> None:
        """A library of MPI is there, and its recorder isn't."""
        tapes = [Tape(0), Tape(1)]
        for tape in tapes:
            tape.call("fence nb all -")
        exchange_cards(tapes)
        self.hold_silent(self.record(tapes))

    def test_answers_that_come_at_any_time(self) -> None:
        """The program may ask its own flag whether the answer is there."""
        self.hold(("get own job:1 :card -", "0 text:card"))

    def test_texts_that_cannot_be_compared(self) -> None:
        long = ("publish blocks name=long:2000 -", "0")
        self.hold(long, ("lookup blocks :name -", "0 name=long:2000"))
        self.hold(("publish blocks port=text:job.0%3A7 -", "0"))

    def test_what_a_plan_does_not_say(self) -> None:
        self.hold(("get blocks job:* :card -", "0 text:card"))
        self.hold(("get blocks job:1 every -", "0"))
        self.hold(("get blocks job:1 :none -", "-46"))
        self.hold(("put other there text:v", "0"))
        self.hold(("get blocks job:1 :card pmix.refresh=number:1:1", "0 text:card"))
        self.hold(("get blocks job:1 :card pmix.timeout=number:4:1", "0 text:card"))

    def test_what_luck_decides(self) -> None:
        for told in (
            "others MPI_File_read_at 1",
            "others MPI_Fetch_and_op 1",
            "others MPI_Get 1",
            "others PMIx_Query_info 1",
            "others PMIx_Job_control_nb 1",
            "others PMIx_Register_event_handler 1",
            "polled MPI_Iprobe 1",
            "found MPI_Test 1",
            "unseen handler signal",
            "thread",
        ):
            self.hold_told(told)

    def test_messages_that_could_have_come_otherwise(self) -> None:
        tapes = make_world(3)
        exchange_cards(tapes)
        for rank in (1, 2):
            tapes[rank].call("send 1 0 7 4", "0")
        for rank in (1, 2):
            tapes[0].call("receive 1 any 7", f"0 {rank} 7 4")
        self.hold_silent(self.record(tapes))

    def test_polls(self) -> None:
        tapes = make_world(2)
        exchange_cards(tapes)
        tapes[1].call("send 1 0 7 4", "0")
        tapes[0].call("receive 1 1 7", "0 1 7 4 poll")
        self.hold_silent(self.record(tapes))

    def test_calls_that_the_library_is_known_to_answer_by_time(self) -> None:
        """OpenPMIx 4.2.2: the get of one key brings the others to the node."""
        tapes = [Tape(rank, "7001", f"n{min(rank, 1)}") for rank in range(3)]
        for tape in tapes:
            tape.lines[-1] = "library OpenPMIx%204.2.2rc2%20(PMIx%20Standard)"
        tapes[0].call("put global a text:1").call("put global b text:2").call("commit")
        tapes[1].call("get blocks 7001:0 :a -", "0 text:1")
        tapes[2].call("get blocks 7001:0 :b pmix.immediate=number:1:1", "-46")
        said = self.record(tapes)
        self.hold_silent(said)
        self.assertIn("the verdict says less of app:2 1 get-now", said)
        title = "Known to be answered by which rank is fast, so that the verdict says less:"
        self.assertIn(f"# {title}\n#   app:2 1 get-now\n", read_file(self.plan))
        self.assertEqual(choose_badge(self.report())[0], "partly")


@needs_program
class OtherwiseTest(PremisesCase):
    """Recordings of which an answer was altered by hand."""

    def hold(self, said: str, answered: str, number: int = 5) -> None:
        """Tests what is said of two ranks, of which one was answered otherwise at one call."""
        what = f"1 of 10 calls, first app:1 {number} get: {answered}"
        wanted = f"wire_up-record: answered otherwise than by the rules: {what}: "
        self.assertTrue(said.startswith(wanted), said)
        self.assertNotIn("each run", said)
        self.assertIn(f"# {NOT_OF_RUN}\n#   {what}\n", read_file(self.plan))
        report = self.report()
        self.assertEqual(choose_badge(report), ("partly", "in part"))
        reason = f"the verdict doesn't hold of this library's run, which answered otherwise {what}"
        self.assertEqual(report.reasons[0], reason)
        self.assertTrue(escape(reason) in write_page(report), reason)
        self.assertIn("no race seen", write_text(report))

    def alter(self, card: str, got: str) -> str:
        """What is said of two ranks that put a card, of which one got another."""
        tapes = make_world(2)
        exchange_cards(tapes, card)
        tapes[1].lines[-1] = tapes[1].lines[-1].replace(card, got)
        return self.record(tapes)

    def test_a_status(self) -> None:
        tapes = make_world(2)
        exchange_cards(tapes)
        call, end = tapes[1].lines[-2:]
        tapes[1].lines[-2] = call.replace(":card -", ":card pmix.immediate=number:1:1")
        tapes[1].lines[-1] = end.replace("0 text:card", "-46")
        said = self.record(tapes)
        what = "1 of 10 calls, first app:1 5 get-now: PMIX_ERR_NOT_FOUND, by "
        self.assertIn(f"{what}the rules PMIX_SUCCESS card: the verdict doesn't hold", said)

    def test_a_value(self) -> None:
        said = self.alter("text:card", "text:other")
        self.hold(said, "PMIX_SUCCESS other, by the rules PMIX_SUCCESS card")

    def test_values_that_a_plan_says_by_their_size(self) -> None:
        same = "PMIX_SUCCESS number:4, by the rules another value"
        self.hold(self.alter("number:4:7", "number:4:8"), same)
        same = "PMIX_SUCCESS text:3, by the rules another value"
        self.hold(self.alter("text:a%20b", "text:a%20c"), same)
        other = "PMIX_SUCCESS bytes:4, by the rules PMIX_SUCCESS bytes:3"
        self.hold(self.alter("bytes:3", "bytes:4"), other)

    def test_the_line_of_the_program(self) -> None:
        """The first is told by its name and its line."""
        folder = Path(self.room, "later")
        shutil.copytree(Path(SHIPPED, "later"), folder)
        path = folder / self.find_with(folder, "lookup")
        text = read_file(path)
        call = next(line for line in text.splitlines() if " lookup " in line).split(" ")[1]
        found = next(line for line in text.splitlines() if line.startswith(f"- {call} "))
        text = text.replace(found, f"{' '.join(found.split(' ')[:4])} -46 -")
        write_file(path, text.encode())
        ran = run_recorder("-o", self.plan, "--checker", self.program, "--from", folder)
        form = r"\Awire_up-record: answered otherwise than by the rules: 1 of \d+ calls, first "
        call = r"app:\d \d+ lookup at .*\(cases\.c:\d+\): PMIX_ERR_NOT_FOUND, by the rules "
        self.assertRegex(ran.stderr, form + call)
        self.assertRegex(write_text(self.report()), r"no race seen.*, in part")

    def find_with(self, folder: Path, verb: str) -> str:
        """The recording in a folder that has a call."""
        names = sorted(name for name in os.listdir(folder) if name.endswith(".recording"))
        return next(name for name in names if f" {verb} " in read_file(folder / name))

    def test_one_of_several_runs(self) -> None:
        """The run is named."""
        own = Path(self.room, "own")
        own.mkdir()
        tapes = make_world(2)
        exchange_cards(tapes)
        for rank, tape in enumerate(tapes):
            write_file(own / f"{rank}.recording", tape.text())
            if rank == 1:
                tape.lines[-2] = tape.lines[-2].replace("text:card", "text:other")
            write_file(Path(self.room, f"{rank}.recording"), tape.text())
        words = ("-o", self.plan, "--checker", self.program)
        ran = run_recorder(*words, "--from", own, "--from", self.room)
        said = "answered otherwise than by the rules: in run 2, 1 of 10 calls, first app:1 5 get: "
        self.assertIn(said, ran.stderr)
        self.assertNotIn("each run", ran.stderr)


if __name__ == "__main__":
    unittest.main()
