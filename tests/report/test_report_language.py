"""Tests how a report names calls: as the program does in a recorded plan, else as the plan does."""
import unittest
from collections.abc import Sequence

from wire_up_tools.plan import Call
from wire_up_tools.plan_reading import read_plan
from wire_up_tools.report.language import name_call, say_value
from wire_up_tools.report.places import name_spot, say_place
from wire_up_tools.report.runs import describe_end

HEAD = "rehearsal 2\nnode n\njob app\nrank n\n"
RECORDED = "# Recorded by wire_up-record on a day: 3 processes\n"
# Lines of a plan, with what the last of them is called in one that was recorded.
NAMES = {
    "put global card v": "PMIx_Put card",
    "commit": "PMIx_Commit",
    "fence all": "PMIx_Fence",
    "fence all collect": "PMIx_Fence collect",
    "get app:0 card": "PMIx_Get card",
    "get-now app:0 card": "PMIx_Get card that doesn't wait",
    "publish port v": "PMIx_Publish port",
    "unpublish port": "PMIx_Unpublish port",
    "lookup port": "PMIx_Lookup port",
    "lookup-wait port": "PMIx_Lookup port with PMIX_WAIT",
    "publish mpi.0.2.1 sent": "MPI_Send to 2",
    "# MPI: send, tag 7\npublish mpi.0.2.1 sent": "MPI_Send to 2, tag 7",
    "lookup-wait mpi.0.2.1": "MPI_Recv from 0",
    "# MPI: receive from any source, tag 7\nlookup-wait mpi.0.2.1": "MPI_Recv from 0, tag 7",
    "# MPI: barrier\nfence all": "MPI_Barrier",
    "# MPI: bcast\npublish mpi.0.all.1 sent": "MPI_Bcast",
    "publish mpi.0.all.1 sent": "MPI collective",
}
# Values of a recorded plan, as a reader takes them.
VALUES = {
    "v": "v",
    "number:4": "a number of 4 bytes",
    "number:1": "a number of 1 byte",
    "text:29": "a text of 29 bytes",
    "bytes:4152": "4,152 bytes",
    "number:4:7": "number:4:7",
    "tcp://10.0.0.1:5555": "tcp://10.0.0.1:5555",
}


def read_last(text: str) -> Call:
    """The last call of a plan with these lines."""
    return read_plan(f"{text}\n".encode()).calls[-1]


class ValuesTest(unittest.TestCase):
    """What is said of values."""

    def test_a_size_that_stands_for_a_value(self) -> None:
        for value, said in VALUES.items():
            with self.subTest(value):
                self.assertEqual(say_value(value, is_recorded=True), said)
                self.assertEqual(say_value(value, is_recorded=False), value)

    def test_how_a_call_ends(self) -> None:
        said = {"reply": "PMIX_SUCCESS", "value": "number:4"}
        self.assertEqual(describe_end(said, is_recorded=True), "PMIX_SUCCESS, a number of 4 bytes")
        self.assertEqual(describe_end(said, is_recorded=False), "PMIX_SUCCESS number:4")
        said = {"reply": "PMIX_ERR_NOT_FOUND"}
        self.assertEqual(describe_end(said, is_recorded=True), "PMIX_ERR_NOT_FOUND")


class NamesTest(unittest.TestCase):
    """The names of calls."""

    def test_a_recorded_plan(self) -> None:
        for lines, wanted in NAMES.items():
            with self.subTest(lines):
                self.assertEqual(name_call(read_last(RECORDED + HEAD + lines)), wanted)

    def test_a_plan_written_by_hand(self) -> None:
        for lines in ("publish mpi.0.2.1", "# MPI: send, tag 7\npublish mpi.0.2.1"):
            said = name_call(read_last(f"{HEAD}{lines} sent"))
            self.assertEqual(said, "publish mpi.0.2.1")
        said = name_call(read_last(f"{HEAD}# MPI: barrier\nfence all"))
        self.assertEqual(said, "fence")


class PlacesTest(unittest.TestCase):
    """Where a call comes from: first the line that calls a helper, or else the lines around it, and
    then the helper's line."""

    def test_a_helper(self) -> None:
        lines = ["# at main (a.c:5)", "# MPI: barrier", "fence all"]
        lines += ["# at look_up (b.c:9)", "lookup port"]
        later = ("# at look_up (b.c:10)", "lookup port", "# at main (a.c:7)", "commit")
        plan = read_plan("\n".join([RECORDED + HEAD.rstrip(), *lines, *later, ""]).encode())
        said = say_place(plan, plan.calls[1])
        self.assertEqual(said, "between a.c:5 and a.c:7, in look_up (b.c:9)")
        said = say_place(plan, plan.calls[2])
        self.assertEqual(said, "between a.c:5 and a.c:7, in look_up (b.c:10)")
        self.assertEqual(say_place(plan, plan.calls[0]), "main (a.c:5)")

    def say(self, *places: str, verbs: Sequence[str] = ("lookup port",)) -> list[tuple[str, str]]:
        """Where calls at these places come from, in full and in short."""
        lines = [text for place, verb in zip(places, [*verbs] * len(places))
                 for text in (f"# at {place}", verb)]
        plan = read_plan("\n".join([RECORDED + HEAD.rstrip(), *lines, ""]).encode())
        return [(say_place(plan, call), name_spot(plan, call)) for call in plan.calls]

    def test_who_calls_a_helper(self) -> None:
        main, own = "main (a.c:{}) -> run (a.c:{}) -> look_up (b.c:9)", "run (a.c:{})"
        said = self.say(main.format(2, 30), own.format(40), main.format(2, 50))
        for (place, spot), line in zip(said[::2], (30, 50)):
            wanted = f"run (a.c:{line}), in look_up (b.c:9), called from main (a.c:2)"
            self.assertEqual((place, spot), (wanted, f"run (a.c:{line})"))
        self.assertEqual(said[1][1], "run (a.c:40)")

    def test_a_put_with_its_commit_is_a_helper(self) -> None:
        places = [f"main (a.c:7) -> share (b.c:{number})" for number in (3, 4)]
        said = self.say(*places, verbs=("put global k v", "commit"))
        self.assertEqual(said[0], ("main (a.c:7), in share (b.c:3)", "a.c:7"))
        self.assertEqual(said[1], ("main (a.c:7), in share (b.c:4)", "a.c:7"))

    def test_a_function_that_makes_several_calls(self) -> None:
        places = [f"main (a.c:7) -> run (a.c:{number})" for number in (30, 40)]
        said = self.say(*places)
        self.assertEqual(said[0], ("run (a.c:30), called from main (a.c:7)", "run (a.c:30)"))

    def test_a_helper_of_several_calls(self) -> None:
        places = [f"main (a.c:{number}) -> swap (b.c:{at})" for number in (7, 8) for at in (3, 4)]
        said = self.say(*places, verbs=("put global k v", "lookup port"))
        self.assertEqual(said[1], ("main (a.c:7), in swap (b.c:4)", "a.c:7 in swap (b.c:4)"))


if __name__ == "__main__":
    unittest.main()
