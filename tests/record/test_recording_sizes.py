"""Tests one pattern from plans of several sizes: what it says, and the answers and lines of the
command."""
import json
import math
import os
import signal
import subprocess
import sys
import tempfile
import time
import unittest
from collections.abc import Callable, Sequence
from typing import Any

from wire_up_tools.failures import Refused, Unusable
from wire_up_tools.record.command_line import read_request
from wire_up_tools.record.running import OF_PMIX, find_library
from wire_up_tools.record.sizes.asking import SizesRequest
from wire_up_tools.record.sizes.doing import NOT_BY_RULES
from wire_up_tools.record.sizes.leaning import part_fences
from wire_up_tools.record.sizes.plans import Call, SizedPlan
from tests import support
from tests.support.needs import needs_program
from tests.support.tapes import COMMAND, PATIENCE, Tape, make_world, run_recorder, write_file

Tapes = Callable[[int], list[Tape]]


def send(tapes: Sequence[Tape], source: int, target: int) -> None:
    """Writes that one rank sends another a message, which is received."""
    tapes[source].begin(f"send 1 {target} 0 4")
    tapes[target].call(f"receive 1 {source} 0", f"0 {source} 0 4")


def look_up(tape: Tape, name: str) -> None:
    """Writes that a rank looks a name up and finds it."""
    tape.call(f"lookup blocks :{name} -", f"0 {name}=text:x")


def publish(tape: Tape, name: str) -> None:
    """Writes that a rank publishes a name."""
    tape.call(f"publish blocks {name}=text:x -")


def tell(size: int) -> list[Tape]:
    """Rank 0 publishes a port and sends the others a message each; then they look it up."""
    tapes = make_world(size)
    publish(tapes[0], "port")
    for rank in range(1, size):
        send(tapes, 0, rank)
        look_up(tapes[rank], "port")
    return tapes


def meet(size: int) -> list[Tape]:
    """The same with a barrier in place of messages."""
    tapes = make_world(size)
    publish(tapes[0], "port")
    for tape in tapes:
        tape.call("collective barrier 1", "0 all")
    for tape in tapes[1:]:
        look_up(tape, "port")
    return tapes


def forget(size: int) -> list[Tape]:
    """The same without messages."""
    tapes = make_world(size)
    publish(tapes[0], "port")
    for tape in tapes[1:]:
        look_up(tape, "port")
    return tapes


def pass_on(size: int) -> list[Tape]:
    """Each rank publishes a name of its own; a message goes through all of them and comes back to
    the first, then round again. At the end each looks up the name of the rank before it."""
    tapes = make_world(size)
    for rank, tape in enumerate(tapes):
        publish(tape, f"port{rank}")
    for rank in (*range(size), *range(size)):
        send(tapes, rank, (rank + 1) % size)
    for rank, tape in enumerate(tapes):
        look_up(tape, f"port{(rank - 1) % size}")
    return tapes


def ask_between(size: int) -> list[Tape]:
    """Each rank publishes a name of its own. Behind a barrier rank 0 looks two of them up, and
    behind another one all publish the same name."""
    tapes = make_world(size)
    for rank, tape in enumerate(tapes):
        publish(tape, f"port{rank}")
    for tape in tapes:
        tape.call("collective barrier 1", "0 all")
    look_up(tapes[0], "port1")
    look_up(tapes[0], f"port{size - 1}")
    for tape in tapes:
        tape.call("collective barrier 1", "0 all")
        publish(tape, "port")
    return tapes


def count_rounds(size: int) -> list[Tape]:
    """In each of two rounds each rank publishes a name with the round and its rank. Behind a
    barrier each looks up that of the rank before it."""
    tapes = make_world(size)
    for round_of in range(2):
        for rank, tape in enumerate(tapes):
            publish(tape, f"round{round_of}of{rank}")
            tape.call("collective barrier 1", "0 all")
        for rank, tape in enumerate(tapes):
            look_up(tape, f"round{round_of}of{(rank - 1) % size}")
    return tapes


# The sides of grids, as MPI_Dims_create chooses them.
SIDES = {4: (2, 2, 1), 5: (5, 1, 1), 8: (2, 2, 2), 27: (3, 3, 3)}


def shift(rank: int, sides: Sequence[int], side: int, by: int) -> int:
    """The neighbour of a rank along a side of a grid that goes round."""
    after = math.prod(sides[side + 1:])
    place = rank // after % sides[side]
    return rank + ((place + by) % sides[side] - place) * after


def go_round(size: int) -> list[Tape]:
    """Rank 0 publishes a port; each rank of a grid of three sides sends to both neighbours along
    each; then all look the port up. Where a side has 2, those along it hear of each other."""
    return take_round(make_world(size))


def meet_and_go_round(size: int) -> list[Tape]:
    """The same behind a barrier, which tells nobody of the port."""
    tapes = make_world(size)
    for tape in tapes:
        tape.call("collective barrier 1", "0 all")
    return take_round(tapes)


def take_round(tapes: list[Tape]) -> list[Tape]:
    """Writes what `go_round` does on tapes."""
    size = len(tapes)
    sides = SIDES[size]
    publish(tapes[0], "port")
    for side in range(3):
        for by in (1, -1):
            for rank in range(size):
                tapes[rank].begin(f"send 1 {shift(rank, sides, side, by)} {by + 1} 4")
            for rank in range(size):
                source = shift(rank, sides, side, -by)
                tapes[rank].call(f"receive 1 {source} {by + 1}", f"0 {source} {by + 1} 4")
    for tape in tapes:
        look_up(tape, "port")
    return tapes


def put_cards(size: int) -> list[Tape]:
    """Each rank puts a card, and waits for those of all others: no call can race."""
    tapes = make_world(size)
    for tape in tapes:
        tape.call("put global card text:v").call("commit")
        tape.call("fence blocks all -")
    return tapes


def meet_some(tapes: Sequence[Tape], ranks: Sequence[int]) -> None:
    """Writes a fence of some ranks, which brings what they have put."""
    members = ",".join(f"job:{rank}" for rank in ranks)
    for rank in ranks:
        tapes[rank].call(f"fence blocks {members} pmix.collect=number:1:1")


def get_at_once(tape: Tape, owner: int) -> None:
    """Writes that a rank gets a card at once and finds it."""
    tape.call(f"get blocks job:{owner} :card pmix.optional=number:1:1", "0 text:v")


def share_in_pairs(size: int, of_others: Sequence[int] = ()) -> list[Tape]:
    """Each rank puts a card, and gets that of its pair behind a fence of both, and those of some
    others besides."""
    tapes = make_world(size)
    for tape in tapes:
        tape.call("put global card text:v").call("commit")
    for rank in range(0, size - 1, 2):
        meet_some(tapes, (rank, rank + 1))
        get_at_once(tapes[rank], rank + 1)
        get_at_once(tapes[rank + 1], rank)
    for owner in of_others:
        get_at_once(tapes[-1], owner)
    return tapes


def share_with_neighbours(size: int) -> list[Tape]:
    """Each rank puts a card. It meets both neighbours in turn, and gets the card of each behind the
    fence of both."""
    tapes = make_world(size)
    for tape in tapes:
        tape.call("put global card text:v").call("commit")
    for first in (0, 1):
        for rank in range(first, size - 1, 2):
            meet_some(tapes, (rank, rank + 1))
            get_at_once(tapes[rank], rank + 1)
            get_at_once(tapes[rank + 1], rank)
    return tapes


def ask_above(size: int, meets: bool = True) -> list[Tape]:
    """Each rank puts a card. Each but the first gets the card of the rank above it in a tree at
    once, perhaps behind a fence of all: nobody gets those of the leaves."""
    tapes = make_world(size)
    for rank, tape in enumerate(tapes):
        tape.call("put global card text:v").call("commit")
        if meets:
            tape.call("fence blocks all pmix.collect=number:1:1")
        if rank:
            get_at_once(tape, (rank - 1) // 2)
    return tapes


def part_ways(size: int) -> list[Tape]:
    """With 4 ranks or more another call is made."""
    tapes = tell(size)
    for rank, tape in enumerate(tapes if size > 3 else []):
        publish(tape, f"more{rank}")
    return tapes


def answer_otherwise(size: int) -> list[Tape]:
    """All others get the card of rank 0, which the library hasn't with 4 ranks or more: then they
    publish a name. All put a card twice, so that calls can race."""
    tapes = make_world(size)
    for tape in tapes:
        tape.call("put global card text:v").call("commit")
        tape.call("put global card text:w").call("commit")
        tape.call("fence blocks all -")
    found = "0 text:w" if size < 4 else "-46"
    for rank, tape in enumerate(tapes[1:], 1):
        tape.call("get blocks job:0 :card -", found)
        if size > 3:
            publish(tape, f"more{rank}")
    return tapes


def forget_cards(size: int) -> list[Tape]:
    """The last rank gets a card of rank 0 that nobody puts."""
    tapes = tell(size)
    tapes[-1].call("get blocks job:0 :card -", "-46")
    return tapes


def last_asks(size: int) -> list[Tape]:
    """The last rank alone looks a port up, once it has heard of rank 0."""
    tapes = make_world(size)
    publish(tapes[0], "port")
    send(tapes, 0, size - 1)
    look_up(tapes[-1], "port")
    return tapes


@needs_program
class AnswerTest(unittest.TestCase):
    """The answers of the command on recordings."""

    def setUp(self) -> None:
        room = tempfile.TemporaryDirectory(prefix="wire-up-")
        self.addCleanup(room.cleanup)
        self.room = room.name
        self.pattern = os.path.join(room.name, "pattern")
        self.checker = support.program()

    def write_run(self, tapes: Sequence[Tape], is_over: bool = True) -> str:
        """Writes the recordings of a run. Answers their folder."""
        folder = tempfile.mkdtemp(dir=self.room)
        for n, tape in enumerate(tapes):
            write_file(os.path.join(folder, f"{n}.recording"), tape.text(is_over))
        return folder

    def ask(self, make: Tapes, taken: Sequence[int], held: Sequence[int]) -> Any:
        """The answer on runs of some sizes, as JSON."""
        words = ["--sizes", "--json", "-o", self.pattern, "--checker", self.checker]
        for option, sizes in (("--from", taken), ("--against", held)):
            for size in sizes:
                words += [option, self.write_run(make(size))]
        ran = run_recorder(*words)
        self.assertIn(ran.returncode, (0, 1), ran.stderr)
        said = json.loads(ran.stdout)
        if not said["findings"]:
            # Of the library of these recordings nothing is known.
            self.assertRegex(said["notes"].pop(), f"^{NOT_BY_RULES}: .*; of Test 1 it isn't known$")
        self.assertEqual(ran.returncode, int(bool(said["findings"])))
        self.assertEqual((said["from"], said["against"]), ([*taken], [*held]))
        return said

    def read_pattern(self) -> str:
        """The pattern without its comments."""
        with open(self.pattern, encoding="utf-8") as file:
            return "".join(line for line in file if not line.startswith("#"))

    def test_order_that_all_know(self) -> None:
        """It stands as a name that the first rank publishes."""
        said = self.ask(tell, (3, 4), (8,))
        self.assertEqual(said["findings"], [])
        (rests,) = said["notes"]
        self.assertRegex(rests, "^without the messages of MPI there would be a race: .* with 27$")
        self.assertEqual(
            self.read_pattern(),
            "pattern 1\njob app\none root\npublish port x\npublish done.root.1 sent\n"
            "many workers\nlookup-wait done.root.1\nlookup port\n",
        )

    def test_order_in_a_line(self) -> None:
        """Where the ranks of a run can form nothing else, one with 5 tells no more."""
        (rests,) = self.ask(tell, (3, 5), (8,))["notes"]
        self.assertRegex(rests, "which a larger run would show, such as one with 27$")

    def test_a_fence_of_all(self) -> None:
        """A verdict that rests on it needs no larger size."""
        said = self.ask(meet, (3, 4), (8,))
        self.assertEqual((said["findings"], said["notes"]), ([], []))
        self.assertIn("many workers\nlookup-wait done.root.1\n", self.read_pattern())
        with open(self.pattern, encoding="utf-8") as file:
            self.assertIn("# Who waits for a name that begins with done. knows by MPI", file.read())

    def test_a_race_that_recordings_have(self) -> None:
        said = self.ask(forget, (3, 4), (8,))
        self.assertEqual(
            said["findings"],
            ["race app:0 1 app:1 1 name port", "race app:0 1 app:2 1 name port"],
        )
        self.assertEqual((said["shown"], said["ranks"]), ("recording", 3))
        words = [call["words"] for call in said["calls"]]
        self.assertEqual(words, ["publish port x", "lookup port", "lookup port"])

    def test_names_with_the_rank(self) -> None:
        """They have an index; who asks whom is left open, so that all must be known."""
        said = self.ask(pass_on, (3, 4), (8,))
        self.assertEqual(said["findings"], [])
        self.assertIn("for some ranks\n", self.read_pattern().replace("workers", "ranks"))
        self.assertIn("lookup port#[each]\n", self.read_pattern())

    def test_names_with_the_round(self) -> None:
        """It is less than the number of ranks, and none of them."""
        said = self.ask(count_rounds, (3, 4), (8,))
        self.assertEqual(said["findings"], [])
        for line in ("publish round0of#[self] x\n", "lookup round1of#[each]\n"):
            self.assertIn(line, self.read_pattern())

    def test_ranks_without_a_turn(self) -> None:
        """They don't say that they are past a loop before they have waited ahead of it: each would
        wait for the others, and the pattern hide the race."""
        said = self.ask(ask_between, (3, 4), (8,))
        self.assertEqual((said["shown"], said["notes"]), ("recording", []))
        self.assertIn("for some ranks\nlookup port#[each]\nend\n", self.read_pattern())
        self.assertIn(
            "publish done.ranks.1[self] sent\nfor ranks\nlookup-wait done.ranks.1[each]\n",
            self.read_pattern(),
        )

    def test_what_does_not_grow(self) -> None:
        """In a grid all hear of all while its sides are short; that can't be so in any."""
        said = self.ask(go_round, (4,), (8,))
        self.assertEqual(said["findings"], [])
        self.assertIn("a side of 8 ranks may be so short", said["notes"][0])
        self.assertIn("which a run with 5 would show", said["notes"][0])
        said = self.ask(go_round, (4, 5), (8,))
        self.assertEqual((said["shown"], said["ranks"]), ("recording", 5))
        for make in (go_round, meet_and_go_round):
            said = self.ask(make, (4,), (8, 27))
            self.assertEqual(said["findings"], ["race app:0 1 app:1 1 name port"])
            self.assertEqual((said["shown"], said["ranks"]), ("pattern", 2))
            self.assertRegex(said["notes"][0], "^the pattern leaves out order: ")

    def test_no_call_that_can_race(self) -> None:
        said = self.ask(put_cards, (3, 4), (8,))
        self.assertEqual(said["findings"], [])
        (why,) = said["notes"]
        self.assertRegex(why, "^no call of these runs can race: ")
        self.assertEqual(self.read_pattern(), "pattern 1\njob app\nmany ranks\n")

    def test_fences_of_some_that_bring(self) -> None:
        """Where nothing is found in the runs, they are left out, and that is said."""
        said = self.ask(share_in_pairs, (3, 4), (8,))
        self.assertEqual(said["findings"], [])
        self.assertRegex(said["notes"][0], "^the pattern leaves out fences of some ranks: ")
        self.assertIn("get-now each card\n", self.read_pattern())
        self.assertNotIn("fence", self.read_pattern())

    def test_a_tree(self) -> None:
        """All ranks keep their puts, since the leaves would else be unlike the others; and no fence
        of some ranks is told of, where there is none."""
        said = self.ask(ask_above, (3, 4), (8,))
        self.assertEqual((said["findings"], said["notes"]), ([], []))
        told = "put global card v\ncommit\nfence all collect\nfor some ranks\nget-now each card\n"
        self.assertIn(told, self.read_pattern())

    def test_a_tree_that_races(self) -> None:
        said = self.ask(lambda size: ask_above(size, meets=False), (3, 4), (8,))
        self.assertEqual((said["shown"], said["notes"]), ("recording", []))
        self.assertIn("for some ranks\nget-now each card\n", self.read_pattern())

    def test_what_is_known_in_each_turn(self) -> None:
        """Of the second neighbour it is known behind the second fence alone."""
        said = self.ask(share_with_neighbours, (3, 4), (8,))
        self.assertEqual(said["findings"], [])
        self.assertIn("lookup-wait done.ranks.2[each]\nget-now each card\n", self.read_pattern())

    def test_fences_of_some_that_bring_too_little(self) -> None:
        said = self.ask(lambda size: share_in_pairs(size, [0]), (3, 4), (8,))
        self.assertEqual((said["shown"], said["ranks"]), ("recording", 3))
        self.assertRegex(said["notes"][0], "^no pattern fits these runs: ")

    def test_a_role_for_the_last_rank(self) -> None:
        self.assertEqual(self.ask(last_asks, (3, 4), (8,))["findings"], [])
        self.assertIn("one last\nlookup-wait done.root.1\n", self.read_pattern())

    def test_a_race_without_a_pattern(self) -> None:
        """A run that has it is enough."""
        said = self.ask(lambda size: forget(size) if size > 3 else put_cards(size), (3, 4), ())
        self.assertEqual((said["shown"], said["ranks"]), ("recording", 4))
        (why,) = said["notes"]
        self.assertRegex(why, "^no pattern fits these runs: with . ranks, app:. calls `")

    def test_a_call_that_fails_at_every_size(self) -> None:
        said = self.ask(forget_cards, (3, 4), (8,))
        self.assertEqual(said["findings"], [])
        self.assertIn("may fail in a plan of the pattern: workers 3 get-now", said["notes"])

    def test_a_reply_that_differs_between_sizes(self) -> None:
        said = self.ask(answer_otherwise, (3, 4), ())
        why = "call 6 of app:1 was answered otherwise with 4 ranks: `get-now app:0 card`"
        self.assertTrue(said["notes"][0].endswith(why), said["notes"])

    def test_a_checker_that_is_not_there(self) -> None:
        """It is refused before the program runs."""
        words = ["--sizes", "3,4", "-o", self.pattern, "--checker", "/no/checker"]
        ran = run_recorder(*words, "sh", "-c", f"touch {self.room}/ran {{}}")
        self.assertEqual(ran.returncode, 125)
        said = "/no/checker: can't be run: No such file or directory"
        self.assertEqual(ran.stderr.splitlines()[0].partition(": ")[2], said)
        self.assertFalse(os.path.exists(f"{self.room}/ran"))

    def test_an_answer_that_has_nowhere_to_go(self) -> None:
        """It is refused before the program runs."""
        options = f"--sizes 3,4 -o {self.pattern} --checker {self.checker}"
        program = f"sh -c 'touch {self.room}/ran {{}}'"
        ran = subprocess.run(
            ["sh", "-c", f"exec {sys.executable} {COMMAND} {options} {program} >&-"],
            capture_output=True, text=True, check=False,
        )
        said = "wire_up-record: standard output: Bad file descriptor"
        self.assertEqual((ran.returncode, ran.stderr.splitlines()[0]), (125, said))
        self.assertEqual(os.listdir(self.room), [])

    def run_command(self, *words: str) -> str:
        """What is said last of a command that leaves no recordings."""
        options = ("-o", self.pattern, "--checker", self.checker)
        ran = run_recorder("--sizes", *words[:1], *options, *words[1:])
        self.assertEqual((ran.returncode, ran.stdout), (125, ""))
        return ran.stderr.splitlines()[-1].removeprefix("wire_up-record: ")

    def test_a_size_past_the_limit(self) -> None:
        """It is refused before the program runs."""
        said = self.run_command("3,99999999", "touch", f"{self.room}/ran{{}}")
        self.assertEqual(
            said, "a plan has at most 1,048,576 processes, and this one would have 99,999,999"
        )
        self.assertEqual(os.listdir(self.room), [])

    @unittest.skipUnless(find_library(support.TOP, OF_PMIX), "the recorder isn't built")
    def test_what_the_runs_read(self) -> None:
        """That of a file, or nothing; not what only the first could read."""
        command = ("sh", "-c", f"cat > {self.room}/read{{}}")
        given = write_file(os.path.join(self.room, "given"), b"sides 3\n")
        for options, wanted in (((), b""), (("--input", given), b"sides 3\n")):
            self.assertRegex(self.run_command("3,4", *options, *command), "there is no recording: ")
            with open(f"{self.room}/read3", "rb") as file:
                self.assertEqual(file.read(), wanted)
        said = self.run_command("3,4", "--input", f"{self.room}/none", *command)
        self.assertEqual(said, f"{self.room}/none: No such file or directory")
        self.assertEqual(sorted(os.listdir(self.room)), ["given", "read3"])

    @unittest.skipUnless(find_library(support.TOP, OF_PMIX), "the recorder isn't built")
    def test_signals(self) -> None:
        """They reach the run; one line says so, and nothing is left."""
        for number in (signal.SIGINT, signal.SIGTERM):
            begun = os.path.join(self.room, f"begun{number}")
            words = ["--sizes", "3,4", "-o", self.pattern, "--checker", self.checker]
            with subprocess.Popen(
                [sys.executable, COMMAND, *words, "sh", "-c", f"touch {begun}; exec sleep 60{{}}"],
                stdin=subprocess.DEVNULL,
                stdout=subprocess.PIPE,
                stderr=subprocess.PIPE,
                text=True,
                start_new_session=True,
                preexec_fn=lambda: signal.signal(signal.SIGINT, signal.SIG_DFL),
            ) as running:
                until = time.monotonic() + PATIENCE
                while not os.path.exists(begun) and time.monotonic() < until:
                    time.sleep(0.1)
                running.send_signal(number)
                wrote, said = running.communicate(timeout=PATIENCE)
            self.assertEqual((running.returncode, wrote), (125, ""))
            told = f"the run with 3 ranks ended by signal {int(number)}, after a signal came"
            self.assertEqual(said, f"wire_up-record: {told}: no pattern is made\n")
            os.remove(begun)
            self.assertEqual(os.listdir(self.room), [])

    def test_the_text(self) -> None:
        words = [word for size in (3, 4) for word in ("--from", self.write_run(tell(size)))]
        ran = run_recorder("--sizes", "-o", self.pattern, "--checker", self.checker, *words)
        self.assertEqual(ran.returncode, 0, ran.stderr)
        first, second, *_ = ran.stdout.splitlines()
        self.assertEqual(first, "findings 0 for every number of ranks on every placement")
        self.assertEqual(
            second,
            "from runs with 3 and 4 ranks, held against none; that other numbers do the same is a "
            "guess, which one more size would test",
        )

    def refuse(self, *words: str) -> str:
        """What is said where there is no answer, in one line."""
        ran = run_recorder("--sizes", "-o", self.pattern, "--checker", self.checker, *words)
        self.assertEqual((ran.returncode, ran.stdout), (125, ""))
        self.assertFalse(os.path.exists(self.pattern))
        (line,) = ran.stderr.splitlines()
        return line.removeprefix("wire_up-record: ")

    def refuse_runs(self, *runs: Sequence[Tape], is_over: bool = True) -> str:
        """What is said of runs of which there is no pattern."""
        folders = [self.write_run(tapes, is_over) for tapes in runs]
        words = [word for folder in folders for word in ("--from", folder)]
        said = self.refuse(*words)
        for folder in folders:
            said = said.replace(folder, "RUN")
        return said

    def test_runs_without_a_pattern(self) -> None:
        for runs, said in (
            (
                (tell(2), tell(3)),
                "a run with 2 ranks tells too little: each size must be 3 or more",
            ),
            ((tell(3), tell(3)), "two runs have 3 ranks: each size is given once"),
            ((tell(3),), "one size isn't enough: name the recordings of a second one by --from"),
            (
                (part_ways(3), part_ways(4)),
                "no pattern fits these runs: with 4 ranks, app:0 calls `publish more0 x`: no "
                "script of all ranks in all runs has that",
            ),
        ):
            self.assertEqual(self.refuse_runs(*runs), said)

    def test_a_run_without_recordings(self) -> None:
        empty = tempfile.mkdtemp(dir=self.room)
        said = self.refuse("--from", self.write_run(tell(3)), "--from", empty)
        self.assertRegex(said, f"^{empty}: there is no recording: ")

    def test_a_pattern_for_a_recording_that_is_read(self) -> None:
        """It isn't overwritten."""
        folders = [self.write_run(tell(size)) for size in (3, 4)]
        path = os.path.join(folders[1], "0.recording")
        with open(path, encoding="utf-8") as file:
            before = file.read()
        options = ("--sizes", "-o", path, "--checker", self.checker)
        for named in ("--from", "--against"):
            ran = run_recorder(*options, "--from", folders[0], named, folders[1])
            self.assertEqual((ran.returncode, ran.stdout), (125, ""))
            said = f"wire_up-record: {path} is a recording that is read "
            self.assertTrue(ran.stderr.startswith(said), ran.stderr)
        with open(path, encoding="utf-8") as file:
            self.assertEqual(file.read(), before)

    def test_a_run_that_was_cut_off(self) -> None:
        said = self.refuse_runs(tell(3), tell(4), is_over=False)
        self.assertRegex(said, "^RUN: the run was cut off, and no pattern is made of it: 3 process")

    def test_several_jobs(self) -> None:
        tapes = [Tape(n, job) for job in ("a", "b") for n in range(3)]
        said = self.refuse_runs(tapes, tell(4))
        self.assertEqual(said, "RUN: has 2 jobs, and a pattern of several sizes is of one")


class FencesTest(unittest.TestCase):
    """Fences in which calls of the program and of MPI meet."""

    def part(self, *words: str) -> list[list[bool]]:
        """Which calls stand for order, where the second of two ranks makes them the other way
        round."""
        calls = [Call(word.split(" ")) for word in words]
        order = [Call(["fence", "app:*"], is_order=True) for _ in range(2)]
        plan = SizedPlan("a run", "app", {
            "app:0": [order[0], calls[0]], "app:1": [calls[1], order[1]]
        })
        return [[call.is_order for call in them] for them in part_fences(plan).calls.values()]

    def test_none_collects(self) -> None:
        self.assertEqual(self.part("fence app:*", "fence app:*"), [[True, True], [True, True]])

    def test_one_collects(self) -> None:
        """What it may bring isn't left out."""
        said = self.part("fence app:* collect", "fence app:*")
        self.assertEqual(said, [[True, False], [True, False]])

    def test_a_set_in_other_words(self) -> None:
        said = self.part("fence app:0,app:1 collect", "fence app:* collect")
        self.assertEqual(said, [[False, False], [False, False]])


class CommandLineTest(unittest.TestCase):
    """The command line with `--sizes`."""

    def read(self, line: str) -> SizesRequest:
        """What a line asks for."""
        found = read_request(line.split())
        assert isinstance(found, SizesRequest)
        return found

    def refuse(self, line: str) -> str:
        """What is wrong with a line."""
        with self.assertRaises((Refused, Unusable)) as found:
            read_request(line.split())
        return str(found.exception)

    def test_a_command(self) -> None:
        asked = self.read("--sizes 8,3,4 -o p --strict mpirun -n {} ./a -o x")
        self.assertEqual(asked.sizes, [3, 4, 8])
        self.assertEqual(asked.command, ["mpirun", "-n", "{}", "./a", "-o", "x"])
        self.assertEqual((asked.pattern, asked.is_strict, asked.source), ("p", True, None))
        self.assertEqual(self.read("--sizes 3,4 --input i -o p ./a {}").source, "i")

    def test_recordings(self) -> None:
        for line in (
            "--sizes -o p --from a b --from c --against d",
            "--sizes --from a b --from c --against d -o p",
            "--sizes --against d -o p --from a b --from c",
        ):
            asked = self.read(line)
            self.assertEqual((asked.taken, asked.held), ([["a", "b"], ["c"]], [["d"]]))
            self.assertEqual((asked.pattern, asked.sizes, asked.command), ("p", [], []))

    def test_of_the_command(self) -> None:
        """The word of the command's own option is none of ours."""
        found = read_request("-o p ./program --sizes 3".split())
        self.assertNotIsInstance(found, SizesRequest)

    def test_what_is_wrong(self) -> None:
        mixed = (
            "--from and --against name recordings, and --sizes 3,4 runs a command: one of the two"
        )
        needs = "--sizes needs numbers of ranks, such as 3,4,8, or recordings by --from"
        for line, said in (
            ("--sizes 3,4 --against x mpirun -n {} a", mixed),
            ("--sizes 3,4 -o p --from x --from y", mixed),
            ("--sizes mpirun -n {} a", needs),
            ("--sizes 3,,4 -o p mpirun -n {} a", needs),
            ("--sizes -o p", needs),
            ("--sizes 3,4 mpirun -n {} a", "-o PATTERN says where the pattern goes"),
            ("--sizes 3,4 -o p", "which command?"),
            ("--sizes 3,4 -o p --pattern q mpirun -n {} a", "--pattern doesn't go with --sizes"),
            ("--sizes -o p --from", "which recordings?"),
            ("--sizes -o p --keep k --from a --from b", "--keep goes with a command"),
            ("--sizes -o p --input k --from a --from b", "--input goes with a command"),
            (
                "--sizes 3,4 -o p --input ./p mpirun -n {} a",
                "-o and --input each need a file of their own",
            ),
            ("--sizes 0 -o p mpirun -n {} a", needs),
            ("--sizes -1,4 -o p mpirun -n {} a", needs),
            ("--sizes 4-8 -o p mpirun -n {} a", needs),
            ("--sizes 3,4 -o p -o q mpirun -n {} a", "-o stands twice"),
            ("--sizes 3,4 -o p --sizes 8 mpirun -n {} a", "--sizes stands twice"),
            (
                "--sizes 3 4 8 -o p mpirun -n {} a",
                "the sizes are one word, with commas: --sizes 3,4",
            ),
            (
                "--sizes 3,4 -o p mpirun -n 4 a",
                "no word of the command has {}, where the number of ranks goes",
            ),
            (
                "--sizes 1,4 -o p mpirun -n {} a",
                "a run with 1 rank tells too little: each size must be 3 or more",
            ),
            (
                "--sizes 2,4 -o p mpirun -n {} a",
                "a run with 2 ranks tells too little: each size must be 3 or more",
            ),
            ("--sizes 4,8,4 -o p mpirun -n {} a", "two runs have 4 ranks: each size is given once"),
            (
                "--sizes 4 -o p mpirun -n {} a",
                "one size isn't enough: give a second one, such as 3,4,8",
            ),
        ):
            with self.subTest(line):
                self.assertEqual(self.refuse(line), said)


if __name__ == "__main__":
    unittest.main()
