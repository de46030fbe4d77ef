"""Refuses the built program each request for memory in turn, and each start of a thread.

The library of refusing.py refuses the N-th request that is made after main was called; N rises
until a run meets no refusal. This is done twice: one request is refused, and that one with all that
follow. Each run must end with `wire_up: fault 1 Memory`, status 3 and nothing on standard output,
or exactly as it does without a refusal. With `--anyway` any order is right that gives its report
when it is followed. A worker whose start is refused is left out. At least one run of each command
must end with the fault.

The same is done to functions of the library by themselves (crates/one_function). They say whether
the refusal met the function or what stands before and after it, and at least one must have met the
function.
"""
import concurrent.futures
import json
import os
import subprocess
import tempfile
import unittest
from collections.abc import Iterator
from dataclasses import dataclass, field
from pathlib import Path

from tests import support
from tests.support.forms import as_json
from tests.support.refusing import NO_END, SECONDS, Outcome, library, run_with
from tests.support.running import CARDS, CARDS_REPORT, NOTHING, RACE, RACY, ProgramCase, written


AT_ONCE, MOST = 16, 100_000
# How many wrong ends are told.
TOLD = 3
MEMORY = Outcome(3, b"", b"wire_up: fault 1 Memory\n")
# The same of a function by itself, where the refusal met it, and where it met what stands before or
# after it.
WITHIN = Outcome(3, b"", b"within\n" + MEMORY.said)
AROUND = [Outcome(3, b"", stage + MEMORY.said) for stage in (b"before\n", b"after\n")]
# The order of the cards by the lowest rank that can go on.
ORDER = b"".join(b"app:%d\n" % int(letter) for letter in "00001112001222")
# Files that are refused, and the fault of each.
REFUSED = (
    ("an empty file", b"", b"3 BadHeader 1"),
    (
        "a file cut in a scope",
        b"rehearsal 1\nnode n0\njob app\nrank n0\nput glo",
        b"4 BadLine 5",
    ),
    (
        "an unknown rank",
        b"rehearsal 1\nnode n0\nnode n1\njob app\nrank n0\nget app:5 k\n",
        b"5 UnknownName 6",
    ),
    ("a node declared twice", b"rehearsal 1\nnode n0\nnode n0\n", b"6 Twice 3"),
    (
        "a fence of others",
        b"rehearsal 1\nnode n0\nnode n1\njob app\nrank n0\nrank n1\nfence app:0\n",
        b"7 NotMember 7",
    ),
)
ONE_NODE = b"rehearsal 1\nnode n0\njob app\n"
# Plans that are large enough for the search for races to start a thread: for the calls on names,
# and for the gets, which no thread searches in a plan of less than 65,536 events.
PUBLISHES = b"".join(b"publish x%d 1\n" % number for number in range(32))
NAMES = ONE_NODE + (b"rank n0\n" + PUBLISHES) * 2
ASKS = (b"rank n0\n" + b"get-now app:0 k\n" * 32_800) * 2
# A plan that is long enough for its lines to be read by several threads, the last of them while
# those above are judged.
LONG = ONE_NODE + b"# a comment\n" * 200_000 + b"rank n0\nput global k v\ncommit\n"
GETS = ONE_NODE + b"rank n0\nput global k v\ncommit\n" + ASKS
# A plan of so many ranks that its report is told from fates, in which two ranks wait.
MANY = (
    ONE_NODE
    + b"rank n0\nput global k v\ncommit\npublish x 1\nget app:1 none\n"
    + b"rank n0\nlookup-wait x\nget app:0 k\nget app:0 none\n"
    + b"rank n0\n" * 1_023
)
# The clock of each event of the cards: how many events of each rank are it or before it.
CLOCKS = "100 200 300 400 531 631 310 320 330 441 001 432 433 634"
LATE = b"""\
app:0 1 put PMIX_SUCCESS
app:0 2 commit PMIX_SUCCESS
app:1 1 get-now PMIX_SUCCESS v
waiting 0
"""


@dataclass(frozen=True)
class Form:
    """A command or a function by itself."""

    name: str
    words: list[str]
    # What standard input gives.
    given: bytes | None = None
    # Whether its order is free.
    is_free: bool = False
    # How it must end without a refusal, where that is told.
    usual: Outcome | None = None
    # Whether it is a function by itself, and whether it takes memory.
    is_part: bool = False
    takes: bool = True


Forms = Iterator[Form]


def forms(room: Path) -> Forms:
    """All commands in all their forms."""
    cards, racy = written(room, "cards.plan", CARDS), written(room, "racy.plan", RACY)
    whole = written(room, "cards.order", ORDER)
    late = written(room, "late.order", b"app:1\napp:0\napp:0\n")
    yield from forms_of("cards", cards, whole, ["app:0", "1", "app:2", "3"])
    yield from forms_of("a race", racy, late, ["app:0", "2", "app:1", "1"])
    for workers in ("1", "2"):
        words, name = ["replay", "--anyway", "--workers", workers], f"{workers} workers"
        yield Form(f"replay a race anyway, {name}", [*words, racy], is_free=True)
        yield Form(f"replay a race anyway, {name}, JSON", [*words, "--json", racy], is_free=True)
    yield Form("replay cards, 7 workers", ["replay", "--workers", "7", cards])
    yield Form("replay many ranks", ["replay", "--large", written(room, "many.plan", MANY)])
    yield Form("check many names", ["check", written(room, "names.plan", NAMES)])
    yield Form("check many gets", ["check", "--large", written(room, "gets.plan", GETS)])
    yield Form("check many lines", ["check", written(room, "long.plan", LONG)])
    yield Form("check many lines, in groups", ["check", "--lines", written(room, "l.plan", LONG)])
    yield Form("check standard input", ["check"], given=CARDS)
    yield from odd_forms(room, cards, racy)


def forms_of(name: str, path: str, order: str, question: list[str]) -> Forms:
    """The commands over a plan."""
    yield Form(f"check {name}", ["check", path])
    for workers in ("1", "2"):
        words = ["replay", "--workers", workers]
        yield Form(f"replay {name}, {workers} workers", [*words, path])
        yield Form(f"replay {name}, {workers} workers, JSON", [*words, "--json", path])
    yield Form(f"follow {name}", ["follow", order, path])
    yield Form(f"why, {name}", ["why", *question, path])


def odd_forms(room: Path, cards: str, racy: str) -> Forms:
    """Commands that only tell something, or refuse what they are given."""
    early = written(room, "early.order", b"app:1\napp:1\n")
    unknown = written(room, "unknown.order", b"# one\napp:0\napp:9\n")
    yield Form("help", ["--help"])
    yield Form("help on replay", ["replay", "--help"])
    yield Form("the version", ["--version"])
    yield Form("no command", [])
    yield Form("an unknown option", ["check", "--loud"])
    yield Form("an unknown command", ["chek", cards])
    yield Form("no worker", ["replay", "--workers", "0", cards])
    yield Form("workers that are no number", ["replay", "--workers", "x", cards])
    yield Form("a step that isn't ready", ["follow", early, racy])
    yield Form("an unknown rank in an order", ["follow", unknown, racy])
    yield Form("a wrong word of a question", ["why", "app:0", "1", "app:7", "x", cards])
    yield Form("no such file", ["check", f"{room}/none"])
    for name, text, fault in REFUSED:
        path = written(room, name.replace(" ", "-"), text)
        usual = Outcome(2, b"", b"wire_up: fault %s\n" % fault)
        yield Form(name, ["replay", path], usual=usual)


def parts() -> Forms:
    """The functions of the library by themselves."""
    publish = "Event { proc: Proc { number: 0 }, at: 5 }"
    marks = "".join(f"{' '.join(word)} true\n" for word in CLOCKS.split())
    marks += f"0 [Update {{ event: {publish}, standing: Some({publish}) }}]\n"
    deal = [b"worker %d\n" % number for number in range(7)]
    deal += [b"rank %d of round 5\n" % number for number in range(3)]
    of_cards = {
        "read": CARDS,
        "plan": None,
        "marks": marks.encode(),
        "findings": NOTHING,
        "core": b"unsettled\n" + CARDS_REPORT + b"order 14\n" + ORDER,
        "board": b"rank 0 true\nrank 1 false\nrank 2 true\nwords [0, 0, 0]\n",
        "round": b"".join(deal),
        "workers": CARDS_REPORT,
        "plain": CARDS_REPORT,
    }
    for name, wrote in of_cards.items():
        usual = Outcome(0, wrote) if wrote else None
        yield Form(f"{name} alone, cards", [name], CARDS, usual=usual, is_part=True)
    for name, wrote in (("findings", RACE + b"\nfindings 1\n"), ("plain", LATE)):
        yield Form(f"{name} alone, a race", [name], RACY, usual=Outcome(0, wrote), is_part=True)
    for name, text, fault in REFUSED:
        usual = Outcome(2, b"", b"within\nwire_up: fault %s\n" % fault)
        yield Form(
            f"read alone, {name}", ["read"], text, usual=usual, is_part=True, takes=bool(text)
        )


@dataclass
class Turns:
    """What came of refusing requests in turn."""

    # How many requests were refused, and how many of them were answered by the fault.
    count: int = 0
    faults: int = 0
    # The requests after whose refusal the program ended otherwise than it may.
    wrong: list[tuple[int, Outcome]] = field(default_factory=list)


class Trial:
    """One form: what it does without a refusal, and with each."""

    def __init__(self, program: str, library_path: Path, room: Path, form: Form) -> None:
        self.program, self.library, self.room, self.form = program, library_path, room, form
        self.fault, self.others = (WITHIN, AROUND) if form.is_part else (MEMORY, [])
        self.usual, _ = self.run()

    def run(self, **told: int) -> tuple[Outcome, bytes]:
        words = [self.program, *self.form.words]
        return run_with(self.library, words, self.form.given, **told)

    def is_right(self, outcome: Outcome) -> bool:
        """Whether a run may end so."""
        if outcome in (self.fault, *self.others, self.usual):
            return True
        return self.form.is_free and self.is_followed(outcome)

    def is_followed(self, outcome: Outcome) -> bool:
        """Whether a run with `--anyway` gives an order that, followed, gives its report."""
        if (outcome.status, outcome.said) != (1, b""):
            return False
        if "--json" in self.form.words:
            form = json.loads(outcome.wrote)
            order = "".join(f"{item}\n" for item in form.pop("order")).encode()
            is_headed = form.pop("unsettled") is True
            return is_headed and form == json.loads(as_json(self.followed(order)))
        body = outcome.wrote.removeprefix(b"unsettled\n")
        report, _, order = body.partition(b"order ")
        count, _, order = order.partition(b"\n")
        is_headed = body != outcome.wrote and int(count) == order.count(b"\n")
        return is_headed and self.followed(order) == report

    def followed(self, order: bytes) -> bytes:
        """The report of an order."""
        with tempfile.NamedTemporaryFile(dir=self.room) as file:
            file.write(order)
            file.flush()
            words = [self.program, "follow", file.name, self.form.words[-1]]
            ran = subprocess.run(words, capture_output=True, timeout=SECONDS, check=False)
        return ran.stdout

    def refused(self, pool: concurrent.futures.Executor, is_on: bool) -> Turns:
        """Refuses requests in turn, until a run meets no refusal."""
        turns = Turns()
        for first in range(1, MOST, AT_ONCE):
            numbers = range(first, first + AT_ONCE)
            ended = pool.map(lambda n: self.run(refuse=n, refuse_on=int(is_on)), numbers)
            for number, (outcome, told) in zip(numbers, ended):
                is_last = b"m" not in told.partition(b" ")[0]
                if not self.is_right(outcome):
                    turns.wrong.append((number, outcome))
                if is_last:
                    return turns
                turns.count = number
                turns.faults += outcome == self.fault
        turns.wrong.append((MOST, Outcome(NO_END, b"", b"no end of the requests")))
        return turns


class Refusals(ProgramCase):
    """All forms, each without a refusal, and with both sorts of refusals."""

    library: Path

    @classmethod
    def setUpClass(cls) -> None:
        super().setUpClass()
        cls.library = library(cls.room)

    def hold_form(self, program: str, form: Form, pool: concurrent.futures.Executor) -> None:
        trial = Trial(program, self.library, self.room, form)
        with self.subTest(form.name):
            self.assertNotEqual(NO_END, trial.usual.status)
            self.assertEqual(form.usual or trial.usual, trial.usual)
            for is_on in (False, True):
                self.hold_turns(form, trial.refused(pool, is_on), is_on)

    def hold_turns(self, form: Form, turns: Turns, is_on: bool) -> None:
        which = "each request from the N-th on" if is_on else "the N-th request"
        what = f"{which} refused: {len(turns.wrong)} of {turns.count} ended in another way"
        self.assertFalse(turns.wrong, f"{what}: {str(turns.wrong[:TOLD])[:600]}")
        faults = f"{which} refused: of {turns.count} {turns.faults} were answered by fault 1"
        self.assertEqual(form.takes, bool(turns.faults), faults)

    def test_commands(self) -> None:
        with concurrent.futures.ThreadPoolExecutor(os.cpu_count()) as pool:
            for form in forms(self.room):
                self.hold_form(self.program, form, pool)

    def test_functions_by_themselves(self) -> None:
        program = support.parts()
        with concurrent.futures.ThreadPoolExecutor(os.cpu_count()) as pool:
            for form in parts():
                self.hold_form(program, form, pool)


if __name__ == "__main__":
    unittest.main()
