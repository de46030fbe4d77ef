"""The axioms of libraries, on which the laws of wire_library_laws rest, held to what libraries did:
of each run that was recorded of a plan of the suite there is a history by the axioms with the same
replies. The axioms aren't meant for plans that put a key again: of these it is said which have
none."""
import itertools
import os
import unittest
from collections.abc import Iterator, Mapping, Sequence
from dataclasses import dataclass, field
from pathlib import Path

from wire_up_tools.run.suite import read_suite, write_plan
from wire_up_tools.run.tables import CALL, PLAN
from tests.models import model_runs
from tests.models.library_axioms import LIBRARIES, UNREACHED, WAITING, Axioms
from tests.models.library_histories import Search
from tests.models.library_plans import Facts
from tests.models.model import Event
from tests.support import TOP

Replies = Mapping[Event, bytes]
# The tables of libraries, and those that a forerunner of the suite made.
TABLES = TOP / "python" / "wire_up_tools" / "run" / "tables"
EARLIER = TOP / "tests" / "earlier_tables"
PLANS = {suite_plan.name: Facts(suite_plan.text.encode()) for suite_plan in read_suite()}
# The plans of which a run has no history, by the library, each with the calls at which the history
# stands that gets furthest; and the plans that put a key again of which a run has none: 4.2 reads
# of a rank's own keys what it committed, and the others keep in the caller what a get gave it.
BROKEN: dict[str, dict[str, list[str]]] = {}
OWN = {"own-rewrite", "own-scope-change", "rewrite-own"}
KEPT = {"rewrite-same-node", "same-read-other-then-rewrite"}
AGAIN = {
    "openpmix-4.2": OWN | {"random-1-0", "random-1-1", "random-1-10"},
    "openpmix-5.0": KEPT | {"random-1-10"},
    "openpmix-7.0": KEPT | {"random-1-0", "random-1-10", "random-1-58"},
    "slurm-24.11": KEPT | {"random-1-0", "random-1-10"},
}
# How many runs of each library are held to the axioms at least.
LEAST = 250
ALL = frozenset(LIBRARIES)
FLAKY, AT_ONCE = frozenset({"openpmix-4.2"}), frozenset({"openpmix-4.2", "slurm-24.11"})
NAMELESS = frozenset({"slurm-24.11"})
# Two ranks on two nodes, and on one.
APART, BESIDE = "A / rank n0 / {} / rank n1 / {}", "B / rank n0 / {} / rank n0 / {}"
PUT, LATE = "put global k v / commit", "put global a 1 / commit / put global k v / commit"
MEETS = "fence all / get app:0 k"
BOTH, NOW = f"put global a 1 / {PUT}", "get-now app:0 k"
MET = f"{PUT} / fence all collect", f"fence all collect / {NOW}"
MATE = "A / rank n0 / {} / rank n1 / get app:0 a / rank n1 / get app:0 k"
NEVER = "A / rank n0 / {} / rank n1 / get app:0 never / rank n1 / get app:0 k"
LIST = "app:0,app:1 collect"
FOUND, MISSED = "PMIX_SUCCESS v", "PMIX_ERR_NOT_FOUND"
# A plan, what is seen of one of its calls in place of what the rules say, and the libraries whose
# axioms have such a history, worked out by hand.
ROWS: Sequence[tuple[str, str, str, frozenset[str]]] = [
    # A get isn't found beside its owner by an earlier commit; by the one that brings it, in 4.2.
    (BESIDE.format(LATE, "get app:0 k"), "app:1 1", MISSED, ALL),
    (BESIDE.format(PUT, "get app:0 k"), "app:1 1", MISSED, FLAKY),
    (BESIDE.format("put remote k v / commit", "get app:0 k"), "app:1 1", WAITING.decode(), ALL),
    (BESIDE.format(PUT, "fence app:1 / get app:0 k"), "app:1 2", WAITING.decode(), frozenset()),
    (BESIDE.format(PUT + " / fence all", MEETS), "app:1 2", MISSED, frozenset()),
    # On another node it isn't found once its owner has committed anything, or behind a mate.
    (APART.format(LATE, "get app:0 k"), "app:1 1", MISSED, AT_ONCE),
    (APART.format(PUT, "get app:0 k"), "app:1 1", MISSED, frozenset()),
    (APART.format(LATE + " / fence all", MEETS), "app:1 2", MISSED, NAMELESS),
    (MATE.format(LATE), "app:2 1", MISSED, ALL),
    (MATE.format(BOTH), "app:2 1", MISSED, frozenset()),
    (NEVER.format(PUT), "app:2 1", WAITING.decode(), ALL),
    (NEVER.format(PUT), "app:1 1", MISSED, ALL),
    # A get-now finds what a fence has brought, or a get: nothing else.
    (APART.format(*MET), "app:1 2", MISSED, frozenset({"openpmix-5.0"})),
    (APART.format(PUT, NOW), "app:1 1", FOUND, frozenset()),
    (MATE.format(PUT).replace("get app:0 a", NOW), "app:1 1", FOUND, ALL),
    (MATE.format(PUT).replace("get app:0 k", NOW), "app:2 1", FOUND, AT_ONCE),
    (APART.format(BOTH, "get app:0 a / get-now app:0 k"), "app:1 2", MISSED, frozenset()),
    (APART.format(LATE, "get app:0 a / get-now app:0 k"), "app:1 2", MISSED, ALL),
    (APART.format(f"{PUT} / fence all", f"fence all / {NOW}"), "app:1 2", FOUND, frozenset()),
    # Values are true.
    (APART.format("put global k v", "get app:0 k"), "app:1 1", FOUND, frozenset()),
    (APART.format(PUT, "get app:0 k"), "app:1 1", "PMIX_SUCCESS w", frozenset()),
    # A fence ends once all are there, and then it ends; but one of a node waits for it alone.
    (APART.format("fence all", "put global k v"), "app:0 1", "PMIX_SUCCESS", NAMELESS),
    (APART.format("fence all collect", "commit"), "app:0 1", "PMIX_SUCCESS", frozenset()),
    (APART.format("fence all collect", "fence all collect"), "app:0 1", "waiting", frozenset()),
    (APART.format(f"fence {LIST}", f"fence {LIST}"), "app:0 1", "waiting", NAMELESS),
    # A name is there from its publish on, till it is taken away.
    (APART.format("publish x v", "lookup x"), "app:1 1", FOUND, ALL),
    (APART.format("commit", "lookup x"), "app:1 1", FOUND, NAMELESS),
    (APART.format("publish x v", "lookup-wait x"), "app:1 1", WAITING.decode(), NAMELESS),
    (BESIDE.format("publish x v / unpublish x", "commit"), "app:0 2", MISSED, NAMELESS),
    (BESIDE.format("publish x v / publish x w", "commit"), "app:0 2", "PMIX_SUCCESS", ALL),
    # A call that doesn't wait is answered.
    (BESIDE.format(PUT, NOW), "app:1 1", WAITING.decode(), frozenset()),
    (BESIDE.format("commit", "get-now app:0 PMIX_HOSTNAME"), "app:1 1", "waiting", frozenset()),
    (BESIDE.format("commit", "get app:0 PMIX_RANK"), "app:1 1", WAITING.decode(), ALL),
]
STAR = "rehearsal 2 / node n0 / job app / rank n0 / publish x v / unpublish * / lookup x"


@dataclass
class Run:
    """What was seen in so many runs of a plan: the replies that aren't the rules'."""

    times: int
    replies: dict[Event, bytes] = field(default_factory=dict)


def read_runs(folder: Path, library: str) -> dict[str, list[Run]]:
    """The runs of each plan of a library's table. The calls of a run stand in their order, with how
    often it came; where fewer came than there were, the others were as the rules say."""
    runs: dict[str, list[Run]] = {}
    name, times = "", 0
    with open(folder / f"{library}.txt", encoding="ascii") as file:
        for line in file.read().splitlines():
            plan, call = PLAN.fullmatch(line), CALL.fullmatch(line)
            if plan:
                name, times = plan[2], int(plan[3])
                runs[name] = [Run(times)]
            elif call:
                event = PLANS[name].plan.call_named(call[1].encode(), call[2])
                add_reply(runs[name], event, call[5].encode(), int(call[6] or times))
    return {name: [run for run in them if run.times] for name, them in runs.items()}


def add_reply(runs: list[Run], event: Event, reply: bytes, times: int) -> None:
    """Adds a reply to the last run, or to another, which the first is no more."""
    last = runs[-1]
    is_same = len(runs) > 1 and last.times == times and max(last.replies) < event
    if not is_same:
        runs.append(Run(times))
        runs[0].times -= times
    runs[-1].replies[event] = reply


def expect(facts: Facts) -> dict[Event, bytes]:
    """What the rules say of each call."""
    run = model_runs.Run(facts.plan).go()
    return {event: run.end(event) for event in facts.plan.firsts}


def puts_again(facts: Facts) -> bool:
    """Whether a rank puts a key again."""
    return any(len(put) > 1 for put in facts.plan.puts.values())


def look(library: str, facts: Facts, seen: Replies) -> list[str]:
    """The calls at which a history stands, where none gives what was seen."""
    return Search(Axioms(facts, LIBRARIES[library], seen)).look()


def list_runs(library: str, again: bool) -> Iterator[tuple[str, Replies]]:
    """The runs of a library with plans that put a key again, or with the others; each with the
    plan's name."""
    tables = (read_runs(folder, library) for folder in (TABLES, EARLIER))
    for name, runs in itertools.chain.from_iterable(table.items() for table in tables):
        if puts_again(PLANS[name]) is again:
            rules = expect(PLANS[name])
            yield from ((name, {**rules, **run.replies}) for run in runs)


class PlainSearch(Search):
    """A search that tries each step in each order."""

    def is_quiet(self, event: Event) -> bool:
        return False

    def is_made_at_once(self, event: Event) -> bool:
        return False


def alter(text: str, call: str, reply: str) -> tuple[Facts, Replies]:
    """A plan, and what is seen of it: what the rules say, but for one call. What is behind one that
    waits isn't reached."""
    facts = Facts(write_plan(text).encode())
    rank, _, number = call.partition(" ")
    altered = facts.plan.call_named(rank.encode(), number)
    seen = {**expect(facts), altered: reply.encode()}
    behind = [key for key in seen if key.rank == altered.rank and key > altered]
    is_end = seen[altered] == WAITING
    return facts, {**seen, **({event: UNREACHED for event in behind} if is_end else {})}


class Tables(unittest.TestCase):
    """What was recorded of libraries."""

    def test_each_recorded_run_has_a_history(self) -> None:
        """But for those that are listed."""
        self.assertEqual(
            {f"{each_library}.txt" for each_library in LIBRARIES}, set(os.listdir(TABLES))
        )
        for library in LIBRARIES:
            with self.subTest(library):
                held = list(list_runs(library, again=False))
                found = [(name, look(library, PLANS[name], seen)) for name, seen in held]
                broken = {name: calls for name, calls in found if calls}
                self.assertEqual(BROKEN.get(library, {}), broken)
                self.assertGreater(len(held), LEAST)

    def test_plans_that_put_a_key_again(self) -> None:
        """Those that are listed have a run without a history."""
        for library in LIBRARIES:
            runs = list_runs(library, again=True)
            broken = {name for name, seen in runs if look(library, PLANS[name], seen)}
            self.assertEqual(AGAIN[library], broken)

    def test_runs_are_told_apart(self) -> None:
        """Where runs of a plan differed, each has its own replies."""
        runs = read_runs(TABLES, "openpmix-5.0")["get-two-keys"]
        self.assertEqual([5, 7, 4], [run.times for run in runs])
        self.assertEqual([0, 1, 1], [len(run.replies) for run in runs])


class Rows(unittest.TestCase):
    """Replies that the axioms have, and that they don't have."""

    def test_rows(self) -> None:
        for text, call, reply, wanted in ROWS:
            facts, seen = alter(text, call, reply)
            found = {library for library in LIBRARIES if not look(library, facts, seen)}
            self.assertEqual(wanted, found, f"{text}: {call} {reply}")

    def test_all_names_are_taken_away(self) -> None:
        """Only where that is known to be done a lookup behind it has to find nothing."""
        facts, seen = alter(STAR, "app:0 3", FOUND)
        found = {library for library in LIBRARIES if not look(library, facts, seen)}
        self.assertEqual(ALL - {"openpmix-7.0"}, found)

    def test_no_short_cut_changes_an_answer(self) -> None:
        """Steps that are taken as soon as they can be leave out no history that counts."""
        for text, call, reply, wanted in ROWS:
            facts, seen = alter(text, call, reply)
            axioms = {library: Axioms(facts, LIBRARIES[library], seen) for library in LIBRARIES}
            found = {axiom for axiom, of in axioms.items() if not PlainSearch(of).look()}
            self.assertEqual(wanted, found, f"{text}: {call} {reply}")


if __name__ == "__main__":
    unittest.main()
