"""Runs the built program on plans of large machines."""
from collections.abc import Iterator
import resource
import unittest
from pathlib import Path

from tests.support.running import NOTHING, ProgramCase, Run, Runs, as_lines, written


MACHINE_RANKS = 4096
# A plan of more ranks is replayed without a board.
MOST_SEATED = 1024
# With a board, so many ranks would take 32 GiB; without one they take some 250 MiB.
MANY_RANKS, MEMORY = 65_536, 1 << 31


def machine(has_fence: bool, ranks: int = MACHINE_RANKS) -> Iterator[str]:
    """A plan of so many ranks, two on a node. Each rank gets the card of the other rank of its node
    and those of two ranks of other nodes."""
    yield "rehearsal 1"
    yield from (f"node n{number}" for number in range(ranks // 2))
    yield "job app"
    for rank in range(ranks):
        yield from (f"rank n{rank // 2}", f"put global card c{rank}", "commit")
        yield from ["fence all collect"] * has_fence
        yield from (
            f"get-now app:{number % ranks} card" for number in (rank ^ 1, rank + 2, rank - 2)
        )


def machine_report(ranks: int = MACHINE_RANKS) -> Iterator[str]:
    """What `replay` writes of that plan, where it has the fence."""
    for rank in range(ranks):
        yield from (
            f"app:{rank} {n} {verb} PMIX_SUCCESS"
            for n, verb in enumerate(("put", "commit", "fence"), 1)
        )
        others = rank ^ 1, rank + 2, rank - 2
        yield from (
            f"app:{rank} {n} get-now PMIX_SUCCESS c{number % ranks}"
            for n, number in enumerate(others, 4)
        )
    yield "waiting 0"


def machine_races() -> Iterator[str]:
    """What `check` writes of that plan, where it doesn't have the fence: each get of a card of the
    same node races with its commit."""
    for rank in range(0, MACHINE_RANKS, 2):
        yield f"race app:{rank} 2 app:{rank + 1} 3 key app:{rank} card"
        yield f"race app:{rank} 3 app:{rank + 1} 2 key app:{rank + 1} card"
    yield f"findings {MACHINE_RANKS}"


def machines(room: Path) -> Runs:
    """The runs of a plan of a large machine."""
    fenced, early = (
        written(room, name, as_lines(machine(flag)))
        for name, flag in (("fenced.plan", True), ("early.plan", False))
    )
    races = as_lines(machine_races())
    yield Run("a large machine", ["check", "--large", fenced], wrote=NOTHING)
    for workers in ("1", "4"):
        yield Run(
            f"a large machine, {workers} workers",
            ["replay", "--large", "--workers", workers, fenced],
            wrote=as_lines(machine_report()),
        )
    for command in ("check", "replay"):
        yield Run(
            f"a large machine without its fence: {command}",
            [command, "--large", early],
            status=1,
            wrote=races,
        )
        yield Run(
            f"a large machine, plainly: {command}",
            [command, fenced],
            status=2,
            said=b"wire_up: fault 8 TooMany 66\n",
        )


def chain(ranks: int) -> Iterator[str]:
    """A plan in which each rank waits for the card of the next, and the first for a name and the
    last for a fence besides. One rank waits for ever."""
    yield from ("rehearsal 1", "node n0", "node n1", "job app")
    yield from ("rank n0", "lookup-wait port", "get app:1 card", "fence app:0,app:1")
    for rank in range(1, ranks):
        yield f"rank n{rank % 2}"
        yield from [f"get app:{rank + 1} card"] * (rank < ranks - 1)
        yield from (f"put global card c{rank}", "commit")
        yield from ["fence app:0,app:1"] * (rank == 1)
    yield from ("publish port here", "get app:0 card")


def chain_report(ranks: int) -> Iterator[str]:
    """What `replay` writes of that plan."""
    yield "app:0 1 lookup-wait PMIX_SUCCESS here"
    yield "app:0 2 get PMIX_SUCCESS c1"
    yield "app:0 3 fence PMIX_SUCCESS"
    for rank in range(1, ranks):
        calls = [f"get PMIX_SUCCESS c{rank + 1}"] * (rank < ranks - 1)
        calls += ["put PMIX_SUCCESS", "commit PMIX_SUCCESS"]
        calls += ["fence PMIX_SUCCESS"] * (rank == 1)
        calls += ["publish PMIX_SUCCESS", "get waiting"] * (rank == ranks - 1)
        yield from (f"app:{rank} {n} {call}" for n, call in enumerate(calls, 1))
    yield "waiting 1"


def stopped(ranks: int, first: str) -> Iterator[str]:
    """A plan in which the first rank never comes past this call, and the second waits for it."""
    yield from ("rehearsal 1", "node n0", "node n1", "job app")
    yield from ("rank n0", first, "lookup-wait gone", "put global card c0", "commit")
    for rank in range(1, ranks):
        yield from (f"rank n{rank % 2}", f"put global card c{rank}", "commit")
        yield f"get app:{rank - 1} card"


def stopped_report(ranks: int, first: str) -> Iterator[str]:
    """What `replay` writes of that plan."""
    yield f"app:0 1 {first.split()[0]} waiting"
    yield from (f"app:0 {n} {text} unreached" for n, text in ((2, "lookup-wait"), (3, "put")))
    yield "app:0 4 commit unreached"
    for rank in range(1, ranks):
        yield from (f"app:{rank} 1 put PMIX_SUCCESS", f"app:{rank} 2 commit PMIX_SUCCESS")
        yield f"app:{rank} 3 get " + (f"PMIX_SUCCESS c{rank - 1}" if rank > 1 else "waiting")
    yield "waiting 2"


def with_memory() -> None:
    resource.setrlimit(resource.RLIMIT_AS, (MEMORY, MEMORY))


def replays(room: Path) -> Runs:
    """The replays of plans that have as many ranks as a board may have, or more."""
    for ranks in (MOST_SEATED, MOST_SEATED + 2, MANY_RANKS):
        plans = {"machine": machine(True, ranks), "chain": chain(ranks)}
        reports = {"machine": machine_report(ranks), "chain": chain_report(ranks)}
        # A live lookup that waits for ever, and one that isn't live.
        for name, first in (("stop", "lookup-wait gone"), ("halt", "get app:1 gone")):
            plans[name], reports[name] = stopped(ranks, first), stopped_report(ranks, first)
        for name, plan in plans.items():
            yield Run(
                f"a {name} of {ranks} ranks",
                ["replay", "--large", written(room, f"{name}-{ranks}.plan", as_lines(plan))],
                wrote=as_lines(reports[name]),
                set_up=with_memory,
            )


class Machines(ProgramCase):
    """Runs of plans of large machines."""

    def test_machines(self) -> None:
        self.hold_all(machines(self.room))

    def test_boards(self) -> None:
        self.hold_all(replays(self.room))


if __name__ == "__main__":
    unittest.main()
