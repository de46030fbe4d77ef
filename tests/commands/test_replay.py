"""Runs `replay` of the built program: by workers, to the end, and over plans that keep."""
import unittest
from pathlib import Path

from tests.support.forms import as_json
from tests.support.running import (
    CARDS,
    CARDS_REPORT,
    NOTHING,
    PATTERN_MISUSED,
    RACY,
    WORKERS_MISUSED,
    ProgramCase,
    Run,
    Runs,
    closed,
    onto,
    text_of,
    written,
)


NO_OPTION: list[str] = []


def replays(room: Path) -> Runs:
    """The runs of `replay` by workers, with its options."""
    yield from replays_by_workers(room)
    yield from replays_of_races(room)
    yield from refused_workers(room)
    yield from misused_replays(room)


def replays_by_workers(room: Path) -> Runs:
    """Plans without findings."""
    cards = written(room, "cards.plan", CARDS)
    report = CARDS_REPORT
    for n in ("1", "2", "7", "64", "007"):
        yield Run(f"{n} workers", ["replay", "--workers", n, cards], wrote=report)
        yield Run(
            f"{n} workers, as JSON",
            ["replay", f"--workers={n}", "--json", cards],
            wrote=as_json(report),
        )
    yield Run("no worker told", ["replay", "--json", cards], wrote=as_json(report))
    for which, ranks in (
        ("the lowest", "00001112001222"),
        ("the highest", "20001110221002"),
        ("both by turns", "02000111020212"),
    ):
        order = written(room, f"{which}.order", "".join(f"app:{rank}\n" for rank in ranks).encode())
        yield Run(
            f"the cards, where {which} that can run goes first",
            ["follow", order, cards],
            wrote=report,
        )
    yield Run(
        "nothing found, anyway", ["replay", "--anyway", "--workers", "2", cards], wrote=report
    )
    yield Run(
        "workers, and standard input", ["replay", "--workers", "2"], given=CARDS, wrote=report
    )


def replays_of_races(room: Path) -> Runs:
    """A plan with a race."""
    racy = written(room, "racy.plan", RACY)
    late = written(room, "late.order", b"app:1\napp:0\napp:0\n")
    of_late = (
        b"app:0 1 put PMIX_SUCCESS\napp:0 2 commit PMIX_SUCCESS\n"
        b"app:1 1 get-now PMIX_ERR_NOT_FOUND\nwaiting 0\n"
    )
    first = b"app:0 1 put ready\napp:0 2 commit unreached\napp:1 1 get-now ready\nwaiting 0\n"
    race = b"race app:0 2 app:1 1 key app:0 k"
    yield Run(
        "a race, by workers",
        ["replay", "--workers", "2", racy],
        status=1,
        wrote=race + b"\nfindings 1\n",
    )
    yield Run(
        "a race, as JSON",
        ["replay", "--json", racy],
        status=1,
        wrote=b'{"findings":["%s"]}\n' % race,
    )
    yield Run("a get before the commit", ["follow", late, racy], wrote=of_late)
    yield Run(
        "an empty order on a race", ["follow", written(room, "empty.order", b""), racy], wrote=first
    )


def refused_workers(room: Path) -> Runs:
    """Numbers of workers that are refused."""
    cards = written(room, "cards.plan", CARDS)
    none = f"{room}/none"
    odd = written(room, "odd.plan", b"# only\n")
    workers = b"wire_up: fault 9 Workers\n"
    for n in ("0", "65", "99999999999999999999"):
        yield Run(f"{n} workers at most", ["replay", "--workers", n, cards], status=2, said=workers)
    yield Run(
        "no worker, and a file that is refused",
        ["replay", "--workers", "0", odd],
        status=2,
        said=workers,
    )
    yield Run(
        "no worker, and no such file",
        ["replay", "--workers", "0", none],
        status=4,
        said=b"wire_up: fault 10 Read\n",
    )
    for word in ("x", "", "+1", "1x"):
        words = ["replay", "--workers", word, none]
        yield Run(f"'{word}' workers", words, status=5, said=WORKERS_MISUSED)
    words = ["replay", "--workers=-1", cards]
    yield Run("less than no worker", words, status=5, said=WORKERS_MISUSED)


def misused_replays(room: Path) -> Runs:
    """Words that `replay` doesn't take, and those that it does."""
    cards = written(room, "cards.plan", CARDS)
    usage = (b"Usage: wire_up",)
    yield Run(
        "workers told twice",
        ["replay", "--workers", "1", "--workers", "1", cards],
        status=5,
        said=usage,
    )
    yield Run("anyway told twice", ["replay", "--anyway", "--anyway", cards], status=5, said=usage)
    yield Run("a check by workers", ["check", "--workers", "1", cards], status=5, said=usage)
    yield Run(
        "help on replay",
        ["replay", "--help"],
        wrote=(b"--workers <COUNT>", b"--json", b"--anyway", b"--complete", b"--explain"),
    )


def completions(room: Path) -> Runs:
    """The runs of `replay --complete`."""
    yield from completions_of_plans()
    yield from completions_of_races(room)
    yield from completions_that_fail(room)


def plans_to_complete() -> list[tuple[str, bytes, bytes, bytes]]:
    """Plans, each with its report and the line of its first call that doesn't succeed."""
    late = CARDS.replace(b"lookup-wait x", b"lookup-wait y")
    lost = CARDS.replace(b"get-now app:0 k\nlookup", b"get-now app:0 z\nlookup")
    of_late = CARDS_REPORT.replace(b"PMIX_SUCCESS 7\nwaiting 0", b"waiting\nwaiting 1")
    of_lost = CARDS_REPORT.replace(
        b"app:2 2 get-now PMIX_SUCCESS v", b"app:2 2 get-now PMIX_ERR_NOT_FOUND"
    )
    both = late.replace(b"get-now app:0 k\nlookup", b"get-now app:0 z\nlookup")
    of_both = of_late.replace(
        b"app:2 2 get-now PMIX_SUCCESS v", b"app:2 2 get-now PMIX_ERR_NOT_FOUND"
    )
    return [
        ("every call succeeds", CARDS, CARDS_REPORT, b""),
        ("a rank waits", late, of_late, b"wire_up: app:2 3 lookup-wait waiting\n"),
        ("a get finds nothing", lost, of_lost, b"wire_up: app:2 2 get-now PMIX_ERR_NOT_FOUND\n"),
        ("the first of two", both, of_both, b"wire_up: app:2 2 get-now PMIX_ERR_NOT_FOUND\n"),
        (
            "two ranks wait",
            text_of("examples/standstill.plan"),
            text_of("tests/examples/standstill.report"),
            b"wire_up: app:0 1 get waiting\n",
        ),
        ("no call", b"rehearsal 1\n", b"waiting 0\n", b""),
    ]


def completions_of_plans() -> Runs:
    """Plans of which a call doesn't succeed, or each does."""
    for name, plan, report, said in plans_to_complete():
        yield Run(f"{name}, plainly", ["replay"], given=plan, wrote=report)
        for options in (NO_OPTION, ["--workers", "3"], ["--large"], ["--anyway"]):
            yield Run(
                f"{name}, complete {options}",
                ["replay", "--complete", *options],
                given=plan,
                status=int(bool(said)),
                wrote=report,
                said=said,
            )
        if report != b"waiting 0\n":
            yield Run(
                f"{name}, complete, as JSON",
                ["replay", "--json", "--complete"],
                given=plan,
                status=int(bool(said)),
                wrote=as_json(report),
                said=said,
            )


def completions_of_races(room: Path) -> Runs:
    """A plan with a race."""
    racy = written(room, "racy.plan", RACY)
    race = b"race app:0 2 app:1 1 key app:0 k"
    for options in (NO_OPTION, ["--workers", "2"]):
        yield Run(
            f"a race, complete {options}",
            ["replay", "--complete", *options, racy],
            status=1,
            wrote=race + b"\nfindings 1\n",
        )
    yield Run(
        "a race, complete, as JSON",
        ["replay", "--complete", "--json", racy],
        status=1,
        wrote=b'{"findings":["%s"]}\n' % race,
    )
    yield Run(
        "a race anyway, complete",
        ["replay", "--complete", "--anyway", racy],
        status=1,
        wrote=(b"unsettled\n", b"order 3\n"),
    )


def completions_that_fail(room: Path) -> Runs:
    """Files that are refused, streams that are closed or full, and odd words."""
    racy = written(room, "racy.plan", RACY)
    usage = (b"Usage: wire_up",)
    late = CARDS.replace(b"lookup-wait x", b"lookup-wait y")
    of_late = CARDS_REPORT.replace(b"PMIX_SUCCESS 7\nwaiting 0", b"waiting\nwaiting 1")
    yield Run(
        "complete, and a file that is refused",
        ["replay", "--complete"],
        given=b"# only\n",
        status=2,
        said=b"wire_up: fault 3 BadHeader 2\n",
    )
    yield Run(
        "complete, and a full device",
        ["replay", "--complete"],
        given=late,
        status=4,
        said=b"wire_up: fault 11 Write 0\n",
        set_up=onto("/dev/full", 1),
    )
    yield Run(
        "complete, and standard error closed",
        ["replay", "--complete"],
        given=late,
        status=1,
        wrote=of_late,
        set_up=closed(2),
    )
    yield Run(
        "complete told twice", ["replay", "--complete", "--complete", racy], status=5, said=usage
    )
    yield Run(
        "a check that is complete",
        ["check", "--complete", racy],
        status=5,
        said=PATTERN_MISUSED,
    )


KEEPING = (
    b"rehearsal 2\nkeep\nnode n0\nnode n1\njob app\n"
    b"rank n0\nput global k v\ncommit\nrank n1\n"
    b"get app:0 k\nfence app:1,app:2\nrank n1\n"
    b"fence app:1,app:2\nget-now app:0 k\n"
)


def keepings(room: Path) -> Runs:
    """The runs of plans that keep what gets bring, and of lines `keep` that are refused."""
    yield from keepings_of_plans()
    yield from keepings_with_races()
    yield from refused_keepings()


def keepings_of_plans() -> Runs:
    """Plans that keep, or don't."""
    alone = b"rehearsal 2\nkeep\n"
    calls = (
        b"app:0 1 put PMIX_SUCCESS\napp:0 2 commit PMIX_SUCCESS\n"
        b"app:1 1 get %s\napp:1 2 fence PMIX_SUCCESS\n"
        b"app:2 1 fence PMIX_SUCCESS\napp:2 2 get-now %s\nwaiting 0\n"
    )
    found = b"PMIX_SUCCESS v"
    none = b"PMIX_ERR_NOT_FOUND"
    outside = b"PMIX_ERR_EXISTS_OUTSIDE_SCOPE"
    rows = {
        "a get brings the value": (KEEPING, calls % (found, found)),
        "without keep a get brings nothing": (
            KEEPING.replace(b"keep\n", b""),
            calls % (found, none),
        ),
        "a local key stays outside": (
            KEEPING.replace(b"global", b"local"),
            calls % (outside, none),
        ),
        "keep alone": (alone, b"waiting 0\n"),
    }
    for name, (plan, report) in rows.items():
        yield Run(f"{name}: check", ["check"], given=plan, wrote=NOTHING)
        for workers in ("1", "2", "7", "64"):
            yield Run(
                f"{name}: {workers} workers",
                ["replay", "--workers", workers],
                given=plan,
                wrote=report,
            )


def keepings_with_races() -> Runs:
    """A plan in which what a get brings races."""
    fence = b"fence app:1,app:2\n"
    racy = KEEPING.replace(fence, b"")
    race = b"race app:1 1 app:2 1 key app:0 k\nfindings 1\n"
    yield Run("a get that brings races: check", ["check"], given=racy, status=1, wrote=race)
    for workers in ("1", "2", "7", "64"):
        yield Run(
            f"a get that brings races: {workers} workers",
            ["replay", "--workers", workers],
            given=racy,
            status=1,
            wrote=race,
        )
    yield Run(
        "a migration of a plan that keeps",
        ["migrate"],
        given=b"# a note\n" + KEEPING,
        wrote=KEEPING,
    )


def refused_keepings() -> Runs:
    """Lines `keep` that are refused."""
    alone = b"rehearsal 2\nkeep\n"
    refused = {
        "in version 1": (b"rehearsal 1\nkeep\n", 2),
        "twice": (alone + b"keep\n", 3),
        "late": (b"rehearsal 2\nnode a\nkeep\n", 3),
    }
    for name, (plan, line) in refused.items():
        for command in ("check", "replay"):
            yield Run(
                f"keep {name}: {command}",
                [command],
                given=plan,
                status=2,
                said=b"wire_up: fault 4 BadLine %d\n" % line,
            )


class Replay(ProgramCase):
    """Runs of `replay`."""

    def test_replays(self) -> None:
        self.hold_all(replays(self.room))

    def test_completions(self) -> None:
        self.hold_all(completions(self.room))

    def test_keepings(self) -> None:
        self.hold_all(keepings(self.room))


if __name__ == "__main__":
    unittest.main()
