"""Runs the built program as a user would: the examples, and what all commands share."""
import resource
import signal
import unittest
from collections.abc import Callable
from pathlib import Path

from tests.support.running import (
    EXAMPLE,
    FAULTS,
    FULL,
    ITS_REPORT,
    MEMORY,
    NOTHING,
    ODD,
    READ,
    USAGE,
    ProgramCase,
    Run,
    Runs,
    closed,
    examples,
    odd_plan,
    onto,
    start,
    text_of,
    with_little_memory,
    written,
)


def with_file_size(size: int) -> Callable[[], None]:
    """Lets a file take so many bytes and no more."""

    def set_up() -> None:
        signal.signal(signal.SIGXFSZ, signal.SIG_IGN)
        resource.setrlimit(resource.RLIMIT_FSIZE, (size, size))

    return set_up


def runs(room: Path) -> Runs:
    """The runs of examples and of `replay`, and of what every command shares, in a folder that they
    may write to."""
    yield from runs_of_examples()
    yield from runs_of_help(room)
    yield from refused_runs(room)
    yield from streams_of_runs()
    yield from misused_runs()
    yield from runs_with_large_limits(room)


def runs_of_examples() -> Runs:
    """The runs of the examples."""
    for example in examples(".plan"):
        expected = f"tests/examples/{example}"
        findings, report_of = text_of(f"{expected}.findings"), text_of(f"{expected}.report")
        found = findings != NOTHING
        yield Run(
            f"{example}.plan",
            ["replay", f"examples/{example}.plan"],
            status=int(found),
            wrote=findings if found else report_of,
        )
    for each_example in examples(".plan"):
        findings = text_of(f"tests/examples/{each_example}.findings")
        yield Run(
            f"{each_example}.findings",
            ["check", f"examples/{each_example}.plan"],
            status=int(findings != NOTHING),
            wrote=findings,
        )
    for other_example in examples(".order"):
        words = ["follow", f"examples/{other_example}.order", f"examples/{other_example}.plan"]
        yield Run(
            f"{other_example}.order",
            words,
            wrote=text_of(f"tests/examples/{other_example}.followed"),
        )
    for one_example in examples(".question"):
        asked = text_of(f"tests/examples/{one_example}.question").decode().split()
        words = ["why", *asked, f"examples/{one_example}.plan"]
        yield Run(
            f"{one_example}.question", words, wrote=text_of(f"tests/examples/{one_example}.answer")
        )


def runs_of_help(room: Path) -> Runs:
    """Input, and what the program says of itself."""
    plan = text_of(EXAMPLE)
    report = text_of(ITS_REPORT)
    large = written(room, "large.plan", b"rehearsal 1\n#".ljust(4 << 20, b"x"))
    yield Run("standard input", ["replay"], given=plan, wrote=report)
    yield Run(
        "a file, whatever stands on standard input", ["replay", EXAMPLE], given=b"?", wrote=report
    )
    yield Run("the largest file", ["replay", large], wrote=b"waiting 0\n")
    yield Run(
        "little memory, and enough", ["replay", EXAMPLE], wrote=report, set_up=with_little_memory
    )
    yield Run(
        "help",
        ["--help"],
        wrote=(*USAGE, *(b"%4d %s " % (n, fault.encode()) for n, fault in enumerate(FAULTS, 1))),
    )
    yield Run(
        "the exit statuses in help", ["--help"], wrote=tuple(b"\n%4d  " % n for n in range(6))
    )
    yield Run("help in short", ["-h"], wrote=USAGE)
    yield Run("the version", ["--version"], wrote=b"wire_up 0.1.0\n")
    yield Run("the version in short", ["-V"], wrote=b"wire_up 0.1.0\n")
    yield Run("help as a command", ["help"], wrote=USAGE)


def refused_runs(room: Path) -> Runs:
    """Files that are refused, or can't be read."""
    odd = odd_plan(room)
    large = written(room, "large.plan", b"rehearsal 1\n#".ljust(4 << 20, b"x"))
    yield Run("a file that is refused", ["replay", odd], status=2, said=ODD)
    yield Run(
        "standard input that is refused",
        ["replay"],
        given=b"# only\n",
        status=2,
        said=b"wire_up: fault 3 BadHeader 2\n",
    )
    yield Run(
        "a file that never ends",
        ["replay", "/dev/zero"],
        status=2,
        said=b"wire_up: fault 2 TooLong 1\n",
    )
    yield Run(
        "too little memory",
        ["replay", large],
        status=3,
        said=MEMORY,
        set_up=with_little_memory,
    )
    yield Run("no such file", ["replay", f"{room}/none"], status=4, said=READ)
    yield Run("a folder", ["replay", str(room)], status=4, said=READ)


def streams_of_runs() -> Runs:
    """Standard streams that are closed or full."""
    report = text_of(ITS_REPORT)
    yield Run("standard input closed", ["replay"], status=4, said=READ, set_up=closed(0))
    yield Run(
        "a file, and standard input closed", ["replay", EXAMPLE], wrote=report, set_up=closed(0)
    )
    yield Run("standard output closed", ["replay", EXAMPLE], status=4, said=FULL, set_up=closed(1))
    yield Run(
        "a full device",
        ["replay", EXAMPLE],
        status=4,
        said=FULL,
        set_up=onto("/dev/full", 1),
    )
    yield Run("help on a full device", ["--help"], status=4, said=FULL, set_up=onto("/dev/full", 1))


def misused_runs() -> Runs:
    """Words that no command takes."""
    yield Run("no command", [], status=5, said=USAGE)
    yield Run("an unknown command", ["rehearse"], status=5, said=USAGE)
    yield Run("an unknown option", ["replay", "--loud"], status=5, said=USAGE)
    yield Run("two files", ["replay", EXAMPLE, EXAMPLE], status=5, said=USAGE)
    yield Run(
        "a word that is no text",
        ["replay", b"\xc8"],
        status=5,
        said=b"error: an argument is not UTF-8\n",
    )


def runs_with_large_limits(room: Path) -> Runs:
    """Plans past the limits of version 1."""
    many = written(room, "many.plan", b"rehearsal 1\nnode n0\njob app\n" + b"rank n0\n" * 257)
    past = b"wire_up: fault 8 TooMany 260\n"
    order = written(room, "no.order", b"")
    for words in (["check"], ["replay"], ["why", "app:0", "1", "app:0", "1"], ["migrate"]):
        yield Run(f"257 ranks, {words[0]}", [*words, many], status=2, said=past)
    yield Run("257 ranks, check --large", ["check", "--large", many], wrote=NOTHING)
    yield Run("257 ranks, replay --large", ["replay", "--large", many], wrote=b"waiting 0\n")
    yield Run("257 ranks, follow --large", ["follow", "--large", order, many], wrote=b"waiting 0\n")
    yield Run(
        "257 ranks, migrate --large",
        ["migrate", "--large", many],
        wrote=text_of(many).replace(b"1", b"2", 1),
    )
    yield Run(
        "why with --large",
        ["why", "--large", "app:0", "1", "app:0", "1", many],
        status=2,
        said=b"wire_up: fault 13 BadOrder 2\n",
    )


class Program(ProgramCase):
    """Runs of all commands, as lines."""

    def test_runs(self) -> None:
        self.hold_all(runs(self.room))

    def test_broken_off(self) -> None:
        """A file that takes so many bytes and no more gets these, and the fault counts them."""
        report = text_of(ITS_REPORT)
        for size in (1, 20, len(report) - 1):
            with self.subTest(size=size):
                run = Run("", ["replay", EXAMPLE], set_up=with_file_size(size))
                path = self.room / "report"
                with open(path, "wb") as to:
                    ran = start(self.program, run, to)
                fault = b"wire_up: fault 11 Write %d\n" % size
                self.told_alike((4, fault), (ran.returncode, ran.stderr))
                self.told_alike(report[:size], path.read_bytes())

    def test_example_of_crate(self) -> None:
        """The crate of the program runs the example of the documents."""
        for kept, shown in (
            (EXAMPLE, "crates/program/data/business-card.plan"),
            (ITS_REPORT, "crates/program/stdout"),
        ):
            with self.subTest(shown):
                self.told_alike(text_of(kept), text_of(shown))


if __name__ == "__main__":
    unittest.main()
