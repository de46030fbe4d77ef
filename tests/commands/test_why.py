"""Runs `why` of the built program: what is asked, and what is refused."""
import unittest
from pathlib import Path

from tests.support.running import (
    EXAMPLE,
    FULL,
    MEMORY,
    ODD,
    READ,
    USAGE,
    ProgramCase,
    Run,
    Runs,
    closed,
    fences_plan,
    odd_plan,
    onto,
    text_of,
    with_little_memory,
)


def questions(room: Path) -> Runs:
    """The runs of `why`."""
    yield from answered_questions(room)
    yield from refused_questions(room)
    yield from misused_questions()


def through_fences(count: int) -> bytes:
    """The answer whether the first arrival of rank 0 is before the last one of rank 255, of so many
    fences that all ranks call: from fence to fence by rank 0, the lowest."""
    steps = [f"app:0 {n} fence {half}" for n in range(1, count - 1) for half in ("arrive", "leave")]
    ends = [
        f"app:0 {count - 1} fence arrive",
        f"app:255 {count - 1} fence leave",
        f"app:255 {count} fence arrive",
    ]
    return "\n".join(["before", *steps, *ends, ""]).encode()


def answered_questions(room: Path) -> Runs:
    """Questions that are answered."""
    plan = text_of(EXAMPLE)
    fences = fences_plan(room)
    words = ["why", "app:0", "1", "app:1", "1"]
    far = ["why", "app:0", "1", "app:255", "64", fences]
    answer = b"before\napp:0 1 put\napp:0 2 commit\napp:1 1 get\n"
    yield Run("a question", [*words, EXAMPLE], wrote=answer)
    yield Run("a question, the file on standard input", words, given=plan, wrote=answer)
    yield Run("a question through many fences", far, wrote=through_fences(64))
    yield Run("help on why", ["why", "--help"], wrote=(b"Usage: wire_up why",))


def refused_questions(room: Path) -> Runs:
    """Questions that are refused."""
    odd = odd_plan(room)
    fences = fences_plan(room)
    words = ["why", "app:0", "1", "app:1", "1"]
    far = ["why", "app:0", "1", "app:255", "64", fences]
    for n, word in enumerate(("app:2", "3", "app:01", "01"), 1):
        odd_words = [*words[:n], word, *words[n + 1:], EXAMPLE]
        yield Run(
            f"a wrong word {n}", odd_words, status=2, said=b"wire_up: fault 13 BadOrder %d\n" % n
        )
    yield Run(
        "two wrong words",
        ["why", "app:0", "0", "app", "1", EXAMPLE],
        status=2,
        said=b"wire_up: fault 13 BadOrder 2\n",
    )
    yield Run(
        "a file that is refused, with a wrong word",
        ["why", "app:9", *words[2:], odd],
        status=2,
        said=ODD,
    )
    yield Run(
        "too little memory for a question", far, status=3, said=MEMORY, set_up=with_little_memory
    )
    yield Run("a question, and standard input closed", words, status=4, said=READ, set_up=closed(0))
    yield Run(
        "no such file to ask about", [*words, f"{room}/none"], status=4, said=READ
    )


def misused_questions() -> Runs:
    """A full device, and words that `why` doesn't take."""
    plan = text_of(EXAMPLE)
    words = ["why", "app:0", "1", "app:1", "1"]
    yield Run(
        "a question, and a full device",
        [*words, EXAMPLE],
        status=4,
        said=FULL,
        set_up=onto("/dev/full", 1),
    )
    yield Run("why with three words", words[:4], given=plan, status=5, said=USAGE)
    yield Run("why with a word too many", [*words, EXAMPLE, EXAMPLE], status=5, said=USAGE)
    yield Run(
        "why with a number that is read as an option",
        ["why", "app:0", "-1", *words[3:]],
        given=plan,
        status=5,
        said=USAGE,
    )


class Program(ProgramCase):
    """Runs of `why`, as lines."""

    def test_questions(self) -> None:
        self.hold_all(questions(self.room))


if __name__ == "__main__":
    unittest.main()
