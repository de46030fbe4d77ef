"""A small crate with wrong bodies of each sort, and what must become of each."""
from collections.abc import Sequence
from pathlib import Path
from typing import NamedTuple

from build.edits.verdicts import ONLY_A_NAME

CODE = """\
//! Functions with wrong bodies of each sort.
#![tactic(auto)]

ghost use Rattle.std.specs.Prelude.{◌≡◌, ◌≤◌};

/// The most that is picked.
const MOST: u8 = 9;

/// The number.
pub fn exact(a: u8) -> u8
    ensures { result ≡ a }
{
    a // the number
}

/// The number, by another function.
pub fn caller(a: u8) -> u8
    ensures { result ≡ a }
{
    exact(a) // the same
}

/// A number that isn't greater, by another function.
pub fn lower(a: u8) -> u8
    ensures { result ≤ a }
{
    exact(a) // not greater either
}

/// A number that isn't greater.
pub fn loose(a: u8) -> u8
    ensures { result ≤ a }
{
    a // not greater
}

/// Half of a number.
fn halved(a: u8) -> u8
    ensures { result ≤ a }
{
    a / 2
}

/// A number that isn't greater, by a function that has no edit.
pub fn by_half(a: u8) -> u8
    ensures { result ≤ a }
{
    halved(a) // by its contract
}

/// The same, with a proof file.
pub fn told(a: u8) -> u8
    ensures { result ≤ a }
{
    halved(a)
}

/// The number, or 9 if it is greater.
pub fn picked(a: u8) -> u8
    ensures { result ≤ 9 }
{
    if a < 9 { a } else { 9 }
}

/// The number 9.
pub fn most() -> u8
    ensures { result ≡ 9 }
{
    MOST
}

/// A pair of numbers.
pub struct Pair {
    pub first: u8,
    pub second: u8,
}

impl Pair {
    /// A number twice.
    pub fn twice(a: u8) -> Pair
        ensures { result.second ≡ a }
    {
        Pair { first: a, second: a }
    }
}
"""
# A proof that cites the contract of a function that has no edit.
TOLD = """\
use Rattle.tiny.proofs.told.Goals as goal

pub returns : goal.returns
returns c = c.halved.ensures
"""
# A proof that names both goals of `picked`.
ANSWERS = """\
use Rattle.std.proofs.Common.{rules}
use Rattle.tiny.proofs.picked.Goals as goal

pub returns-then-a-lt9 : goal.returns-then-a-lt9
returns-then-a-lt9 c = search rules
"""
REFUSED, NOT_REFUSED, BAD = ": refused, as it must be: ", ": NOT REFUSED", ": BAD EDIT: "


class Wanted(NamedTuple):
    """An edit: its lines, what must be said of it, and whether it must be tried alone to say so;
    None where either is well."""

    lines: list[str]
    said: str
    is_alone: bool | None


# The lines of each edit, what must be said of it, and whether it must be tried alone to say so.
EDITS = {
    "another_number": Wanted(["    a // the number", "    0"], REFUSED, False),
    # It calls a function with an edit in the same batch.
    "another_argument": Wanted(["exact(a) // the same", "exact(0)"], REFUSED, None),
    "right_in_another_way": Wanted(
        ["exact(a) // not greater either", "exact(a).min(3)"],
        NOT_REFUSED,
        True,
    ),
    "method_of_a_type": Wanted(["second: a }", "second: 0 }"], REFUSED, False),
    # In the functions of other edits, so over copies of these: one that must be proved, and one
    # with a proof file.
    "more_than_the_number": Wanted(
        ["exact(a) // not greater either", "exact(a).saturating_add(1)"],
        REFUSED,
        False,
    ),
    "picked_ten": Wanted(
        ["    if a < 9 { a } else { 9 }", "    if a < 9 { a } else { 10 }"],
        REFUSED,
        False,
    ),
    "number_and_one": Wanted(["    a // the number", "    a.saturating_add(1)"], REFUSED, False),
    "name_of_a_goal": Wanted(["    if a < 9 { a } else { 9 }", "    a.min(9)"], ONLY_A_NAME, False),
    # The function that it calls has no edit, so it is emptied.
    "more_than_the_half": Wanted(
        ["halved(a) // by its contract", "halved(a).saturating_add(1)"],
        REFUSED,
        False,
    ),
    "half_in_another_way": Wanted(
        ["halved(a) // by its contract", "halved(a).min(3)"],
        NOT_REFUSED,
        True,
    ),
    "outside_of_functions": Wanted(["MOST: u8 = 9", "MOST: u8 = 8"], REFUSED, True),
    "two_functions": Wanted(
        ["exact(a) // the same", "exact(1)", "    a // the number", "    1"],
        REFUSED,
        True,
    ),
    "allowed_by_the_contract": Wanted(["    a // not greater", "    0"], NOT_REFUSED, True),
    "text_that_is_not_there": Wanted(["exact(b)", "exact(0)"], BAD, False),
    "text_that_is_there_twice": Wanted(["result ≡ a", "result ≡ 0"], BAD, False),
}
# Edits in a batch of their own, which the prover can't read because of one of them: its halves show
# the other.
UNREAD = {
    "another_type": Wanted(["    MOST", "    true"], BAD, True),
    "beside_another_type": Wanted(["    a // the number", "    0"], REFUSED, False),
}


def write(top: Path, name: str, text: str) -> None:
    """Writes a file, in a folder that is made where it isn't there."""
    path = top / name
    path.parent.mkdir(parents=True, exist_ok=True)
    path.write_text(text, encoding="utf-8")


def text_of(lines: Sequence[str]) -> str:
    """The text of an edit with these lines, each old one in front of its new one."""
    words = ("old", "new") * (len(lines) // 2)
    pairs = (f"{word}: {line}\n" for word, line in zip(words, lines))
    return "".join(["file: src/lib.rt\n", *pairs])


def make(top: Path, edits: dict[str, Wanted]) -> None:
    """Makes a repository of one crate with the edits."""
    write(top, "crates.txt", "tiny:\n")
    write(top, "crates/tiny/src/lib.rt", CODE)
    write(top, "crates/tiny/proofs/picked/Answers.antt", ANSWERS)
    write(top, "crates/tiny/proofs/told/Answers.antt", TOLD)
    for name, wanted in edits.items():
        write(top, f"crates/tiny/edits/{name}.edit", text_of(wanted.lines))
