"""What has to be read to believe a statement of docs/guarantees.md: the contract that it names, and
each definition on which that rests. What stands in no contract needn't be read: it is proved.

Usage: python3 -m build.reading NUMBER     prints the files of a statement, with the definitions
                                           that count in each
       python3 -m build.reading --write    writes the table of docs/guarantees.md anew
"""
import functools
import glob
import itertools
import re
import sys
from collections.abc import Sequence
from dataclasses import dataclass

from build.definitions import Item, closure_of, functions_in
from build.places import CRATES, TOP

STATEMENTS = TOP / "docs" / "guarantees.md"
TABLE = re.compile(r"^\| statement \| files .*\n(?:\|.*\n)*", re.M)
SECTION = re.compile(r"^### (?P<number>\d+)\. (?P<title>.*)\n(?P<text>(?s:.*?))(?=^##)", re.M)
# The sentence that says which contract holds.
CONTRACT = re.compile(r"^- Contract: ((?s:.*?))\.\s", re.M)
# A name in it, and the clauses of it that count; else all count.
NAMED = re.compile(
    r"`(\w+)`(?:(?: in `[\w/.]+`)?,[^`;]*(?:`--\w+`)?[^`;]* ?clauses? ((?:`\w+`(?:,| and)? ?)+))?"
)
CLAUSE = re.compile(r"^ +(ensures|requires)\b(?: \*)?(?: (\w+))? \{")


@dataclass(frozen=True)
class Statement:
    """A statement: its number, its title, and the contracts that say it."""

    number: int
    title: str
    contracts: tuple[Item, ...]

    def items(self) -> list[Item]:
        """These, and all that they rest on, file by file."""
        return sorted(closure_of(self.contracts))


@functools.cache
def public_functions() -> dict[str, list[Item]]:
    """The functions of all libraries that stand at the margin, by their names."""
    found: dict[str, list[Item]] = {}
    for path in sorted(glob.glob("*/src/**/*.rt", root_dir=CRATES, recursive=True)):
        for function in functions_in(path):
            if function.text.startswith("pub fn"):
                found.setdefault(function.name, []).append(function)
    return found


def contract_of(item: Item, clauses: Sequence[str]) -> Item:
    """The head of a function, what it requires, and those of its clauses that are named, or all."""
    lines, is_wanted = [], True
    for line in item.text.splitlines():
        if line.strip() in ("{", "{}"):
            break
        begun = CLAUSE.match(line)
        if begun:
            is_wanted = begun[1] == "requires" or not clauses or begun[2] in clauses
        lines += [line] * is_wanted
    return Item(item.path, item.name, "\n".join(lines))


def contracts_in(text: str) -> list[Item]:
    """The contracts that a section names, each once."""
    wanted: dict[str, list[str]] = {}
    for sentence in CONTRACT.findall(text):
        for name, clauses in NAMED.findall(sentence):
            wanted.setdefault(name, []).extend(re.findall(r"\w+", clauses))
    functions = public_functions()
    return [
        contract_of(function, wanted[name])
        for name in wanted
        for function in functions.get(name, [])
    ]


def statements() -> list[Statement]:
    """The statements that have a contract."""
    sections = list(SECTION.finditer(STATEMENTS.read_text(encoding="utf-8")))
    found = []
    for section in sections:
        contracts = tuple(contracts_in(section["text"]))
        if contracts:
            found.append(Statement(int(section["number"]), section["title"], contracts))
    return found


def table() -> str:
    """How much has to be read for each statement."""
    rows = ["| statement | files | definitions | lines |", "|---|---|---|---|"]
    for statement in statements():
        items = statement.items()
        files, lines = len({item.path for item in items}), sum(item.lines() for item in items)
        rows.append(
            f"| {statement.number}. {statement.title} | {files} | {len(items)} | {lines:,} |"
        )
    return "\n".join(rows) + "\n"


def listing(statement: Statement) -> str:
    """The files of a statement, and the definitions in each."""
    found = []
    for path, items in itertools.groupby(statement.items(), lambda item: item.path):
        here = list(items)
        names = ", ".join(dict.fromkeys(each_item.name for each_item in here))
        found.append(f"{path}: {sum(other_item.lines() for other_item in here)} lines: {names}\n")
    return "".join(found)


def write_table() -> None:
    """Writes the table anew where it stands."""
    text, rows = STATEMENTS.read_text(encoding="utf-8"), table()
    STATEMENTS.write_text(TABLE.sub(lambda _: rows, text), encoding="utf-8")


def main(words: Sequence[str]) -> int:
    chosen = [statement for statement in statements() if [str(statement.number)] == list(words)]
    if chosen:
        print(listing(chosen[0]), end="")
    elif list(words) == ["--write"]:
        write_table()
    else:
        print(__doc__, file=sys.stderr)
        return 1
    return 0


if __name__ == "__main__":
    sys.exit(main(sys.argv[1:]))
