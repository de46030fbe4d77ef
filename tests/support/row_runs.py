"""The runs of the rows of the tables: words, the plan, and how the run must end."""
import importlib
import re
from collections.abc import Iterator, Sequence
from dataclasses import dataclass
from pathlib import Path
from typing import NamedTuple

from tests.rows import (
    NOTHING,
    Anywhere,
    Asked,
    Canonical,
    Checked,
    Fault,
    Followed,
    Formed,
    Large,
    Placed,
    Refused,
    Reported,
    Row,
    Shown,
)
from tests.support.running import FAULTS


NAMES = (
    "reports fences names keeps sweeps findings refusals follows questions texts limits witnesses"
    " forms placed anywhere"
).split()
# The functions of the library that are run by themselves.
PLAIN, READ = "plain", "read"
NO_FINDINGS = NOTHING, b'{"findings":[]}\n'


class Ended(NamedTuple):
    """How a run ends: its status, and what it writes to standard output and to standard error."""

    status: int = 0
    wrote: bytes = b""
    said: bytes = b""


@dataclass(frozen=True)
class RowRun:
    """A run of a row."""

    words: list[str]
    # The plan on standard input.
    plan: bytes
    # How it must end.
    ended: Ended
    # Whether only the end of what it writes is told.
    is_tail: bool = False

    def fits(self, ended: Ended) -> bool:
        """Whether it ended as it must."""
        if not self.is_tail:
            return ended == self.ended
        is_same = ended._replace(wrote=b"") == self.ended._replace(wrote=b"")
        return is_same and ended.wrote.endswith(self.ended.wrote)


Runs = Iterator[RowRun]


def refused(fault: str, function: str = "") -> Ended:
    """How a run ends that is refused. A function that is run by itself says first where it was
    refused."""
    number = FAULTS.index(fault.partition(" ")[0]) + 1
    stage = b"within\n" if function else b""
    return Ended(status=2, said=stage + f"wire_up: fault {number} {fault}\n".encode())


def answered(answer: bytes | Fault, function: str = "") -> Ended:
    """How a run ends that has an answer, or a fault in its place."""
    if isinstance(answer, Fault):
        return refused(answer.words, function)
    return Ended(wrote=answer)


def found(plan: bytes, findings: bytes, form: Sequence[str] = ()) -> RowRun:
    """The run of `check` that finds this."""
    return RowRun(["check", *form], plan, Ended(int(findings not in NO_FINDINGS), findings))


class RowRuns:
    """The runs of each row. What a row doesn't hold, such as a canonical text, the program itself
    writes."""

    def __init__(self, room: Path) -> None:
        self.room = room

    def run(self, words: list[str], plan: bytes) -> Ended:
        """Runs the program, or a function by itself."""
        raise NotImplementedError

    def written(self, row: Row, ending: str, text: bytes) -> str:
        """The path of a file of a row, whose name no other row of its table has."""
        name = re.sub(r"[^a-z0-9]+", "-", row.name.lower())
        path = self.room / f"{name}.{ending}"
        path.write_bytes(text)
        return str(path)

    def of_version_2(self, plan: bytes) -> bytes:
        """The text of a plan under version 2."""
        text = self.run(["migrate"], plan).wrote
        return text if text.startswith(b"rehearsal 2\n") else b""

    def of_reported(self, row: Reported) -> Runs:
        text, moved = self.run([READ], row.plan).wrote, self.of_version_2(row.plan)
        report = Ended(wrote=row.report)
        yield RowRun([READ], text, Ended(wrote=text))
        for plan in (row.plan, text, moved):
            yield RowRun([PLAIN], plan, report)
        yield from self.of_findings(row.plan, row.findings)
        if row.findings == NOTHING:
            yield RowRun(["replay"], row.plan, report)
            yield RowRun(["replay", "--workers", "2"], row.plan, report)

    def of_findings(self, plan: bytes, findings: bytes) -> Runs:
        moved = self.of_version_2(plan)
        for text in (plan, moved):
            yield found(text, findings)
        yield RowRun(["migrate"], moved, Ended(wrote=moved))
        if findings != NOTHING:
            yield RowRun(["replay"], plan, Ended(1, findings))

    def of_refused(self, row: Refused) -> Runs:
        yield RowRun([PLAIN], row.plan, refused(row.fault, PLAIN))
        for command in ("check", "replay", "migrate"):
            yield RowRun([command], row.plan, refused(row.fault))

    def of_followed(self, row: Followed) -> Runs:
        plan, order = self.written(row, "plan", row.plan), self.written(row, "order", row.order)
        yield RowRun(["follow", order], row.plan, answered(row.answer))
        yield RowRun(["follow", order, plan], b"", answered(row.answer))

    def of_asked(self, row: Asked) -> Runs:
        yield RowRun(["why", *row.words.split()], row.plan, answered(row.answer))

    def of_canonical(self, row: Canonical) -> Runs:
        for plan in (row.plan, row.text):
            yield RowRun([READ], plan, Ended(wrote=row.text))

    def of_large(self, row: Large) -> Runs:
        is_numbered = b"%d" in row.piece
        pieces = (row.piece % number if is_numbered else row.piece for number in range(row.times))
        plan = b"".join([row.head, *pieces, row.tail])
        is_tail = not isinstance(row.answer, Fault)
        yield RowRun([PLAIN], plan, answered(row.answer, PLAIN), is_tail)
        yield RowRun(["replay"], plan, answered(row.answer), is_tail)

    def of_shown(self, row: Shown) -> Runs:
        is_shown = row.text.startswith(b"shown ")
        words = ["witness", *row.words.split()]
        yield RowRun(words, row.plan, Ended(int(is_shown), row.text))

    def of_placed(self, row: Placed) -> Runs:
        yield RowRun(["place", row.ranks], row.plan, answered(row.answer))
        if isinstance(row.answer, bytes):
            yield RowRun(["place", row.ranks], row.answer, answered(row.answer))

    def of_anywhere(self, row: Anywhere) -> Runs:
        found, _, differing = row.verdict.partition(b"findings ")
        is_clean = not found and differing.endswith(b"differing 0\n")
        words = ["check", "--anywhere"]
        yield RowRun([*words, "--same"], row.plan, Ended(int(not is_clean), row.verdict))
        verdict = row.verdict if found else NOTHING
        yield RowRun(words, row.plan, Ended(int(bool(found)), verdict))

    def of_formed(self, row: Formed) -> Runs:
        checked, report = found(row.plan, row.findings, ["--json"]), Ended(wrote=row.report)
        yield checked
        replayed = checked.ended if checked.ended.status else report
        yield RowRun(["replay", "--json"], row.plan, replayed)
        if row.order:
            order = self.written(row, "order", row.order)
            yield RowRun(["follow", "--json", order], row.plan, report)
        if row.unsettled:
            words = ["replay", "--json", "--anyway"]
            yield RowRun(words, row.plan, Ended(1, row.unsettled))

    def runs_of(self, row: Row) -> list[RowRun]:
        """The runs of a row, by its sort."""
        if isinstance(row, Checked):
            return list(self.of_findings(row.plan, row.findings))
        name = f"of_{type(row).__name__.lower()}"
        return list(getattr(self, name)(row))


def rows_of(table: str) -> list[Row]:
    """All rows of a table: each list that it has."""
    values = vars(importlib.import_module(f"tests.rows.{table}")).values()
    return [row for each_row in values if isinstance(each_row, list) for row in each_row]
