"""What the rules say of a plan: the checker is asked."""
import tempfile
from collections.abc import Sequence
from dataclasses import dataclass
from pathlib import Path

from wire_up_tools.checker import Answer, Checker
from wire_up_tools.failures import Refused
from wire_up_tools.files import write_file
from wire_up_tools.run.reports import Report, read_report

SETTLED, FOUND = 0, 1
SHOWN, RACE = "shown ", "race "


@dataclass(frozen=True)
class Expected:
    """The report of the rules; where the plan has races, that of one order, which it has. A plan
    whose findings are rewrites alone is run freely."""

    report: Report
    order: Sequence[str] | None = None
    findings: int = 0


@dataclass(frozen=True)
class Witness:
    """What the rules say of a race: the call that ends differently, how in each of two runs, and
    the orders of these."""

    call: str
    replies: Sequence[str]
    orders: Sequence[Sequence[str]]


def hold_answered(answer: Answer, *statuses: int) -> str:
    """What the checker wrote. Raises Refused, with its fault, if it ended otherwise."""
    if answer.status not in statuses:
        lines = answer.stderr.strip().splitlines()
        raise Refused(lines[0] if lines else f"wire_up ended with status {answer.status}")
    return answer.stdout


def read_order(text: str) -> list[str]:
    """The steps of a text of an order: its lines but comments."""
    words = (line.split() for line in text.splitlines())
    return [word[0] for word in words if word and not word[0].startswith("#")]


def expect(checker: Checker, plan: bytes) -> Expected:
    """What becomes of a plan by the rules. Raises Refused, OSError."""
    answer = checker.ask("replay", plan=plan)
    said = hold_answered(answer, SETTLED, FOUND)
    if answer.status == SETTLED:
        return Expected(read_report(said))
    last = said.split()[-1:]
    if not last or not last[0].isdigit():
        raise Refused("wire_up ended with status 1, and told no findings")
    findings, is_racy = int(last[0]), any(line.startswith(RACE) for line in said.splitlines())
    said = hold_answered(checker.ask("replay", "--anyway", plan=plan), SETTLED, FOUND)
    before, _, after = said.removeprefix("unsettled\n").partition("\norder ")
    order = after.splitlines()[1:] if is_racy else None
    return Expected(read_report(before), order, findings)


def expect_in_order(checker: Checker, plan: bytes, order: str) -> Expected:
    """What becomes of a plan in an order, by the rules. Raises Refused, OSError."""
    with tempfile.TemporaryDirectory(prefix="wire_up-run-") as folder:
        path = Path(folder, "order")
        write_file(path, order)
        said = hold_answered(checker.ask("follow", str(path), plan=plan), SETTLED)
    return Expected(read_report(said), read_order(order))


def ask_witness(checker: Checker, plan: bytes, words: Sequence[str]) -> Witness:
    """Two runs that show a race by the rules. Raises Refused if there are none."""
    said = hold_answered(checker.ask("witness", *words, plan=plan), 0, 1)
    if not said.startswith(SHOWN):
        raise Refused(f"wire_up says of this race: {said.partition(chr(10))[0] or 'nothing'}")
    first, *parts = said.split("\norder ")
    call, *replies = first.splitlines()
    orders = [part.splitlines()[1:] for part in parts]
    return Witness(call.removeprefix(SHOWN), [reply.partition(" ")[2] for reply in replies], orders)
