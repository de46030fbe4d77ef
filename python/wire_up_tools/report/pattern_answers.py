"""What `wire_up check --pattern` says of a pattern without findings: reads it, and says it in
words."""
import re
from collections.abc import Sequence
from dataclasses import dataclass, field

from wire_up_tools.report.phrases import count_of, name_all

EVERYWHERE = "for every number of ranks on every placement"
NOTHING = f"findings 0 {EVERYWHERE}"
ANSWERED = "every call is answered for every number of ranks"
# Of a pattern without groups.
JUDGED = "every call is answered for the instances that are judged, not known for others"
UP_TO = re.compile(r"every call is answered for up to (\S.*), not known for more")
LATER = re.compile(r"later ([1-9]\d*) (\S+) ([1-9]\d*) (\S+)")
LEAST = re.compile(r"at least ([1-9]\d*) (\S+)")
WAITS = re.compile(r"waits (\S+) ([1-9]\d*) (\S+)")
ANSWERS = re.compile(r"answers (\S+) ([1-9]\d*) (\S+) (\S.*)")
SUCCESS, NEVER = "PMIX_SUCCESS", "none"


@dataclass(frozen=True)
class CallLine:
    """A call of a pattern: its role, its number there from 1, and its verb."""

    role: str
    number: int
    verb: str

    @property
    def name(self) -> str:
        """How it is named."""
        return f"{self.role} {self.number} {self.verb}"

    def is_at(self, role: str, number: int) -> bool:
        """Whether it is the call of this number in a role."""
        return (self.role, self.number) == (role, number)


@dataclass(frozen=True)
class Failing:
    """A call that doesn't succeed in some plan of a pattern, and all its statuses."""

    call: CallLine
    statuses: Sequence[str]


@dataclass
class Settled:
    """What is said of a pattern without findings: how many ranks a group has at least, where that
    is more than none; whether every call is answered at every size; up to how many ranks of each
    group it is, in words, where no more is known; the calls that wait for ever in plans that were
    judged, and those that fail there; those that wait in larger plans first, and with how many
    ranks of each group; and whether each call is said to succeed in all of these."""

    is_complete: bool
    least: list[tuple[int, str]] = field(default_factory=list)
    is_answered: bool = False
    waits: list[CallLine] = field(default_factory=list)
    fails: list[Failing] = field(default_factory=list)
    later: list[CallLine] = field(default_factory=list)
    later_size: int = 0
    up_to: str = ""

    def take(self, line: str) -> bool:
        """Takes a line of the answer. Answers whether it has one of the forms."""
        least, waits = LEAST.fullmatch(line), WAITS.fullmatch(line)
        answers = ANSWERS.fullmatch(line)
        if self.take_of_size(line):
            return True
        if line == ANSWERED:
            self.is_answered = True
        elif least:
            self.least.append((int(least[1]), least[2]))
        elif waits:
            self.waits.append(CallLine(waits[1], int(waits[2]), waits[3]))
        elif answers:
            self.add_statuses(CallLine(answers[1], int(answers[2]), answers[3]), answers[4])
        return line in (ANSWERED, JUDGED) or bool(least or waits or answers)

    def take_of_size(self, line: str) -> bool:
        """Takes a line about plans of a larger size. Answers whether it is one."""
        later, up_to = LATER.fullmatch(line), UP_TO.fullmatch(line)
        if later:
            self.later_size = int(later[1])
            self.later.append(CallLine(later[2], int(later[3]), later[4]))
        elif up_to:
            self.up_to = up_to[1]
        return bool(later or up_to)

    def add_statuses(self, call: CallLine, said: str) -> None:
        """Takes the statuses of a call: one that is never answered doesn't fail."""
        statuses = said.split()
        if statuses not in ([SUCCESS], [NEVER]):
            self.fails.append(Failing(call, statuses))

    @property
    def named(self) -> list[CallLine]:
        """The calls that wait for ever or fail."""
        return [*self.waits, *self.later, *(failing.call for failing in self.fails)]


def read_settled(lines: Sequence[str], *, is_complete: bool) -> Settled | None:
    """What an answer says whose first line is that nothing is found; None for one of another form.
    `is_complete`: whether each call is said to succeed."""
    said = Settled(is_complete)
    if lines[:1] != [NOTHING] or not all([said.take(line) for line in lines[1:]]):
        return None
    return said


def say_where(said: Settled) -> str:
    """For which numbers of ranks a verdict holds."""
    least = name_all([f"at least {count} {role}" for count, role in said.least])
    return f"for every number of ranks ({least}) on every placement" if least else EVERYWHERE


def say_settled(said: Settled) -> str:
    """The verdict, with the calls that wait for ever or fail."""
    parts = [f"no race, {say_where(said)}"]
    if said.waits:
        what = count_of(len(said.waits), "call waits", "calls wait")
        names = ", ".join(call_line.name for call_line in said.waits)
        parts.append(f"{what} for ever in some of its plans: {names}")
    if said.later:
        what = count_of(len(said.later), "call waits", "calls wait")
        names = ", ".join(call_line.name for call_line in said.later)
        parts.append(f"with {said.later_size} ranks of each group {what} for ever: {names}")
    if said.fails:
        what = count_of(len(said.fails), "call fails", "calls fail")
        parts.append(
            f"{what} in some of its plans: {', '.join(failing.call.name for failing in said.fails)}"
        )
    elif said.is_answered and not said.is_complete:
        parts.append("a call fails in some of its plans")
    if said.is_answered:
        parts.append("every call is answered at every size")
    return "; ".join(parts)


def explain_settled(said: Settled) -> str:
    """What the verdict means."""
    if said.waits:
        return (
            "Each plan of the pattern has one end, whichever ranks are fast. In some plans a rank "
            "waits there for ever: what comes after that call is never reached."
        )
    parts = [
        "However many ranks its groups have, on whichever nodes they are, and whichever of them "
        "are fast: each plan of the pattern has one end."
    ]
    if said.is_answered:
        parts.append("No call waits for ever there.")
    elif said.later:
        parts.append(
            f"No call waits for ever in its small plans. With {said.later_size} ranks of each "
            "group a rank does: what comes after that call is never reached."
        )
    elif said.up_to:
        parts.append(
            f"No call waits for ever with up to {said.up_to}; that none does with more isn't known."
        )
    else:
        parts.append("That no call waits for ever is known of the plans that were judged alone.")
    if said.fails:
        parts.append("In some plans a call ends there with an error.")
    elif said.is_answered and not said.is_complete:
        parts.append("In some plans a call ends there with an error: a replay names it.")
    return " ".join(parts)


def choose_badge(said: Settled) -> tuple[str, str]:
    """The kind of the verdict, and its words: green only where each call is answered, and none
    fails."""
    if said.waits or said.later:
        return "waits", "calls wait for ever"
    if said.fails:
        return "fails", "calls fail"
    if not said.is_answered:
        return "partly", "calls may wait"
    return ("quiet", "no race") if said.is_complete else ("fails", "calls fail")
