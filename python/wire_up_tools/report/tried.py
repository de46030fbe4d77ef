"""What the head of a recorded plan says of races and orders that were tried in the program."""
import re
from collections.abc import Iterator
from dataclasses import dataclass

from wire_up_tools import words
from wire_up_tools.plan import Plan
from wire_up_tools.report.findings import Finding
from wire_up_tools.report.markup import escape
from wire_up_tools.report.phrases import count_of

TITLES = {
    "shown": "Shown in your program",
    "shown-later": "Shown in your program, in later calls",
    "alike": "Not seen in your program",
    "not-made": "Not made in your program",
}
WORDS = {start: word for word, start in words.TRIED_IN_HEAD.items()}
STARTS = "|".join(map(re.escape, WORDS))
CALLS = r"race (\S+ \d+) (\S+ \d+) (?:name \S+|key \S+ \S+)"
TRIED = re.compile(rf"({STARTS}) on (\S+): {CALLS}: (.+)")
IN_VAIN = re.compile(
    rf"{words.TURNED_IN_VAIN} (\S+): (\d+) of (\d+) pairs(, {words.ALL_PAIRS})?"
)
TURNED = re.compile(rf"{words.TURNED_ROUND} [\d-]+: (.+)")
# Those that are no alarm, by the word for what came of them, and how many are told.
NO_ALARM = re.compile(rf"{words.TURNED_ROUND} [\d-]+, ([a-z-]+): (.+)")
TOLD = {
    "turned-alike": "An order of this run isn't imposed, but nothing differed: ",
    "gave-up": "The library doesn't wait as the rules say: ",
}
MOST_TOLD = 4
# How the end of a race is told that ended otherwise in both orders.
ENDED_OTHERWISE = re.compile(r"; ended [^;]+ and [^;]+(;|$)")


@dataclass(frozen=True)
class Tried:
    """A race that was tried: the word for what came of it, on which day, what that was, and its two
    calls."""

    word: str
    day: str
    said: str
    calls: tuple[str, str]

    @property
    def orders(self) -> str:
        """Which order each of two things that are said comes from; nothing where none was made."""
        first, second = self.calls
        is_made = self.word.startswith("shown") and words.BY_WITNESS not in self.said
        return f", with {first} first, and then with {second} first" if is_made else ""

    @property
    def title(self) -> str:
        """What came of it, in a few words."""
        return TITLES[self.word]

    @property
    def ends_otherwise(self) -> bool:
        """Whether the program ends otherwise in one of the orders."""
        return self.word == "shown" and ENDED_OTHERWISE.search(self.said) is not None


def find_tried(plan: Plan, finding: Finding) -> Tried | None:
    """What came of a finding that was tried; None where it wasn't."""
    names = {call.name for call in finding.calls}
    for hit in map(TRIED.fullmatch, plan.declared.head if plan.is_recorded else ()):
        if hit and {hit[3], hit[4]} == names:
            return Tried(WORDS[hit[1]], hit[2], hit[5], (hit[3], hit[4]))
    return None


def find_command(plan: Plan, finding: Finding) -> str | None:
    """The command that tries a finding again: it stands below what came of that."""
    names, is_found = {call.name for call in finding.calls}, False
    for line in plan.declared.head:
        read = TRIED.fullmatch(line)
        is_found = is_found or (read is not None and {read[3], read[4]} == names)
        if is_found and line.startswith(words.TRIED_BY):
            return line.removeprefix(words.TRIED_BY)
    return None


def find_turned(plan: Plan) -> Iterator[str]:
    """The orders of the plan that aren't imposed, so that its verdict doesn't hold."""
    found = map(TURNED.fullmatch, plan.declared.head if plan.is_recorded else ())
    return (hit[1] for hit in found if hit)


def say_turned(plan: Plan) -> list[str]:
    """Why a verdict holds only in part, by orders that were turned round; one line for each."""
    return [f"an order of the recorded run isn't imposed: {text}" for text in find_turned(plan)]


def say_no_alarms(plan: Plan) -> list[str]:
    """The first orders that were turned round, but don't change the verdict."""
    found = map(NO_ALARM.fullmatch, plan.declared.head if plan.is_recorded else ())
    told = [f"{TOLD[hit[1]]}{hit[2]}." for hit in found if hit and hit[1] in TOLD]
    return told[:MOST_TOLD]


def say_all_kept(plan: Plan) -> str | None:
    """That the program kept each order of the plan, if that was tried of all."""
    found = map(IN_VAIN.fullmatch, plan.declared.head if plan.is_recorded else ())
    kept = next((hit for hit in found if hit and hit[4] and hit[2] == hit[3]), None)
    if not kept:
        return None
    count = count_of(int(kept[2]), "order")
    how = "though calls were held back"
    return f"On {kept[1]} it kept, {how}, all that could change them: {count}."


def say_in_vain(plan: Plan) -> list[str]:
    """How many orders were turned round in vain; nothing where none were."""
    found = map(IN_VAIN.fullmatch, plan.declared.head if plan.is_recorded else ())
    return [
        f"{count_of(int(hit[2]), 'order')} of {hit[3]} that were turned round in the program on "
        f"{hit[1]} held: the later call never came first."
        + f" These are {words.ALL_PAIRS}." * bool(hit[4])
        for hit in found
        if hit
    ]


def write_tried(plan: Plan, finding: Finding) -> list[str]:
    """What came of a finding in the program, for a page; nothing where it wasn't tried."""
    tried, command = find_tried(plan, finding), find_command(plan, finding)
    if tried is None:
        return []
    again = f"<p>This does it again: <code>{escape(command)}</code></p>" if command else ""
    said = f"<p>{escape(tried.day + tried.orders)}: {escape(tried.said)}</p>{again}"
    return [f'<div class="runs"><h3>{tried.title}</h3>{said}</div>']


def write_tried_text(plan: Plan, finding: Finding) -> list[str]:
    """The same, for a terminal."""
    tried, command = find_tried(plan, finding), find_command(plan, finding)
    if tried is None:
        return []
    again = [f"   This does it again: {command}"] if command else []
    return [f"   {tried.title} on {tried.day}{tried.orders}: {tried.said}", *again]
