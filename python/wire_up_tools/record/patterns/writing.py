"""Writes the pattern of a plan, if there is one: the first way to part its ranks into roles whose
scripts expand to the plan."""
from collections.abc import Mapping, Sequence
from dataclasses import dataclass, field

from wire_up_tools.record.patterns.expanding import Choices, Line, expand, read_pattern
from wire_up_tools.record.patterns.finding import (
    Broken,
    Loop,
    RoleScript,
    Told,
    find_scripts,
    order_turns,
)
from wire_up_tools.record.patterns.joining import add_item
from wire_up_tools.record.patterns.scripts import ANY_VALUE, VALUES, Script, choose_roles
from wire_up_tools.words import PATTERN_BY


@dataclass(frozen=True)
class Pattern:
    """The text of a pattern, and whether values are left out, since those of the ranks differ."""

    text: str
    has_other_values: bool


@dataclass
class Walk:
    """What the ranks of a role do in its script: which values each line has, by its number, and
    whom each loop of some ranks is over, by its number and the rank."""

    values: dict[int, set[str]] = field(default_factory=dict)
    choices: dict[tuple[int, str], Sequence[str]] = field(default_factory=dict)


def find_value(words: Sequence[str]) -> str:
    """The value of a call; nothing where it has none."""
    at = VALUES.get(words[0])
    return words[at] if at is not None else ""


def find_turns(loop: Loop, told: Told, at: int) -> Sequence[str]:
    """Whom a loop of a rank is over that begins at a call."""
    others = order_turns(loop.group.ranks, told.rank, loop.is_cyclic)
    if not loop.is_some:
        return others
    chosen = []
    for other in others:
        turn = loop.make_turn(other)
        if list(told.calls[at:at + len(turn)]) == turn:
            at += len(turn)
            chosen.append(other)
    return chosen


def walk(script: RoleScript, calls: Mapping[str, Sequence[Sequence[str]]]) -> Walk:
    """What the ranks of a role do in its script."""
    found = Walk()
    for told in script.told:
        at, line, own = 0, 0, calls[told.rank]
        for number, item in enumerate(script.items):
            lines = item.lines if isinstance(item, Loop) else [item]
            turns: Sequence[str] = [""]
            if isinstance(item, Loop):
                turns = find_turns(item, told, at)
                found.choices[number, told.rank] = turns
            for n in range(len(turns) * len(lines)):
                value = find_value(own[at + n])
                found.values.setdefault(line + n % len(lines), set()).add(value)
            at += len(turns) * len(lines)
            line += len(lines)
    return found


def write_items(script: RoleScript, values: Mapping[int, set[str]]) -> list[str]:
    """The lines of a script, with the values that all ranks have."""
    written, line = list[str](), 0
    for item in script.items:
        lines = item.lines if isinstance(item, Loop) else [item]
        own = values_of(values, line, len(lines))
        said = [each_line.replace("\0", value) for each_line, value in zip(lines, own)]
        add_item(written, [item.head, *said, "end"] if isinstance(item, Loop) else said)
        line += len(lines)
    return written


def values_of(values: Mapping[int, set[str]], first: int, count: int) -> list[str]:
    """The value of each line: that of all ranks, or what stands for any."""
    found = (values.get(number, set()) for number in range(first, first + count))
    return [next(iter(value)) if len(value) == 1 else ANY_VALUE for value in found]


def write_roles(scripts: Sequence[RoleScript], walks: Sequence[Walk]) -> str:
    """The text of a pattern."""
    sizes = ", ".join(
        f"{len(script.role.ranks)} {script.role.name}" for script in scripts if script.role.is_group
    )
    written = [
        f"# {PATTERN_BY}, from one run{f' with {sizes}' if sizes else ''}. That other numbers "
        "do the same is a guess.",
        "pattern 1",
    ]
    job = None
    for script, walked in zip(scripts, walks):
        if script.role.job != job:
            job = script.role.job
            written.append(f"job {job}")
        written.append(f"{'many' if script.role.is_group else 'one'} {script.role.name}")
        written += write_items(script, walked.values)
    return "".join(f"{text}\n" for text in written)


def forget_value(words: Sequence[str]) -> Sequence[str]:
    """A call without its value."""
    at = VALUES.get(words[0])
    return [ANY_VALUE if n == at else word for n, word in enumerate(words)]


def why_other(
    text: str, scripts: Sequence[RoleScript], choices: Choices, plan: Sequence[Script]
) -> Broken | bool:
    """Where a pattern doesn't expand to a plan, or whether it does so with other values alone."""
    sizes = {script.role.name: len(script.role.ranks) for script in scripts}
    expanded: Mapping[str, Sequence[Line]] = expand(read_pattern(text), sizes, choices)
    has_other_values = False
    for script in plan:
        own = expanded.get(script.rank, ())
        for number, (one, other) in enumerate(zip(script.calls, own), 1):
            if forget_value(one) != forget_value(other):
                return Broken(script.rank, number, f"the pattern has `{' '.join(other)}`")
            has_other_values |= list(one) != list(other)
        if len(own) != len(script.calls):
            return Broken(script.rank, min(len(own), len(script.calls)) + 1)
    return has_other_values


def say_broken(broken: Broken, plan: Sequence[Script]) -> str:
    """Which call breaks a pattern."""
    calls = next(script.calls for script in plan if script.rank == broken.rank)
    has_it = broken.number <= len(calls)
    what = f"`{' '.join(calls[broken.number - 1])}`" if has_it else "it has no more calls"
    return f"{broken.rank} {broken.number}: {what}{f': {broken.why}' if broken.why else ''}"


def make_pattern(plan: Sequence[Script]) -> Pattern | Broken:
    """The pattern of a plan; or where the way that goes furthest breaks."""
    calls = {each_script.rank: each_script.calls for each_script in plan}
    broken: list[Broken] = []
    for roles in choose_roles(plan):
        scripts = find_scripts(roles, plan)
        if isinstance(scripts, Broken):
            broken.append(scripts)
            continue
        walks = [walk(each_script, calls) for each_script in scripts]
        choices = {
            (script.role.name, *key): turns
            for script, walked in zip(scripts, walks)
            for key, turns in walked.choices.items()
        }
        text = write_roles(scripts, walks)
        other = why_other(text, scripts, choices, plan)
        if isinstance(other, bool):
            return Pattern(text, other)
        broken.append(other)
    return max(broken, key=lambda each_broken: each_broken.number)
