"""The races that are found with --strict alone, by the calls of the plan without it.

Both plans have the calls of one program. Lines that stand for orders may be in one alone, so a call
may have another number there.
"""
from collections.abc import Iterator

from wire_up_tools.checker import Checker
from wire_up_tools.record.draft import Draft
from wire_up_tools.record.planning import Plan
from wire_up_tools.record.writing import write_plan

# How many races are named.
NAMED = 8
# A call of a recording in one of the words of a plan.
Key = tuple[int, str]
# The name of a process, and the number of a call.
Place = tuple[str, int]


def list_strict_races(checker: Checker, plan: Plan, strict: Plan) -> list[str]:
    """The first races of the strict plan that the plan itself doesn't have, as `check` writes them,
    with the numbers that their calls have in the plan. Raises OSError."""
    known = set(ask(checker, plan))
    place_of = {key: place for place, key in list_places(plan.draft)}
    key_of = dict(list_places(strict.draft))
    places = {place: place_of[key] for place, key in key_of.items() if key in place_of}
    said = (translate(line, places) for line in ask(checker, strict))
    return [each_line for each_line in said if each_line and each_line not in known][:NAMED]


def ask(checker: Checker, plan: Plan) -> list[str]:
    """The findings of a plan, as `check` writes them, without their count."""
    answer = checker.ask("check", plan=write_plan(plan).encode())
    return answer.stdout.splitlines()[:-1] if answer.status in (0, 1) else []


def list_places(draft: Draft) -> Iterator[tuple[Place, Key]]:
    """The calls of the program in a draft: where each stands, and which it is."""
    for process, lines in draft.lines.items():
        for number, line in enumerate(lines, 1):
            if line.is_of_program:
                yield (process.name, number), (id(line.call), line.words)


def translate(line: str, places: dict[Place, Place]) -> str | None:
    """A race with the numbers of the other plan; None for what is none, or where that has no such
    calls."""
    words = line.split(" ")
    if words[0] != "race":
        return None
    one, other = ((words[at], int(words[at + 1])) for at in (1, 3))
    if one not in places or other not in places:
        return None
    calls = [f"{process} {number}" for process, number in (places[one], places[other])]
    return " ".join([words[0], *calls, *words[5:]])
