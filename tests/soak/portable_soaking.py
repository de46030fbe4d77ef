"""Holds what `check --portable` says of small random plans.

- For each library that it names, the conditions hold as a second reader has them
  (portable_conditions.py), on the plan's nodes and anywhere; and it names each of which they hold,
  but where only some calls of a fence come: of these the program looks at all.
- Its lines are those of the second reader, but where a key is put again, and where calls of fences
  don't all come or spell a set in two ways, or with repeats.
- If nothing is found besides, no library that it names may do anything else than the rules say, by
  all that the axioms allow (portable_histories.py).
"""
import random

from tests.models import grammar
from tests.models.library_axioms import LIBRARIES
from tests.models.library_plans import Facts
from tests.models.portable_conditions import JUDGED, Asked, tell
from tests.models.portable_histories import find_divergence
from tests.soak import small_plans
from tests.soak.soak_runner import Difference, Runner, same


# A plan with more states than so many is left out of the search.
MOST_STATES = 20_000


def random_file(chance: random.Random) -> tuple[bytes, int]:
    """A plan, which isn't damaged."""
    return small_plans.make_one(chance).encode(), 0


def read_libraries(line: str) -> set[str]:
    """The libraries that a last line names."""
    return set(line.removeprefix("portable ").split(",")) - {"none"}


def comes_in_part(facts: Facts) -> bool:
    """Whether only some of the calls of a fence come."""
    fences = facts.plan.arrivals.values()
    come = ({call in facts.plan.past for call in calls.values()} for calls in fences)
    return any(len(group) > 1 for group in come)


def is_plain(facts: Facts) -> bool:
    """Whether no key is put again, and no set is spelt in two ways or with repeats."""
    spelt: dict[frozenset[int], set[object]] = {}
    for call in facts.plan.fence_of:
        spelt.setdefault(facts.members(call), set()).add(facts.spell(call))
    is_alike = all(len(group) == 1 and None not in group for group in spelt.values())
    return is_alike and all(len(put) == 1 for put in facts.plan.puts.values())


def hold_lines(lines: list[str], facts: Facts, asked: Asked) -> None:
    """Holds the lines behind the findings to the second reader."""
    wanted, is_partly = tell(facts, asked), comes_in_part(facts)
    told, held = read_libraries(lines[-1]), read_libraries(wanted[-1])
    if is_plain(facts) and not is_partly:
        same("other lines than the conditions have", wanted, lines, asked)
    elif not told <= held or told != held and not is_partly:
        raise Difference("other libraries than the conditions hold for", f"{wanted} and {lines}")


def hold_libraries(facts: Facts, named: set[str]) -> int:
    """Holds each library that is named to the rules. Answers how many were looked through."""
    count = 0
    for library, name in JUDGED.items():
        if name in named:
            for found in find_divergence(facts, LIBRARIES[library], MOST_STATES):
                count += 1
                if found:
                    raise Difference("a library does otherwise on a portable plan", found)
    return count


def hold(runner: Runner, text: bytes) -> str:
    """Holds all answers about a plan. Answers its kind."""
    facts, path = Facts(text), runner.written("small.plan", text)
    named: set[str] = set()
    for anywhere in (True, False):
        words = ["--anywhere"] * anywhere
        ran = runner.run("check", "--portable", *words, path)
        findings, _, lines = ran.wrote.decode().partition("findings ")
        asked = Asked(anywhere=anywhere, is_racy=bool(findings))
        hold_lines(lines.splitlines()[1:], facts, asked)
        named = read_libraries(lines.splitlines()[-1])
    runner.held["check --portable"] += 2
    if not findings:
        runner.held["library"] += hold_libraries(facts, named)
    return "with findings" if findings else "without findings"


def difference_of(runner: Runner, text: bytes, _seed: int) -> tuple[Difference | None, str]:
    """What shows a difference, and the kind of the plan."""
    try:
        grammar.read(text)
    except grammar.Refused:
        return None, "refused"
    try:
        return None, hold(runner, text)
    except Difference as failure:
        return failure, "different"
