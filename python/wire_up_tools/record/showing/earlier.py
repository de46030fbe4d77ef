"""A race that is named by the numbers of an earlier plan: where that stands where the plan of a run
will, its user has most likely read the race there."""
import os
from collections.abc import Sequence
from dataclasses import replace

from wire_up_tools.failures import Refused
from wire_up_tools.plan_reading import read_plan
from wire_up_tools.record.showing.asking import Asked
from wire_up_tools.record.showing.material import Say
from wire_up_tools.record.showing.naming import Naming, Target
from wire_up_tools.words import RECORDED_BY


def find_earlier(race: tuple[str, int, str, int] | None, path: str) -> Sequence[Target]:
    """The two calls of a race in an earlier plan at a path; none where there is no such plan.
    Refuses calls that it doesn't have: a run would be made in vain. Raises Refused, OSError."""
    if race is None or not os.path.isfile(path):
        return ()
    with open(path, "rb") as source:
        data = source.read()
    if not data.startswith(f"# {RECORDED_BY}".encode()):
        return ()
    try:
        naming = Naming(read_plan(data))
        return [naming.find(*race[:2]), naming.find(*race[2:])]
    except (ValueError, LookupError):
        return ()
    except Refused as why:
        raise Refused(
            f"{why}: so {path} says, and the command didn't run. If that is of another program, "
            "name another file with -o"
        ) from None


def find_same(naming: Naming, target: Target) -> Target:
    """A call of an earlier plan in that of another run. Raises Refused."""
    is_there = target.process in naming.plan.calls_of
    calls = naming.list_targets(target.process) if is_there else iter(())
    found = next((call for call in calls if call and call.key == target.key), None)
    if found is None:
        raise Refused(
            f"{target.title} ({target.name}) of the plan that was there isn't in that of this run: "
            "--show takes the races of this one"
        )
    return found


def follow_race(asked: Asked, earlier: Sequence[Target], text: str, say: Say) -> Asked:
    """What is asked for, with the numbers that the calls of an earlier plan have in that of this
    run, whose text is given. Raises Refused."""
    if not earlier:
        return asked
    naming = Naming(read_plan(text.encode()))
    first, second = (find_same(naming, target) for target in earlier)
    for target, other in zip(earlier, (first, second)):
        if target.number != other.number:
            say(f"{target.place} of the plan that was there is {other.place} in that of this run")
    return replace(asked, race=(first.process, first.number, second.process, second.number))
