"""The chain of calls that orders two calls, as `wire_up why --json` tells it."""
from collections.abc import Sequence

from wire_up_tools.plan import Call, Plan
from wire_up_tools.report.asking import Asker, name_pair, read_json


def find_chain(asker: Asker, plan: Plan, first: Call, second: Call) -> Sequence[Call]:
    """The calls of the chain from one call to another; none, where no chain leads there.

    A fence of which the chain has both halves is there twice. Raises Refused if the checker can't
    be run, or writes a chain of another form.
    """
    said = read_json(asker.ask("why", "--lines", "--json", *name_pair(first, second)))
    if said.get("before") != "first":
        return []
    try:
        return [plan.find_call(line["proc"], line["call"]) for line in said["chain"]]
    except (LookupError, TypeError):
        raise asker.refuse("chain") from None
