"""Writes loops with the same lines as one, over several roles."""
from collections.abc import Sequence

HEAD, END = "for some ", "end"
# How many roles a loop may list.
MOST_ROLES = 8


def add_item(written: list[str], item: Sequence[str]) -> None:
    """Adds the lines of an item of a script. A loop over some ranks of a role becomes one with the
    loop before it, where their lines are the same."""
    before = written[-len(item):]
    are_loops = item[-1] == END and all(row[0].startswith(HEAD) for row in (before, item) if row)
    if are_loops and list(before[1:]) == list(item[1:]):
        listed, role = before[0].removeprefix(HEAD).split(","), item[0].removeprefix(HEAD)
        if role not in listed and len(listed) < MOST_ROLES:
            written[-len(item)] += f",{role}"
            return
    written += item
