"""Numbers, names and long texts as a report says them."""
from collections.abc import Sequence

# How many characters of a value are shown.
VALUE_WIDTH = 60
# How many names are listed before the rest is counted.
NAMES = 6


def count_of(number: int, noun: str, plural: str | None = None) -> str:
    """A number with its noun: `1 rank`, `2,047 ranks`."""
    return f"{number:,} {noun if number == 1 else plural or noun + 's'}"


def pick(number: int, singular: str, plural: str) -> str:
    """The form of a verb that goes with a number."""
    return singular if number == 1 else plural


def cut(text: str, most: int) -> str:
    """A text of at most so many characters."""
    return text if len(text) <= most else f"{text[: most - 1]}…"


def cut_middle(text: str, most: int) -> str:
    """A text of at most so many characters, of which the first and the last are kept."""
    if len(text) <= most:
        return text
    end = (most - 1) // 2
    return f"{text[: most - 1 - end]}…{text[len(text) - end:]}"


def list_names(names: Sequence[str]) -> str:
    """Names in a row, cut where there are many."""
    shown = ", ".join(names[:NAMES])
    return shown if len(names) <= NAMES else f"{shown} and {len(names) - NAMES:,} more"


def name_all(names: Sequence[str]) -> str:
    """Names as a sentence has them."""
    return " and ".join(names) if len(names) == 2 else list_names(names)


def say_never(ranks: Sequence[str]) -> str:
    """Which ranks wait for what never comes."""
    return f"{name_all(ranks)} {pick(len(ranks), 'waits', 'wait')} for what never comes."


def describe_circle(circle: Sequence[str]) -> str:
    """Names of ranks that wait for each other in a circle, in words."""
    shown = [*circle[1:9], *([".."] if len(circle) > 9 else []), circle[0]]
    return f"{circle[0]} waits for {', which waits for '.join(shown)}"
