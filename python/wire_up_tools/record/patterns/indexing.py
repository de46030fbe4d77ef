"""Numbers of ranks in keys and names, as indices: `port3` of each rank becomes `port#[app:3]`, so
that one line of a pattern says it for all ranks. No two keys or names become one."""
import collections
import re
from collections.abc import Iterable, Iterator, Mapping, Sequence
from dataclasses import dataclass

from wire_up_tools.record.patterns.scripts import Script

# Where a key or a name stands among the words of a call.
KEY_AT = {
    "put": 2, "get": 2, "get-now": 2, "publish": 1, "unpublish": 1, "lookup": 1, "lookup-wait": 1
}
# What stands in a key for a number that became an index, and what isn't looked into.
PLACE, EVERY_NAME = "#", "*"
NUMBER = re.compile(r"\d+")
# The name of an order: what it is of, its ranks, and the how many-th it is of them.
ORDER = re.compile(r"(?P<mark>[^.]+)\.(?P<ranks>.+?)\.(?P<number>\d+(\.begun)?)")

# The texts between the numbers of a key, and which of its numbers are ranks, from 0.
Template = tuple[str, ...]
Places = Mapping[Template, Sequence[int]]


@dataclass(frozen=True)
class Named:
    """The keys and names of the calls of one job, and how many ranks it has."""

    keys: frozenset[str]
    size: int


def find_key(words: Sequence[str]) -> str:
    """The key or the name of a call; nothing where it has none, or every one."""
    at = KEY_AT.get(words[0])
    return "" if at is None or words[at] == EVERY_NAME else words[at]


def name_all(calls: Iterable[Sequence[str]], size: int) -> Named:
    """The keys and names of the calls of a job with so many ranks."""
    return Named(frozenset(filter(None, map(find_key, calls))), size)


def cut(key: str) -> tuple[Template, Sequence[int]]:
    """The texts between the numbers of a key, and the numbers. A key with brackets, or with a
    number that another text spells too, has none."""
    numbers = NUMBER.findall(key)
    if any(text in key for text in (PLACE, "[", "]")) or any(
        str(int(number)) != number for number in numbers
    ):
        return (key,), ()
    return tuple(NUMBER.split(key)), [int(number) for number in numbers]


def find_places(plans: Sequence[Named]) -> Places:
    """Which numbers of keys are ranks: those at a place that has nothing but ranks in all plans,
    several in one, and not the same in all of several sizes: such are of rounds, say."""
    found: dict[Template, list[list[Sequence[int]]]] = collections.defaultdict(list)
    for plan in plans:
        here: dict[Template, list[Sequence[int]]] = collections.defaultdict(list)
        for key in plan.keys:
            template, numbers = cut(key)
            here[template].append([*numbers, plan.size])
        for template, rows in here.items():
            found[template].append(rows)
    chosen = {pair: list(choose(pair, them)) for pair, them in found.items()}
    return {pair: places for pair, places in chosen.items() if places}


def choose(template: Template, plans: Sequence[Sequence[Sequence[int]]]) -> Iterator[int]:
    """Which numbers of a template are ranks, from those of its keys in each plan. The last of each
    row is how many ranks there are."""
    for place in range(len(template) - 1):
        columns = [[row[place] for row in rows] for rows in plans]
        varies = any(len(set(column)) > 1 for column in columns)
        sizes = {row[-1] for rows in plans for row in rows}
        is_of_size = len(sizes) == 1 or len({frozenset(each_column) for each_column in columns}) > 1
        if varies and is_of_size and all(row[place] < row[-1] for rows in plans for row in rows):
            yield place


def index_key(key: str, job: str, places: Places) -> str:
    """A key with its numbers of ranks as indices."""
    template, numbers = cut(key)
    chosen = places.get(template, ())
    if not chosen:
        return key
    texts = [PLACE if n in chosen else str(number) for n, number in enumerate(numbers)]
    base = "".join(a + b for a, b in zip(template, [*texts, ""]))
    return f"{base}[{','.join(f'{job}:{numbers[place]}' for place in chosen)}]"


def index_words(words: Sequence[str], job: str, places: Places) -> Sequence[str]:
    """A call with the numbers of ranks in its key as indices."""
    key = find_key(words)
    if not key:
        return words
    at = KEY_AT[words[0]]
    return [*words[:at], index_key(key, job, places), *words[at + 1:]]


def spell_words(words: Sequence[str]) -> str:
    """A call as it was before the numbers of its key became indices."""
    key = find_key(words)
    base, _, indices = key.removesuffix("]").partition("[")
    ranks = [part.rpartition(":")[2] for part in indices.split(",")]
    if base.count(PLACE) != len(ranks):
        return " ".join(words)
    spelt = "".join(a + b for a, b in zip(base.split(PLACE), [*ranks, ""]))
    return " ".join(spelt if word == key else word for word in words)


def index_numbers(plan: Sequence[Script]) -> Sequence[Script]:
    """A plan of one job with the numbers of ranks in its keys as indices. One of several jobs stays
    as it is: which of them has the rank isn't known."""
    jobs = {script.job for script in plan}
    if len(jobs) != 1:
        return plan
    (job,) = jobs
    places = find_places(
        [name_all((words for script in plan for words in script.calls), len(plan))]
    )
    return [
        Script(script.rank, job, [index_words(words, job, places) for words in script.calls])
        for script in plan
    ]


def index_order(name: str, ranks: Mapping[str, str]) -> str:
    """The name of an order of MPI, such as `mpi.1.0.3`, with the ranks in it as indices. `ranks`
    are all ranks by what stands for them in such names."""
    read = ORDER.fullmatch(name)
    assert read, "a name of MPI's order"
    width = next(iter(ranks)).count(".") + 1
    words, indices, base = read["ranks"].split("."), list[str](), [read["mark"]]
    while words:
        short = ".".join(words[:width])
        if short in ranks:
            indices.append(ranks[short])
            del words[:width]
        else:
            base.append(words.pop(0))
    return f"{'.'.join([*base, read['number']])}[{','.join(indices)}]"
