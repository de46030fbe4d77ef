"""Plans near the limits, each of a kind that is hard for some command."""
from collections.abc import Callable, Iterable
from dataclasses import dataclass

ONE_NODE = "rehearsal 1\nnode n0\njob app\n"
TWO_NODES = "rehearsal 1\nnode n0\nnode n1\njob app\n"
# How the lines begin that are no calls.
NO_CALLS = ("rehearsal ", "node ", "job ", "rank ", "#")
MEET = "fence all collect\n"
PUT = "put global k v\ncommit\n"


@dataclass(frozen=True)
class Kind:
    """A kind of plan."""

    name: str
    # What stands in it, for a reader.
    what: str
    # Its text for a number of ranks and a number of rounds or calls.
    text: Callable[[int, int], str]
    # The ranks, and that number at the limit.
    ranks: int
    rounds: int


def ranks_of(node: Callable[[int], str], scripts: Iterable[str]) -> str:
    """The lines of ranks with these scripts, each on the node of its number."""
    return "".join(f"rank {node(number)}\n{script}" for number, script in enumerate(scripts))


def by_turns(number: int) -> str:
    """Even ranks on one node, odd ones on the other."""
    return f"n{number % 2}"


def on_one(_number: int) -> str:
    """All ranks on one node."""
    return "n0"


def exchange(ranks: int, gets: int) -> str:
    scripts = []
    for number in range(ranks):
        others = ((number + step) % ranks for step in range(1, gets + 1))
        asked = "".join(f"get-now app:{each_number} card\n" for each_number in others)
        scripts.append(f"put global card c{number}\ncommit\n{MEET}{asked}")
    return TWO_NODES + ranks_of(by_turns, scripts)


def fences(ranks: int, rounds: int) -> str:
    return ONE_NODE + ranks_of(on_one, [MEET * rounds] * ranks)


def ring_fences(ranks: int, rounds: int) -> str:
    scripts = []
    for number in range(ranks):
        pairs = [(number, (number + 1) % ranks), ((number - 1) % ranks, number)]
        pairs = pairs if number % 2 == 0 else pairs[::-1]
        met = "".join(f"fence app:{min(pair)},app:{max(pair)} collect\n" for pair in pairs)
        scripts.append(met * rounds)
    return TWO_NODES + ranks_of(by_turns, scripts)


def falling_chain(ranks: int, rounds: int) -> str:
    def turn_of(number: int, turn: int) -> str:
        waits = ""
        if number < ranks - 1:
            waits = f"get app:{number + 1} r{turn}\n"
        elif turn:
            waits = f"get app:0 r{turn - 1}\n"
        return f"{waits}put global r{turn} v\ncommit\n"

    scripts = [
        "".join(turn_of(each_number, turn) for turn in range(rounds))
        for each_number in range(ranks)
    ]
    return TWO_NODES + ranks_of(by_turns, scripts)


def waiters(ranks: int, rounds: int) -> str:
    puts = "".join(f"put global k{turn} v\ncommit\n" for turn in range(rounds))
    return ONE_NODE + ranks_of(on_one, [puts] + ["get app:0 never\n"] * (ranks - 1))


def remote_now(_ranks: int, calls: int) -> str:
    puts = "".join(f"put global z{turn} v\n" for turn in range(calls))
    return TWO_NODES + ranks_of(by_turns, [PUT + MEET + puts, MEET + "get-now app:0 k\n" * calls])


def early_now(_ranks: int, calls: int) -> str:
    met = MEET * (calls * 5 // 6)
    return TWO_NODES + ranks_of(by_turns, [PUT + met, "get-now app:0 k\n" * calls + met])


def late_now(_ranks: int, calls: int) -> str:
    met = MEET * (calls // 2)
    return TWO_NODES + ranks_of(by_turns, [PUT + met, met + "get-now app:0 k\n" * calls])


def races(ranks: int, lookups: int) -> str:
    return ONE_NODE + ranks_of(on_one, ["publish x 1\n" + "lookup x\n" * lookups] * ranks)


def names(_ranks: int, count: int) -> str:
    published = "".join(f"publish x{name} 1\n" for name in range(count))
    return ONE_NODE + ranks_of(on_one, [published] * 2)


def rewrites(_ranks: int, puts: int) -> str:
    return TWO_NODES + ranks_of(by_turns, [PUT * puts, "get app:0 k\n"])


def comments(_ranks: int, lines: int) -> str:
    return ONE_NODE + "rank n0\n" + ("#" + "x" * 62 + "\n") * lines


KINDS = (
    Kind(
        "exchange",
        "256 ranks on two nodes put, commit, meet in a collecting fence and ask 61 others without"
        " waiting",
        exchange,
        256,
        61,
    ),
    Kind("fences", "256 ranks meet in 64 collecting fences", fences, 256, 64),
    Kind(
        "ring-fences",
        "256 ranks meet their neighbours, each in 64 fences of two",
        ring_fences,
        256,
        32,
    ),
    Kind(
        "falling-chain",
        "256 ranks, each of which waits for the next one in 21 rounds",
        falling_chain,
        256,
        21,
    ),
    Kind(
        "waiters",
        "255 ranks wait for ever for one that puts and commits 8,000 times",
        waiters,
        256,
        8000,
    ),
    Kind(
        "remote-now",
        "a rank asks one on another node 8,000 times, which has 8,000 calls",
        remote_now,
        2,
        8000,
    ),
    Kind("early-now", "a rank asks 6,000 times before 5,000 collecting fences", early_now, 2, 6000),
    Kind("late-now", "a rank asks 8,000 times after 4,000 collecting fences", late_now, 2, 8000),
    Kind("races", "256 ranks publish one name and look it up 63 times each", races, 256, 63),
    Kind("names", "two ranks publish the same 8,000 names", names, 2, 8000),
    Kind("rewrites", "a rank puts and commits one key 8,000 times", rewrites, 2, 8000),
    Kind("comments", "4 MiB of comments", comments, 1, 65535),
)


def calls_in(text: str) -> int:
    """How many calls a plan has."""
    return sum(not line.startswith(NO_CALLS) for line in text.splitlines())
