"""Plans of whole machines, past the limits of the versions."""
from collections.abc import Callable, Iterable, Iterator
from dataclasses import dataclass

# How many ranks of `ring` and `early` share a node, and which neighbours each rank asks.
OF_NODE, STEPS = 16, (-3, -2, -1, 1, 2, 3)
CARD = "put global card c{rank}\ncommit\n"


@dataclass(frozen=True)
class LargePlan:
    """A kind of plan, and how large it is."""

    name: str
    # What each rank does, for a reader.
    what: str
    ranks: int
    # How many ranks share a node.
    of_node: int
    script: Callable[[int, int], str]

    def pieces(self) -> Iterator[str]:
        """The text, piece by piece."""
        yield "rehearsal 2\n"
        yield from (f"node n{number}\n" for number in range(-(-self.ranks // self.of_node)))
        yield "job app\n"
        for rank in range(self.ranks):
            yield f"rank n{rank // self.of_node}\n{self.script(rank, self.ranks)}"


def asks(verb: str, others: Iterable[int]) -> str:
    """The lines that ask other ranks for their cards."""
    return "".join(f"{verb} app:{number} card\n" for number in others)


def others_of(rank: int, ranks: int) -> Iterator[int]:
    """All other ranks."""
    return (number for number in range(ranks) if number != rank)


def cards(rank: int, ranks: int) -> str:
    met = CARD.format(rank=rank) + "fence all collect\n"
    return met + asks("get-now", others_of(rank, ranks))


def waits(rank: int, ranks: int) -> str:
    return CARD.format(rank=rank) + asks("get", others_of(rank, ranks))


def early(rank: int, ranks: int) -> str:
    asked = asks("get-now", ((rank + step) % ranks for step in STEPS))
    return f"{CARD.format(rank=rank)}{asked}fence all\n"


def ring(rank: int, ranks: int) -> str:
    put = CARD.format(rank=rank)
    return early(rank, ranks).replace(put, f"{put}fence all collect\n", 1)


def tree(rank: int, _ranks: int) -> str:
    # The parent in a binomial tree has the lowest bit of the rank cleared.
    return asks("get", [rank & (rank - 1)] if rank else []) + CARD.format(rank=rank)


def chain(rank: int, ranks: int) -> str:
    return asks("get", [rank + 1] if rank < ranks - 1 else []) + CARD.format(rank=rank)


LARGE_PLANS = (
    LargePlan("cards", "meets all others and asks each of them", 1024, 1, cards),
    LargePlan("cards", "does the same", 2048, 1, cards),
    LargePlan("waits", "waits for the card of each other one", 1024, 1, waits),
    LargePlan("waits", "does the same", 2048, 1, waits),
    LargePlan("ring", "meets all, asks six neighbours and meets all again", 16_384, OF_NODE, ring),
    LargePlan("large ring", "does the same", 1_048_576, OF_NODE, ring),
    LargePlan("early", "does it without meeting first, so gets race", 16_384, OF_NODE, early),
    LargePlan("large early", "does the same", 1_048_576, OF_NODE, early),
    LargePlan("tree", "waits for its parent in a binomial tree", 16_384, 1, tree),
    LargePlan("chain", "waits for the next rank", 16_384, 1, chain),
)
