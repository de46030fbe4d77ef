"""Small random plans of three or four ranks on two nodes, two on each, of which all that a library
may do can be looked through."""
import random
from collections.abc import Iterator

from tests.models import grammar, model


KEYS, NAMES = "ab", "x"
SCOPES = ("global", "global", "global", "local", "remote")
# How often each act is taken.
ACTS = ("put", "commit", "get", "get-now", "fence", "publish", "lookup-wait", "unpublish", "map")
WEIGHTS = (18, 6, 18, 8, 10, 3, 4, 2, 1)
MAP = ("PMIX_RANK", "PMIX_HOSTNAME", "pmix.appnum")
# How often a plan has two jobs, keeps what gets bring, and how often a rank calls a fence otherwise
# than the others.
SEVERAL_JOBS, KEEPS, SELDOM = 0.1, 0.25, 0.08
# A rank makes so many calls at most.
MOST = 5


class Maker:
    """Makes a plan: the calls of each rank so far."""

    def __init__(self, chance: random.Random) -> None:
        self.chance = chance
        count = chance.choice((3, 3, 4))
        self.ranks = [f"app:{number}" for number in range(count)]
        if chance.random() < SEVERAL_JOBS:
            self.ranks[-1] = "web:0"
        self.calls: list[list[str]] = [[] for _ in self.ranks]
        self.put: set[tuple[int, str]] = set()

    def make(self) -> str:
        """The whole text."""
        for _ in range(self.chance.randint(4, 9)):
            self.act(self.chance.choices(ACTS, WEIGHTS)[0])
        lines = ["rehearsal 2", *["keep"] * (self.chance.random() < KEEPS), "node n0", "node n1"]
        job = ""
        for number, (rank, calls) in enumerate(zip(self.ranks, self.calls)):
            its = rank.partition(":")[0]
            lines += [f"job {its}"] if its != job else []
            lines += [f"rank n{number // 2}", *calls]
            job = its
        return "".join(f"{line}\n" for line in lines)

    def act(self, kind: str) -> None:
        """Lets a rank make a call, or put and commit; or all of them a fence."""
        chance = self.chance
        rank = chance.randrange(len(self.calls))
        to, key = self.calls[rank], chance.choice(KEYS)
        if kind == "fence":
            self.meet()
        elif kind == "put" and (rank, key) not in self.put:
            self.put.add((rank, key))
            to += [f"put {chance.choice(SCOPES)} {key} {len(self.put)}", "commit"]
        elif kind == "commit":
            to.append(kind)
        elif kind in ("get", "get-now"):
            owner, named = chance.choice(sorted(self.put) or [(0, key)])
            to.append(f"{kind} {self.ranks[owner]} {named}")
        elif kind == "map":
            to.append(f"get-now {chance.choice(self.ranks)} {chance.choice(MAP)}")
        elif kind == "unpublish":
            to.append(f"unpublish {chance.choice((NAMES, NAMES, '*'))}")
        elif kind in ("publish", "lookup-wait"):
            to.append(f"{kind} {NAMES}{' 1' * (kind == 'publish')}")

    def meet(self) -> None:
        """Lets all ranks arrive at a fence, seldom one of them by other words."""
        chance, is_of_all = self.chance, self.ranks[-1].startswith("app:")
        target, collects = "all" if is_of_all else "app:*,web:*", chance.random() < 0.5
        for calls in self.calls:
            by_ranks = self.ranks[:1] * (chance.random() < SELDOM) + self.ranks
            spelt = ",".join(by_ranks) if chance.random() < SELDOM else target
            if chance.random() < SELDOM:
                spelt = f"{'app:*' if spelt == 'all' else spelt},{self.ranks[0]}"
            is_other = chance.random() < SELDOM
            calls.append(f"fence {spelt}{' collect' * (collects != is_other)}")

    @property
    def is_small(self) -> bool:
        """Whether no rank makes many calls."""
        return max(map(len, self.calls)) <= MOST


def make_small(seed: int) -> Iterator[str]:
    """Settled plans without end in which a rank asks another for something."""
    chance = random.Random(seed)
    while True:
        text = make_one(chance)
        if is_settled(text):
            yield text


def make_one(chance: random.Random) -> str:
    """A plan in which a rank asks for something."""
    while True:
        maker = Maker(chance)
        text = maker.make()
        if maker.is_small and ("\nget" in text or "\nlookup" in text):
            return text


def is_settled(text: str) -> bool:
    """Whether nothing is found in a plan."""
    return model.Plan(grammar.read(text.encode())).findings() == b"findings 0\n"
