"""Random plans without races, whose ranks on two nodes or three meet at fences: what libraries make
of them is predicted and seen."""
import random
from collections.abc import Iterator, Sequence

from tests.models import grammar, model


KEYS, NAMES, SCOPES = "abc", "xy", ("global", "local", "remote")
MAP = ("PMIX_RANK", "PMIX_JOB_SIZE", "PMIX_HOSTNAME", "PMIX_LOCAL_RANK")
# How often each act is taken.
ACTS = ("put", "get", "get-now", "publish", "lookup", "lookup-wait", "unpublish", "map")
WEIGHTS = (9, 5, 8, 2, 2, 1, 1, 1)
# A get that waits for ever takes seconds: most ask for a key that its owner has put before.
SELDOM = 0.05


class Maker:
    """Makes a plan: the calls of each rank so far."""

    def __init__(self, chance: random.Random, jobs: int) -> None:
        self.chance = chance
        self.nodes = [f"n{number}" for number in range(chance.choice((2, 2, 3)))]
        names = ["app", "b"][:jobs]
        counts = {name: chance.randint(2 if jobs == 1 else 1, 4 - jobs) for name in names}
        self.ranks = [f"{job}:{at}" for job, count in counts.items() for at in range(count)]
        self.node_of = {rank: chance.choice(self.nodes) for rank in self.ranks}
        self.calls: dict[str, list[str]] = {rank: [] for rank in self.ranks}
        self.put: list[tuple[str, str]] = []

    def make(self) -> str:
        """The whole text."""
        for _ in range(self.chance.randint(3, 6)):
            for rank in self.ranks:
                for _ in range(self.chance.choice((0, 0, 1, 1, 2))):
                    self.act(rank, *self.chance.choices(ACTS, WEIGHTS))
            self.meet()
        lines = ["rehearsal 1", *(f"node {node}" for node in self.nodes)]
        for job in dict.fromkeys(each_rank.partition(":")[0] for each_rank in self.ranks):
            lines.append(f"job {job}")
            for rank in (
                other_rank for other_rank in self.ranks if other_rank.startswith(f"{job}:")
            ):
                lines += [f"rank {self.node_of[rank]}", *self.calls[rank]]
        return "".join(f"{line}\n" for line in lines)

    def act(self, rank: str, kind: str) -> None:
        """Lets a rank make a call, or put and commit."""
        chance, to = self.chance, self.calls[rank]
        if kind == "put":
            key = chance.choice(KEYS)
            to.append(f"put {chance.choice(SCOPES)} {key} {chance.randint(1, 99)}")
            to += ["commit"] if chance.random() < 0.8 else []
            self.put.append((rank, key))
        elif kind == "map":
            to.append(f"get-now {chance.choice(self.ranks)} {chance.choice(MAP)}")
        elif kind in ("get", "get-now"):
            is_known = self.put and chance.random() > SELDOM
            free = (chance.choice(self.ranks), chance.choice(KEYS))
            to.append(" ".join((kind, *(chance.choice(self.put) if is_known else free))))
        else:
            value = f" {chance.randint(1, 99)}" if kind == "publish" else ""
            to.append(f"{kind} {chance.choice(NAMES)}{value}")

    def meet(self) -> None:
        """Lets all ranks of a job, or some, arrive at a fence."""
        chance, jobs = self.chance, {each_rank.partition(":")[0] for each_rank in self.ranks}
        size = chance.randint(1, len(self.ranks))
        some = sorted(chance.sample(self.ranks, size))
        target = ",".join(some)
        if len(jobs) == 1 and chance.random() < 0.8:
            some, target = self.ranks, chance.choice(("all", "all", "app:*"))
        collects = chance.random() < 0.5
        for rank in some:
            is_other = chance.random() < SELDOM
            self.calls[rank].append(f"fence {target}{' collect' * (collects != is_other)}")


def is_settled(text: str) -> bool:
    """Whether a plan has no races, and a call whose reply says something."""
    found = model.Plan(grammar.read(text.encode())).findings()
    return b"race" not in found and any(word in text for word in ("\nget", "\nlookup"))


def make_settled(seed: int, jobs: Sequence[int] = (1,)) -> Iterator[str]:
    """Plans without end, of one of so many jobs."""
    chance = random.Random(seed)
    while True:
        text = Maker(chance, chance.choice(jobs)).make()
        if is_settled(text):
            yield text
