"""The placements of a plan's ranks, for the tests of `place` and of `check --anywhere`."""
from collections.abc import Collection, Iterator, Sequence

from tests.models import grammar


def proc_word(scripts: grammar.Scripts, number: int) -> str:
    """The PROC of a rank by its number in rank order."""
    return f"{scripts.procs[number].job.decode()}:{scripts.procs[number].rank}"


def ranks_word(scripts: grammar.Scripts, ranks: Sequence[int]) -> str:
    """The word by which `place` is told these ranks."""
    return ",".join(proc_word(scripts, rank) for rank in ranks)


def placed(scripts: grammar.Scripts, ranks: Collection[int]) -> grammar.Scripts:
    """A plan as `place` must write it: these ranks on the second node, all others on the first, and
    a second node where there is only one."""
    nodes = list(scripts.nodes)
    if len(nodes) == 1:
        nodes.append(b"n2" if nodes == [b"n1"] else b"n1")
    procs = [proc._replace(node=nodes[n in ranks]) for n, proc in enumerate(scripts.procs)]
    return scripts._replace(nodes=nodes, procs=procs)


def partitions(count: int) -> Iterator[list[int]]:
    """The ways to part so many ranks into nodes: the number of its node for each rank. Each node
    has a rank below all ranks of the nodes after it."""
    parts: list[list[int]] = [[]]
    for _ in range(count):
        parts = [[*part, node] for part in parts for node in range(max(part, default=-1) + 2)]
    yield from parts


def placements(scripts: grammar.Scripts) -> Iterator[grammar.Scripts]:
    """A plan with its ranks on nodes in all ways that differ."""
    for nodes in partitions(len(scripts.procs)):
        names = [b"host%d" % number for number in range(max(nodes, default=-1) + 1)]
        procs = [proc._replace(node=names[n]) for proc, n in zip(scripts.procs, nodes)]
        yield scripts._replace(nodes=names, procs=procs)
