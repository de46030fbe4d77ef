"""Writes a plan in which each rank puts its card, commits, and gets the card of every other rank without waiting.

Usage: python3 examples/cards.py NODES RANKS [--no-fence]
Between the commit and the gets all ranks meet in a fence that collects, unless --no-fence leaves it out. Ranks are dealt to the nodes in turn.
"""
import sys


def plan(nodes, ranks, has_fence):
    yield "rehearsal 1"
    yield from (f"node n{node}" for node in range(nodes))
    yield "job app"
    for rank in range(ranks):
        yield f"rank n{rank % nodes}"
        yield f"put global card 10.0.{rank % nodes}.1:{7000 + rank}"
        yield "commit"
        if has_fence:
            yield "fence all collect"
        yield from (f"get-now app:{other} card" for other in range(ranks) if other != rank)


if __name__ == "__main__":
    words = [word for word in sys.argv[1:] if word != "--no-fence"]
    if len(words) != 2:
        sys.exit(__doc__)
    print("\n".join(plan(int(words[0]), int(words[1]), "--no-fence" not in sys.argv)))
