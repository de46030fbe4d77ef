"""The calls of a rank, and what they say by themselves: a Script, which is made once and used in
many plans.

An event is told by its rank and its number there, from 0; a call is one event, and a fence two: its
arrival and, right behind it, its leave.
"""
from collections import defaultdict
from collections.abc import Sequence, Set
from typing import NamedTuple

NAME_VERBS = (b"publish", b"lookup", b"lookup-wait", b"unpublish")


class Call(NamedTuple):
    """A call: the number of its line in the role; its verb; the key or the name; the scope of a
    put; the rank that is asked; the members of a fence, and whether it says collect; its text."""

    line: int
    verb: bytes
    key: bytes
    scope: bytes
    owner: int
    members: frozenset[int]
    collects: bool
    text: bytes


class Sync(NamedTuple):
    """An event that may wait for other ranks: its number, its call, and of the leave of a fence
    which fence of its rank over this set it is, from 0."""

    at: int
    call: Call
    turn: int


def is_reserved(key: bytes) -> bool:
    return key.startswith((b"pmix", b"PMIX_"))


class Script:
    """The calls of a rank, what they say by themselves, and which turns of loops are left out: each
    by the number of its step, and the rank that it is for."""

    def __init__(
        self, rank: int, calls: Sequence[Call], left: Set[tuple[int, int]] = frozenset()
    ) -> None:
        self.rank, self.calls, self.left = rank, calls, left
        # The first event of each call, the call of each event, and how many events there are.
        self.firsts: list[int] = []
        self.call_at: list[int] = []
        self.syncs: list[Sync] = []
        # The arrivals at the fences over each set, each with whether it collects.
        self.arrivals: dict[frozenset[int], list[tuple[int, bool]]] = defaultdict(list)
        self.puts: dict[bytes, list[int]] = defaultdict(list)
        self.commits: list[int] = []
        self.on_name: dict[bytes, list[int]] = defaultdict(list)
        self.published: dict[bytes, list[int]] = defaultdict(list)
        self.takes: set[bytes] = set()
        self.reads: list[int] = []
        for number, call in enumerate(calls):
            self.firsts.append(len(self.call_at))
            self.call_at.append(number)
            self.add(len(self.call_at) - 1, call)
        self.add_stars()
        self.count = len(self.call_at)
        # The first commit after each key that is put once.
        self.commit = {
            key: next((commit for commit in self.commits if commit > puts[0]), None)
            for key, puts in self.puts.items()
            if len(puts) == 1
        }
        self.has_rewrites = len(self.commit) < len(self.puts)

    def add(self, at: int, call: Call) -> None:
        """Adds a call by its first event."""
        if call.verb == b"fence":
            self.arrivals[call.members].append((at, call.collects))
            self.call_at.append(self.call_at[at])
            self.syncs.append(Sync(at + 1, call, len(self.arrivals[call.members]) - 1))
        elif call.verb == b"commit":
            self.commits.append(at)
        elif is_reserved(call.key):
            return
        elif call.verb == b"put":
            self.puts[call.key].append(at)
        elif call.verb in NAME_VERBS:
            self.add_name(at, call)
        elif call.verb == b"get":
            self.syncs.append(Sync(at, call, 0))
        elif call.owner != self.rank:
            self.reads.append(at)

    def add_name(self, at: int, call: Call) -> None:
        """Adds a call on a name, but not yet one on all names."""
        if call.key == b"*":
            return
        self.on_name[call.key].append(at)
        if call.verb == b"publish":
            self.published[call.key].append(at)
        elif call.verb == b"unpublish":
            self.takes.add(call.key)
        elif call.verb == b"lookup-wait":
            self.syncs.append(Sync(at, call, 0))

    def add_stars(self) -> None:
        """An `unpublish *` is a call on each name that its rank publishes anywhere."""
        for at, call in zip(self.firsts, self.calls):
            if (call.verb, call.key) == (b"unpublish", b"*"):
                for name in self.published:
                    self.on_name[name].append(at)
                    self.takes.add(name)

    def call(self, at: int) -> Call:
        return self.calls[self.call_at[at]]
