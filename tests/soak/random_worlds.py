"""Random runs of MPI programs, which know the order of their marks."""
import random
from collections.abc import Callable, Sequence
from typing import NamedTuple

from tests.support.tapes import make_world


class Stream(NamedTuple):
    """Messages between two ranks with one tag in one communicator."""

    communicator: int
    source: int
    target: int
    tag: int


class Posted(NamedTuple):
    """A receive that is open: its number, and the message that it gets, by the marks that its
    sender knew."""

    number: int
    stream: Stream
    known: set[str]


class World:
    """A random run of an MPI program: what each process calls, and by that which of its marks come
    before which. The run takes one step at a time, and keeps for each process the marks that must
    have come before."""

    def __init__(self, seed: int) -> None:
        self.random = random.Random(seed)
        self.size = self.random.randint(2, 4)
        self.tapes = make_world(self.size)
        self.known: list[set[str]] = [set() for _ in range(self.size)]
        self.marks: dict[str, set[str]] = {}
        self.communicators = self.make_communicators()
        self.sent: dict[Stream, list[set[str]]] = {}
        self.posted: list[Posted] = []
        steps: Sequence[Callable[[], None]] = (
            self.mark,
            self.mark,
            self.send,
            self.send,
            self.post,
            self.receive,
            self.receive,
            self.meet,
        )
        for _ in range(self.random.randint(5, 40)):
            self.random.choice(steps)()

    def make_communicators(self) -> dict[int, list[int]]:
        """Communicators, with their members in order. The second has the members of the first, the
        third has them backwards, and the fourth is of two."""
        every = list(range(self.size))
        found = {1: every, 2: every, 3: every[::-1]}
        for tape in self.tapes:
            tape.say(f"comm 2 1 c1 0-{self.size - 1}")
            tape.say(f"comm 3 1 c2 {','.join(str(number) for number in found[3])}")
        if self.size > 2:
            found[4] = [0, self.size - 1]
            for rank in found[4]:
                self.tapes[rank].say(f"comm 4 1 c3 0,{self.size - 1}")
        return found

    def mark(self, rank: int | None = None) -> None:
        """A process publishes a mark."""
        rank = self.random.randrange(self.size) if rank is None else rank
        name = f"m{len(self.marks)}"
        self.tapes[rank].call(f"publish blocks {name}=text:x -")
        self.marks[name] = set(self.known[rank])
        self.known[rank].add(name)

    def pick(self) -> Stream:
        """Any stream."""
        communicator = self.random.choice(list(self.communicators))
        source, target = self.random.sample(self.communicators[communicator], 2)
        return Stream(communicator, source, target, self.random.randrange(2))

    def place_in(self, communicator: int, rank: int) -> int:
        """The rank that a process has in a communicator."""
        return self.communicators[communicator].index(rank)

    def send(self) -> None:
        """A process sends a message."""
        stream = self.pick()
        communicator, source, target, tag = stream
        to = self.place_in(communicator, target)
        self.tapes[source].begin(f"send {communicator} {to} {tag} 4")
        self.sent.setdefault(stream, []).append(set(self.known[source]))

    def post(self) -> None:
        """A process posts a receive of a message that was sent; it ends later."""
        ready = [each_stream for each_stream, them in self.sent.items() if them]
        if ready:
            stream = self.random.choice(ready)
            source = self.place_in(stream.communicator, stream.source)
            words = f"receive {stream.communicator} {source} {stream.tag}"
            number = self.tapes[stream.target].begin(words)
            self.posted.append(Posted(number, stream, self.sent[stream].pop(0)))

    def receive(self) -> None:
        """A receive that was posted ends, any of them."""
        if not self.posted:
            self.post()
        if self.posted:
            posted = self.posted.pop(self.random.randrange(len(self.posted)))
            source = self.place_in(posted.stream.communicator, posted.stream.source)
            self.tapes[posted.stream.target].end(posted.number, f"0 {source} {posted.stream.tag} 4")
            self.known[posted.stream.target] |= posted.known

    def sources_of(self, kind: str, place: int, root: int, count: int) -> list[int]:
        """Whose data the member at a place of so many waits for in a collective."""
        everyone = list(range(count))
        if kind == "alltoallv":
            return [number for number in everyone if self.random.random() < 0.5]
        return {
            "barrier": everyone,
            "bcast": [] if place == root else [root],
            "gather": everyone if place == root else [],
            "scan": everyone[:place],
        }[kind]

    def meet(self) -> None:
        """A collective, in which a process may put a mark too."""
        communicator = self.random.choice(list(self.communicators))
        members = self.communicators[communicator]
        kind = self.random.choice(("barrier", "barrier", "bcast", "gather", "scan", "alltoallv"))
        root = self.random.randrange(len(members))
        begin = f"collective {kind} {communicator}"
        numbers = {rank: self.tapes[rank].begin(begin) for rank in members}
        before = {rank: set(self.known[rank]) for rank in members}
        if self.random.random() < 0.3:
            self.mark(self.random.choice(members))
        for rank in self.random.sample(members, len(members)):
            place = members.index(rank)
            sources = self.sources_of(kind, place, root, len(members))
            said = say_sources(kind, sources, len(members))
            self.tapes[rank].end(numbers[rank], f"0 {said}")
            self.known[rank].update(*(before[members[source]] for source in sources))


def say_sources(kind: str, sources: Sequence[int], count: int) -> str:
    """Whose data a member of so many waited for, as a recording says it."""
    if kind == "scan":
        return "below"
    if not sources:
        return "none"
    is_all = kind != "alltoallv" and len(sources) == count
    return "all" if is_all else ",".join(map(str, sources))
