"""Small random programs of MPI whose receives may get a message from anywhere, with all their
runs."""
import random
from collections.abc import Iterator, Sequence
from typing import NamedTuple

from tests.support.tapes import Tape, make_world


MOST_STATES = 60000


class Mark(NamedTuple):
    """A process of a free program publishes a mark."""

    name: str


class Send(NamedTuple):
    """It sends a message."""

    target: int
    tag: int


class Ask(NamedTuple):
    """It receives a message, or probes for one; None is any source or tag."""

    is_probe: bool
    source: int | None
    tag: int | None


class Barrier(NamedTuple):
    """It meets all others."""


Action = Mark | Send | Ask | Barrier


class Message(NamedTuple):
    """A message that has come: who sent it with which tag, and the marks that were known then."""

    source: int
    tag: int
    known: frozenset[str]


class Step(NamedTuple):
    """What was done by which process (by all, if it is a barrier), with what came."""

    rank: int
    action: Action
    came: Message | None = None


class State(NamedTuple):
    """How far each process has come, which marks it knows, and what it was sent."""

    places: tuple[int, ...]
    known: tuple[frozenset[str], ...]
    boxes: tuple[tuple[Message, ...], ...]

    def go_on(self, rank: int, known: frozenset[str] = frozenset()) -> "State":
        """The state after a step of a process, which then knows some marks more."""
        places, knows = list(self.places), list(self.known)
        places[rank] += 1
        knows[rank] |= known
        return self._replace(places=tuple(places), known=tuple(knows))

    def put_in(self, rank: int, box: tuple[Message, ...]) -> "State":
        """The state in which a process has been sent these messages."""
        return self._replace(boxes=(*self.boxes[:rank], box, *self.boxes[rank + 1:]))


class Free:
    """A small random program of MPI whose receives may get a message from anywhere. It knows all
    its runs: for each mark which marks come before it in every run that reaches it."""

    def __init__(self, seed: int) -> None:
        self.random = random.Random(seed)
        self.size = self.random.randint(2, 4)
        self.scripts: list[list[Action]] = [[] for _ in range(self.size)]
        for _ in range(self.random.randint(3, 9)):
            self.add_message()
        for _ in range(self.random.randint(0, 2)):
            self.random.choice((self.add_barrier, self.add_probe))()
        for n in range(3 * self.size):
            script = self.scripts[n % self.size]
            script.insert(self.random.randrange(len(script) + 1), Mark(f"m{n}"))
        self.always: dict[str, frozenset[str]] = {}
        self.complete: list[tuple[Step, ...]] = []
        self.is_known = self.run_all()

    def add_message(self) -> None:
        """A message, and a receive that may get it."""
        source, target = self.random.sample(range(self.size), 2)
        tag = self.random.randrange(2)
        asked = self.random.choice((source, None, None))
        receive = Ask(False, asked, self.random.choice((tag, tag, None)))
        here, there = self.scripts[source], self.scripts[target]
        here.insert(self.random.randint(len(here) // 2, len(here)), Send(target, tag))
        there.insert(self.random.randint(len(there) // 2, len(there)), receive)

    def add_barrier(self) -> None:
        """A barrier, and messages that may come after it."""
        for script in self.scripts:
            script.append(Barrier())
        self.add_message()
        self.add_message()

    def add_probe(self) -> None:
        """A probe before a receive of the same."""
        receives = [
            (script, n, mark)
            for script in self.scripts
            for n, mark in enumerate(script)
            if isinstance(mark, Ask) and not mark.is_probe
        ]
        script, n, receive = self.random.choice(receives)
        script.insert(n, receive._replace(is_probe=True))

    def run_all(self) -> bool:
        """Takes all steps of all runs, each state once. Answers whether that was possible."""
        first = State((0,) * self.size, (frozenset(),) * self.size, ((),) * self.size)
        states: list[tuple[State, tuple[Step, ...]]] = [(first, ())]
        seen = {first}
        lengths = tuple(len(script) for script in self.scripts)
        while states and len(seen) < MOST_STATES:
            state, steps = states.pop()
            following = list(self.steps(state))
            if state.places == lengths:
                self.complete.append(steps)
            new = [(step, each_state) for step, each_state in following if each_state not in seen]
            seen.update(each_state for _, each_state in new)
            states += [(each_state, (*steps, step)) for step, each_state in new]
        return not states

    def steps(self, state: State) -> Iterator[tuple[Step, State]]:
        """The steps that can be taken next, and the states after them."""
        heads: list[Action | None] = [
            script[place] if place < len(script) else None
            for script, place in zip(self.scripts, state.places)
        ]
        if all(isinstance(each_head, Barrier) for each_head in heads):
            places = tuple(each_place + 1 for each_place in state.places)
            known = (frozenset[str]().union(*state.known),) * self.size
            yield Step(0, Barrier()), State(places, known, state.boxes)
            return
        for rank, head in enumerate(heads):
            if isinstance(head, Mark):
                yield Step(rank, head), self.publish(state, rank, head)
            elif isinstance(head, Send):
                message = Message(rank, head.tag, state.known[rank])
                box = (*state.boxes[head.target], message)
                yield Step(rank, head), state.go_on(rank).put_in(head.target, box)
            elif isinstance(head, Ask):
                yield from self.take(state, rank, head)

    def publish(self, state: State, rank: int, mark: Mark) -> State:
        """The state after a mark is published."""
        known = state.known[rank]
        self.always[mark.name] = self.always.get(mark.name, known) & known
        return state.go_on(rank, frozenset([mark.name]))

    def take(self, state: State, rank: int, ask: Ask) -> Iterator[tuple[Step, State]]:
        """A receive, or a probe, gets the first message that fits of any process."""
        box, taken = state.boxes[rank], set()
        for n, message in enumerate(box):
            is_fit = ask.source in (None, message.source) and ask.tag in (None, message.tag)
            if is_fit and message.source not in taken:
                taken.add(message.source)
                left = box if ask.is_probe else box[:n] + box[n + 1:]
                yield Step(rank, ask, message), state.go_on(rank, message.known).put_in(rank, left)

    def tapes(self) -> list[Tape]:
        """The recordings of one of its runs."""
        found = make_world(self.size)
        for step in self.random.choice(self.complete):
            self.record(found, step)
        return found

    @staticmethod
    def record(tapes: Sequence[Tape], step: Step) -> None:
        """Writes a step."""
        tape, action = tapes[step.rank], step.action
        if isinstance(action, Barrier):
            for each_tape in tapes:
                each_tape.call("collective barrier 1", "0 all")
        elif isinstance(action, Mark):
            tape.call(f"publish blocks {action.name}=text:x -")
        elif isinstance(action, Send):
            tape.begin(f"send 1 {action.target} {action.tag} 4")
        elif step.came:
            source, tag = ("any" if number is None else number for number in action[1:])
            verb = "probe" if action.is_probe else "receive"
            tape.call(f"{verb} 1 {source} {tag}", f"0 {step.came.source} {step.came.tag} 4")
