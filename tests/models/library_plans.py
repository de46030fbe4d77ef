"""What the scripts of a plan tell about keys and fences, as the axioms of libraries ask for it
(library_axioms.py): what each rank has put and committed after so many of its events, and how each
call of a fence spells its set."""
import functools
from collections.abc import Sequence
from typing import TypeVar

from tests.models import grammar, model
from tests.models.model import Event, Put


# More than any number of events.
NEVER = 1 << 30
# How a call of a fence spells its set.
Sign = tuple[str, ...] | None
Item = TypeVar("Item")


def put_at(those: Sequence[Item], at: int, item: Item) -> tuple[Item, ...]:
    """The items with one of them changed."""
    return tuple(item if n == at else other for n, other in enumerate(those))


def succeed(value: bytes) -> bytes:
    """The reply with a value."""
    return model.SUCCESS + b" " + value


def reply_with(put: Put | None) -> bytes:
    """The reply to a get-now that sees a pair, or nothing."""
    return succeed(put.value) if put else model.NOT_FOUND


class Facts:
    """What the scripts of a plan tell: what each rank has put and committed after so many of its
    events, and how fences are spelt."""

    def __init__(self, text: bytes) -> None:
        scripts = grammar.read(text)
        self.plan = model.Plan(scripts)
        self.ranks = self.plan.ranks
        self.events = [[event for event in events if event] for events in self.plan.events]
        self.at = {event: n for events in self.events for n, event in enumerate(events)}
        self.own: list[list[dict[bytes, Put]]] = [[{}] for _ in self.ranks]
        self.stored: list[list[dict[bytes, Put]]] = [[{}] for _ in self.ranks]
        for rank in self.ranks:
            self.find_stores(rank)

    def find_stores(self, rank: int) -> None:
        """What a rank has put and committed, after each of its events."""
        own, stored = self.own[rank], self.stored[rank]
        for event in self.events[rank]:
            verb, *words = self.plan.words(event)
            is_put = verb == b"put" and not model.is_reserved(words[1])
            new = {words[1]: Put(event.call, words[0], words[2])} if is_put else {}
            stored.append(own[-1] if verb == b"commit" else stored[-1])
            own.append({**own[-1], **new})

    def words(self, event: Event) -> tuple[bytes, ...]:
        """The words of a call."""
        return tuple(self.plan.words(event))

    @functools.cache
    def there(self, owner: int, key: bytes) -> int:
        """After how many events of its owner a key is there."""
        return next((n for n, table in enumerate(self.stored[owner]) if key in table), NEVER)

    @functools.cache
    def commit_from(self, owner: int, done: int) -> int:
        """After how many events a rank has done its first commit that isn't among so many."""
        events = enumerate(self.events[owner])
        commits = (n for n, event in events if self.words(event)[0] == b"commit" and n >= done)
        return next(commits, NEVER) + 1

    def is_near(self, one: int, other: int) -> bool:
        """Whether two ranks are on one node."""
        return self.plan.nodes[one] == self.plan.nodes[other]

    def replies(self, owner: int, key: bytes, done: int) -> set[bytes]:
        """The replies with a value of the key that its owner had committed by so many events."""
        found = (table.get(key) for table in self.stored[owner][: done + 1])
        return {succeed(put.value) for put in found if put}

    def sent(self, owner: int, key: bytes, done: int) -> set[bytes]:
        """Those of which the value is for other nodes."""
        found = (table.get(key) for table in self.stored[owner][: done + 1])
        return {succeed(put.value) for put in found if put and model.reaches(put.scope, False)}

    def job(self, rank: int) -> bytes:
        """The job of a rank."""
        return self.plan.procs[rank].job

    def asked_of(self, event: Event) -> int:
        """The rank that a get asks about."""
        return self.plan.rank_of[self.words(event)[1]]

    def is_get(self, event: Event, verb: bytes) -> bool:
        """Whether it is such a get, of a key that isn't reserved, of another rank."""
        words = self.words(event)
        return (
            words[0] == verb
            and not model.is_reserved(words[2])
            and self.asked_of(event) != event.rank
        )

    def is_far(self, event: Event, verb: bytes = b"get") -> bool:
        """Whether it is such a get, of a rank on another node."""
        return self.is_get(event, verb) and not self.is_near(event.rank, self.asked_of(event))

    def spell(self, call: Event) -> Sign:
        """How a call of a fence spells its set, in whatever order; None if a rank repeats, also by
        its job."""
        word, job = self.words(call)[1], self.job(call.rank)
        items = grammar.items_of_set(word) or [(job, None)]
        whole = {text for text, rank in items if rank is None}
        is_twice = any(text in whole for text, rank in items if rank is not None)
        is_plain = len(set(items)) == len(items) and not is_twice
        return tuple(sorted(map(repr, items))) if is_plain else None

    def is_of_job(self, call: Event) -> bool:
        """Whether a call of a fence spells its set as all ranks of the caller's job."""
        job = self.job(call.rank)
        return grammar.items_of_set(self.words(call)[1]) in ([], [(job, None)])

    def members(self, call: Event) -> frozenset[int]:
        """The members of a call's fence."""
        return self.plan.fence_of[call].members

    def collects(self, call: Event) -> bool:
        """Whether a call of a fence says `collect`."""
        return len(self.words(call)) == 3

    def nodes(self, call: Event) -> set[bytes]:
        """The nodes of the members of a call's fence."""
        return {self.plan.nodes[member] for member in self.members(call)}

    def is_put(self, key: bytes) -> bool:
        """Whether some rank puts the key, reserved or not."""
        calls = (self.words(event) for events in self.events for event in events)
        return any(call[0] == b"put" and call[2] == key for call in calls)
