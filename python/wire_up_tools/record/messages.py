"""The messages of a process: its calls that send, receive or probe, by columns.

A large recording has millions of them: in arrays each takes some fifty bytes.
"""
import functools
from array import array
from collections.abc import Sequence

from wire_up_tools.record.calls import (
    Call,
    End,
    FoundBy,
    MessageEnd,
    MpiCall,
    Probe,
    Receive,
    Send,
)

# What a call does, in the column `verbs`.
SEND, RECEIVE, PROBE = range(3)
# Any source and any tag, in their columns: no recording has these numbers.
ANY_RANK, ANY_TAG = -1 << 31, -1 << 63
# The line of an end that isn't recorded.
NO_LINE = 0
# How a message, or the end of a send, was found, in the column `found_by`: none was, or that isn't
# said, or so.
NOTHING, NOT_SAID, BY_WAIT, BY_POLL, BY_SOME = range(5)
FOUND_WAYS = (None, None, FoundBy.WAIT, FoundBy.POLL, FoundBy.SOME)
# The status of a receive that was cancelled.
CANCELLED = 1
# Calls that are made of columns share what they do and how they end, where it is alike.
KEPT = 1 << 12


# What a call does: its verb, its communicator, the rank and the tag that it names, and the size of
# what it sends, or -1.
Begun = tuple[int, int, int, int, int]
# The message that a receive or a probe got: its source, its tag, its size, or -1 where that isn't
# known, and how it was found.
Came = tuple[int, int, int, int]


def find_wanted(number: int, any_number: int) -> int | None:
    """The source or tag that is asked for; None for any."""
    return None if number == any_number else number


@functools.lru_cache(KEPT)
def make_action(verb: int, communicator: int, peer: int, tag: int, size: int) -> MpiCall:
    """What a call does, by its columns."""
    if verb == SEND:
        return Send(communicator, peer, tag, size)
    source, wanted = find_wanted(peer, ANY_RANK), find_wanted(tag, ANY_TAG)
    if verb == RECEIVE:
        return Receive(communicator, source, wanted)
    return Probe(communicator, source, wanted)


@functools.lru_cache(KEPT)
def make_end(source: int, tag: int, size: int, found_by: int) -> MessageEnd:
    """How a call ended that got a message, by its columns."""
    return MessageEnd(0, source, tag, size, FOUND_WAYS[found_by])


class Messages:
    """The messages of a process. Each has a number, from 0 on, in the order in which they began.

    `peers` are ranks of the communicator, `sizes` those of what was sent or came, and `came_from`
    and `came_tags` are those of what came. `failed` has the statuses other than success. A send
    ends where it failed, or where its receive is known to have begun.
    """

    def __init__(self) -> None:
        self.verbs = bytearray()
        self.communicators, self.peers, self.came_from = array("i"), array("i"), array("i")
        self.tags, self.sizes, self.came_tags = array("q"), array("q"), array("q")
        self.begins, self.ends = array("I"), array("I")
        self.threads, self.places = array("I"), array("I")
        self.found_by = bytearray()
        self.failed: dict[int, int] = {}
        self.words: dict[str | None, int] = {}

    def __len__(self) -> int:
        return len(self.verbs)

    def begin(self, begun: Begun, at: int, thread: str, place: str | None) -> None:
        """Takes a call that begins at a line."""
        verb, communicator, peer, tag, size = begun
        self.verbs.append(verb)
        self.communicators.append(communicator)
        self.peers.append(peer)
        self.tags.append(tag)
        self.sizes.append(size)
        self.begins.append(at)
        self.threads.append(self.words.setdefault(thread, len(self.words)))
        self.places.append(self.words.setdefault(place, len(self.words)))
        self.ends.append(NO_LINE)
        self.came_from.append(-1)
        self.came_tags.append(0)
        self.found_by.append(NOTHING)

    def is_of_thread(self, number: int, thread: str) -> bool:
        """Whether a thread made a call."""
        return self.words.get(thread) == self.threads[number]

    def finish(self, number: int, at: int, came: Came | None, status: int) -> None:
        """Takes how a call ended, at a line, and the message that came."""
        self.ends[number] = at
        if came:
            self.came_from[number], self.came_tags[number], self.sizes[number], how = came
            self.found_by[number] = how
        if status:
            self.failed[number] = status

    def finish_send(self, number: int, at: int, status: int, found_by: int) -> None:
        """Takes how a send ended, at a line, and how that was found."""
        self.found_by[number] = found_by
        self.finish(number, at, None, status)

    @functools.cached_property
    def texts(self) -> Sequence[str | None]:
        """The words of threads and places, by their numbers."""
        return [*self.words]

    @functools.cached_property
    def ends_in_order(self) -> Sequence[int]:
        """The lines at which calls ended, from the first on."""
        return array("I", sorted(filter(None, self.ends)))

    @functools.cached_property
    def has_one_thread(self) -> bool:
        """Whether one thread at most made the calls."""
        return len(set(self.threads)) < 2

    @functools.cached_property
    def failures(self) -> frozenset[int]:
        """The calls that failed: not receives that were cancelled."""
        return frozenset(
            number
            for number, status in self.failed.items()
            if status != CANCELLED or self.verbs[number] == SEND
        )

    @property
    def thread_words(self) -> set[str]:
        """The threads that made the calls."""
        return {self.texts[thread] or "" for thread in set(self.threads)}

    def is_left_to_luck(self, number: int) -> bool:
        """Whether another run may have found a call open at this place."""
        return self.found_by[number] >= BY_POLL

    def make_end(self, number: int) -> End | None:
        """How a call ended; None where that isn't recorded."""
        if self.ends[number] == NO_LINE:
            return None
        if self.found_by[number] == NOTHING or self.verbs[number] == SEND:
            return End(self.failed.get(number, 0))
        return make_end(
            self.came_from[number],
            self.came_tags[number],
            self.sizes[number],
            self.found_by[number],
        )

    def make_call(self, number: int) -> Call:
        """A call by itself."""
        is_send = self.verbs[number] == SEND
        return Call(
            action=make_action(
                self.verbs[number],
                self.communicators[number],
                self.peers[number],
                self.tags[number],
                self.sizes[number] if is_send else -1,
            ),
            begins=self.begins[number],
            thread=self.texts[self.threads[number]] or "",
            place=self.texts[self.places[number]],
            ends=self.ends[number] or None,
            end=self.make_end(number),
        )
