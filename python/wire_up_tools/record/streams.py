"""Streams: the messages from one process with one tag to one process in one communicator. They
don't overtake each other. Ranks are those of the communicator."""
from array import array
from collections.abc import Iterable, Iterator, Mapping, Sequence, Set
from dataclasses import dataclass, field
from itertools import accumulate
from typing import NamedTuple

from wire_up_tools.record.messages import ANY_RANK, ANY_TAG

# In the place of a stream: it isn't there, or what asked got no message.
NO_STREAM, MISSED = -1, -2


class Stream(NamedTuple):
    """The messages from one process with one tag."""

    source: int
    tag: int


class Ask(NamedTuple):
    """What a receive or a probe asks for, perhaps ANY_RANK or ANY_TAG."""

    source: int
    tag: int

    def fits(self, stream: Stream) -> bool:
        """Whether it could get a message of a stream."""
        return self.source in (ANY_RANK, stream.source) and self.tag in (ANY_TAG, stream.tag)

    def widen(self, other: "Ask") -> "Ask":
        """This, but asking for any where the other does."""
        source = ANY_RANK if other.source == ANY_RANK else self.source
        return Ask(source, ANY_TAG if other.tag == ANY_TAG else self.tag)

    @property
    def stream(self) -> Stream | None:
        """The one stream that it asks for; None where it could be any of several."""
        return None if self.source == ANY_RANK or self.tag == ANY_TAG else Stream(*self)


class Streams:
    """The streams of an inbox, with numbers from 0 on, in the order of their first messages.

    A large recording has as many as messages. So most are found by their tag alone: `by_tag` has
    the first of each, and `others` those of the same tag from other sources.
    """

    def __init__(self) -> None:
        self.sources, self.tags, self.counts = array("i"), array("q"), array("I")
        self.by_tag: dict[int, int] = {}
        self.others: dict[Stream, int] = {}

    def __len__(self) -> int:
        return len(self.sources)

    def find(self, source: int, tag: int) -> int:
        """The number of a stream, or NO_STREAM."""
        number = self.by_tag.get(tag, NO_STREAM)
        if number == NO_STREAM or self.sources[number] == source:
            return number
        return self.others.get(Stream(source, tag), NO_STREAM)

    def add(self, source: int, tag: int) -> int:
        """Counts a message of a stream. Answers the number of that."""
        number = self.find(source, tag)
        if number == NO_STREAM:
            number = len(self.sources)
            if self.by_tag.setdefault(tag, number) != number:
                self.others[Stream(source, tag)] = number
            self.sources.append(source)
            self.tags.append(tag)
            self.counts.append(0)
        self.counts[number] += 1
        return number

    def name(self, number: int) -> Stream:
        """A stream by its number."""
        return Stream(self.sources[number], self.tags[number])


@dataclass(frozen=True)
class Sent:
    """The messages of streams: `numbers` are those among the messages of their senders, stream by
    stream, and `borders` say where each stream begins there."""

    numbers: Sequence[int]
    borders: Sequence[int]

    def find(self, stream: int, index: int) -> int:
        """A message of a stream, by its place in the order of that."""
        return self.numbers[self.borders[stream] + index]

    def of_stream(self, stream: int) -> Sequence[int]:
        """The messages of a stream, in their order."""
        return self.numbers[self.borders[stream]:self.borders[stream + 1]]


def sort_messages(streams: Streams, stream_of: Sequence[int], numbers: Sequence[int]) -> Sent:
    """Sorts messages by their streams."""
    borders = array("I", accumulate(streams.counts, initial=0))
    found, free = array("I", bytes(4 * len(numbers))), borders[:]
    for stream, number in zip(stream_of, numbers):
        found[free[stream]] = number
        free[stream] += 1
    return Sent(found, borders)


@dataclass(frozen=True)
class Parts:
    """Which streams are in one group: `roots` has for each stream the first of its group, and
    `joint` the streams of the groups of several, by their first."""

    roots: Sequence[int]
    joint: Mapping[int, Sequence[int]] = field(default_factory=dict)

    def of_group(self, root: int) -> Sequence[int]:
        """The streams of a group, by the first."""
        return self.joint.get(root, (root,))


def find_root(above: "array[int]", stream: int) -> int:
    """The first stream of the group of one: `above` says of each stream an earlier one of its
    group, or itself."""
    while above[stream] != stream:
        above[stream] = above[above[stream]]
        stream = above[stream]
    return stream


def find_joins(streams: Streams, asks: Set[Ask]) -> Iterator[tuple[int, int]]:
    """Pairs of streams for which one could ask together: of one source, of one tag, or any."""
    if Ask(ANY_RANK, ANY_TAG) in asks:
        yield from ((0, each_number) for each_number in range(len(streams)))
    sources = {ask.source for ask in asks if ask.tag == ANY_TAG}
    first: dict[int, int] = {}
    for number, source in enumerate(streams.sources) if sources else ():
        if source in sources:
            yield first.setdefault(source, number), number
    for stream, number in streams.others.items():
        if Ask(ANY_RANK, stream.tag) in asks:
            yield streams.by_tag[stream.tag], number


def part_streams(streams: Streams, asks: Iterable[tuple[int, int]]) -> Parts:
    """Parts streams into groups, by all that is asked for: those for which one receive could get
    a message of either are in one."""
    shared = {stream.tag for stream in streams.others}
    wide = {
        Ask(source, tag)
        for source, tag in asks
        if tag == ANY_TAG or (source == ANY_RANK and tag in shared)
    }
    above, joint = array("I", range(len(streams))), dict[int, "array[int]"]()
    for one, other in find_joins(streams, wide):
        first, second = sorted((find_root(above, one), find_root(above, other)))
        above[second] = first
    for number in range(len(streams)) if wide else ():
        above[number] = above[above[number]]
        if above[number] != number:
            joint.setdefault(above[number], array("I", [above[number]])).append(number)
    return Parts(above, joint)


def find_fitting(streams: Streams, ask: Ask) -> int:
    """The first stream that fits what is asked for, or NO_STREAM."""
    if ask.stream:
        return streams.find(*ask.stream)
    if ask.tag != ANY_TAG:
        return streams.by_tag.get(ask.tag, NO_STREAM)
    if ask.source == ANY_RANK:
        return 0 if len(streams) else NO_STREAM
    has_source = ask.source in streams.sources
    return streams.sources.index(ask.source) if has_source else NO_STREAM
