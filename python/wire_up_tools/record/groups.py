"""Groups of the streams of an inbox, with the receives and probes that could get their messages:
which got which, as far as that is the same in every run."""
import enum
from array import array
from collections.abc import Iterator, Mapping, Sequence
from dataclasses import dataclass

from wire_up_tools.record.communicators import Side
from wire_up_tools.record.messages import ANY_RANK, RECEIVE, Messages
from wire_up_tools.record.processes import Process
from wire_up_tools.record.streams import Ask, Sent, Streams


@dataclass(frozen=True, eq=False)
class SortedInbox:
    """What one process was sent in one communicator, by streams, and what it asked for there, in
    the order in which that was posted. `peers` are the processes that its ranks are.

    `asked` are numbers among its own messages. By their indices, `got` has the stream of which a
    message came, and `widened` what was asked for, where that isn't what the recording says. Of
    each stream, `chosen_sends` and `chosen_receives` have the first message whose peer may have
    been chosen by a message that came before.
    """

    target: Process
    peers: Side
    streams: Streams
    sent: Sent
    asked: Sequence[int]
    got: Sequence[int]
    widened: Mapping[int, Ask]
    chosen_sends: Mapping[int, int]
    chosen_receives: Mapping[int, int]

    @property
    def own(self) -> Messages:
        """The messages of the process itself."""
        return self.target.recording.messages

    def find_sender(self, stream: int) -> Process:
        """The process that sent a stream."""
        return self.peers[self.streams.sources[stream]]

    def find_ask(self, index: int) -> Ask:
        """What was asked for."""
        number = self.asked[index]
        return self.widened.get(index) or Ask(self.own.peers[number], self.own.tags[number])

    def is_receive(self, index: int) -> bool:
        """Whether a receive asked: a probe leaves its message there."""
        return self.own.verbs[self.asked[index]] == RECEIVE

    def list_asks(self) -> Iterator[tuple[int, int]]:
        """The source and the tag of all that was asked for."""
        if self.widened:
            return map(self.find_ask, range(len(self.asked)))
        own = self.own
        return ((own.peers[number], own.tags[number]) for number in self.asked)

    def has_other_size(self, stream: int, send: int, number: int) -> bool:
        """Whether a receive got a message of another size than one of a stream has."""
        size = self.own.sizes[number]
        return size >= 0 and size != self.find_sender(stream).recording.messages.sizes[send]

    def is_chosen(self, index: int, send: int) -> bool:
        """Whether the program may have chosen the peer of a message, or of the receive or probe
        that got it, by one that came before."""
        stream, number = self.got[index], self.asked[index]
        return (
            self.chosen_sends.get(stream) == send or self.chosen_receives.get(stream) == number
        )

    def has_one_thread(self, stream: int) -> bool:
        """Whether one thread sent all messages of a stream."""
        messages = self.find_sender(stream).recording.messages
        if messages.has_one_thread or self.streams.counts[stream] == 1:
            return True
        return len({messages.threads[number] for number in self.sent.of_stream(stream)}) == 1


class Fit(enum.Enum):
    """Whether receives surely got the messages of each stream in their order; TOO_FEW says that
    they did, if those messages that lack were sent."""

    SURE = enum.auto()
    TOO_FEW = enum.auto()
    NOT_SURE = enum.auto()


@dataclass(frozen=True)
class Match:
    """Receives with their messages, and probes with the message that they found: `sends` are
    numbers of the sender, and `asked` indices. `is_unfit` says that messages and receives that
    are all there don't fit: a receive got a message that isn't, or one of another size, or no
    receive got a message."""

    __slots__ = ("sends", "asked", "receive_count", "fit", "is_unfit")

    sends: Sequence[int]
    asked: Sequence[int]
    receive_count: int
    fit: Fit
    is_unfit: bool


@dataclass(frozen=True, eq=False)
class Group:
    """Streams, and the receives and probes that got their messages or could have, by their
    indices in the order in which they were posted. `lacks` says that there are others which got
    none. `match` is the same in every run, where the group is certain."""

    __slots__ = ("inbox", "streams", "asked", "lacks", "match")

    inbox: SortedInbox
    streams: Sequence[int]
    asked: Sequence[int]
    lacks: bool
    match: Match

    @property
    def target(self) -> Process:
        """The process that receives."""
        return self.inbox.target

    @property
    def message_count(self) -> int:
        """How many messages there are."""
        counts = self.inbox.streams.counts
        return sum(counts[stream] for stream in self.streams)

    @property
    def is_certain(self) -> bool:
        """Whether each receive gets the same message in every run: all are of one process."""
        sources = self.inbox.streams.sources
        return len({sources[stream] for stream in self.streams}) < 2

    @property
    def source(self) -> Process:
        """The process that sends, where the group is certain."""
        return self.inbox.find_sender(self.streams[0]) if self.streams else self.target

    @property
    def is_from_any(self) -> bool:
        """Whether something was asked of any source."""
        return any(self.inbox.find_ask(number).source == ANY_RANK for number in self.asked)

    @property
    def is_all(self) -> bool:
        """Whether each message has a receive, and none got nothing."""
        return self.message_count == self.match.receive_count and not self.lacks

    @property
    def has_chosen(self) -> bool:
        """Whether the program may have chosen the peer of a message by one that came before."""
        inbox = self.inbox
        return any(
            stream in chosen
            for chosen in (inbox.chosen_sends, inbox.chosen_receives)
            for stream in (self.streams if chosen else ())
        )

    def is_matched(self, *, is_cut: bool) -> bool:
        """Whether the receives surely got the messages of each stream in their order. Where the
        sender's recording is cut, messages may lack at the end."""
        may_lack = is_cut and len(self.streams) == 1
        return self.match.fit is Fit.SURE or (may_lack and self.match.fit is Fit.TOO_FEW)

    def ends(self) -> Iterator[int]:
        """The lines at which the receives and probes ended."""
        inbox = self.inbox
        return (inbox.own.ends[inbox.asked[number]] for number in self.asked)

    def pairs(self) -> Iterator[tuple[int, int]]:
        """The numbers of messages, and of the receives and probes that got them, of a certain
        group."""
        return zip(self.match.sends, map(self.inbox.asked.__getitem__, self.match.asked))


class Matching:
    """Gives the receives and probes of a group, by their indices, the messages of its streams, of
    each in order.

    `taken` says how many of each stream are received so far. What doesn't fit: receives of a
    message that isn't in the group, or past the last of its stream, and streams of which a receive
    got another size than its own message has.
    """

    def __init__(self, inbox: SortedInbox, streams: Sequence[int], asked: Sequence[int]) -> None:
        self.inbox, self.verbs = inbox, inbox.own.verbs
        self.sends, self.asked = array("I"), array("I")
        self.taken = dict.fromkeys(streams, 0)
        self.receive_count = 0
        self.is_foreign, self.has_too_few = False, False
        self.of_other_size: set[int] = set()
        self.threads = {inbox.own.threads[inbox.asked[number]] for number in asked}
        for index in asked:
            self.take(index)

    def take(self, index: int) -> None:
        """Takes a receive or a probe."""
        inbox, number = self.inbox, self.inbox.asked[index]
        stream, is_receive = inbox.got[index], self.verbs[number] == RECEIVE
        self.receive_count += is_receive
        count = self.taken.get(stream)
        if count is None:
            self.is_foreign |= is_receive
            return
        if count < inbox.streams.counts[stream]:
            send = inbox.sent.find(stream, count)
            self.sends.append(send)
            self.asked.append(index)
            if is_receive and inbox.has_other_size(stream, send, number):
                self.of_other_size.add(stream)
        else:
            self.has_too_few |= is_receive
        self.taken[stream] = count + is_receive

    @property
    def fit(self) -> Fit:
        """Whether each receive surely got its message."""
        received = (stream for stream, count in self.taken.items() if count)
        if self.is_foreign or self.of_other_size or len(self.threads) > 1:
            return Fit.NOT_SURE
        if not all(map(self.inbox.has_one_thread, received)):
            return Fit.NOT_SURE
        return Fit.TOO_FEW if self.has_too_few else Fit.SURE

    @property
    def is_unfit(self) -> bool:
        """Whether a receive got a message that isn't there, or one of another size."""
        of_other_size = any(map(self.inbox.has_one_thread, self.of_other_size))
        return self.is_foreign or self.has_too_few or of_other_size

    def finish(self, *, lacks: bool) -> Match:
        """What was found, where `lacks` says whether others that asked got nothing."""
        counts = self.inbox.streams.counts
        is_any_left = (
            sum(counts[number] for number in self.taken) > self.receive_count and not lacks
        )
        return Match(
            sends=self.sends,
            asked=self.asked,
            receive_count=self.receive_count,
            fit=self.fit,
            is_unfit=self.is_unfit or is_any_left,
        )


def match_pairs(inbox: SortedInbox, asked: Sequence[int]) -> Match:
    """Receives that each have the one message of a stream of their own."""
    sends = array("I", (inbox.sent.find(inbox.got[number], 0) for number in asked))
    return Match(sends, asked, len(asked), Fit.SURE, is_unfit=False)
