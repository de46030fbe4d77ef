"""Orders messages of which a receive could get those of several processes, by what holds in every
run, whichever it got."""
from collections import Counter, deque
from collections.abc import Iterator, Mapping, Sequence
from dataclasses import dataclass, field
from typing import NamedTuple

from wire_up_tools.record.calls import Call, Luck
from wire_up_tools.record.communicators import Side
from wire_up_tools.record.draft import (
    Draft,
    Line,
    Ordered,
    Part,
    Step,
    make_draft,
    make_publish,
    walk,
)
from wire_up_tools.record.groups import Group
from wire_up_tools.record.knowledge import Latest, find_heard, merge
from wire_up_tools.record.messages import ANY_RANK, ANY_TAG
from wire_up_tools.record.names import MessageNames
from wire_up_tools.record.notes import Notes
from wire_up_tools.record.processes import Process, Processes
from wire_up_tools.record.streams import Ask, Stream

# How often the order of messages that could have come otherwise is looked at again.
MOST_ROUNDS = 8
# Up to which line of its receiver's recording a message comes after it, if after none.
AFTER_NOTHING = -1


@dataclass(eq=False)
class PostedReceive:
    """A receive or a probe that got a message. A receive took it, and a probe left it there."""

    __slots__ = ("ask", "call", "is_receive")

    ask: Ask
    call: Call
    is_receive: bool


@dataclass(frozen=True, eq=False)
class OpenGroup:
    """A group of messages to a process that could have come otherwise, by streams, with what got
    them, and the processes that its ranks are. `has_chosen` says that the program may have chosen
    the peer of one by a message that came before."""

    __slots__ = ("streams", "asked", "has_chosen", "target", "peers")

    streams: Mapping[Stream, Sequence[Call]]
    asked: Sequence[PostedReceive]
    has_chosen: bool
    target: Process
    peers: Side


def open_group(group: Group) -> OpenGroup:
    """A group with a call for each of its messages."""
    inbox, own, streams = group.inbox, group.inbox.own, dict[Stream, Sequence[Call]]()
    for stream in group.streams:
        make_call = inbox.find_sender(stream).recording.messages.make_call
        streams[inbox.streams.name(stream)] = [*map(make_call, inbox.sent.of_stream(stream))]
    asked = [
        PostedReceive(
            inbox.find_ask(receive), own.make_call(inbox.asked[receive]), inbox.is_receive(receive)
        )
        for receive in group.asked
    ]
    return OpenGroup(streams, asked, group.has_chosen, inbox.target, inbox.peers)


class Taken:
    """The receives that have surely got a message: those that ended, and those posted before one
    of them, or before a probe that found something, that would have got its message first."""

    def __init__(self, asked: Sequence[PostedReceive]) -> None:
        self.count = 0
        self.index_of = {receive: n for n, receive in enumerate(asked)}
        self.waiting: dict[Ask, deque[int]] = {}
        for n, receive in enumerate(asked):
            if receive.is_receive:
                self.waiting.setdefault(receive.ask, deque()).append(n)
        self.alike = {ask: self.find_alike(ask) for ask in {receive.ask for receive in asked}}

    def take(self, got: PostedReceive) -> list[Ask]:
        """Adds a receive that ended, and those before it. Answers what the new ones asked for."""
        index, new = self.index_of[got], []
        for ask in self.alike[got.ask]:
            waiting = self.waiting[ask]
            while waiting and waiting[0] <= index:
                waiting.popleft()
                new.append(ask)
        self.count += len(new)
        return new

    def find_alike(self, ask: Ask) -> Sequence[Ask]:
        """What receives asked for that would have got each message that one of this could."""
        of_any = Ask(ask.source, ANY_TAG), Ask(ANY_RANK, ask.tag), Ask(ANY_RANK, ANY_TAG)
        alike = (ask, *of_any)
        return [each_ask for each_ask in dict.fromkeys(alike) if each_ask in self.waiting]


class PendingSend(NamedTuple):
    """A message of a stream that comes after a line of the receiver's recording."""

    after: int
    stream: Stream


class Counted:
    """How many messages of each stream could have come by now, and how many surely have.

    `after` says of each message up to which line of the receiver's recording it comes after.
    `spread` is the most messages of one stream that could have come, but haven't surely.
    """

    def __init__(
        self, streams: Mapping[Stream, Sequence[Call]], after: Mapping[Call, int]
    ) -> None:
        self.streams = streams
        self.could: Counter[Stream] = Counter()
        self.have: Counter[Stream] = Counter()
        self.own: Counter[Ask] = Counter()
        self.total = 0
        coming = [
            PendingSend(after[send], stream) for stream, sends in streams.items() for send in sends
        ]
        self.coming = deque(sorted(coming, key=lambda pending_send: pending_send.after))
        self.open: set[Stream] = set()
        self.spread = 0

    def come_to(self, at: int) -> None:
        """Counts the messages that could have come by a line of the receiver's recording."""
        while self.coming and self.coming[0].after < at:
            stream = self.coming.popleft().stream
            self.could[stream] += 1
            self.total += 1
            self.open.add(stream)
            self.spread = max(self.spread, self.could[stream] - self.have[stream])

    def count_own(self, asks: Sequence[Ask], probe: Ask | None) -> dict[Stream, int]:
        """How many messages of a stream were got by those who asked for it alone: of the new ones
        that asked so, and of a probe."""
        found: dict[Stream, int] = {}
        for ask in asks:
            self.own[ask] += 1
            if ask.stream in self.streams and ask.stream:
                found[ask.stream] = self.own[ask]
        if probe and probe.stream in self.streams and probe.stream:
            found[probe.stream] = self.own[probe] + 1
        return found

    def find_new(self, count: int, asks: Sequence[Ask], probe: Ask | None) -> Iterator[Call]:
        """The messages that have surely been sent when `count` receives have got one, of which
        the new ones asked for `asks`, and when a probe found one more: for each stream the last
        that is new.

        Each has a message of its own. Of one stream they have at least as many as there are more
        receives than other messages that could have come by then, and those are its first ones.
        """
        surely = self.count_own(asks, probe)
        spare = self.total - count - (probe is not None)
        is_scarce = spare < self.spread
        for stream in sorted(self.open) if is_scarce else ():
            surely[stream] = max(surely.get(stream, 0), self.could[stream] - max(spare, 0))
        for stream, sure in surely.items():
            if self.have[stream] < sure <= len(self.streams[stream]):
                self.have[stream] = sure
                yield self.streams[stream][sure - 1]
        if is_scarce:
            self.open = {
                each_stream
                for each_stream in self.open
                if self.could[each_stream] > self.have[each_stream]
            }
            spreads = (
                self.could[each_stream] - self.have[each_stream] for each_stream in self.open
            )
            self.spread = max(spreads, default=0)


def find_orders(
    group: OpenGroup, after: Mapping[Call, int], luck: Luck
) -> Iterator[tuple[Call, Call]]:
    """What comes before what in every run, where one receive could get messages of several
    processes: each message with the receive or probe that ends after it was sent."""
    taken, counted = Taken(group.asked), Counted(group.streams, after)
    if luck is Luck.IS_LEFT_OUT and group.has_chosen:
        return
    for got in sorted(group.asked, key=lambda receive: receive.call.ends or 0):
        if luck is Luck.IS_LEFT_OUT and got.call.is_left_to_luck:
            continue
        asks = taken.take(got)
        counted.come_to(got.call.ends or 0)
        probe = None if got.is_receive else got.ask
        for message in counted.find_new(taken.count, asks, probe):
            yield message, got.call


def find_lines_before(
    draft: Draft, groups: Sequence[OpenGroup], sent: Mapping[Call, Line]
) -> dict[Call, int]:
    """For each message of open groups up to which line of its receiver's recording it comes after,
    by what a draft has so far."""
    receivers = {group.target for group in groups}
    message_of = {
        sent[send]: (send, group.target)
        for group in groups
        for sends in group.streams.values()
        for send in sends
    }
    found = {send: AFTER_NOTHING for send, _ in message_of.values()}
    heard = find_heard(draft) | message_of.keys()
    told: dict[Line, Latest] = {}
    known: dict[Process, Latest] = {each_line: {} for each_line in draft.lines}
    for step, line in walk(draft):
        process = line.process
        if step is Step.REACHED and line in heard:
            own = {process: line.at}
            told[line] = {**known[process], **own} if process in receivers else known[process]
            if line in message_of:
                send, target = message_of[line]
                found[send] = told[line].get(target, AFTER_NOTHING)
        elif step is Step.PASSED:
            sources = find_sources(draft, line)
            if sources:
                known[process] = merge([known[process], *(told[source] for source in sources)])
    return found


def find_sources(draft: Draft, line: Line) -> Sequence[Line]:
    """The lines that must be reached before one is passed."""
    meeting, source = draft.meetings.get(line), draft.awaited.get(line)
    return meeting.lines if meeting else [source] if source else ()


def publish_messages(groups: Sequence[OpenGroup], names: MessageNames) -> dict[Call, Line]:
    """A line for each message of open groups."""
    found: dict[Call, Line] = {}
    for group in groups:
        for stream, sends in group.streams.items():
            source = group.peers[stream.source]
            for send in sends:
                found[send] = make_publish(names.next(source, group.target), source, send)
    return found


@dataclass
class Waits:
    """The lines that wait for messages, which are sent by the lines of `sent`."""

    sent: Mapping[Call, Line]
    part: Part = field(default_factory=Part)
    known: set[tuple[Line, Call]] = field(default_factory=set)

    def add(self, target: Process, message: Call, ended: Call) -> None:
        """Adds a line that waits for a message at the end of a call, if it isn't there yet."""
        line = self.sent[message]
        if (line, ended) not in self.known and line.process is not target:
            self.known.add((line, ended))
            self.part.add_wait(line, target, ended)

    def add_all(self, groups: Sequence[OpenGroup], draft: Draft, luck: Luck) -> None:
        """Adds all that holds in every run by what a draft has so far."""
        after = find_lines_before(draft, groups, self.sent)
        for group in groups:
            for message, ended in find_orders(group, after, luck):
                self.add(group.target, message, ended)

    def finish(self) -> Part:
        """The lines that wait, and those that send what is waited for."""
        heard = set(self.part.awaited.values())
        lines = [line for line in self.sent.values() if line in heard]
        return Part([*lines, *self.part.lines], self.part.awaited)


def order_open_groups(
    processes: Processes,
    parts: Sequence[Part],
    groups: Sequence[Group],
    names: MessageNames,
    luck: Luck,
) -> Ordered:
    """Orders messages that could have come otherwise, by what holds in every run.

    What is ordered already, by `parts`, rules messages out: one that is sent after a receive has
    ended can't be the one that it got. So it begins again as long as that brings more.
    """
    opened = [open_group(group) for group in groups]
    waits, before, rounds = Waits(publish_messages(opened, names)), -1, 0
    published = Part([*waits.sent.values()])
    while len(waits.known) != before and rounds < MOST_ROUNDS:
        before, rounds = len(waits.known), rounds + 1
        draft = make_draft(processes, [*parts, published, waits.part])
        waits.add_all(opened, draft, luck)
    return Ordered(waits.finish(), count=len(waits.known))


def count_left_to_luck(group: Group) -> int:
    """How many of the receives and probes of a group another run may have found open."""
    if group.has_chosen:
        return len(group.asked)
    inbox = group.inbox
    return sum(inbox.own.is_left_to_luck(inbox.asked[receive]) for receive in group.asked)


def note_open_groups(groups: Sequence[Group]) -> Ordered:
    """Notes messages that could have come otherwise, and which of their ends were left to luck."""
    notes, count = Notes(), sum(group.match.receive_count for group in groups)
    notes.otherwise[
        "receives that could have got messages of several processes: "
        "they order what holds whichever they got"
    ] += count
    notes.of_luck["receives that could have got another message"] += count
    return Ordered(notes=notes, left_to_luck=sum(map(count_left_to_luck, groups)))
