"""Collects what each process is sent in each communicator, and what it asks for there."""
import sys
from array import array
from collections.abc import Mapping
from dataclasses import dataclass, field

from wire_up_tools.record.communicators import Communicator, Communicators, Side
from wire_up_tools.record.groups import SortedInbox
from wire_up_tools.record.messages import (
    ANY_RANK,
    BY_SOME,
    NO_LINE,
    NOTHING,
    PROBE,
    RECEIVE,
    SEND,
    Messages,
)
from wire_up_tools.record.notes import Notes
from wire_up_tools.record.processes import Process, Processes
from wire_up_tools.record.streams import MISSED, Ask, Stream, Streams, sort_messages

# What calls do, by their verbs.
VERBS = {SEND: "sends", RECEIVE: "receives", PROBE: "probes"}


@dataclass
class Inbox:
    """What one process is sent in one communicator, by streams, and what it asked for there, in
    the order in which that was posted: by numbers among the messages of each process.

    `peers` are the processes that its ranks are. `probed` is what probes that found a message of a
    stream asked for, and `widened` what was asked for by indices, where that isn't what the
    recording says. Of each stream `chosen_sends` and `chosen_receives` have the first message
    whose peer may have been chosen by one that came before.
    """

    target: Process
    peers: Side
    streams: Streams = field(default_factory=Streams)
    stream_of: "array[int]" = field(default_factory=lambda: array("I"))
    sent: "array[int]" = field(default_factory=lambda: array("I"))
    asked: "array[int]" = field(default_factory=lambda: array("I"))
    probed: dict[Stream, Ask] = field(default_factory=dict)
    widened: dict[int, Ask] = field(default_factory=dict)
    chosen_sends: dict[int, int] = field(default_factory=dict)
    chosen_receives: dict[Stream, int] = field(default_factory=dict)

    def take_send(self, source: int, tag: int, number: int, *, is_chosen: bool) -> None:
        """Takes a message that is sent to it."""
        stream = self.streams.add(source, tag)
        self.stream_of.append(stream)
        self.sent.append(number)
        if is_chosen:
            self.chosen_sends.setdefault(stream, number)

    def take_ask(self, messages: Messages, number: int, *, is_chosen: bool) -> None:
        """Takes a receive or a probe. A receive of just what a probe found is as free as the
        probe was."""
        if self.probed or messages.verbs[number] == PROBE:
            self.take_probed(messages, number)
        index = len(self.asked)
        self.asked.append(number)
        if is_chosen and messages.found_by[number] != NOTHING:
            source = self.widened[index].source if index in self.widened else messages.peers[number]
            if source != ANY_RANK:
                self.chosen_receives.setdefault(find_stream(messages, number), number)

    def take_probed(self, messages: Messages, number: int) -> None:
        """Keeps what a probe asked for, or finds what a receive asks for behind it."""
        ask = Ask(messages.peers[number], messages.tags[number])
        if messages.verbs[number] == RECEIVE:
            wide = ask
            for found in [stream for stream in self.probed if ask.fits(stream)]:
                wide = wide.widen(self.probed.pop(found))
            if wide != ask:
                self.widened[len(self.asked)] = wide
        elif messages.found_by[number] != NOTHING and not ask.stream:
            self.probed[find_stream(messages, number)] = ask

    def find_got(self, messages: Messages, number: int) -> int:
        """The stream of which what was asked for got a message."""
        if messages.found_by[number] == NOTHING:
            return MISSED
        return self.streams.find(messages.came_from[number], messages.came_tags[number])

    def sort(self) -> SortedInbox:
        """All of it, by streams."""
        messages, find = self.target.recording.messages, self.streams.find
        of_receives = {find(*receive): number for receive, number in self.chosen_receives.items()}
        return SortedInbox(
            target=self.target,
            peers=self.peers,
            streams=self.streams,
            sent=sort_messages(self.streams, self.stream_of, self.sent),
            asked=self.asked,
            got=array("i", (self.find_got(messages, each_number) for each_number in self.asked)),
            widened=self.widened,
            chosen_sends=self.chosen_sends,
            chosen_receives=of_receives,
        )


def find_stream(messages: Messages, number: int) -> Stream:
    """The stream of the message that came."""
    return Stream(messages.came_from[number], messages.came_tags[number])


class Found:
    """Whom a process has found by luck, and up to which line of its recording it didn't know them.
    Later the program may send to them, or receive from them, since they came."""

    def __init__(self) -> None:
        self.at: dict[Process, int] = {}

    def add(self, peer: Process, ends: int) -> None:
        """Takes whom a call found that ended at a line."""
        self.at.setdefault(peer, ends)

    def has(self, peer: Process | None, begins: int) -> bool:
        """Whether a process was found before a call began at a line."""
        return peer is not None and self.at.get(peer, sys.maxsize) < begins


@dataclass
class Inboxes:
    """The inboxes of processes by the communicators that they have messages in, in the order in
    which recordings name them."""

    found: dict[tuple[int, Process], Inbox] = field(default_factory=dict)
    notes: Notes = field(default_factory=Notes)

    def find(self, communicator: int, target: Process, peers: Side) -> Inbox:
        """The inbox of a process in a communicator, whose ranks are these processes there."""
        inbox = self.found.get((communicator, target))
        if not inbox:
            inbox = self.found[communicator, target] = Inbox(target, peers)
        return inbox


@dataclass
class Taking:
    """Takes the messages of one process, whose communicators are known."""

    messages: Messages
    known: Mapping[int, Communicator]
    inboxes: Inboxes
    found: Found = field(default_factory=Found)

    def take(self, number: int) -> None:
        """Takes a message. A send that failed is none."""
        own = self.known.get(self.messages.communicators[number])
        if not own:
            left_out = self.inboxes.notes.left_out
            left_out["messages in communicators that aren't recorded"] += 1
        elif self.messages.verbs[number] != SEND:
            self.take_ask(own, number)
        elif number not in self.messages.failures:
            self.take_send(own, number)

    def take_send(self, own: Communicator, number: int) -> None:
        """Takes a message that is sent, if its target is there."""
        messages = self.messages
        rank = messages.peers[number]
        if 0 <= rank < len(own.peers):
            target = own.peers[rank]
            inbox = self.inboxes.find(own.identity, target, own.members)
            is_chosen = self.found.has(target, messages.begins[number])
            inbox.take_send(own.rank, messages.tags[number], number, is_chosen=is_chosen)

    def take_ask(self, own: Communicator, number: int) -> None:
        """Takes a receive or a probe, and whom one of any source finds."""
        messages, notes = self.messages, self.inboxes.notes
        if messages.verbs[number] == RECEIVE and messages.ends[number] == NO_LINE:
            notes.left_out["receives whose end isn't recorded"] += 1
        if messages.found_by[number] == BY_SOME:
            notes.of_luck["receives that were the first of several requests"] += 1
        inbox = self.inboxes.find(own.identity, own.members[own.rank], own.peers)
        peer = self.find_peer(own, number)
        inbox.take_ask(messages, number, is_chosen=self.found.has(peer, messages.begins[number]))
        if peer and self.is_found_by_luck(own, number):
            self.found.add(peer, messages.ends[number])

    def find_peer(self, own: Communicator, number: int) -> Process | None:
        """The process of which a message came; None where none did."""
        rank = self.messages.came_from[number]
        return own.peers[rank] if 0 <= rank < len(own.peers) else None

    def is_found_by_luck(self, own: Communicator, number: int) -> bool:
        """Whether it was luck of whom a message came that was asked for: of any, or by one of
        several requests. Of a communicator of two, who isn't oneself is known."""
        messages, others = self.messages, len(own.peers) - (not own.has_two_sides)
        is_of_any = messages.peers[number] == ANY_RANK or messages.found_by[number] == BY_SOME
        return is_of_any and others > 1


def note_failures(messages: Messages, notes: Notes) -> None:
    """Notes the calls that failed."""
    for number in messages.failures:
        notes.left_out[f"{VERBS[messages.verbs[number]]} that failed"] += 1


def find_inboxes(processes: Processes, communicators: Communicators) -> Inboxes:
    """What each process is sent in each communicator, and what it asks for there."""
    inboxes = Inboxes()
    for process in processes.all:
        messages = process.recording.messages
        note_failures(messages, inboxes.notes)
        taking = Taking(messages, communicators[process], inboxes)
        for number in range(len(messages)):
            taking.take(number)
    return inboxes
