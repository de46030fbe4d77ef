"""Parts what a process was sent in a communicator, and what it asked for there, into groups: those
streams are in one for which one receive could get a message of either."""
from array import array
from collections.abc import Sequence
from dataclasses import dataclass, field
from typing import NamedTuple

from wire_up_tools.record.groups import Group, SortedInbox, Matching, match_pairs
from wire_up_tools.record.messages import ANY_RANK, ANY_TAG, RECEIVE
from wire_up_tools.record.streams import (
    MISSED,
    NO_STREAM,
    Ask,
    Parts,
    find_fitting,
    part_streams,
)


class Alike(NamedTuple):
    """What groups of one message and its receive have in common that are taken as one: large
    recordings have as many as messages."""

    source: int
    sender: int
    receiver: int
    is_from_any: bool


@dataclass
class Keys:
    """Finds what stands for the group of what is asked for: its first stream or, where no message
    fits, a negative number of its own."""

    inbox: SortedInbox
    parts: Parts
    found: dict[Ask, int] = field(default_factory=dict)

    def find(self, ask: Ask) -> int:
        """The key of what is asked for."""
        if ask not in self.found:
            first = find_fitting(self.inbox.streams, ask)
            is_there = first != NO_STREAM
            self.found[ask] = self.parts.roots[first] if is_there else -1 - len(self.found)
        return self.found[ask]

    def find_all(self) -> "array[int]":
        """The keys of all that was asked for. What got a message of a stream that is there, and
        that fits, has the key of that."""
        streams, roots = self.inbox.streams, self.parts.roots
        found = array("i")
        for stream, (source, tag) in zip(self.inbox.got, self.inbox.list_asks()):
            is_fit = (
                stream >= 0
                and source in (ANY_RANK, streams.sources[stream])
                and tag in (ANY_TAG, streams.tags[stream])
            )
            found.append(roots[stream] if is_fit else self.find(Ask(source, tag)))
        return found


class Grouping:
    """Groups what was asked for, by what could get messages of the same streams."""

    def __init__(self, inbox: SortedInbox) -> None:
        self.inbox = inbox
        self.parts = part_streams(inbox.streams, inbox.list_asks())
        self.keys = Keys(inbox, self.parts).find_all()
        self.lacking: set[int] = set()
        self.counts = array("I", bytes(4 * len(inbox.streams)))
        for key, stream in zip(self.keys, inbox.got):
            if stream == MISSED:
                self.lacking.add(key)
            elif key >= 0:
                self.counts[key] += 1

    def is_pair(self, index: int, key: int) -> bool:
        """Whether a receive and one message are a group by themselves, that can be taken as one
        with others."""
        inbox = self.inbox
        return (
            0 <= key == inbox.got[index]
            and self.counts[key] == inbox.streams.counts[key] == 1
            and key not in self.parts.joint
            and key not in self.lacking
            and inbox.own.verbs[inbox.asked[index]] == RECEIVE
            and not inbox.has_other_size(key, inbox.sent.find(key, 0), inbox.asked[index])
            and key not in inbox.chosen_receives
            and key not in inbox.chosen_sends
        )

    def find_alike(self, index: int, key: int) -> Alike:
        """What a receive and its message have in common with others."""
        inbox, number = self.inbox, self.inbox.asked[index]
        sender = inbox.find_sender(key).recording.messages
        return Alike(
            inbox.streams.sources[key],
            sender.threads[inbox.sent.find(key, 0)],
            inbox.own.threads[number],
            inbox.find_ask(index).source == ANY_RANK,
        )

    def sort(self) -> dict[int | Alike, "array[int]"]:
        """What got a message, by groups, in the order of the first of each."""
        found: dict[int | Alike, "array[int]"] = {}
        for index, key in enumerate(self.keys):
            if self.inbox.got[index] != MISSED:
                is_pair = self.is_pair(index, key)
                of: int | Alike = self.find_alike(index, key) if is_pair else key
                if of not in found:
                    found[of] = array("I")
                found[of].append(index)
        return found

    def make_group(self, key: int, asked: Sequence[int]) -> Group:
        """A group of streams, whose first is the key."""
        inbox, lacks = self.inbox, key in self.lacking
        streams = self.parts.of_group(key) if key >= 0 else ()
        match = Matching(inbox, streams, asked).finish(lacks=lacks)
        return Group(inbox, streams, asked, lacks, match)

    def join_pairs(self, asked: Sequence[int]) -> Group:
        """A group of messages of one process that each have a receive and a stream of their
        own."""
        inbox = self.inbox
        streams = array("I", map(inbox.got.__getitem__, asked))
        return Group(inbox, streams, asked, lacks=False, match=match_pairs(inbox, asked))


def find_groups(inbox: SortedInbox) -> list[Group]:
    """All groups, in the order of the first of each that got a message."""
    grouping = Grouping(inbox)
    return [
        grouping.join_pairs(asked) if isinstance(of, Alike) else grouping.make_group(of, asked)
        for of, asked in grouping.sort().items()
    ]
