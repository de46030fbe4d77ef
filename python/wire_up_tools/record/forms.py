"""The forms of the records of calls: how each is written, and what is read of it.

What has no form here isn't a record. All functions raise ValueError for a text that they can't
read.
"""
import functools
import re
from collections.abc import Callable, Mapping, Sequence
from dataclasses import dataclass

from wire_up_tools.limits import LARGE
from wire_up_tools.record import calls
from wire_up_tools.record.calls import (
    Action,
    AnyRank,
    End,
    Ending,
    FoundBy,
    Pair,
    ProcessName,
    Sources,
    Value,
    ValueKind,
)
from wire_up_tools.record.messages import (
    ANY_RANK,
    ANY_TAG,
    FOUND_WAYS,
    NOT_SAID,
    PROBE,
    RECEIVE,
    SEND,
    Begun,
    Came,
)

WORD = r"[!-~]+"
NUMBER = r"number:\d+:-?\d+|real:\d+:-?\d{1,13}\.\d{6}"
# Runs that are compared have more of values of which a plan has the size or the type alone: letters
# that tell bytes from others, and what is in an array.
SIZED = r"(?:long|bytes):\d+(?::[a-p]{8})?|type:\d+(?::[!-~]*)?"
VALUE = rf"(?:none|text:[!-~]*|{SIZED}|{NUMBER}|other:\d+)"
FOUND_BY = r"(wait|poll|some)"
# Most records of a large recording are like others, but for their numbers and times.
KEPT_RECORDS = 1 << 13

Groups = Sequence[str]

# What a call without processes names.
ALL_OF_JOB = (ProcessName(b"", AnyRank.ALL),)


# --- words of recordings ---


def decode(word: str) -> bytes:
    """The bytes of a word, in which %XX is a byte and % alone none."""
    if "%" not in word:
        return word.encode()
    if word == "%":
        return b""
    parts = re.split(r"%([0-9A-F]{2})", word)
    if any("%" in part for part in parts[::2]):
        raise ValueError(word)
    return b"".join(
        bytes([int(each_part, 16)]) if n % 2 else each_part.encode()
        for n, each_part in enumerate(parts)
    )


def decode_text(word: str) -> str:
    """The text of a word."""
    return decode(word).decode("utf-8", "replace")


def read_value(text: str) -> Value:
    """A value such as `text:v` or `number:4:7`."""
    if not re.fullmatch(VALUE, text):
        raise ValueError(text)
    kind, _, detail = text.partition(":")
    if kind == "text":
        return Value(ValueKind.TEXT, text=decode(detail) if detail else b"")
    is_sized = re.fullmatch(SIZED, text) is not None
    return Value(ValueKind(kind), detail.partition(":")[0] if is_sized else detail)


def read_pairs(text: str) -> tuple[Pair, ...]:
    """The keys and values of KEY=VALUE,.."""
    if text == "-":
        return ()
    parts = [part.partition("=") for part in text.split(",")]
    return tuple(Pair(decode(key), read_value(value)) for key, _, value in parts)


def read_keys(text: str) -> tuple[bytes, ...] | None:
    """The keys of :KEY,:KEY; None for every key."""
    if text in ("every", "-"):
        return None if text == "every" else ()
    parts = text.split(",")
    if not all(part.startswith(":") for part in parts):
        raise ValueError(text)
    return tuple(decode(part[1:]) for part in parts)


def read_process_name(text: str) -> ProcessName:
    """A process such as `job:0`, `job:*` or `job:undefined`."""
    namespace, colon, rank = text.rpartition(":")
    if colon and rank in ("*", "undefined"):
        return ProcessName(decode(namespace), AnyRank(rank))
    if not colon or not re.fullmatch(r"\d{1,10}", rank):
        raise ValueError(text)
    return ProcessName(decode(namespace), int(rank))


def read_process_names(text: str) -> tuple[ProcessName, ...]:
    """The processes of a list."""
    return () if text == "none" else tuple(read_process_name(part) for part in text.split(","))


def read_ranks(text: str) -> Sequence[int]:
    """The ranks of ranges such as 0-3,7."""
    found: list[int] = []
    for part in text.split(","):
        first, _, last = part.partition("-")
        if int(last or first) - int(first) > 2 * LARGE.processes:
            raise ValueError(text)
        found += range(int(first), int(last or first) + 1)
    return found


# --- calls ---


def read_fence(groups: Groups) -> Action:
    """A fence; `all` are the processes of the caller's job."""
    names = ALL_OF_JOB if groups[1] == "all" else read_process_names(groups[1])
    return calls.Fence(Ending(groups[0]), names, read_pairs(groups[2]))


def read_group(groups: Groups) -> Action:
    """The making or the end of a group."""
    names = ALL_OF_JOB if groups[2] == "all" else read_process_names(groups[2])
    return calls.Group(groups[0] == "construct", decode(groups[1]), names, read_pairs(groups[3]))


def read_get(groups: Groups) -> Action:
    """A get, of the first process that it names."""
    names = read_process_names(groups[1])
    owner = names[0] if names else None
    return calls.Get(Ending(groups[0]), owner, read_keys(groups[2]), read_pairs(groups[3]))


@dataclass(frozen=True)
class Form:
    """How a record is written, and what is made of the groups of its pattern."""

    pattern: re.Pattern[str]
    read: Callable[[Groups], Action]

    def read_text(self, text: str) -> Action:
        """What a text of this form says."""
        return self.read(match(self.pattern, text))


# What a record of a call that begins says after its number, thread and time.
BEGINS = {
    "put": Form(
        re.compile(rf"put (local|remote|global|internal|other) ({WORD}) ({VALUE})"),
        lambda row: calls.Put(row[0], decode(row[1]), read_value(row[2])),
    ),
    "commit": Form(re.compile(r"commit"), lambda item: calls.Commit()),
    "fence": Form(re.compile(rf"fence (blocks|nb|own) ({WORD}) ({WORD})"), read_fence),
    "group": Form(
        re.compile(rf"group (construct|destruct) :({WORD}) ({WORD}) ({WORD})"), read_group
    ),
    "get": Form(
        re.compile(rf"get (blocks|nb|own) ({WORD}) (every|:{WORD}) ({WORD})"), read_get
    ),
    "publish": Form(
        re.compile(rf"publish (blocks|nb|own) ({WORD}) ({WORD})"),
        lambda row: calls.Publish(Ending(row[0]), read_pairs(row[1]), read_pairs(row[2])),
    ),
    "lookup": Form(
        re.compile(rf"lookup (blocks|nb|own) (-|every|:{WORD}) ({WORD})"),
        lambda row: calls.Lookup(Ending(row[0]), read_keys(row[1]), read_pairs(row[2])),
    ),
    "unpublish": Form(
        re.compile(rf"unpublish (blocks|nb|own) (-|every|:{WORD}) ({WORD})"),
        lambda row: calls.Unpublish(Ending(row[0]), read_keys(row[1]), read_pairs(row[2])),
    ),
    "collective": Form(
        re.compile(r"collective (\w+) (\d{1,9})"),
        lambda row: calls.Collective(row[0], int(row[1])),
    ),
}


# --- messages ---

MESSAGE = re.compile(
    r"send (\d{1,9}) (-?\d{1,9}) (-?\d{1,18}) (-?\d{1,18})"
    r"|receive (\d{1,9})(?: (any|-?\d{1,9}) (any|-?\d{1,18}))?"
    r"|probe (\d{1,9}) (any|-?\d{1,9}) (any|-?\d{1,18})"
)
# How many groups of it come up to the last one of each kind, but for a receive of any message.
OF_SEND, OF_RECEIVE, OF_PROBE = 4, 7, 10
MESSAGE_END = re.compile(rf"0 (-?\d{{1,9}}) (-?\d{{1,18}}) (-?\d{{1,18}})(?: {FOUND_BY})?")
# No message came: the receive was cancelled, or it failed.
NO_MESSAGE, FAILED = "1", "2"
# How a message was found, as a recording says it.
FINDS: dict[str | None, int] = {
    found_by.value: n for n, found_by in enumerate(FOUND_WAYS) if found_by
}


def read_wanted(text: str | None, any_number: int) -> int:
    """The source or tag that a receive or a probe asks for."""
    return any_number if text in ("any", None) else int(text or "")


@functools.lru_cache(KEPT_RECORDS)
def read_message(text: str) -> Begun | None:
    """What a call that begins sends, receives or probes for; None of another call."""
    read = MESSAGE.fullmatch(text)
    if not read:
        return None
    if read.lastindex == OF_SEND:
        communicator, peer, tag, size = read.groups()[:OF_SEND]
        return SEND, int(communicator), int(peer), int(tag), int(size)
    is_receive = read.lastindex != OF_PROBE
    communicator, source, tag = read.groups()[OF_SEND:OF_RECEIVE] if is_receive else (
        read.groups()[OF_RECEIVE:]
    )
    wanted = read_wanted(source, ANY_RANK), read_wanted(tag, ANY_TAG)
    return RECEIVE if is_receive else PROBE, int(communicator), *wanted, -1


@functools.lru_cache(KEPT_RECORDS)
def read_came(text: str) -> Came | None:
    """The message that a receive or a probe got; None where none came."""
    if text in (NO_MESSAGE, FAILED):
        return None
    source, tag, size, found_by = match(MESSAGE_END, text)
    return int(source), int(tag), int(size), FINDS.get(found_by, NOT_SAID)


SENT = re.compile(rf"(-?\d{{1,10}})(?: {FOUND_BY})?")


@functools.lru_cache(KEPT_RECORDS)
def read_sent(text: str) -> tuple[int, int]:
    """The status of a send that ended, and how that was found."""
    status, found_by = match(SENT, text)
    return int(status), FINDS.get(found_by, NOT_SAID)


# --- ends of calls ---

STATUS = re.compile(r"(-?\d{1,10})")
GET_END = re.compile(rf"(-?\d{{1,10}})(?: ({VALUE}))?")
LOOKUP_END = re.compile(rf"(-?\d{{1,10}}) ({WORD})")
COLLECTIVE_END = re.compile(rf"([01]) (all|none|below|\d+(?:,\d+)*)(?: {FOUND_BY})?")


def read_status_end(text: str) -> End:
    """The end of a call that answers a status alone."""
    return End(int(match(STATUS, text)[0]))


def read_get_end(text: str) -> End:
    """The end of a get."""
    status, value = match(GET_END, text)
    return calls.GetEnd(int(status), read_value(value) if value else None)


def read_lookup_end(text: str) -> End:
    """The end of a lookup."""
    status, found = match(LOOKUP_END, text)
    return calls.LookupEnd(int(status), read_pairs(found))


def read_found_by(text: str | None) -> FoundBy | None:
    """How a request was found to be over, if that is said."""
    return FoundBy(text) if text else None


def read_sources(text: str) -> Sources | tuple[int, ...]:
    """Those whose data a process waited for in a collective."""
    return tuple(map(int, text.split(","))) if text[0].isdigit() else Sources(text)


def read_collective_end(text: str) -> End:
    """The end of a collective."""
    status, said, found_by = match(COLLECTIVE_END, text)
    return calls.CollectiveEnd(int(status), read_sources(said), read_found_by(found_by))


ENDS: Mapping[str, Callable[[str], End]] = {
    "get": read_get_end,
    "lookup": read_lookup_end,
    "collective": read_collective_end,
}


def match(pattern: re.Pattern[str], text: str) -> Groups:
    """The groups of a text of a pattern."""
    read = pattern.fullmatch(text)
    if not read:
        raise ValueError(text)
    return read.groups()


@functools.lru_cache(KEPT_RECORDS)
def read_begin(text: str) -> Action:
    """What a call that begins does. Raises KeyError too."""
    return BEGINS[text.split(" ", 1)[0]].read_text(text)


@functools.lru_cache(KEPT_RECORDS)
def read_end(verb: str, text: str) -> End:
    """How a call ended."""
    return ENDS.get(verb, read_status_end)(text)
