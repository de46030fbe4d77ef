"""What a recording says of calls: each kind with the parts that it has, and how a call ended."""
import enum
from dataclasses import dataclass
from typing import ClassVar

from wire_up_tools.words import VALUE_BYTES, is_word


class Luck(enum.Enum):
    """What is made of ends that another run may have found open."""

    IS_TAKEN = "as ends of each run"
    IS_LEFT_OUT = "as with --strict"


class AnyRank(enum.Enum):
    """What stands in the place of a rank."""

    ALL = "*"
    UNDEFINED = "undefined"


@dataclass(frozen=True)
class ProcessName:
    """A process as a call names it. An empty namespace is that of the caller."""

    namespace: bytes
    rank: int | AnyRank


class ValueKind(enum.Enum):
    """What a recording keeps of a value: a short text whole, of others their size or type."""

    TEXT = "text"
    LONG_TEXT = "long"
    BYTES = "bytes"
    NUMBER = "number"
    REAL = "real"
    TYPE = "type"
    OTHER = "other"
    NONE = "none"


@dataclass(frozen=True)
class Value:
    """A value. `text` is that of a TEXT; `detail` is what a recording says of any other kind."""

    kind: ValueKind
    detail: str = ""
    text: bytes = b""

    @property
    def is_text(self) -> bool:
        """Whether it is a text, of any length."""
        return self.kind in (ValueKind.TEXT, ValueKind.LONG_TEXT)

    @property
    def is_said(self) -> bool:
        """Whether a word of a plan can be this value, rather than stand for it."""
        return self.kind is ValueKind.TEXT and is_word(self.text, VALUE_BYTES)

    @property
    def number(self) -> int | None:
        """The number that it is; None of any other kind."""
        is_number = self.kind is ValueKind.NUMBER
        return int(self.detail.partition(":")[2]) if is_number else None

    @property
    def seconds(self) -> float | None:
        """The time that it is, in seconds; None where it isn't a number, or is none."""
        if self.kind not in (ValueKind.NUMBER, ValueKind.REAL):
            return None
        return float(self.detail.partition(":")[2])

    @property
    def word(self) -> str:
        """The value as a word. What isn't text, and text that no word can be, is its size."""
        if self.kind is ValueKind.TEXT:
            return self.text.decode() if self.is_said else f"text:{len(self.text)}"
        if self.kind is ValueKind.LONG_TEXT:
            return f"text:{self.detail}"
        kind: str = self.kind.value
        return f"{kind}:{self.detail.partition(':')[0]}" if self.detail else kind


# A directive that says no: a number of the type `bool`, which is zero.
NO = Value(ValueKind.NUMBER, "1:0")


@dataclass(frozen=True)
class Pair:
    """A key and its value: of a directive, or what is published or found."""

    key: bytes
    value: Value


Directives = tuple[Pair, ...]


class Ending(enum.Enum):
    """How a caller learns that a call has ended: it waits in the call, or gets a callback. Only a
    library of MPI is known to wait for its callbacks."""

    BLOCKS = "blocks"
    CALLS_LIBRARY = "nb"
    CALLS_PROGRAM = "own"


@dataclass(frozen=True)
class Put:
    """A put; a scope that plans don't have is `internal`, for the process alone, or `other`."""

    verb: ClassVar[str] = "put"
    scope: str
    key: bytes
    value: Value


@dataclass(frozen=True)
class Commit:
    """A commit."""

    verb: ClassVar[str] = "commit"


@dataclass(frozen=True)
class Fence:
    """A fence over processes: over none, if the call named none."""

    verb: ClassVar[str] = "fence"
    ending: Ending
    names: tuple[ProcessName, ...]
    directives: Directives


@dataclass(frozen=True)
class Group:
    """The making of a group of processes, or its end, which names none."""

    verb: ClassVar[str] = "group"
    is_made: bool
    name: bytes
    names: tuple[ProcessName, ...]
    directives: Directives


@dataclass(frozen=True)
class Get:
    """A get of keys of a process; of every key, or of no process, where that is None."""

    verb: ClassVar[str] = "get"
    ending: Ending
    owner: ProcessName | None
    keys: tuple[bytes, ...] | None
    directives: Directives


@dataclass(frozen=True)
class Publish:
    """A publish of names with their values."""

    verb: ClassVar[str] = "publish"
    ending: Ending
    pairs: tuple[Pair, ...]
    directives: Directives


@dataclass(frozen=True)
class Lookup:
    """A lookup of names; of every name, where that is None."""

    verb: ClassVar[str] = "lookup"
    ending: Ending
    keys: tuple[bytes, ...] | None
    directives: Directives


@dataclass(frozen=True)
class Unpublish:
    """An unpublish of names; of every name, where that is None."""

    verb: ClassVar[str] = "unpublish"
    ending: Ending
    keys: tuple[bytes, ...] | None
    directives: Directives


@dataclass(frozen=True)
class Send:
    """A message that is sent. `size` is in bytes, and ranks are those of the communicator."""

    __slots__ = ("communicator", "target", "tag", "size")

    verb: ClassVar[str] = "send"
    communicator: int
    target: int
    tag: int
    size: int


@dataclass(frozen=True)
class Receive:
    """A receive of a message, from any source or with any tag where that is None."""

    __slots__ = ("communicator", "source", "tag")

    verb: ClassVar[str] = "receive"
    communicator: int
    source: int | None
    tag: int | None


@dataclass(frozen=True)
class Probe:
    """A probe for a message, from any source or with any tag where that is None."""

    __slots__ = ("communicator", "source", "tag")

    verb: ClassVar[str] = "probe"
    communicator: int
    source: int | None
    tag: int | None


@dataclass(frozen=True)
class Collective:
    """A collective of MPI, such as `barrier`."""

    __slots__ = ("name", "communicator")

    verb: ClassVar[str] = "collective"
    name: str
    communicator: int


PmixCall = Put | Commit | Fence | Group | Get | Publish | Lookup | Unpublish
MpiCall = Send | Receive | Probe | Collective
Action = PmixCall | MpiCall
MPI_CALLS = (Send, Receive, Probe, Collective)


class FoundBy(enum.Enum):
    """How a process found that a request was over: it waited for it, it asked, or it waited for
    any of several."""

    WAIT = "wait"
    POLL = "poll"
    SOME = "some"


LEFT_TO_LUCK = (FoundBy.POLL, FoundBy.SOME)


@dataclass(frozen=True)
class End:
    """How a call ended: the status that it answered. 0 is success."""

    __slots__ = ("status",)

    status: int


@dataclass(frozen=True)
class GetEnd(End):
    """The end of a get, with what it got."""

    value: Value | None


@dataclass(frozen=True)
class LookupEnd(End):
    """The end of a lookup, with the names that it found."""

    found: tuple[Pair, ...]


@dataclass(frozen=True)
class MessageEnd(End):
    """The end of a receive or a probe that got a message. `size` is -1 if it isn't known."""

    __slots__ = ("source", "tag", "size", "found_by")

    source: int
    tag: int
    size: int
    found_by: FoundBy | None


class Sources(enum.Enum):
    """Whose data a process waited for in a collective, where it isn't a list of ranks."""

    ALL = "all"
    NONE = "none"
    BELOW = "below"


@dataclass(frozen=True)
class CollectiveEnd(End):
    """The end of a collective, with those whose data the process waited for."""

    __slots__ = ("sources", "found_by")

    sources: Sources | tuple[int, ...]
    found_by: FoundBy | None


@dataclass(eq=False)
class Call:
    """A call: what it does, the lines of its recording at which it began and ended, its thread,
    the number of its place in the program, and how it ended. What isn't recorded is None.

    Nothing changes it once its recording is read.
    """

    __slots__ = ("action", "begins", "thread", "place", "ends", "end")

    action: Action
    begins: int
    thread: str
    place: str | None
    ends: int | None
    end: End | None

    def finish(self, ends: int, end: End) -> None:
        """Takes how it ended, at a line."""
        self.ends, self.end = ends, end

    @property
    def is_of_pmix(self) -> bool:
        """Whether it is a call of PMIx."""
        return not isinstance(self.action, MPI_CALLS)

    @property
    def status(self) -> int | None:
        """The status with which it ended; None where its end isn't there."""
        return None if self.end is None else self.end.status

    @property
    def has_failed(self) -> bool:
        """Whether it ended with another status than success."""
        return self.end is not None and self.end.status != 0

    @property
    def is_left_to_luck(self) -> bool:
        """Whether another run may have found it open at this place: a poll succeeded, or it was
        one of several that were waited for."""
        end = self.end
        return isinstance(end, (MessageEnd, CollectiveEnd)) and end.found_by in LEFT_TO_LUCK
