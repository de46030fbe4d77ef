"""Finds words for the keys and names of the program, and for sets of its processes."""
from collections import Counter
from collections.abc import Iterable
from dataclasses import dataclass

from wire_up_tools.record.calls import Action, Get, Lookup, Publish, Put, Unpublish
from wire_up_tools.record.processes import Process, Processes
from wire_up_tools.words import Words, is_plain

# The words for the names that stand for messages of MPI, and for fences, begin so.
MPI, FENCE = "mpi", "fence"


@dataclass(frozen=True)
class Spelling:
    """Words for the keys that are put and for the names that are published; and how the names
    begin that stand for an order of MPI or of a fence, which no name of the program has."""

    keys: Words
    names: Words
    mpi_mark: str
    fence_mark: str


def is_reserved_by_pmix(key: bytes) -> bool:
    """Whether a key is one that PMIx itself has."""
    return key.startswith(b"pmix")


def find_keys(action: Action) -> Iterable[bytes]:
    """The keys of a call that puts or gets."""
    if isinstance(action, Put):
        return (action.key,)
    return action.keys or () if isinstance(action, Get) else ()


def find_published(action: Action) -> Iterable[bytes]:
    """The names that a call publishes, looks up or takes away."""
    if isinstance(action, Publish):
        return [pair.key for pair in action.pairs]
    return action.keys or () if isinstance(action, (Lookup, Unpublish)) else ()


def find_words(texts: Iterable[bytes]) -> Words:
    """Words for keys or names, without those that are reserved."""
    return Words((text for text in texts if not is_reserved_by_pmix(text)), is_fit=is_plain)


def find_mark(word: str, names: Words) -> str:
    """A beginning that no name has."""
    while any(each_word.startswith(f"{word}.") for each_word in names.words.values()):
        word += "_"
    return f"{word}."


def find_spelling(processes: Processes) -> Spelling:
    """Words for all keys and names in the calls of processes."""
    keys: set[bytes] = set()
    names: set[bytes] = set()
    for process in processes.all:
        for call in process.recording.calls_of_pmix:
            keys.update(find_keys(call.action))
            names.update(find_published(call.action))
    words = find_words(names)
    return Spelling(find_words(keys), words, find_mark(MPI, words), find_mark(FENCE, words))


class MessageNames:
    """Names that stand for messages: the n-th of one process to another has the number n."""

    def __init__(self, mark: str) -> None:
        self.mark = mark
        self.count: Counter[tuple[Process, Process]] = Counter()

    def next(self, source: Process, target: Process) -> str:
        """The name of the next message."""
        self.count[source, target] += 1
        number = self.count[source, target]
        return f"{self.mark}{source.short_name}.{target.short_name}.{number}"


def name_set(processes: Processes, caller: Process, members: frozenset[Process]) -> str:
    """A set of processes as a word, as the caller of a fence says it."""
    own = processes.jobs[caller.namespace]
    if members == frozenset(own.processes):
        return "all"
    items: list[str] = []
    for job in processes.jobs.values():
        here = [process.name for process in job.processes if process in members]
        items += [f"{job.name}:*"] if here and len(here) == len(job.processes) else here
    return ",".join(items)
