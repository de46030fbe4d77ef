"""Finds what processes put, and who can see it."""
import sys
from collections.abc import Mapping
from dataclasses import dataclass, field

from wire_up_tools.record.calls import Call, Commit, Put
from wire_up_tools.record.processes import Process
from wire_up_tools.record.recordings import Recording

# Scopes that plans don't have: the process alone sees what it puts in the first.
INTERNAL_SCOPE, OTHER_SCOPE = "internal", "other"
WITHOUT_WORD = (INTERNAL_SCOPE, OTHER_SCOPE)


@dataclass(frozen=True)
class Puts:
    """What a process puts: for each key where its first put begins, which keys it commits, in
    which scopes it puts each, failed puts among them, and where the commit of its last put ended,
    if there is one."""

    first: Mapping[bytes, int]
    committed: frozenset[bytes]
    scopes: Mapping[bytes, set[str]]
    done: Mapping[bytes, int]


def find_puts(recording: Recording) -> Puts:
    """What a process puts."""
    first: dict[bytes, int] = {}
    waiting: set[bytes] = set()
    committed: set[bytes] = set()
    done: dict[bytes, int] = {}
    scopes: dict[bytes, set[str]] = {}
    for call in recording.calls_of_pmix:
        action = call.action
        if isinstance(action, Put):
            scopes.setdefault(action.key, set()).add(action.scope)
            done.pop(action.key, None)
            if action.scope not in WITHOUT_WORD and not call.has_failed:
                first.setdefault(action.key, call.begins)
                waiting.add(action.key)
        elif isinstance(action, Commit) and not call.has_failed:
            committed |= waiting
            done.update(dict.fromkeys(waiting, call.ends or sys.maxsize))
            waiting.clear()
    return Puts(first, frozenset(committed), scopes, done)


@dataclass
class PutsByProcess:
    """What each process puts, found out where it is asked for."""

    found: dict[Process, Puts] = field(default_factory=dict)

    def find(self, process: Process) -> Puts:
        """What a process puts."""
        if process not in self.found:
            self.found[process] = find_puts(process.recording)
        return self.found[process]

    def can_see(self, reader: Process, call: Call, owner: Process, key: bytes) -> bool:
        """Whether the owner's recording has what a get of the key could see: an own put before
        it, or another's and its commit."""
        puts = self.find(owner)
        return puts.first.get(key, sys.maxsize) < call.begins if reader is owner else (
            key in puts.committed
        )

    def is_internal(self, process: Process, key: bytes) -> bool:
        """Whether a process puts a key for itself alone: no other can see it."""
        return self.find(process).scopes.get(key) == {INTERNAL_SCOPE}

    def commits(self, owner: Process, key: bytes) -> bool:
        """Whether a process commits a key."""
        return key in self.find(owner).committed

    def is_out_of_scope(self, reader: Process, owner: Process, key: bytes) -> bool:
        """Whether the owner puts the key, always in a scope that the reader's node isn't in."""
        is_here = reader.recording.host == owner.recording.host
        scopes = self.find(owner).scopes.get(key, set())
        foreign = {"remote"} if is_here else {"local"}
        return reader is not owner and bool(scopes) and scopes <= foreign
