"""Finds what gets and lookups of PMIx wait for, by the rules of a plan."""
from collections.abc import Iterable, Sequence
from dataclasses import dataclass, field

from wire_up_tools.record.draft import Draft, Line, Part


@dataclass
class Offered:
    """The lines that gets and lookups could wait for: commits by the process and key that they
    bring, publishes by their names; and the names that are taken away."""

    commits: dict[tuple[str, str], list[Line]] = field(default_factory=dict)
    publishes: dict[str, list[Line]] = field(default_factory=dict)
    unpublished: set[str] = field(default_factory=set)

    def take(self, lines: Iterable[Line]) -> None:
        """Takes the lines of one process."""
        put: list[str] = []
        for line in lines:
            verb, *words = line.words.split(" ")
            if verb == "put":
                put.append(words[1])
            elif verb == "commit":
                for key in put:
                    self.commits.setdefault((line.process.name, key), []).append(line)
                put = []
            elif verb == "publish" and line.is_of_program:
                self.publishes.setdefault(words[0], []).append(line)
            elif verb == "unpublish":
                self.unpublished.add(words[0])

    def find(self, line: Line) -> Sequence[Line]:
        """The lines of which one must be there before a get or a lookup goes on."""
        verb, *words = line.words.split(" ")
        if verb == "get" and words[0] != line.process.name:
            return self.commits.get((words[0], words[1]), ())
        if verb == "lookup-wait" and line.is_of_program and words[0] not in self.unpublished:
            return self.publishes.get(words[0], ())
        return ()


def find_waits(draft: Draft) -> Part:
    """What the gets and lookups of a draft wait for, where that can be one line alone."""
    offered = Offered()
    for lines in draft.lines.values():
        offered.take(lines)
    awaited: dict[Line, Line] = {}
    for line in (each_line for lines in draft.lines.values() for each_line in lines):
        found = offered.find(line)
        if len(found) == 1:
            awaited[line] = found[0]
    return Part(awaited=awaited)
