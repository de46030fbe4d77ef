"""Notes the names that go away with their application, and may do so before another one looks them
up."""
from collections.abc import Iterator, Mapping

from wire_up_tools.record.directives import OF_APPLICATION, find_persistence
from wire_up_tools.record.draft import Draft, Line, Part
from wire_up_tools.record.made import Counts, find_known_at_end
from wire_up_tools.record.notes import Notes
from wire_up_tools.record.pmix_calls import Uses, find_uses
from wire_up_tools.record.processes import Process

GONE = (
    "names that go away with their application, and that another looks up: in the plan they stay"
)


def find_foreign(uses: Uses) -> Iterator[tuple[Line, Line]]:
    """Each line that publishes a name which goes away with its application, with each that looks it
    up and is of another one."""
    for published in uses.published:
        if find_persistence(published.call.action) == OF_APPLICATION:
            for other in uses.looked_up:
                if published.process.application != other.process.application:
                    yield published, other


def is_made_before_end(
    draft: Draft, line: Line, application: object, known: Mapping[Process, Counts]
) -> bool:
    """Whether a call surely comes before the end of an application: before that of one of its
    processes."""
    own = [each_line for each_line in draft.lines[line.process] if each_line.is_of_program]
    number, name = own.index(line) + 1, line.process.name
    return any(
        known[process].get(name, 0) >= number
        for process in known
        if process.application == application
    )


def note_applications(draft: Draft, part: Part, notes: Notes) -> None:
    """Notes the names of a part of a draft that may be gone when another application looks them
    up."""
    foreign = [them for uses in find_uses(part).values() if (them := [*find_foreign(uses)])]
    known = find_known_at_end(draft) if foreign else {}
    notes.more_ordered[GONE] += sum(
        not all(
            is_made_before_end(draft, other, published.process.application, known)
            for published, other in them
        )
        for them in foreign
    )
