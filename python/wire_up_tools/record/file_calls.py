"""Which calls on the names of files succeeded by luck: had another process been faster or slower,
the file had not been there."""
import re
from collections import Counter
from collections.abc import Mapping, Sequence
from dataclasses import dataclass

from wire_up_tools.record.forms import WORD, Groups, decode

# How the call of a file was recorded: whether it opens it, makes it if need be, or deletes it; its
# name; and when it had last changed.
FORM = re.compile(rf"file (open|create|delete) ({WORD}) (\d{{1,18}})\.(\d{{6}})")
FUNCTIONS = {"open": "MPI_File_open", "create": "MPI_File_open", "delete": "MPI_File_delete"}
CREATE, DELETE = "create", "delete"
OF_ANOTHER = "of a file that was made, changed or deleted since the start"


@dataclass(frozen=True)
class FileCall:
    """A call on the name of a file that succeeded: a word for how it was called, and when the file
    had last changed by then, in seconds since 1970."""

    how: str
    name: bytes
    changed: float


@dataclass(frozen=True)
class Files:
    """When the first process of the job began, in seconds since 1970; how many processes delete a
    file of a name; and whether MPI writes files."""

    start: float
    deleting: Mapping[bytes, int]
    are_written: bool


def read_file_call(groups: Groups) -> FileCall:
    """The call of a file. Raises ValueError."""
    return FileCall(groups[0], decode(groups[1]), int(groups[2]) + int(groups[3]) / 1e6)


def find_deleted(calls: Sequence[FileCall]) -> set[bytes]:
    """The names of the files that a process deletes."""
    return {call.name for call in calls if call.how == DELETE}


def count_file_calls(calls: Sequence[FileCall], files: Files) -> tuple[Counter[str], Counter[str]]:
    """The calls of one process on names of files, counted by what they are called: those that
    another process may decide, and the rest. A file that the process opened before is there,
    unless another deletes it."""
    of_luck: Counter[str] = Counter()
    others: Counter[str] = Counter()
    opened: set[bytes] = set()
    deleted = find_deleted(calls)
    for call in calls:
        is_deleted = files.deleting.get(call.name, 0) > (call.name in deleted)
        is_new = call.name not in opened and call.changed >= files.start
        if call.how != CREATE and (is_deleted or is_new):
            of_luck[f"{FUNCTIONS[call.how]} {OF_ANOTHER}"] += 1
        else:
            others[FUNCTIONS[call.how]] += 1
        opened.add(call.name)
    return of_luck, others
