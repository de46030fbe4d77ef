"""Which calls luck decides: their result depends on which rank was faster, or behind them another
rank's memory or file is read, or they say what is done when an event comes. They order nothing."""
import re
from collections import Counter
from collections.abc import Sequence

from wire_up_tools.record.calls import Collective
from wire_up_tools.record.file_calls import Files, find_deleted
from wire_up_tools.record.recordings import Recording

OF_LUCK = re.compile(
    r"MPI_(Cancel( of a receive)?|Comm_accept|Fetch_and_op|Compare_and_swap"
    r"|(Get_a|Rget_a|A|Ra)ccumulate(_c)?|File_i?(read|write)_shared(_c)?"
    r"|File_get_(position_shared|size)|Parrived|Request_get_status_\w+|Win_lock(_all)?"
    r"|File_open with MPI_MODE_EXCL|File_(open|delete) that failed"
    r"|Win_shared_query(_c)?|Wait(any|some) of sends"
    r"|(\w+ of any source|Im?probe) in a communicator that isn't known)"
    r"|PMIx_(Register_event_handler|Query_info(_nb)?_of_program)"
)
# How the names end of functions that a library of MPI calls too, where the program itself does.
BY_PROGRAM = "_of_program"
# How the names end of sends whose buffer may have been full, where that doesn't end the program;
# and what is said of them.
BEYOND_ROOM, FULL = "_beyond_room", " whose buffer may have been full"
# What reads a file, and what writes one. What nobody writes is told at the start.
READING = re.compile(r"MPI_File_i?read(_at|_all|_ordered)*(_begin|_end)?(_c)?")
WRITING = re.compile(r"MPI_File_i?write\w*")
SHARED_WINDOW = "win_allocate_shared"


def say_of_luck(name: str) -> str:
    """What is said of calls that luck decides, by their name in a recording."""
    if name.endswith(BEYOND_ROOM):
        return f"calls of {name.removesuffix(BEYOND_ROOM)}{FULL}"
    return f"calls of {name.removesuffix(BY_PROGRAM)}"


def look_at_files(recordings: Sequence[Recording]) -> Files:
    """What is known of the files of all processes."""
    return Files(
        start=min(recording.began for recording in recordings),
        deleting=Counter(
            name for recording in recordings for name in find_deleted(recording.files)
        ),
        are_written=any(
            WRITING.fullmatch(name) for recording in recordings for name in recording.others
        ),
    )


def is_of_luck(name: str, *, are_written: bool) -> bool:
    """Whether luck decides a call of this name, where files are written by MPI or aren't."""
    is_one = OF_LUCK.fullmatch(name) or name.endswith(BEYOND_ROOM)
    return bool(is_one or are_written and READING.fullmatch(name))


def count_shared_windows(recording: Recording) -> int:
    """How many windows a process allocates that others share: they may read it as memory."""
    shared = (call.action for call in recording.calls if isinstance(call.action, Collective))
    return sum(
        action.name == SHARED_WINDOW and count_members(recording, action.communicator) > 1
        for action in shared
    )


def count_members(recording: Recording, communicator: int) -> int:
    """How many processes a communicator has; two where that isn't known."""
    known = recording.communicators.get(communicator)
    return len(known.ranks) if known else 2
