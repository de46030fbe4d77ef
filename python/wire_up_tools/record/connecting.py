"""Settles whether calls that start or connect jobs can hide a race. They order processes, which can
hide none where it is left out. But a start that failed may have come too late for its place, and
connected processes get one another's keys, which a get that doesn't wait may find or not."""
from wire_up_tools.record.draft import Draft
from wire_up_tools.record.notes import STARTING, Notes, count_starts
from wire_up_tools.record.processes import Processes

CONNECTING = ("PMIx_Connect", "PMIx_Connect_nb")
# They tell where the processes of a job are, which is known at its start.
ASKING = ("PMIx_Resolve_peers", "PMIx_Resolve_nodes")
SETTLED = "since they can't change a finding"


def has_early_gets(draft: Draft) -> bool:
    """Whether a get in a draft doesn't wait."""
    return any(line.verb == "get-now" for them in draft.lines.values() for line in them)


def settle_connecting(processes: Processes, draft: Draft, notes: Notes) -> None:
    """Says of the calls that start, connect or ask about the jobs of a draft that they change no
    finding, if that is so: each start made a job that is recorded; no get asks at once; there is
    one job."""
    starts = count_starts(process.recording for process in processes.all)
    settled = STARTING if starts < len(processes.jobs) else ()
    settled += CONNECTING if not has_early_gets(draft) else ()
    settled += ASKING if len(processes.jobs) == 1 and not starts else ()
    for name in settled:
        count = notes.left_out.pop(f"calls of {name}", 0)
        notes.left_out[f"calls of {name}, {SETTLED}"] += count
