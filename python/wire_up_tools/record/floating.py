"""Gets that don't block. A plan has them where they ended, as if the program had waited there,
which orders what follows. Where nothing is found without them either, that order hides nothing:
such a get waits for its key, changes nothing, and is answered alike wherever it stands."""
from dataclasses import replace

from wire_up_tools.record.draft import Part
from wire_up_tools.record.notes import FLOATING, Notes, is_floating
from wire_up_tools.words import AWAITED


def drop_floating(part: Part) -> None:
    """Takes the lines of such gets away."""
    part.lines[:] = [line for line in part.lines if not is_floating(line.call)]


def settle_floating(notes: Notes) -> Notes:
    """What is noted where nothing is found without them either."""
    counted = notes.more_ordered[FLOATING]
    more_ordered = notes.more_ordered.copy()
    del more_ordered[FLOATING]
    otherwise = notes.otherwise.copy()
    otherwise[AWAITED] += counted
    return replace(notes, more_ordered=more_ordered, otherwise=otherwise)
