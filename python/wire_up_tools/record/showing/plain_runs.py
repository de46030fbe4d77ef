"""Runs in which nothing is held: what differs between two of them is the program's own."""
import enum
from collections.abc import Sequence
from dataclasses import dataclass, field, replace

from wire_up_tools.record.showing.comparing import Compared, Difference, compare
from wire_up_tools.record.showing.held_runs import HeldRun, Session, run_held
from wire_up_tools.record.showing.holds import Holds
from wire_up_tools.record.showing.naming import Target

# How many of them are compared.
COMPARED = 2


@dataclass(eq=False)
class PlainRuns:
    """The runs of a session in which nothing is held, made as they are needed: the first one may be
    there already."""

    session: Session
    made: list[HeldRun] = field(default_factory=list)

    def find(self, count: int = 1) -> Sequence[HeldRun]:
        """So many of them. Raises Refused, NotRun, OSError."""
        while len(self.made) < count:
            self.made.append(run_held(self.session, Holds(()), f"plain-{len(self.made) + 1}"))
        return self.made[:count]


class Of(enum.Enum):
    """What a text tells: what became of a call, or which calls come next."""

    A_CALL = enum.auto()
    SEVERAL_CALLS = enum.auto()


def find_shape(text: str, what: Of) -> Sequence[str]:
    """What of a reply, or of where calls part, isn't a value or a name: the status, or the
    verbs."""
    items = text.split(", ") if what is Of.SEVERAL_CALLS else [text]
    return tuple(part.partition(" ")[0] for part in items)


def is_own(
    difference: Difference, plain: Sequence[Difference], count: int, what: Of
) -> bool:
    """Whether each of so many runs has another value or name there, two plain ones among them."""
    for other in plain:
        texts = {difference.first, difference.second, other.first, other.second}
        shapes = {find_shape(text, what) for text in texts}
        is_same_call = (difference.process, difference.what) == (other.process, other.what)
        if is_same_call and len(texts) == count and len(shapes) == 1:
            return True
    return False


def tell_ends(runs: Sequence[HeldRun]) -> list[Difference]:
    """How two runs ended, where they ended otherwise."""
    first, second = (run.ending for run in runs)
    return [Difference("the program", "ended", first, second)] if first != second else []


def list_plain(plain: Compared, own: Sequence[Difference]) -> list[Difference]:
    """What differs between two plain runs, but for what each run has otherwise."""
    found = [difference for difference in plain.differences if not difference.is_of_numbers]
    return [difference for difference in found if not any(map(difference.is_about, own))]


def leave_out_own(
    compared: Compared, runs: Sequence[HeldRun], targets: Sequence[Target], plains: PlainRuns
) -> Compared:
    """What differs between two runs, without values and names that are others in each run, and
    with what differs between two plain runs. Where nothing differs, none is made. Raises Refused,
    NotRun, OSError."""
    if compared.is_alike:
        return compared
    two = plains.find(COMPARED)
    plain, count = compare(two, targets), len({id(run) for run in (*runs, *two)})
    own = [
        difference
        for found, others, what in (
            (compared.targets, plain.targets, Of.A_CALL),
            (compared.others, plain.others, Of.A_CALL),
            (compared.partings, plain.partings, Of.SEVERAL_CALLS),
        )
        for difference in found
        if is_own(difference, others, count, what)
    ]
    return replace(
        compared,
        targets=[target for target in compared.targets if target not in own],
        others=[difference for difference in compared.others if difference not in own],
        partings=[parting for parting in compared.partings if parting not in own],
        own=[difference for difference in own if not difference.is_of_numbers],
        plain=list_plain(plain, own) + tell_ends(two),
    )
