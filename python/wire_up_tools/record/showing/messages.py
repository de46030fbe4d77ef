"""Messages of any source that could have come otherwise in a run."""
from collections import Counter
from collections.abc import Iterator, Sequence
from dataclasses import dataclass

from wire_up_tools.record.showing.naming import Target, number_job
from wire_up_tools.record.showing.traces import Trace, Traces

# Ranks of messages are told of the first communicator alone, which is MPI_COMM_WORLD.
WORLD, ANY = "1", "any"


@dataclass(frozen=True)
class Swap:
    """A send whose message a receive of any source got, and another whose message it could have
    got: the first is held until the other has come."""

    held: Target
    awaited: Target

    def __str__(self) -> str:
        return f"{self.held.process} {self.held.name} after {self.awaited.process}"


def find_sends(process: str, trace: Trace, to: int) -> list[Target]:
    """The sends of a process to a rank."""
    found = []
    for number, call in enumerate(trace.calls, 1):
        words = call.text.split(" ")
        if words[0] == "send" and words[1:3] == [WORLD, str(to)]:
            job = number_job(trace.namespace)
            found.append(Target(process, number, job, trace.rank, *call.keys[0], "send"))
    return found


def find_own_swaps(process: str, traces: Traces) -> Iterator[Swap]:
    """The swaps of the messages that one process got."""
    job = process.rpartition(":")[0]
    sends = {
        other: find_sends(other, trace, traces[process].rank)
        for other, trace in traces.items()
        if other.startswith(f"{job}:")
    }
    got: Counter[tuple[str, str]] = Counter()
    for call in traces[process].calls:
        words = call.text.split(" ")
        if words[0] != "receive" or words[1] != WORLD or (call.end or "")[:2] != "0 ":
            continue
        source, tag = (call.end or "").split(" ")[1:3]
        sender = f"{job}:{source}"
        index, got[sender, tag] = got[sender, tag], got[sender, tag] + 1
        if words[2] == ANY:
            yield from swap_one(sends, sender, tag, index, got)


def swap_one(
    sends: dict[str, list[Target]],
    sender: str,
    tag: str,
    index: int,
    got: Counter[tuple[str, str]],
) -> Iterator[Swap]:
    """The swaps of one message: the `index`-th with this tag of its sender. `got` counts those
    that came so far."""
    of_tag = {
        other: [target for target in them if target.name.endswith(f" {tag}")]
        for other, them in sends.items()
    }
    own = of_tag.get(sender, [])
    for other, them in of_tag.items():
        left = them[got[other, tag]:]
        if other != sender and left and index < len(own):
            yield Swap(own[index], left[0])


def find_swaps(traces: Traces) -> Sequence[Swap]:
    """For each receive of any source in a run, the sends that could have come in another order."""
    return [swap for process in traces for swap in find_own_swaps(process, traces)]
