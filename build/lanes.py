"""Runs proofs side by side: each once those below it have ended, and those first on which the end
of all depends."""
from collections.abc import Callable, Iterable, Mapping, Sequence
from concurrent.futures import FIRST_COMPLETED, Future, ThreadPoolExecutor, wait
from dataclasses import dataclass
from typing import Any, Generic, TypeVar

Given = TypeVar("Given")


@dataclass(frozen=True)
class Proof(Generic[Given]):
    """A proof, or another piece of work, among others that have names."""

    # The names of those for which it waits.
    waits: Sequence[str]
    minutes: float
    # How many bytes it takes at most.
    memory: float
    # What does it. It gets what each proof so far has given, by its name.
    call: Callable[[Mapping[str, Given]], Given]


@dataclass(frozen=True)
class Machine:
    """What there is for all proofs together."""

    processors: int
    # In bytes.
    memory: float


def minutes_behind(proofs: Mapping[str, Proof[Any]]) -> dict[str, float]:
    """How long each proof and the longest chain of those behind it take, in minutes. A proof comes
    after those for which it waits."""
    behind = {name: proof.minutes for name, proof in proofs.items()}
    for name in reversed(list(proofs)):
        for below in proofs[name].waits:
            behind[below] = max(behind[below], proofs[below].minutes + behind[name])
    return behind


def start_ready(
    proofs: Mapping[str, Proof[Any]], ready: Iterable[str], running: Iterable[str], machine: Machine
) -> list[str]:
    """Which of the proofs that are ready, the longest chain first, start beside those that are
    running: one to a processor, as far as memory lasts. Where nothing runs, one starts in any
    case."""
    beside, started = list(running), []
    for name in ready:
        room = machine.memory - sum(proofs[text].memory for text in beside)
        fits = not beside or proofs[name].memory <= room
        if len(beside) < machine.processors and fits:
            beside.append(name)
            started.append(name)
    return started


def run_all(proofs: Mapping[str, Proof[Given]], machine: Machine) -> dict[str, Given]:
    """Runs all proofs, and answers what each gave. A proof comes after those for which it waits."""
    behind = minutes_behind(proofs)
    left = sorted(proofs, key=lambda proof: -behind[proof])
    tasks: dict[Future[Given], str] = {}
    given: dict[str, Given] = {}
    with ThreadPoolExecutor(machine.processors) as pool:
        while left or tasks:
            ready = [
                proof for proof in left if all(below in given for below in proofs[proof].waits)
            ]
            for name in start_ready(proofs, ready, tasks.values(), machine):
                left.remove(name)
                tasks[pool.submit(proofs[name].call, given)] = name
            for run in wait(tasks, return_when=FIRST_COMPLETED).done:
                given[tasks.pop(run)] = run.result()
    return given
