"""What a gate costs: the processor time of each crate's proof, edits, tests and program.

The prover's processes are looked at four times a second. What a process had used when it was last
seen counts for its crate; the rest of what all programs used, which the system knows exactly, has a
line of its own.
"""
import os
import resource
import threading
from collections.abc import Iterable, Mapping, Sequence
from dataclasses import dataclass
from types import TracebackType

TICKS = os.sysconf("SC_CLK_TCK")
KINDS = ("proof", "edits", "tests", "program")


def used() -> float:
    """The processor time of all programs that were started here and have ended, in seconds."""
    spent = resource.getrusage(resource.RUSAGE_CHILDREN)
    return spent.ru_utime + spent.ru_stime


@dataclass(frozen=True)
class Process:
    """What the system knows of a process."""

    parent: str
    words: list[str]
    began: str
    # The processor time that it and its children that ended have used.
    seconds: float


@dataclass(frozen=True)
class Spent:
    """A process of the prover, with what it worked on."""

    number: str
    began: str
    crate: str
    kind: str


def process_of(number: str) -> Process | None:
    """What the system knows of a process; nothing where it has ended."""
    try:
        with open(f"/proc/{number}/stat", encoding="utf-8", errors="replace") as file:
            fields = file.read().rpartition(")")[2].split()
        with open(f"/proc/{number}/cmdline", encoding="utf-8", errors="replace") as each_file:
            words = each_file.read().split("\0")
    except OSError:
        return None
    return Process(fields[1], words, fields[19], sum(int(field) for field in fields[11:15]) / TICKS)


def processes() -> dict[str, Process]:
    """All processes, by their numbers."""
    found = {name: process_of(name) for name in os.listdir("/proc") if name.isdigit()}
    return {number: process for number, process in found.items() if process}


def kind_of(words: Sequence[str]) -> str:
    """For what the prover was started, by its words."""
    if "--test" in words:
        return "tests"
    return "program" if "--crate-checked" in words else "proof"


def is_copy(found: Mapping[str, Process], process: Process) -> bool:
    """Whether a process is a copy that its parent made of itself."""
    parent = found.get(process.parent)
    return parent is not None and parent.words == process.words


def is_below(found: Mapping[str, Process], process: Process) -> bool:
    """Whether a process was started by this one, or by one that was."""
    above: Process | None = process
    while above and above.parent != str(os.getpid()):
        above = found.get(above.parent)
    return above is not None


class Costs:
    """Watches the prover's processes. While edits are tried, `phase` says so: their checks have no
    word of their own."""

    def __init__(self) -> None:
        self.spent: dict[Spent, float] = {}
        self.phase: str | None = None
        self.began, self.is_over = used(), threading.Event()
        self.watcher = threading.Thread(target=self.watch, daemon=True)

    def __enter__(self) -> "Costs":
        self.watcher.start()
        return self

    def __exit__(
        self,
        kind: type[BaseException] | None,
        why: BaseException | None,
        trace: TracebackType | None,
    ) -> None:
        self.is_over.set()
        self.watcher.join()

    def watch(self) -> None:
        while not self.is_over.wait(0.25):
            self.look()

    def look(self) -> None:
        """Notes what each process of the prover that was started here has used. Copies that one
        makes of itself are part of it."""
        found = processes()
        for number, process in found.items():
            if (
                "--crate-name" in process.words
                and is_below(found, process)
                and not is_copy(found, process)
            ):
                crate = process.words[process.words.index("--crate-name") + 1]
                kind = self.phase or kind_of(process.words)
                self.spent[Spent(number, process.began, crate, kind)] = process.seconds

    def whole(self) -> float:
        """All that was used since this was made, in seconds."""
        return used() - self.began

    def rows(self, crates: Iterable[str]) -> dict[str, dict[str, float]]:
        """The seconds of each crate, by kind."""
        table: dict[str, dict[str, float]] = {crate: dict.fromkeys(KINDS, 0.0) for crate in crates}
        for spent, seconds in self.spent.items():
            if spent.crate in table:
                table[spent.crate][spent.kind] += seconds
        return table

    def report(self, crates: Iterable[str], others: Mapping[str, float]) -> str:
        """The table, in whole seconds, and the sum in minutes. `others` has the seconds of what
        else was done, by name."""
        table = self.rows(crates)
        sums = [sum(row[kind] for row in table.values()) for kind in KINDS]
        lines = [f"| crate | {' | '.join(KINDS)} |", f"|---|{'---|' * len(KINDS)}"]
        lines += [f"| `{crate}` | {cells_of(row)} |" for crate, row in table.items()]
        lines.append(f"| together | {' | '.join(f'{each_sum:.0f}' for each_sum in sums)} |")
        lines += ["", "| what else | seconds |", "|---|---|"]
        lines += [f"| {name} | {seconds:.0f} |" for name, seconds in others.items()]
        whole = self.whole()
        lines.append(f"| the rest | {whole - sum(sums) - sum(others.values()):.0f} |")
        return "\n".join([*lines, "", f"Together {whole / 60:.0f} minutes of processor time."])


def cells_of(row: Mapping[str, float]) -> str:
    """The cells of a crate's row; an empty one for what took less than half a second."""
    return " | ".join(f"{row[kind]:.0f}" if row[kind] >= 0.5 else "" for kind in KINDS)
