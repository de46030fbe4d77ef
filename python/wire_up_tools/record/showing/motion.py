"""Whether anything moves in a run: its recordings grow, or a process sleeps for a known time."""
from dataclasses import dataclass, field
from pathlib import Path

from wire_up_tools.record.recordings import ENDING

BLOCK = 1 << 16
# Where the kernel says that a process sleeps for a known time.
SLEEPING = ("hrtimer_nanosleep", "do_nanosleep", "common_nsleep")


def count_switches(process: int) -> str:
    """The line that counts how often a process has gone to sleep. Raises OSError."""
    with open(f"/proc/{process}/status", encoding="ascii", errors="replace") as file:
        return next((line for line in file if line.startswith("voluntary_ctxt_switches")), "")


def is_in_sleep(process: int) -> bool:
    """Whether a process stands in a call that sleeps a known time; not where nobody tells."""
    try:
        with open(f"/proc/{process}/wchan", encoding="ascii", errors="replace") as file:
            return file.read().strip() in SLEEPING
    except OSError:
        return False


@dataclass(eq=False)
class Grown:
    """How much of a recording is written, and how often its process had gone to sleep."""

    process: int
    end: int = 0
    switches: str = ""

    def has_grown(self, path: Path) -> bool:
        """Whether there is more of it than at the last look. Raises OSError."""
        before = self.end
        with path.open("rb") as file:
            file.seek(self.end)
            while read := file.read(BLOCK):
                zeros = read.find(b"\0")
                self.end += len(read) if zeros < 0 else zeros
                if zeros >= 0:
                    break
        return self.end > before

    def has_slept(self) -> bool:
        """Whether the process has stood in one sleep since the last look."""
        try:
            before, self.switches = self.switches, count_switches(self.process)
        except OSError:
            return False
        return self.switches == before and is_in_sleep(self.process)


@dataclass(eq=False)
class Motion:
    """Looks at the recordings of a folder, again and again."""

    folder: Path
    seen: dict[str, Grown] = field(default_factory=dict)

    def has_moved(self) -> bool:
        """Whether something has moved since the last look. Raises OSError."""
        moved = False
        for path in self.folder.iterdir():
            if path.name.endswith(ENDING):
                number = path.name.split(".")[-2]
                new = Grown(int(number) if number.isdecimal() else 0)
                of = self.seen.setdefault(path.name, new)
                moved = of.has_grown(path) or moved
                moved = of.has_slept() or moved
        return moved
