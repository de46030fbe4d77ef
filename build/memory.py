"""How much of the machine proofs take: its processors, its memory, and files in memory."""
import contextlib
import os
import subprocess
import tempfile
from collections.abc import Iterator, Sequence
from pathlib import Path

from build import kit
from build.crates import Crate
from build.lanes import Machine

# How much of the memory that the kit reckons with for a check one process takes at most, and how
# much of the free memory is given to proofs.
SHARE, GIVEN = 0.6, 0.85
# Where Linux keeps files in memory.
MEMORY = Path("/dev/shm")
# How many bytes the files take at most that the prover makes of one crate, and how many a proof of
# a library takes beside them.
FILES, TAKEN = 400 << 20, 2 << 30
# Removes a folder once its standard input is closed. For a minute it tries again, since provers may
# write there a little longer.
REMOVE = 'read -r _; left=60; until rm -rf "$0" || [ $((left -= 1)) -eq 0 ]; do sleep 1; done'


def machine_here() -> Machine:
    """What there is for proofs. Who says by RT_JOBS how many work side by side is obeyed."""
    number = os.environ.get("RT_JOBS", "")
    if number.isdigit() and int(number):
        return Machine(int(number), float("inf"))
    return Machine(kit.processors(), GIVEN * kit.free())


def lanes_for(crates: Sequence[Crate]) -> int:
    """How many crates are proved side by side by one process each: one to a processor, as many as
    memory has room for."""
    most = max((kit.need(crate) for crate in crates), default=1)
    return max(1, min(kit.processors(), int(GIVEN * kit.free() / (SHARE * most))))


@contextlib.contextmanager
def files_in_memory(place: Path = MEMORY) -> Iterator[None]:
    """Within this, the prover makes its files in memory, where there is room for them, unless
    TMPDIR says where else. Of a library it writes thousands of small files, packs them, and removes
    them, which takes longer on a disk."""
    if "TMPDIR" in os.environ or not has_room(place):
        yield
        return
    # (Python asks only once where temporary files go: this program's own stay on the disk.)
    tempfile.gettempdir()
    room = tempfile.mkdtemp(prefix="wire-up-", dir=place)
    os.environ["TMPDIR"] = room
    remover = remover_of(room)
    try:
        yield
    finally:
        del os.environ["TMPDIR"]
    remover.communicate()


def remover_of(room: str) -> "subprocess.Popen[bytes]":
    """Starts what removes a folder once its standard input is closed: when it is told to, or when
    this program ends, however it ends."""
    return subprocess.Popen(
        ["sh", "-c", REMOVE, room],
        stdin=subprocess.PIPE,
        stdout=subprocess.DEVNULL,
        stderr=subprocess.DEVNULL,
        start_new_session=True,
    )


def has_room(place: Path) -> bool:
    """Whether there is room in memory for a proof on each processor, and for its files at that
    place."""
    try:
        found = os.statvfs(place)
    except OSError:
        return False
    number, left = kit.processors(), found.f_bavail * found.f_frsize
    is_free = left >= number * FILES and kit.free() >= number * (TAKEN + FILES)
    return os.access(place, os.W_OK) and is_free
