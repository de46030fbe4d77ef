"""Makes a folder with a newer Debian, whose MPI, PMIx and Slurm the live tests then run with too.

Usage: make newer-root [ROOT=FOLDER]
       python3 -m build.newer_root [FOLDER]
It takes debootstrap, root, 4 GB of disk, of which it keeps 1, and some minutes. FOLDER is
/var/tmp/wire-up-trixie, unless it is told or WIRE_UP_NEWER_ROOT names another. It has that name
only once it is whole; what is made of one that fails or is stopped goes. Where the folder is, the
gate runs live tests in it too, by tests/record/test_recording_newer.py and
tests/run/test_run_newer.py.
WIRE_UP_NEWER_RELEASE=forky takes another release than trixie, in a folder of its name.

`.ci/run` runs this beside the proofs, and writes what it says to out/newer-root.log.
"""
import os
import re
import shutil
import signal
import subprocess
import sys
import tempfile
from collections.abc import Sequence
from pathlib import Path
from typing import NoReturn

from build.places import LOGS

RELEASE = os.environ.get("WIRE_UP_NEWER_RELEASE") or "trixie"
# The script of debootstrap that all releases share. It has none by the name of a later one.
SCRIPT = "sid"
MIRROR = os.environ.get("DEBIAN_MIRROR", "http://deb.debian.org/debian")
PACKAGES = (
    "openmpi-bin libopenmpi-dev libpmix-dev pkg-config gcc gfortran libc6-dev make python3"
    " python3-mpi4py binutils procps hostname iproute2 slurm-wlm"
).split()
# What apt in the folder takes over from apt of this machine: whether a mirror may be out of date.
DATES = ("Acquire::Check-Valid-Until", "Acquire::Check-Date")
# How many bytes must be free where it is made.
ROOM = 4 << 30
# What the gate wrote while it made the folder.
LOG = LOGS / "newer-root.log"
# Mounts of the command, and what it leaves behind, end with it.
ALONE = ("unshare", "--mount", "--pid", "--fork", "--kill-child")
# What a command in the folder has in its environment. Open MPI as root must be told that this is
# meant, and finds no way from this machine to itself by TCP where there is one address alone.
SETTINGS = (
    "HOME=/root",
    "PATH=/usr/sbin:/usr/bin:/sbin:/bin",
    "LC_ALL=C.UTF-8",
    "DEBIAN_FRONTEND=noninteractive",
    "OMPI_ALLOW_RUN_AS_ROOT=1",
    "OMPI_ALLOW_RUN_AS_ROOT_CONFIRM=1",
    "OMPI_MCA_btl_tcp_disable_family=6",
    "PRTE_ALLOW_RUN_AS_ROOT=1",
    "PRTE_ALLOW_RUN_AS_ROOT_CONFIRM=1",
)
# Puts the system's folders into the root, for this process and what it starts alone. The root is
# mounted too: without that, a command inside can't make a table of mounts of its own.
ENTER = (
    'root=$0; mount --make-rprivate /; mount --bind "$root" "$root"; '
    'mount -t proc proc "$root/proc"; mount --rbind /sys "$root/sys"; '
    'mount --rbind /dev "$root/dev"; exec chroot "$root" /usr/bin/env -i "$@"'
)


def find_root() -> str:
    """The folder that is meant."""
    return os.environ.get("WIRE_UP_NEWER_ROOT") or f"/var/tmp/wire-up-{RELEASE}"


def enter(root: str, words: Sequence[str]) -> list[str]:
    """The words that run a command in such a folder."""
    return [*ALONE, "sh", "-c", ENTER, root, *SETTINGS, *words]


def run(what: str, words: Sequence[str]) -> None:
    """Runs a command. Raises OSError where it fails."""
    status = subprocess.run(words, check=False).returncode
    if status:
        raise OSError(f"{what} ended with {status}")


def find_dates() -> list[str]:
    """The options of apt that take over what this machine says of a mirror's dates."""
    asked = shutil.which("apt-config")
    if not asked:
        return []
    said = subprocess.run([asked, "dump", *DATES], capture_output=True, text=True, check=False)
    return [f"-o{name}={item}" for name, item in re.findall(r'(?m)^(\S+) "(.*)";$', said.stdout)]


def fill_root(made: str) -> None:
    """Puts Debian into an empty folder. Raises OSError."""
    options = ["--variant=minbase", "--include=ca-certificates"]
    run("debootstrap", [*ALONE, "debootstrap", *options, RELEASE, made, MIRROR, SCRIPT])
    Path(made, "etc", "resolv.conf").write_bytes(Path("/etc/resolv.conf").read_bytes())
    install = ["install", "-y", "--no-install-recommends", *PACKAGES]
    for words in (["update"], install, ["clean"]):
        run(f"apt-get {words[0]}", enter(made, ["apt-get", "-q", *find_dates(), *words]))


def make_root(root: str) -> None:
    """Makes the folder, beside its place first. Raises OSError."""
    above, name = os.path.split(os.path.abspath(root))
    free = shutil.disk_usage(above).free
    if free < ROOM:
        raise OSError(f"{above} has {free >> 20:,} MB free, and it takes {ROOM >> 20:,}")
    made = tempfile.mkdtemp(prefix=f"{name}.", dir=above)
    try:
        os.chmod(made, 0o755)
        fill_root(made)
        os.rename(made, root)
    finally:
        shutil.rmtree(made, ignore_errors=True)


def stop(_signal: int, _frame: object) -> NoReturn:
    """Ends the program, so that what is half made goes."""
    raise OSError("it was stopped")


def main(words: Sequence[str]) -> int:
    """Runs the command, and answers its status."""
    root = words[0] if words else find_root()
    if os.path.isdir(root):
        print(f"{root} is there")
        return 0
    signal.signal(signal.SIGTERM, stop)
    try:
        make_root(root)
    except OSError as why:
        print(f"{root}: isn't made: {why}", file=sys.stderr)
        return 1
    print(f"{root} is made")
    return 0


if __name__ == "__main__":
    sys.exit(main(sys.argv[1:]))
