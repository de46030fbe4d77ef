"""Runs a command with the recorder in each of its processes."""
import os
import re
import signal
import subprocess
import tempfile
from collections.abc import Mapping, Sequence
from pathlib import Path
from typing import IO, NamedTuple

from wire_up_tools.failures import Refused
from wire_up_tools.files import STANDARD_OUTPUT, find_open

# The signals that are handed on to the command.
HANDED_ON = (signal.SIGINT, signal.SIGTERM, signal.SIGHUP, signal.SIGQUIT)
# How a signal's code says that the terminal sent it, to all processes in the foreground.
BY_TERMINAL = 0x80
# Statuses, as `env` and `timeout` have them.
NOT_RUN, NOT_THERE, BY_SIGNAL = 126, 127, 128
# How long a signal is waited for before the command is looked at again, in seconds.
PATIENCE = 1

OF_PMIX, OF_MPI = "record.so", "record-mpi.so"
# Where the libraries are, seen from the folder of the command: in the repository, and where
# `make install` puts them.
LIBRARIES = ("record", "../lib/wire_up")
PRELOAD, TO_FOLDER = "LD_PRELOAD", "WIRE_UP_RECORD"
# A program that is built with AddressSanitizer doesn't start with other libraries before that of
# the sanitizer, unless it is told so. Of options that stand twice the last counts.
SANITIZER, ANY_ORDER = "ASAN_OPTIONS", "verify_asan_link_order=0"
# Names the variables that the launcher of Open MPI hands on to other nodes. Where it has the option
# -x, which doesn't go with this variable, the recorder in it adds them to the options.
TO_OTHER_NODES = "OMPI_MCA_mca_base_env_list"


class NotRun(Exception):
    """A command that can't be run: why, and the status that says so."""

    def __init__(self, why: str, status: int) -> None:
        super().__init__(why)
        self.status = status


class Stopped(Exception):
    """A signal came while no command ran: its number."""

    def __init__(self, number: int) -> None:
        super().__init__(number)
        self.number = number


def find_library(folder: str | Path, name: str) -> str | None:
    """The path of a built library, by the folder of the command; None where it isn't built."""
    for beside in LIBRARIES:
        path = Path(folder, beside, name).resolve()
        if path.exists():
            return str(path)
    return None


def find_libraries(folder: str | Path, with_mpi: bool) -> list[str]:
    """The libraries that are preloaded. Raises Refused if there is no recorder, or if one can't be
    preloaded."""
    recorder = find_library(folder, OF_PMIX)
    if not recorder:
        raise Refused("there is no recorder: `make record` builds it")
    of_mpi = find_library(folder, OF_MPI) if with_mpi else None
    found = [recorder, of_mpi] if of_mpi else [recorder]
    for each_recorder in found:
        if re.search(r"[\s:;]", each_recorder):
            raise Refused(
                f"{each_recorder}: no library can be preloaded from a path with spaces, colons or"
                " semicolons"
            )
    return found


def is_made_by_python(name: str) -> bool:
    """Whether Python itself set a variable, as it does with LC_CTYPE where no locale is chosen.
    The program is not to see it."""
    try:
        with open("/proc/self/environ", "rb") as file:
            given = file.read().split(b"\0")
    except OSError:
        return False
    return name in os.environ and not any(part.startswith(f"{name}=".encode()) for part in given)


def make_folder(path: str, kept: str | None) -> str:
    """The folder for the recordings of a command, made or found empty: the one that is kept, or one
    beside the text that is written to a path, or here where that is no file. Raises Refused,
    OSError."""
    if not kept:
        is_file = os.path.isfile(path) or not os.path.exists(path)
        is_file = is_file and path != STANDARD_OUTPUT and find_open(path) is None
        beside = os.path.dirname(os.path.abspath(path)) if is_file else os.getcwd()
        return tempfile.mkdtemp(prefix="wire_up-record-", dir=beside)
    if os.path.realpath(kept) == os.path.realpath(path):
        raise Refused(f"{kept}: -o and --keep each need a path of their own")
    os.makedirs(kept, exist_ok=True)
    if os.listdir(kept):
        raise Refused(f"{kept}: isn't empty")
    return os.path.abspath(kept)


def make_environment(libraries: Sequence[str], folder: str) -> dict[str, str]:
    """The environment in which a command runs with libraries in each process, which write their
    recordings to a folder."""
    found = dict(os.environ)
    if is_made_by_python("LC_CTYPE"):
        del found["LC_CTYPE"]
    before = found.get(PRELOAD)
    found[PRELOAD] = ":".join([*([before] if before else []), *libraries])
    found[TO_FOLDER] = folder
    chosen = found.get(SANITIZER)
    found[SANITIZER] = ":".join([*([chosen] if chosen else []), ANY_ORDER])
    handed_on = found.get(TO_OTHER_NODES)
    own = [PRELOAD, TO_FOLDER, SANITIZER]
    found[TO_OTHER_NODES] = ";".join([*([handed_on] if handed_on else []), *own])
    return found


class Ended(NamedTuple):
    """How a command ended: its status, below 0 for the signal that ended it, and whether a signal
    came that asks us to end too."""

    status: int
    is_stopped: bool


def wait_and_hand_on(process: "subprocess.Popen[bytes]") -> Ended:
    """Waits for a process and hands signals on to it, which must be blocked. Answers how it
    ended."""
    is_stopped = False
    while process.poll() is None:
        came = signal.sigtimedwait((*HANDED_ON, signal.SIGCHLD), PATIENCE)
        if came and came.si_signo != signal.SIGCHLD:
            is_stopped = True
            if came.si_code != BY_TERMINAL:
                process.send_signal(came.si_signo)
    return Ended(process.returncode, is_stopped)


def run(
    command: Sequence[str],
    environment: Mapping[str, str],
    source: IO[bytes] | None = None,
    output: int | None = None,
) -> Ended:
    """Runs a command, which reads from a source, else from standard input, hands signals on to it,
    and answers how it ended. `output` is the file to which its
    standard output goes, if not to ours. Raises NotRun if it can't be run."""
    before = signal.pthread_sigmask(signal.SIG_BLOCK, (*HANDED_ON, signal.SIGCHLD))

    def unblock() -> None:
        signal.pthread_sigmask(signal.SIG_SETMASK, before)

    try:
        # The command has the files that were opened for it.
        with subprocess.Popen(
            command,
            env=environment,
            preexec_fn=unblock,
            close_fds=False,
            stdin=source,
            stdout=output,
        ) as process:
            return wait_and_hand_on(process)
    except FileNotFoundError as why:
        raise NotRun(f"{command[0]}: {why.strerror}", NOT_THERE) from None
    except OSError as why:
        raise NotRun(f"{command[0]}: {why.strerror}", NOT_RUN) from None
    finally:
        unblock()
