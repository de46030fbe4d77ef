"""How a launcher is ended, with all that it started on this machine.

Its process begins a session, in which the first of the processes among fake nodes stays. The kernel
lets that one end only after all others among them. So the processes of the session are waited for,
whichever was killed. Until then the launcher's end isn't taken: so no other process, and no other
session, can have its number.
"""
import contextlib
import os
import signal
import subprocess
import time
from collections.abc import Callable
from pathlib import Path

from wire_up_tools.run.saying import say

# How often what is waited for is looked at, how long a launcher may take to end, and how long what
# was killed may take to be gone, in seconds.
TICK, PATIENCE, LIMIT = 0.02, 5.0, 10.0
# The states of a process that has ended.
ENDED = (b"Z", b"X")


def find_status(process: "subprocess.Popen[bytes]") -> int | None:
    """The status with which a process has ended, as Popen tells it; None while it runs. Its end
    isn't taken."""
    # Where its end was taken, or such ends are ignored, there is no child: Popen knows what to say.
    with contextlib.suppress(ChildProcessError):
        ended = os.waitid(os.P_PID, process.pid, os.WEXITED | os.WNOHANG | os.WNOWAIT)
        if ended is None:
            return None
        return ended.si_status if ended.si_code == os.CLD_EXITED else -ended.si_status
    return process.poll()


def is_within(seconds: float, is_so: Callable[[], bool]) -> bool:
    """Whether something is so within a time."""
    until = time.monotonic() + seconds
    while not is_so():
        if time.monotonic() > until:
            return False
        time.sleep(TICK)
    return True


def ends_within(process: "subprocess.Popen[bytes]", seconds: float) -> bool:
    """Whether a process ends within a time."""
    return is_within(seconds, lambda: find_status(process) is not None)


def is_left(process: int, session: int) -> bool:
    """Whether a process is one of a session, and hasn't ended."""
    try:
        with open(f"/proc/{process}/stat", "rb") as file:
            # The name before these has brackets around it, and may have any bytes.
            state, _, _, found = file.read().rpartition(b")")[2].split()[:4]
    except OSError:
        return False
    return state not in ENDED and int(found) == session


def list_left(session: int) -> list[int]:
    """The processes of a session that haven't ended."""
    every = (int(path.name) for path in Path("/proc").glob("[0-9]*"))
    return [number for number in every if is_left(number, session)]


def kill_one(process: int, session: int) -> None:
    """Kills a process of a session, and no other that has its number by now. Does nothing where it
    is gone, or where the kernel or Python has no handles of processes."""
    with contextlib.suppress(OSError, AttributeError):
        handle = os.pidfd_open(process)
        try:
            if is_left(process, session):
                signal.pidfd_send_signal(handle, signal.SIGKILL)
        finally:
            os.close(handle)


def end_fake_nodes(process: "subprocess.Popen[bytes]") -> None:
    """Ends all that is among fake nodes. Then `unshare` ends too, if it wasn't killed: it has taken
    the end of the first of them."""
    others = [number for number in list_left(process.pid) if number != process.pid]
    for number in others:
        kill_one(number, process.pid)
    if others:
        ends_within(process, PATIENCE)


def ask_to_end(process: "subprocess.Popen[bytes]") -> None:
    """Gives a launcher time to take its daemons down, and asks it to end if it doesn't."""
    if not ends_within(process, PATIENCE):
        with contextlib.suppress(ProcessLookupError):
            os.kill(process.pid, signal.SIGTERM)
        ends_within(process, PATIENCE)


def wait_until_gone(process: "subprocess.Popen[bytes]", limit: float, *, is_fake: bool) -> None:
    """Waits until what was killed is gone: a launcher, with fake nodes all of its session. A line
    says what isn't gone in time."""
    left = list_left(process.pid) if is_fake else []

    def is_gone() -> bool:
        left[:] = [number for number in left if is_left(number, process.pid)]
        return not left and find_status(process) is not None

    if not is_within(limit, is_gone):
        numbers = ", ".join(str(pid) for pid in left or [process.pid])
        say(f"killed, and not gone in {limit:g} seconds: process {numbers}")


def end_process(process: "subprocess.Popen[bytes]", limit: float = LIMIT, *, is_fake: bool) -> None:
    """Ends a launcher with all that it started. Once this returns, what was killed is gone, or a
    line says so."""
    if is_fake:
        end_fake_nodes(process)
    else:
        ask_to_end(process)
    with contextlib.suppress(ProcessLookupError):
        os.killpg(process.pid, signal.SIGKILL)
    wait_until_gone(process, limit, is_fake=is_fake)
    process.poll()
