"""Standard input that each of several runs reads anew."""
import fcntl
import os
import stat
import struct
import sys
import termios

from wire_up_tools.failures import Unusable


def has_input() -> bool:
    """Whether bytes wait on standard input, which is no terminal."""
    try:
        number = sys.stdin.fileno()
        mode = os.fstat(number).st_mode
        if stat.S_ISREG(mode):
            return os.fstat(number).st_size > 0
        if not (stat.S_ISFIFO(mode) or stat.S_ISSOCK(mode)):
            return False
        waiting = fcntl.ioctl(number, termios.FIONREAD, struct.pack("i", 0))
        return bool(struct.unpack("i", waiting)[0])
    except (AttributeError, OSError, ValueError):
        return False


def refuse_input(source: str | None) -> None:
    """Refuses standard input that only one of several runs could read. Raises Unusable."""
    if source is None and has_input():
        raise Unusable("each run reads its input anew: give it with --input FILE")
