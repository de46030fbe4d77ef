"""Signals that end what is done. While a run begins or ends they are put off, so that nothing is
left of it."""
import signal
import threading
from dataclasses import dataclass
from types import FrameType, TracebackType

CAUGHT = (signal.SIGINT, signal.SIGTERM, signal.SIGHUP, signal.SIGQUIT)


class Interrupted(Exception):
    """A signal came: its number."""

    def __init__(self, number: int) -> None:
        super().__init__(number)
        self.number = number


@dataclass
class Signals:
    """Whether signals are put off, and the one that has come."""

    is_held: bool = False
    came: int | None = None

    def take(self) -> None:
        """Raises Interrupted if a signal has come, unless it is put off."""
        if self.came is not None and not self.is_held:
            number, self.came = self.came, None
            raise Interrupted(number)


SIGNALS = Signals()


class Held:
    """Puts signals off while something is done, or lets them come in a part of that.

    Python hands signals to the main thread: in another one this does nothing. Once a signal has
    come, all are ignored: so if it came just before they would have been put off again, none
    disturbs what is done then.
    """

    def __init__(self, *, is_held: bool) -> None:
        self.is_held, self.was_held = is_held, False
        self.is_main = threading.current_thread() is threading.main_thread()

    def __enter__(self) -> None:
        if self.is_main:
            self.was_held, SIGNALS.is_held = SIGNALS.is_held, self.is_held
            SIGNALS.take()

    def __exit__(
        self,
        kind: type[BaseException] | None,
        why: BaseException | None,
        trace: TracebackType | None,
    ) -> None:
        if self.is_main:
            SIGNALS.is_held = self.was_held
            SIGNALS.take()


def held() -> Held:
    """Puts signals off."""
    return Held(is_held=True)


def released() -> Held:
    """Lets signals come in a part of what is done while they are put off."""
    return Held(is_held=False)


def ignore_signals() -> None:
    """Lets no signal end what is done."""
    for signals in CAUGHT:
        signal.signal(signals, signal.SIG_IGN)


def stop(number: int, _: FrameType | None) -> None:
    """Ends what is done when a signal comes. Further ones don't disturb its end."""
    ignore_signals()
    SIGNALS.came = number
    SIGNALS.take()


def catch_signals() -> None:
    """Lets signals end what is done, but for those that were ignored before."""
    for signals in CAUGHT:
        if signal.getsignal(signals) != signal.SIG_IGN:
            signal.signal(signals, stop)
