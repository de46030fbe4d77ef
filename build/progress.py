"""One line of progress for something that takes long."""
import shutil
import sys
import threading
import time
from types import TracebackType


class Progress:
    """Tells how far something is, which begins when this is made.

    A terminal has one line, which is written anew each second; elsewhere each new state is a
    line of its own, and each minute. Nothing is shown before the `with` that it is used in.
    """

    def __init__(self, what: str, expected: float) -> None:
        """What begins, and how many minutes it is expected to take."""
        self.what, self.expected, self.state = what, expected, ""
        self.began = time.monotonic()
        self.told: tuple[str, int] | None = None
        self.is_terminal, self.is_shown = sys.stdout.isatty(), False
        self.is_over, self.lock = threading.Event(), threading.Lock()
        self.ticker = threading.Thread(target=self.tick, daemon=True)

    def __enter__(self) -> "Progress":
        self.is_shown = True
        self.tell()
        self.ticker.start()
        return self

    def __exit__(
        self,
        kind: type[BaseException] | None,
        why: BaseException | None,
        trace: TracebackType | None,
    ) -> None:
        self.is_over.set()
        self.ticker.join()
        if self.is_terminal:
            print("\r\033[K", end="", flush=True)

    def now(self, state: str) -> None:
        """Says how far it is now."""
        self.state = state
        if self.is_shown:
            self.tell()

    def note(self, text: str) -> None:
        """Prints a line that stays."""
        with self.lock:
            print(f"\r\033[K{text}" if self.is_terminal else text, flush=True)

    def tick(self) -> None:
        while not self.is_over.wait(1):
            self.tell()

    def tell(self) -> None:
        with self.lock:
            now = self.state, int((time.monotonic() - self.began) / 60)
            if self.is_terminal or self.told != now:
                self.told = now
                self.write_line(*now)

    def write_line(self, state: str, minutes: int) -> None:
        about = f"({minutes} min of about {self.expected:.0f})"
        line = f"{self.what}{state and ': '}{state} {about}"
        if self.is_terminal:
            width = shutil.get_terminal_size().columns - 1
            print(f"\r\033[K{line[:width]}", end="", flush=True)
        else:
            print(line, flush=True)
