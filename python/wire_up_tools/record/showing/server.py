"""The server that lets held calls go."""
import contextlib
import shutil
import tempfile
import time
from collections.abc import Iterator
from dataclasses import dataclass, field
from pathlib import Path

from wire_up_tools.record.showing.holds import Course, Holds, Until, Wait
from wire_up_tools.record.showing.motion import Motion
from wire_up_tools.run.channels import Channel, Hall, Heard, open_hall

# How often is looked whether anything moves, and how long a message may take to be sent.
LOOK_SECONDS, ARRIVAL_SECONDS = 0.5, 0.1
GO = "go"


@dataclass(frozen=True)
class Patience:
    """How long nothing may move before a hold ends, and how long a hold may last, in seconds."""

    hold: float
    limit: float


@contextlib.contextmanager
def open_hall_for(hosts: list[str] | None) -> Iterator[Hall]:
    """A hall that processes of hosts can reach; None: of this machine. Raises Refused, OSError."""
    folder = Path(tempfile.mkdtemp(prefix="wire_up-show-"))
    try:
        hall = open_hall(folder, hosts)
        try:
            yield hall
        finally:
            hall.close()
    finally:
        shutil.rmtree(folder, ignore_errors=True)


@dataclass(eq=False)
class Server:
    """Hears which named calls came and are over, and says which may go."""

    hall: Hall
    holds: Holds
    motion: Motion
    patience: Patience
    courses: dict[int, Course] = field(default_factory=dict)
    waiting: dict[int, Channel] = field(default_factory=dict)
    looked: float = 0.0
    moved: float = field(default_factory=time.time)
    # How long calls were held in vain, in seconds.
    lost: float = 0.0

    def __post_init__(self) -> None:
        self.courses = {n: Course() for n in range(1, len(self.holds.targets) + 1)}

    def serve(self, seconds: float) -> bool:
        """Takes what comes within a time, and lets calls go. Whether something came. Raises
        OSError."""
        heard = list(self.hall.hear(seconds))
        for each_heard in heard:
            self.take(each_heard)
        self.let_go()
        return bool(heard)

    def take(self, heard: Heard) -> None:
        """Takes a line, if it shows the word of this run."""
        word, _, rest = (heard.line or "").partition(" ")
        what, _, which = rest.partition(" ")
        course = self.courses.get(int(which)) if which.isdecimal() else None
        if word != self.hall.word or course is None:
            return
        now = time.time()
        if what == "over":
            course.over = course.over or now
        elif what in ("came", "passed"):
            course.came = now
            course.is_passed = what == "passed"
            if course.is_passed:
                course.gone = now
            else:
                self.waiting[int(which)] = heard.channel

    def is_there(self, wait: Wait, now: float) -> bool:
        """Whether what a call waits for is there."""
        other = self.courses[wait.other]
        if wait.until is Until.IS_OVER:
            return other.over is not None
        return other.gone is not None and now - other.gone > ARRIVAL_SECONDS

    def may_go(self, which: int, now: float) -> bool:
        """Whether a call may go on."""
        waits = self.holds.waits.get(which, ())
        are_there = [self.is_there(wait, now) for wait in waits]
        return not waits or (any if which in self.holds.any_of else all)(are_there)

    def is_in_vain(self, course: Course, now: float) -> bool:
        """Whether a call is held no longer: nothing moves, or it takes too long."""
        came = course.came or now
        is_still = now - max(came, self.moved) > self.patience.hold
        return is_still or now - came > self.patience.limit

    def end_holds(self) -> None:
        """Takes all calls that are still held as held in vain: the run is ended."""
        for which in self.waiting:
            self.courses[which].late = time.time()

    def look(self, now: float) -> None:
        """Looks whether anything moves, from time to time. Raises OSError."""
        if now - self.looked > LOOK_SECONDS:
            self.looked = now
            if self.motion.has_moved():
                self.moved = now

    def let_go(self) -> None:
        """Lets all go that may, or that were held in vain. Raises OSError."""
        now = time.time()
        self.look(now)
        for which, channel in list(self.waiting.items()):
            course = self.courses[which]
            may_go = self.may_go(which, now)
            if may_go or self.is_in_vain(course, now):
                course.gone = now
                if not may_go:
                    course.late = now
                    self.lost += now - (course.came or now)
                channel.send(GO)
                del self.waiting[which]
