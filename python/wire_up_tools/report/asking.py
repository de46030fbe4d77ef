"""Asks the checker about one plan, and judges how it ended."""
import contextlib
import json
import subprocess
import tempfile
from collections.abc import Generator, Iterator
from dataclasses import dataclass
from typing import IO, Any

from wire_up_tools.checker import Answer, Checker
from wire_up_tools.failures import Refused
from wire_up_tools.plan import Call

# The exit statuses of an answer: nothing is found, or something is.
CLEAN, FOUND = 0, 1
# The exit status of a checker that has no such command or option.
NOT_READ = 5
# How many bytes of an answer are read at once.
BLOCK = 1 << 20


class NotTaken(Refused):
    """What an older checker says of a command or an option that it doesn't have."""


@dataclass(frozen=True)
class Asker:
    """The checker, and the bytes of the plan that it is asked about."""

    checker: Checker
    data: bytes

    def version(self) -> str:
        """The version of the checker. Raises Refused if it can't be run."""
        try:
            return self.checker.version()
        except OSError as why:
            raise Refused(f"{self.checker.path}: {why.strerror}") from None

    def ask(self, command: str, *words: str) -> Answer:
        """Asks a command. Raises Refused if the checker can't be run."""
        try:
            return self.checker.ask(command, *words, plan=self.data)
        except OSError as why:
            raise Refused(f"{self.checker.path}: {why.strerror}") from None

    def judge(self, status: int, stderr: str) -> None:
        """Raises Refused for a status that isn't that of an answer, with what was said last;
        NotTaken if the checker is an older one, which can't read the command line."""
        if status not in (CLEAN, FOUND):
            last = stderr.strip().split("\n")[-1]
            kind = NotTaken if status == NOT_READ else Refused
            raise kind(last or f"{self.checker.path} ended with status {status}")

    def refuse(self, wanted: str) -> Refused:
        """What to raise for an answer that isn't what was wanted."""
        return Refused(f"{self.checker.path}: what it wrote is no {wanted}")


def read_json(answer: Answer) -> dict[str, Any]:
    """The object that the checker wrote; an empty one, if it wrote none."""
    try:
        said = json.loads(answer.stdout)
    except ValueError:
        return {}
    return said if isinstance(said, dict) else {}


def name_pair(first: Call, second: Call) -> list[str]:
    """Two calls as `why` and `witness` take them."""
    return [first.rank.name, str(first.number), second.rank.name, str(second.number)]


def stream_blocks(asker: Asker, command: str, *options: str) -> Generator[bytes, None, None]:
    """What a command writes, in blocks of whole lines: there may be millions.

    Raises Refused, before the first, if the plan is refused.
    """
    with tempfile.TemporaryFile() as plan, tempfile.TemporaryFile() as errors:
        plan.write(asker.data)
        plan.seek(0)
        large = ["--large"] * asker.checker.is_large
        words = [asker.checker.path, command, *large, *options]
        with subprocess.Popen(words, stdin=plan, stdout=subprocess.PIPE, stderr=errors) as ran:
            try:
                yield from cut_into_lines(ran.stdout)
                status = ran.wait()
            finally:
                ran.kill()
        errors.seek(0)
        asker.judge(status, errors.read().decode("utf-8", "replace"))


def cut_into_lines(source: IO[bytes] | None) -> Iterator[bytes]:
    """The bytes of a source in blocks that end with a line; the last may not."""
    rest = b""
    while source and (read := source.read(BLOCK)):
        whole, end, begun = read.rpartition(b"\n")
        if end:
            yield rest + whole + end
            rest = begun
        else:
            rest += read
    if rest:
        yield rest


def stream_lines(asker: Asker, command: str, *options: str) -> Generator[str, None, None]:
    """The lines that a command writes, one after another.

    Raises Refused, before the first, if the plan is refused.
    """
    with contextlib.closing(stream_blocks(asker, command, *options)) as blocks:
        for block in blocks:
            yield from block.decode("utf-8", "replace").splitlines()
