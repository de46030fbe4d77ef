"""Damages recordings of the repository at random: each makes a plan, or is refused in one line that
names a file and, where one line is wrong, its number."""
import contextlib
import gc
import io
import random
import re
import shutil
import tempfile
import unittest
from collections.abc import Callable, Mapping, Sequence
from pathlib import Path

from wire_up_tools.failures import Refused
from wire_up_tools.record.tasks import Output, make
from tests import support
from tests.support.needs import needs_program
from tests.support.tapes import SHIPPED, ask_program, write_file

# How many recordings are damaged: some seconds.
ROUNDS = 600
# Words that are read as a number or a list, or that can't be.
WORDS = (
    b"", b"0", b"-1", b"99999999999999999999", b"4294967295", b"1-0", b"0-999999999", b"0-",
    b"x", b"%", b"%zz", b"*", b"any", b"all", b"none", b"every", b"@1", b"\xff", b"\x0b",
)
# How a refusal begins: with a file, and mostly with a line of it.
REFUSAL = re.compile(r"\S+/folder/\S+: (?:line \d+\b|is empty).*|a plan has at most .*")

Lines = list[bytes]


def change_word(dice: random.Random, lines: Lines) -> None:
    """Puts another word in the place of one."""
    at = dice.randrange(len(lines))
    words, others = lines[at].split(b" "), dice.choice(lines).split(b" ")
    words[dice.randrange(len(words))] = dice.choice([*WORDS, *others])
    lines[at] = b" ".join(words)


def change_number(dice: random.Random, lines: Lines) -> None:
    """Puts another number in the place of one."""
    at = dice.randrange(len(lines))
    numbers = list(re.finditer(rb"\d+", lines[at]))
    if numbers:
        number = dice.choice(numbers)
        other = dice.choice((b"", b"-", b"0", b"%d" % (int(number[0]) + 1), number[0] * 3))
        lines[at] = lines[at][:number.start()] + other + lines[at][number.end():]


def remove_line(dice: random.Random, lines: Lines) -> None:
    """Takes a line away."""
    del lines[dice.randrange(len(lines))]


def repeat_line(dice: random.Random, lines: Lines) -> None:
    """Writes a line once more, elsewhere."""
    lines.insert(dice.randrange(len(lines)), dice.choice(lines))


def cut(dice: random.Random, lines: Lines) -> None:
    """Drops the end of the file, in the middle of a line perhaps."""
    at = dice.randrange(len(lines))
    lines[at] = lines[at][:dice.randint(0, len(lines[at]))]
    del lines[at + 1:]


def change_byte(dice: random.Random, lines: Lines) -> None:
    """Puts any byte in the place of one."""
    at = dice.randrange(len(lines))
    line = bytearray(lines[at] or b" ")
    line[dice.randrange(len(line))] = dice.randrange(256)
    lines[at] = bytes(line)


DAMAGES: Sequence[Callable[[random.Random, Lines], None]] = (
    change_word, change_word, change_number, change_number, remove_line, repeat_line, cut,
    change_byte,
)


def damage(dice: random.Random, data: bytes) -> bytes:
    """The bytes of a file, damaged once."""
    lines = data.split(b"\n")
    dice.choice(DAMAGES)(dice, lines)
    return b"\n".join(lines)


def read_folder(folder: Path) -> Mapping[str, bytes]:
    """The files of a folder."""
    return {path.name: path.read_bytes() for path in folder.iterdir()}


class DamagedTest(unittest.TestCase):
    """Recordings that are damaged."""

    def setUp(self) -> None:
        room = tempfile.TemporaryDirectory(prefix="wire-up-")
        self.addCleanup(room.cleanup)
        self.addCleanup(gc.enable)
        self.folder = Path(room.name, "folder")
        self.plan, self.answers = (Path(room.name, word) for word in ("plan", "answers"))
        folders = sorted(path for path in SHIPPED.iterdir() if path.is_dir())
        self.shipped = [read_folder(folder) for folder in folders]

    def make(self, files: Mapping[str, bytes]) -> bool:
        """Makes the plan of some files, or tests how they are refused. Answers whether there is a
        plan."""
        shutil.rmtree(self.folder, ignore_errors=True)
        self.folder.mkdir()
        for name, data in files.items():
            write_file(self.folder / name, data)
        output = Output(str(self.plan), str(self.answers), checker="/dev/null")
        try:
            with contextlib.redirect_stderr(io.StringIO()):
                make(output, [str(self.folder)], str(self.folder))
        except Refused as why:
            self.assertRegex(str(why), rf"\A(?:{REFUSAL.pattern})\Z")
            return False
        return True

    def damage_any(self, seed: int, times: Sequence[int]) -> Mapping[str, bytes]:
        """The files of a recording, damaged some times."""
        dice = random.Random(seed)
        files = dict(dice.choice(self.shipped))
        for _ in range(dice.choice(times)):
            name = dice.choice(sorted(files))
            files[name] = damage(dice, files[name])
        return files

    def test_damaged_recordings(self) -> None:
        plans = 0
        for seed in range(ROUNDS):
            with self.subTest(seed=seed):
                plans += self.make(self.damage_any(seed, (1, 1, 2, 4)))
        self.assertGreater(plans, ROUNDS // 8, "too few plans")
        self.assertLess(plans, ROUNDS // 2, "too few refusals")

    @needs_program
    def test_plans_of_damaged_recordings(self) -> None:
        """Where a plan is made, the checker takes it."""
        program = support.program()
        for seed in range(ROUNDS, ROUNDS + ROUNDS // 4):
            if self.make(self.damage_any(seed, (1,))):
                ran = ask_program(program, "check", self.plan)
                self.assertIn(ran.returncode, (0, 1), f"{seed}: {ran.stderr}")


if __name__ == "__main__":
    unittest.main()
