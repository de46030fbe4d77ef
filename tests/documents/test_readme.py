"""Runs each command that README.md and the other documents show, and compares what it writes with
what they show. Looks whether the files that they name are there.

A shown command is a line `$ COMMAND` of an indented block, and the lines up to the next one, or to
the end of the block, are what it writes. It runs in a shell as if at the top of the repository,
where `./wire_up` stands for the program. Files that it writes are there for the commands after it,
and gone at the end. A document names files by its links, and by words such as
`wire_runs/specs/Plan.antt`.
"""
import glob
import os
import re
import shlex
import subprocess
import tempfile
import unittest
from dataclasses import dataclass, field
from pathlib import Path

from tests import support
from tests.support.needs import needs_program


SECONDS = 60
# These show commands for certain. Of the others, those that they show are run.
SHOWN_IN = (
    "README.md",
    "docs/commands.md",
    "docs/races.md",
    "docs/plan-format.md",
    "docs/recording.md",
)
PLACES = ("*.md", "docs/*.md", "examples/*.md", "crates/*/README.md")
LINK = re.compile(r"\]\((?!https?:)([^)#\s]+)")
OF_CRATE = re.compile(r"`(?:crates/)?(\w+/(?:src|specs|proofs)/[\w/]+\.(?:rt|antt))`")
OF_TOP = re.compile(r"`((?:tests|examples|docs|build|packaging|record|python)/[\w./-]+\.\w+)`")
PROGRAM = re.compile(r"\./wire_up(?![\w-])")


@dataclass
class Shown:
    """A command that a document shows: the number of its line, its words, and what it writes."""

    number: int
    words: str
    lines: list[str] = field(default_factory=list)

    def text(self) -> str:
        text = "".join(f"{line}\n" for line in self.lines).rstrip("\n")
        return text + "\n" * any(self.lines)


def documents() -> list[str]:
    """All documents of the repository."""
    return sorted(path for place in PLACES for path in glob.glob(place, root_dir=support.TOP))


def text_of(path: str) -> str:
    return (support.TOP / path).read_text(encoding="utf-8")


def commands_in(path: str) -> list[Shown]:
    """Each command that a document shows."""
    found: list[Shown] = []
    is_open = False
    for number, line in enumerate(text_of(path).split("\n"), 1):
        if line.startswith("    $ "):
            found.append(Shown(number, line[6:]))
            is_open = True
        elif line and not line.startswith("    "):
            is_open = False
        elif is_open:
            found[-1].lines.append(line[4:])
    return found


def named_files(path: str) -> list[str]:
    """The paths of the files that a document names, from the top of the repository."""
    text = text_of(path)
    links = [Path(path).parent / found for found in LINK.findall(text)]
    return links + [f"crates/{found}" for found in OF_CRATE.findall(text)] + OF_TOP.findall(text)


def make_like_the_top(room: Path) -> None:
    """Makes an empty folder look like the top of the repository."""
    for name in os.listdir(support.TOP):
        (room / name).symlink_to(support.TOP / name)


def output_of(words: str, room: Path, program: str) -> str:
    """What a shown command writes, with this program in the place of ./wire_up."""
    really = PROGRAM.sub(lambda _: shlex.quote(program), words)
    ran = subprocess.run(
        really,
        shell=True,
        cwd=room,
        stdin=subprocess.DEVNULL,
        stdout=subprocess.PIPE,
        stderr=subprocess.STDOUT,
        timeout=SECONDS,
        check=False,
    )
    return ran.stdout.decode(errors="replace")


class Files(unittest.TestCase):
    """The files that documents name."""

    def test_named_files(self) -> None:
        for path in documents():
            with self.subTest(path):
                named = {os.path.normpath(file) for file in named_files(path)}
                found = {text for text in named if (support.TOP / text).exists()}
                self.assertEqual([], sorted(named - found), "files that aren't there")

    def test_examples(self) -> None:
        """Each has a line in their index."""
        folder = support.TOP / "examples"
        paths = glob.glob("**/*.p*", root_dir=folder, recursive=True)
        words = re.findall(r"[\w-]+", re.sub(r"\([^)]*\)", "", text_of("examples/README.md")))
        for path in paths:
            with self.subTest(path):
                self.assertIn(Path(path).stem, words)


class Commands(unittest.TestCase):
    """The commands that documents show."""

    maxDiff = None

    @needs_program
    def test_shown_commands(self) -> None:
        program = support.program()
        for path in documents():
            with tempfile.TemporaryDirectory(prefix="wire-up-") as folder:
                room = Path(folder)
                make_like_the_top(room)
                for command in commands_in(path):
                    with self.subTest(f"{path}:{command.number}", words=command.words):
                        self.assertEqual(command.text(), output_of(command.words, room, program))

    def test_some_are_shown(self) -> None:
        """What must show commands does, so that they are run."""
        for path in set(SHOWN_IN).intersection(documents()):
            with self.subTest(path):
                self.assertTrue(commands_in(path), "no indented block has a command")


if __name__ == "__main__":
    unittest.main()
