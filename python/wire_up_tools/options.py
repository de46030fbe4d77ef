"""Reads the options of a command line, and says what is wrong with them."""
import argparse
import itertools
from collections.abc import Iterator, Sequence
from dataclasses import dataclass
from typing import NoReturn

from wire_up_tools import VERSION
from wire_up_tools.failures import Unusable

# What the words are called that options take.
KINDS = {
    "FOLDER": "folder",
    "FILE": "file",
    "PLAN": "file",
    "NAME": "name",
    "WORDS": "command line",
    "COUNT": "number",
    "SECONDS": "number of seconds",
    "RACE": "race",
}
# What begins as an option and is none: a word, and what ends the options.
STANDARD_STREAM, END = "-", "--"
# What nothing else stands beside.
HELP, VERSIONS = ("-h", "--help"), ("-V", "--version")
ALONE = (*HELP, *VERSIONS)


@dataclass(frozen=True)
class Option:
    """An option: its name, the word that it takes as the help calls it, if any, and what it means.

    It is found under its name without hyphens at the beginning, and with _ for the others.
    """

    name: str
    word: str
    meaning: str

    @property
    def written(self) -> str:
        """The option with its word, as it is written."""
        return f"{self.name} {self.word}".strip()


class Once(argparse.Action):
    """Takes the word of an option that may stand once."""

    def __call__(
        self,
        parser: argparse.ArgumentParser,
        namespace: argparse.Namespace,
        values: str | Sequence[str] | None,
        option_string: str | None = None,
    ) -> None:
        """Keeps the word. Raises Unusable if there is one already."""
        if getattr(namespace, self.dest) is not None:
            raise Unusable(f"{option_string} stands twice")
        setattr(namespace, self.dest, values)


class Parser(argparse.ArgumentParser):
    """Options, and other words before or after them that are found under `rest`. Each of `tasks` is
    an option that takes those behind it."""

    def __init__(self, options: Sequence[Option], tasks: Sequence[str] = ()) -> None:
        super().__init__(add_help=False, allow_abbrev=False, exit_on_error=False)
        self.tasks = tasks
        for task in tasks:
            self.add_argument(task, nargs=argparse.REMAINDER)
        self.words = {option.name: option.word for option in options if option.word}
        for option in options:
            if option.word:
                self.add_argument(option.name, action=Once)
            else:
                self.add_argument(option.name, action="store_true")
        self.add_argument("rest", nargs=argparse.REMAINDER)

    def error(self, message: str) -> NoReturn:
        """Raises Unusable in place of ending the program."""
        raise Unusable(message)

    def sort(self, words: Sequence[str]) -> list[str]:
        """The words with the options first, up to two hyphens. Then come the first task, what
        stands behind it, and what stood before it. Raises Unusable for an option without its
        word."""
        options: list[str] = []
        before: list[str] = []
        behind: list[str] = []
        left = iter(words)
        for word in left:
            others: list[str] = behind if behind or word in self.tasks else before
            if word == END:
                others += [word, *left]
            elif word in self.tasks or word == STANDARD_STREAM or not word.startswith("-"):
                others.append(word)
            else:
                options += [word, *self.take_word(word, left)]
        return [*options, *behind, *before]

    def take_word(self, option: str, left: Iterator[str]) -> list[str]:
        """The word of an option, if it takes one. Raises Unusable where none is left."""
        if option not in self.words:
            return []
        found = [*itertools.islice(left, 1)]
        if not found:
            raise Unusable(self.explain([], option))
        return found

    def read(self, words: Sequence[str]) -> argparse.Namespace:
        """Reads a command line. Raises Unusable, with what is wrong with it."""
        words = self.sort(words)
        try:
            found, unknown = self.parse_known_args(words)
        except argparse.ArgumentError as why:
            raise Unusable(self.explain(words, why.argument_name or "")) from None
        # What looks like a negative number, or has a space, is taken for a word.
        first = [text for text in found.rest[:1] if text.startswith("-")]
        unknown += [item for item in first if item not in (STANDARD_STREAM, END)]
        if unknown:
            is_alone = unknown[0] in ALONE
            raise Unusable(f"{unknown[0]} {'stands alone' if is_alone else 'is no option'}")
        found.rest = found.rest[1:] if first == [END] else found.rest
        return found

    def explain(self, words: Sequence[str], option: str) -> str:
        """What is wrong with an option: it needs a word and has none, or has one and takes
        none."""
        if option in self.words:
            return f"{option} needs a {KINDS[self.words[option]]}"
        written = next((word for word in words if word.startswith(f"{option}=")), option)
        return f"{written} is no option"


def answer_alone(words: Sequence[str], name: str, help_text: str) -> str | None:
    """What a program of this name writes that is asked for nothing but its help or its version;
    None where it is asked for something else."""
    if len(words) != 1:
        return None
    if words[0] in HELP:
        return help_text
    return f"{name} {VERSION}\n" if words[0] in VERSIONS else None


def say_unusable(name: str, why: Unusable) -> str:
    """The line of a program of this name that says what is wrong with its command line."""
    return f"{name}: {why} ({name} --help tells more)\n"


def describe(options: Sequence[Option]) -> str:
    """The rows of a help that say what options mean, and that the help and the version are two."""
    alone = (("-V, --version", "shows the version"), ("-h, --help", "shows this"))
    rows = [*((each_option.written, each_option.meaning) for each_option in options), *alone]
    return "".join(f"  {option:<15}  {meaning}\n" for option, meaning in rows)
