"""What the programs say of themselves by `--help`, taken apart: the manual pages and the
completions are made of it."""
import re
import subprocess
import sys
from collections.abc import Sequence
from dataclasses import dataclass

SECONDS = 60
ROW = re.compile(r"(?m)^ {2,6}(\S.*?) {2,}(\S.*)$")
# A row of the options of the recorder, the reporter or the runner, and a use of one.
SCRIPT_ROW = re.compile(r"  (-\S.*?) {2,}(\S.*)")
USE = re.compile(r"(?m)^ +(wire_up-\w+ .*?(?:\.\.\]?|PLAN)) +([a-z].*)$")


@dataclass(frozen=True)
class Word:
    """A word or an option: how it is written, such as `--workers` and `COUNT`, and what it means.
    An option without a word of its own has no value."""

    names: list[str]
    value: str | None
    meaning: str


@dataclass(frozen=True)
class Help:
    """What a command says of itself."""

    # Nothing for the program alone.
    name: str
    about: str
    usage: str
    words: list[Word]
    options: list[Word]
    # What stands below the options.
    below: str


@dataclass(frozen=True)
class ScriptHelp:
    """What the recorder, the reporter or the runner says of itself."""

    about: str
    # Each use, and what it does.
    uses: list[tuple[str, str]]
    options: list[Word]
    # The paragraphs below the options.
    below: str


def asked(words: Sequence[str]) -> str:
    """What a program writes about itself. One that fails ends this program."""
    ran = subprocess.run(
        words,
        stdin=subprocess.DEVNULL,
        capture_output=True,
        text=True,
        timeout=SECONDS,
        check=False,
    )
    if ran.returncode:
        sys.exit(f"{' '.join(words)} ended with status {ran.returncode}: {ran.stderr}")
    return ran.stdout


def version_of(program: str) -> str:
    """The version that a program says, without the program's name."""
    return asked([program, "--version"]).split()[-1]


def rows(text: str) -> list[tuple[str, str]]:
    """The rows of two columns, of which the first is what is written and the second what it
    means."""
    return [(hit[1], hit[2]) for hit in ROW.finditer(text)]


def word_of(written: str, meaning: str) -> Word:
    """A word or an option by its row, such as `-h, --help` or `--workers <COUNT>`."""
    names = re.findall(r"(?:^|, )(-[\w-]+)", written)
    values = re.findall(r"[<\[](\w+)[>\]]", written)
    return Word(names or values, values[0] if names and values else None, meaning)


def part(text: str, title: str) -> str:
    """The lines below a title, up to the next line that isn't indented."""
    found = re.search(rf"(?m)^{title}:\n((?: .*\n|\n(?= ))*)", text)
    return found[1] if found else ""


def words_below(text: str, title: str) -> list[Word]:
    """The words or options below a title."""
    return [word_of(*row) for row in rows(part(text, title))]


def of_command(program: str, name: str) -> Help:
    """What a command says of itself."""
    text = asked([program, name, "--help"] if name else [program, "--help"])
    about, _, rest = text.partition("\n\n")
    usage = re.search(r"(?m)^Usage: (.*)$", rest)
    below = rest.partition("Options:\n")[2].partition("\n\n")[2]
    words, options = (words_below(rest, title) for title in ("Arguments", "Options"))
    return Help(name, about.strip(), usage[1] if usage else "", words, options, below)


def of_program(program: str) -> list[Help]:
    """What the program and each of its commands say: first the program alone."""
    names = [name for name, _ in rows(part(asked([program, "--help"]), "Commands"))]
    return [
        of_command(program, name)
        for name in ["", *(each_name for each_name in names if each_name != "help")]
    ]


def script_option(written: str, meaning: str) -> Word:
    """An option of the recorder, the reporter or the runner, such as `-o PLAN`."""
    values = re.findall(r" ([A-Z]+)$", written)
    return Word(re.findall(r"(?<!\w)-[\w-]+", written), values[0] if values else None, meaning)


def of_script(script: str) -> ScriptHelp:
    """What the recorder, the reporter or the runner says of itself."""
    about, uses, options, *below = asked([sys.executable, script, "--help"]).split("\n\n")
    written: list[tuple[str, str]] = []
    for line in options.split("\n"):
        row = SCRIPT_ROW.fullmatch(line)
        if row:
            written.append((row[1], row[2]))
        elif written and line.strip():
            name, meaning = written.pop()
            written.append((name, f"{meaning} {line.strip()}"))
    found = [script_option(*pair) for pair in written]
    used = [(hit[1], hit[2]) for hit in USE.finditer(uses)]
    return ScriptHelp(about.strip(), used, found, "\n\n".join(below))
