"""Makes the manual pages: those of the commands from what they say by `--help`, that of the plan's
format from docs/plan-format.md.

Usage: python3 packaging/manual.py PROGRAM FOLDER
"""
import functools
import os
import re
import sys
from collections.abc import Callable, Sequence

import helps
from helps import Word

TOP = os.path.dirname(os.path.dirname(__file__))
RECORDER, REPORTER = os.path.join(TOP, "wire_up-record"), os.path.join(TOP, "wire_up-report")
RUNNER = os.path.join(TOP, "wire_up-run")
# A part of a paragraph of Markdown: code, strong words, slanted words, a link, or plain text.
INLINE = re.compile(
    r"`(?P<code>[^`]*)`|\*\*(?P<strong>[^*]+)\*\*|(?<![\w*])\*(?P<slant>[^*\s][^*]*)\*"
    r"|\[(?P<link>[^\]]*)\]\([^)]*\)|(?P<plain>[^`*\[]+|[*\[])"
)
CELL = re.compile(r"(?<!\\)\|")
ITEM = re.compile(r"(?:- |(\d+\.) )(.*)")
ROW = re.compile(r"\s*(\d+(?: \w+)*(?: [A-Z]+)?) {2,}(.*)")
BULLET = "\\(bu"
# Lines of roff, and of Markdown.
Lines = list[str]


def escaped(text: str) -> str:
    """A text as roff takes it: nothing in it is a command."""
    for plain, roff in (("\\", "\\e"), ("-", "\\-"), ("~", "\\(ti"), ("^", "\\(ha")):
        text = text.replace(plain, roff)
    return re.sub(r"(?m)^([.'])", r"\\&\1", text)


def bold(text: str) -> str:
    return f"\\fB{escaped(text)}\\fR"


def slanted(text: str) -> str:
    return f"\\fI{escaped(text)}\\fR"


def inline_part(part: "re.Match[str]") -> str:
    """A part of a paragraph of Markdown: code and strong words are bold, links are their words."""
    if part["code"] or part["strong"]:
        return bold(part["code"] or part["strong"].replace("`", ""))
    if part["slant"]:
        return slanted(part["slant"])
    return inline(part["link"]) if part["link"] else escaped(part["plain"] or "")


def inline(text: str) -> str:
    """A paragraph of Markdown."""
    return "".join(inline_part(hit) for hit in INLINE.finditer(text))


def head(name: str, section: int, version: str, about: str) -> Lines:
    """The head of a page."""
    return [
        f'.TH {name} {section} "" "wire_up {version}"',
        ".SH NAME",
        f"{escaped(name)} \\- {escaped(about)}",
    ]


def example(lines: Sequence[str]) -> Lines:
    return [".PP", ".nf", ".RS 4", *(escaped(line) for line in lines), ".RE", ".fi"]


def table(lines: Sequence[str]) -> Lines:
    """A table of Markdown: each row a paragraph, with its first column at the margin."""
    made = []
    for line in lines[2:]:
        first, *others = (part.strip() for part in CELL.split(line.strip().strip("|")))
        rest = "; ".join(inline(text) for text in others if text)
        made += [".TP", inline(first), rest or "\\&"]
    return made


def items(lines: Sequence[str]) -> Lines:
    """A list of Markdown: its lines, of which those that are indented go on with the item
    before."""
    made: Lines = []
    for line in lines:
        begins = ITEM.match(line)
        if begins:
            made += [f'.IP "{begins[1] or BULLET}" 4', begins[2]]
        else:
            made[-1] += f" {line.strip()}"
    return [text if text.startswith(".IP ") else inline(text) for text in made]


def title(line: str) -> str:
    """A title of Markdown."""
    level, _, words = line.partition(" ")
    return f'.SH "{inline(words).upper()}"' if len(level) < 3 else f'.SS "{inline(words)}"'


def block(lines: Lines) -> Lines:
    """A block of Markdown between empty lines, as roff."""
    if lines[0].startswith("#"):
        return [title(lines[0])]
    if lines[0].startswith("    "):
        return example([line[4:] for line in lines])
    if lines[0].startswith("|"):
        return table(lines)
    if ITEM.match(lines[0]):
        return items(lines)
    return [".PP", inline(" ".join(line.strip() for line in lines))]


def blocks(text: str) -> list[Lines]:
    """The blocks of a text of Markdown. Examples of several parts stay whole."""
    made: list[Lines] = []
    for part in re.split(r"\n{2,}", text.strip("\n")):
        lines = part.split("\n")
        if made and lines[0].startswith("    ") and made[-1][0].startswith("    "):
            made[-1] += ["    ", *lines]
        else:
            made.append(lines)
    return made


def word_lines(words: Sequence[Word]) -> Lines:
    """The options or words of a command, each as a paragraph."""
    made = []
    for word in words:
        names = ", ".join(
            bold(name) if name.startswith("-") else slanted(name) for name in word.names
        )
        value = f" {slanted(word.value)}" if word.value else ""
        made += [".TP", names + value, inline(word.meaning)]
    return made


def usage_line(usage: str) -> str:
    """A usage: words that the user chooses are slanted."""
    plain = usage.replace("<", "").replace(">", "").split(" ")
    words = [slanted(word) if re.search(r"[A-Z]", word) else escaped(word) for word in plain]
    return " ".join([bold(words[0].replace("\\-", "-")), *words[1:]])


def section(part: str) -> Lines:
    """A part of what stands below the options: a title with a colon, and rows. A line
    without a number goes on with the row above it."""
    first, *rows = part.split("\n")
    name = first.partition(",")[0].rstrip(":")
    made = [f".SH {escaped(name).upper()}", *[escaped(first)] * ("," in first)]
    for line in rows:
        row = ROW.fullmatch(line)
        if row is not None:
            made += [".TP", bold(row[1]), escaped(row[2])]
        elif line.startswith(" ") and ".TP" in made:
            made.append(escaped(line.strip()))
        else:
            raise ValueError(f"no row of {name}: {line}")
    return made


def sections(text: str) -> Lines:
    """What stands below the options."""
    return [line for part in text.strip("\n").split("\n\n") for line in section(part)]


def program_page(program: str) -> Lines:
    """wire_up(1)."""
    alone, *commands = helps.of_program(program)
    about = alone.about[0].lower() + alone.about.partition(":")[0][1:]
    made = [*head("wire_up", 1, helps.version_of(program), about), ".SH SYNOPSIS"]
    for command in commands:
        made += [usage_line(command.usage), ".br"]
    made += [
        ".SH DESCRIPTION",
        f"{escaped(alone.about)}. The plan that it reads is described in",
        ".BR wire_up (5).",
        ".SH COMMANDS",
    ]
    for each_command in commands:
        made += [f".SS {bold(each_command.name)}", f"{escaped(each_command.about)}."]
        made += word_lines([*each_command.words, *each_command.options])
    others = [".BR wire_up (5),", ".BR wire_up\\-record (1),", ".BR wire_up\\-report (1),"]
    others.append(".BR wire_up\\-run (1)")
    return [*made, *sections(alone.below), ".SH SEE ALSO", *others]


def script_page(script: str, program: str) -> Lines:
    """wire_up-record(1), wire_up-report(1) or wire_up-run(1)."""
    said = helps.of_script(script)
    about = said.about[0].lower() + said.about[1:].rstrip(".").replace("`", "")
    made = head(os.path.basename(script), 1, helps.version_of(program), about)
    made.append(".SH SYNOPSIS")
    for usage, meaning in said.uses:
        made += [".TP", usage_line(usage), escaped(meaning)]
    made += [".SH OPTIONS", *word_lines(said.options), ".SH NOTES"]
    for paragraph in said.below.strip().split("\n\n"):
        made += [".PP", inline(" ".join(paragraph.split("\n")))]
    return [*made, ".SH SEE ALSO", ".BR wire_up (1)"]


def format_page(program: str) -> Lines:
    """wire_up(5)."""
    with open(os.path.join(TOP, "docs", "plan-format.md"), encoding="utf-8") as file:
        first, *others = blocks(file.read())
    if not first[0].startswith("# "):
        raise ValueError("docs/plan-format.md begins without a title")
    about = "the files that wire_up reads, and what it writes"
    made = [*head("wire_up", 5, helps.version_of(program), about), ".SH DESCRIPTION"]
    for lines in others:
        made += block(lines)
    return [*made, ".SH SEE ALSO", ".BR wire_up (1)"]


PAGES: dict[str, Callable[[str], Lines]] = {
    "wire_up.1": program_page,
    "wire_up-record.1": functools.partial(script_page, RECORDER),
    "wire_up-report.1": functools.partial(script_page, REPORTER),
    "wire_up-run.1": functools.partial(script_page, RUNNER),
    "wire_up.5": format_page,
}


def write_page(name: str, program: str, folder: str) -> None:
    """Writes a page to a folder, which is made where it isn't there."""
    os.makedirs(folder, exist_ok=True)
    with open(os.path.join(folder, name), "w", encoding="utf-8") as file:
        file.writelines(f"{line}\n" for line in PAGES[name](program))


if __name__ == "__main__":
    if len(sys.argv) != 3:
        sys.exit(__doc__)
    for each in PAGES:
        write_page(each, os.path.abspath(sys.argv[1]), sys.argv[2])
