"""Finds where in the program calls come from: `function (file.c:42)` where a module has that, else
`module+0x1234`; of a function that another called, `caller (file.c:9) -> function (file.c:42)`."""
import os
import re
import shutil
import subprocess
from collections.abc import Iterable, Iterator, Mapping, Sequence
from dataclasses import dataclass

from wire_up_tools.failures import Refused
from wire_up_tools.plan_reading import read_calls
from wire_up_tools.record.draft import Draft, Line
from wire_up_tools.record.forms import WORD, decode_text
from wire_up_tools.record.processes import Process
from wire_up_tools.record.recordings import Address, Place, Recording
from wire_up_tools.words import INTO, MAIN, UNKNOWN_PLACE, escape, make_printable

# The file beside recordings that keeps what was found out when the program was recorded.
FILE = "places"
# A line of it: a module, an offset in it, and what is said of that.
ENTRY = re.compile(rf"({WORD}) ([0-9a-f]{{1,16}}) ([ -~]+)")
# How many functions a place names that called each other.
MOST_NAMED = 3
# A line of `addr2line` that begins what it says of an address.
ASKED = re.compile(r"0x[0-9a-f]+")


@dataclass(frozen=True)
class Places:
    """The texts of addresses."""

    texts: Mapping[Address, str]

    def find(self, recording: Recording, number: str | None) -> str | None:
        """The text of a place by its number; None where that isn't known."""
        frames = recording.list_frames(number)
        if not frames or not self.say(frames[-1]):
            return None
        own = (frame for frame in frames[:-1] if is_named(frame, frames[0]))
        known = (text for text in map(self.say, own) if text and text.endswith(")"))
        named = INTO.join([*known, self.say(frames[-1]) or ""]).split(INTO)
        start = max((at for at, part in enumerate(named) if find_function(part) in MAIN), default=0)
        return INTO.join(named[max(start, len(named) - MOST_NAMED):])

    def say(self, place: Place) -> str | None:
        """The text of a place alone."""
        return self.texts.get(place) if isinstance(place, Address) else place


def is_named(place: Place, outermost: Place) -> bool:
    """Whether a place at which a function was called is named: not one in a library that the
    program called."""
    modules = [address.module for address in (place, outermost) if isinstance(address, Address)]
    return len(set(modules)) == 1


def find_function(named: str) -> str:
    """The function that is named: `main` of `main (a.c:3)`."""
    return named.partition(" (")[0]


# --- what is kept beside recordings ---


def read_entries(path: str, text: str) -> Iterator[tuple[Address, str]]:
    """Addresses and their texts, as a file keeps them. Raises Refused for any other line, and for
    a last one that was cut."""
    *lines, last = text.split("\n")
    for number, line in enumerate([*lines, *([last] if last else [])], 1):
        read = ENTRY.fullmatch(line) if number <= len(lines) else None
        try:
            module, offset, said = read.groups() if read else ()
            yield Address(decode_text(module), int(offset, 16)), said
        except ValueError:
            raise Refused(f"{path}: line {number} isn't a place") from None


def read_places(folders: Iterable[str]) -> dict[Address, str]:
    """What is kept in folders of recordings. Raises OSError, Refused."""
    found: dict[Address, str] = {}
    for folder in folders:
        path = os.path.join(folder, FILE)
        if os.path.isfile(path):
            with open(path, encoding="ascii", errors="replace") as file:
                found.update(read_entries(path, file.read()))
    return found


def write_places(places: Places, folder: str) -> None:
    """Keeps what is known in a folder of recordings. Raises OSError."""
    with open(os.path.join(folder, FILE), "x", encoding="ascii", errors="replace") as to:
        for text in sorted(
            places.texts, key=lambda each_text: (each_text.module, each_text.offset)
        ):
            to.write(
                f"{escape(text.module.encode()) or '%'} {text.offset:x} {places.texts[text]}\n"
            )


# --- what modules say ---


def name_line(function: str, line: str) -> str | None:
    """`function (file.c:42)` by what `addr2line` writes; None where it doesn't know."""
    file, _, number = re.sub(r" \(discriminator \d+\)", "", line).rpartition(":")
    if not number.isdigit() or number == "0" or file.startswith("?"):
        return None
    return f"{make_printable(function)} ({make_printable(os.path.basename(file))}:{number})"


def ask_module(module: str, offsets: Sequence[int]) -> Sequence[str]:
    """The lines that `addr2line` writes about offsets in a module, with functions that the compiler
    put into others; none if it can't."""
    program = shutil.which("addr2line")
    if not program or not os.path.isfile(module):
        return ()
    asked = "".join(f"0x{offset:x}\n" for offset in offsets).encode()
    words = [program, "-a", "-i", "-f", "-C", "-e", module]
    try:
        ran = subprocess.run(words, input=asked, capture_output=True, check=False)
    except OSError:
        return ()
    return ran.stdout.decode("utf-8", "replace").splitlines()


def find_lines(module: str, offsets: Sequence[int]) -> Sequence[str | None]:
    """The functions and lines of offsets in a module; None for those that it doesn't know."""
    answers: list[list[str]] = []
    for line in ask_module(module, offsets):
        if ASKED.fullmatch(line):
            answers.append([])
        elif answers:
            answers[-1].append(line)
    if len(answers) != len(offsets):
        return [None] * len(offsets)
    return [name_lines(answer) for answer in answers]


def name_lines(wrote: Sequence[str]) -> str | None:
    """What is written of one address: a function and its line, and then those that hold it."""
    named = [name_line(function, line) for function, line in zip(wrote[::2], wrote[1::2])]
    return (
        INTO.join(each_line for each_line in reversed(named) if each_line)
        if named and named[0]
        else None
    )


def name_address(address: Address) -> str:
    """An address without its line in the source."""
    return f"{make_printable(os.path.basename(address.module))}+0x{address.offset:x}"


def find_addresses(process: Process, lines: Iterable[Line]) -> Iterator[Address]:
    """Where the calls of some lines of a process come from."""
    for number in dict.fromkeys(line.call.place for line in lines):
        frames = process.recording.list_frames(number)
        yield from (frame for frame in frames if isinstance(frame, Address))


def find_places(draft: Draft, kept: Mapping[Address, str]) -> Places:
    """Finds where the calls of a draft come from; what is kept stays so."""
    wanted = (
        address
        for process, lines in draft.lines.items()
        for address in find_addresses(process, lines)
    )
    new = [address for address in dict.fromkeys(wanted) if address not in kept]
    by_module: dict[str, list[Address]] = {}
    for address in new:
        by_module.setdefault(address.module, []).append(address)
    texts = {**kept, **{address: name_address(address) for address in new}}
    for module, addresses in by_module.items():
        found = find_lines(module, [address.offset for address in addresses])
        texts.update((each_address, text) for each_address, text in zip(addresses, found) if text)
    return Places(texts)


# --- calls of plans ---


def find_call_place(process: str, number: int, plan: bytes) -> str | None:
    """Where a call of a plan comes from, by its comments; None where there is no such call.

    Calls of a process such as `app:0` are counted from 1.
    """
    try:
        calls = read_calls(plan)
    except LookupError:
        return None
    found = (
        each_call
        for each_call in calls
        if (each_call.rank.name, each_call.number) == (process, number)
    )
    call = next(found, None)
    return (call.place or UNKNOWN_PLACE) if call else None
