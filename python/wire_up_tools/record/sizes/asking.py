"""Reads the command line with `--sizes`."""
import os
import re
from collections.abc import Sequence
from dataclasses import dataclass

from wire_up_tools.failures import Refused, Unusable
from wire_up_tools.options import Once, Option, Parser
from wire_up_tools.record.fresh_input import refuse_input
from wire_up_tools.record.recordings import refuse_recordings

SIZES, FROM, AGAINST = "--sizes", "--from", "--against"
NUMBERS = re.compile(r"[1-9]\d{0,17}(,[1-9]\d{0,17})*")
# What stands in a command for the number of ranks, and the fewest that tell of loops.
PLACE, FEWEST = "{}", 3
# The options that go with sizes.
WITH_SIZES = ("-o", "--keep", "--no-mpi", "--strict", "--checker", "--input")
NEEDS_NUMBERS = "--sizes needs numbers of ranks, such as 3,4,8, or recordings by --from"


@dataclass(frozen=True)
class SizesRequest:
    """Asks for one pattern from several sizes: of a command that is run with each, or of recordings
    that are there. `held` are those against which it is held. `source` is the file that each run of
    the command reads as standard input, if not an empty one."""

    pattern: str
    sizes: Sequence[int]
    command: Sequence[str]
    taken: Sequence[Sequence[str]]
    held: Sequence[Sequence[str]]
    kept: str | None = None
    checker: str | None = None
    with_mpi: bool = True
    is_strict: bool = False
    is_json: bool = False
    source: str | None = None


class SizesParser(Parser):
    """The options with `--sizes`."""

    def __init__(self, options: Sequence[Option]) -> None:
        super().__init__([*options, Option("--json", "", "writes the answer as JSON")])
        self.add_argument(SIZES, nargs="?", const="", action=Once)
        for name, found in ((FROM, "taken"), (AGAINST, "held")):
            self.add_argument(name, dest=found, nargs="+", action="append", default=[])

    def sort(self, words: Sequence[str]) -> list[str]:
        """The words as they are: what follows a command is the command's, and recordings end at the
        next option."""
        return list(words)

    def explain(self, words: Sequence[str], option: str) -> str:
        """What is wrong with an option."""
        if option in (FROM, AGAINST):
            return "which recordings?"
        return super().explain(words, option)


def list_options(words: Sequence[str], options: Sequence[Option]) -> Sequence[str]:
    """The words before the command, or all where recordings are named."""
    takes = {option.name for option in options if option.word}
    at = 0
    while at < len(words) and words[at].startswith("-"):
        if words[at] in (FROM, AGAINST):
            return words
        is_numbered = words[at] == SIZES and NUMBERS.fullmatch("".join(words[at + 1:at + 2]))
        at += 2 if words[at] in takes or is_numbered else 1
    return words[:at]


def asks_for_sizes(words: Sequence[str], options: Sequence[Option]) -> bool:
    """Whether a command line has `--sizes`."""
    return SIZES in list_options(words, options)


def read_numbers(words: Sequence[str], before: Sequence[str]) -> list[int]:
    """The sizes with which a command is run, in order; none where recordings are named. `before`
    are the words before the command. Raises Unusable."""
    numbers, after = [*words[words.index(SIZES) + 1:][:2], "", ""][:2]
    if not NUMBERS.fullmatch(numbers):
        if FROM not in before:
            raise Unusable(NEEDS_NUMBERS)
        return []
    if NUMBERS.fullmatch(after):
        raise Unusable(f"the sizes are one word, with commas: {SIZES} {numbers},{after}")
    if FROM in before or AGAINST in before:
        raise Unusable(
            f"{FROM} and {AGAINST} name recordings, and {SIZES} {numbers} runs a command: one of "
            "the two"
        )
    return sorted(map(int, numbers.split(",")))


def read_sizes_request(words: Sequence[str], options: Sequence[Option]) -> SizesRequest:
    """What a command line with `--sizes` asks for. Raises Unusable, Refused, OSError."""
    numbers = read_numbers(words, list_options(words, options))
    found = SizesParser(options).read(words)
    for option in options:
        is_given = getattr(found, option.name.lstrip("-").replace("-", "_"))
        if option.name not in WITH_SIZES and is_given not in (None, False):
            raise Unusable(f"{option.name} doesn't go with {SIZES}")
    if found.o is None:
        raise Unusable("-o PATTERN says where the pattern goes")
    asked = SizesRequest(
        found.o, numbers, found.rest, found.taken, found.held, found.keep, found.checker,
        not found.no_mpi, found.strict, found.json, found.input,
    )
    judge_request(asked)
    return asked


def judge_request(asked: SizesRequest) -> None:
    """Refuses a request that can't be answered. Raises Unusable, Refused, OSError."""
    if asked.sizes:
        judge_command(asked)
    else:
        judge_recordings(asked)


def judge_recordings(asked: SizesRequest) -> None:
    """Refuses recordings that tell too little, or what goes with a command. Raises Unusable,
    Refused, OSError."""
    for option, value in (("--keep", asked.kept), ("--input", asked.source)):
        if value:
            raise Unusable(f"{option} goes with a command")
    if asked.command:
        raise Unusable("which recordings?")
    if len(asked.taken) + len(asked.held) < 2:
        raise Refused("one size isn't enough: name the recordings of a second one by --from")
    refuse_recordings([asked.pattern], [*asked.taken, *asked.held])


def judge_command(asked: SizesRequest) -> None:
    """Refuses a command that can't be run with each size, or sizes that tell too little. Raises
    Unusable, Refused."""
    refuse_sizes(asked.sizes)
    if asked.source and os.path.realpath(asked.source) == os.path.realpath(asked.pattern):
        raise Unusable("-o and --input each need a file of their own")
    if not asked.command:
        raise Unusable("which command?")
    if not any(PLACE in word for word in asked.command):
        raise Refused(f"no word of the command has {PLACE}, where the number of ranks goes")
    refuse_input(asked.source)


def refuse_sizes(sizes: Sequence[int]) -> None:
    """Refuses sizes that tell too little. Raises Refused."""
    if min(sizes) < FEWEST:
        ranks = f"{min(sizes)} {'rank' if min(sizes) == 1 else 'ranks'}"
        raise Refused(f"a run with {ranks} tells too little: each size must be {FEWEST} or more")
    twice = [size for size in dict.fromkeys(sizes) if sizes.count(size) > 1]
    if twice:
        raise Refused(f"two runs have {twice[0]} ranks: each size is given once")
    if len(sizes) < 2:
        raise Refused("one size isn't enough: give a second one, such as 3,4,8")
