"""How a plan is spelled: its names, keys and values, and the comments that programs read."""
from collections.abc import Callable, Iterable

from wire_up_tools import limits

NAME_BYTES, VALUE_BYTES = limits.VERSION_1.name_bytes, limits.VERSION_1.value_bytes
# A plan answers keys that begin so by itself.
RESERVED = ("pmix", "PMIX_")
# Stands for every name in `unpublish *`.
EVERY_NAME = "*"

# The comment before a call that says where in the program it comes from, and the place of a
# call for which that isn't known.
PLACE_COMMENT = "# at "
UNKNOWN_PLACE = "an unknown place"
# What stands in a place between a function and the one that it calls there.
INTO = " -> "
# What the main program is called in C, Fortran and Python: no other function calls it.
MAIN = ("main", "MAIN__", "<module>")
# The comment before a line that stands for a call of MPI.
MPI_COMMENT = "# MPI: "
# How the head of a recorded plan begins, and the titles of the lists in it.
RECORDED_BY = "Recorded by wire_up-record"
# How the head of a pattern begins that the recorder made.
PATTERN_BY = "By wire_up-record"
# What the recorder says of runs of several sizes from which it makes a pattern without calls.
NO_CALL_RACES = (
    "no call of these runs can race: there is no get-now, no name, and no key that is put twice"
)
NO_CALL_RACES_SENTENCE = f"{NO_CALL_RACES[0].upper()}{NO_CALL_RACES[1:]}."
CUT_OFF = "The run was cut off, so that a verdict holds only in part:"
PARTED = "The runs part, so that a verdict holds only in part:"
LEFT_OUT = "Left out:"
LEFT_OUT_HARMLESS = "Left out, which can hide no race:"
MORE_ORDERED = "More ordered than the program, so that a race can be missed:"
OTHERWISE_AFTER = "Another run may do otherwise after these, so that a race can be missed:"
WRITTEN_OTHERWISE = "Written otherwise:"
# What is said below that title of gets that don't block, where nothing is found without them.
AWAITED = "gets that don't block: they stand where they ended, as if the program waited for them"
# What is said of gets below that title that had no directive by which they don't wait.
NOT_WAITED = "gets that were answered with an error in place of waiting: they are written get-now"
# What the head says where the program is known to go by nothing but its calls, and the titles of
# what the library answered otherwise than the rules, and of what it is known to answer by timing.
EACH_RUN = "each run of this program on these nodes makes these calls, if it goes by them alone"
EACH_RUN_SENTENCE = f"{EACH_RUN[0].upper()}{EACH_RUN[1:]}."
ANSWERED = "Answered otherwise than by the rules, so that the verdict doesn't hold of this run:"
TIMED = "Known to be answered by which rank is fast, so that the verdict says less:"
# The title in place of `OTHERWISE_AFTER`, and a line with it, where the program's own code refers
# to nothing that leads to a call of PMIx.
OTHERWISE_ALONE = "Another run may do otherwise after these, but its own code calls no PMIx:"
OWN_CODE = (
    "The program's own code refers to no function of PMIx, to none of MPI for names or for other "
    "processes, and to none that opens or starts other code."
)
# What the head says of ends that were left to luck, after their number, and how it ends where
# their order is taken. And how the line begins that has the verdicts with and without --strict.
LEFT_TO_LUCK = "ends of requests that another run may have found open"
TAKEN = "their order is taken all the same, and --strict takes nothing from them"
VERDICTS = "Verdicts: "
# The title of the races that are found with --strict alone, by their calls in the plan.
STRICT_ALONE = "Found with --strict alone:"
# How the lines of the head begin that say what came of a race which was tried in the program, by
# the word for that; which command tried it; and what came of orders that were turned round.
TRIED_IN_HEAD = {
    "shown": "Shown in this program",
    "shown-later": "Shown later in this program",
    "alike": "Alike in both orders",
    "not-made": "Not made in this program",
}
TRIED_BY = "Tried by: "
# What such a line says where the two runs are those of `witness`.
BY_WITNESS = "in the two orders of wire_up witness"
TURNED_ROUND, TURNED_IN_VAIN = "Turned round on", "Turned round in vain on"
ALL_PAIRS = "all that the plan orders"
TRIED_STOPPED = "Trying was stopped on"
# How the line of the head begins that says that no order of MPI is known.
WITHOUT_MPI = "MPI's order isn't recorded"


def is_reserved(word: str) -> bool:
    """Whether a plan answers a key of this word by itself."""
    return word.startswith(RESERVED)


def is_plain(text: bytes) -> bool:
    """Whether a plan takes a word of this text for a key or name of its own."""
    word = text.decode("latin-1")
    return not is_reserved(word) and word != EVERY_NAME


def is_word(text: bytes, most: int, without: bytes = b"") -> bool:
    """Whether a text can be a word of at most so many bytes, without some of them."""
    return 0 < len(text) <= most and all(
        32 < letter < 127 and letter not in without for letter in text
    )


def escape(text: bytes, without: bytes = b"") -> str:
    """A text with %XX for each byte that a word can't have, and for % and those of `without`."""
    return "".join(
        chr(letter) if 32 < letter < 127 and letter not in b"%" + without else f"%{letter:02X}"
        for letter in text
    )


def show(text: bytes) -> str:
    """A text as a comment shows it: in words, with the rest as %XX."""
    return escape(text, b" ").replace("%20", " ") if text else "(empty)"


def make_printable(text: str) -> str:
    """A text with `?` for each character that isn't printable ASCII."""
    return "".join(letter if " " <= letter <= "~" else "?" for letter in text)


class Words:
    """Words for texts, a different one for each: a text that is a word stands for itself.

    `without` are bytes that a word can't have, and `is_fit` says of a text whether it can be a
    word besides. `renamed` are the texts that stand as another word, in their order.
    """

    def __init__(
        self,
        texts: Iterable[bytes],
        without: bytes = b"",
        is_fit: Callable[[bytes], bool] = lambda text: True,
    ) -> None:
        in_order = sorted(set(texts))
        fit = (
            each_text
            for each_text in in_order
            if is_word(each_text, NAME_BYTES, without) and is_fit(each_text)
        )
        self.words = {each_text: each_text.decode() for each_text in fit}
        self.renamed = [each_text for each_text in in_order if each_text not in self.words]
        taken = set(self.words.values())
        for text in self.renamed:
            self.words[text] = find_free_word(text, taken, without, is_fit)
            taken.add(self.words[text])

    def __getitem__(self, text: bytes) -> str:
        return self.words[text]


def find_free_word(
    text: bytes, taken: set[str], without: bytes, is_fit: Callable[[bytes], bool]
) -> str:
    """The word of a text that can't stand for itself: none that is taken."""
    escaped = escape(text, without) or "%"
    if not is_fit(escaped.encode()):
        escaped = f"%{ord(escaped[0]):02X}{escaped[1:]}"
    word, number = escaped[:NAME_BYTES], 1
    while word in taken or not is_fit(word.encode()):
        number += 1
        word = f"{escaped[: NAME_BYTES - 1 - len(str(number))]}~{number}"
    return word
