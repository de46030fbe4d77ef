"""Tests of the names of definitions: no name has two senses.

The definitions that count are the types and predicates of the crates' specs/, whose names begin
with a capital letter. Names of data in small letters, such as `line_of`, are told by their types.
"""
import collections
import re
import unittest

from tests.support import TOP


DEFINITION = re.compile(r"^(?:pub )?(?:abbrev|record|data) (?:pub )?([A-Z]\w*)", re.MULTILINE)

# Each has one sense, in two languages: that of plans, and that of patterns.
OF_LANGUAGES = {
    "Call", "Cast", "Declared", "FirstPass", "Item", "Judges", "JudgesAll", "Line", "Pattern",
    "Process", "ReadsShort", "Said", "Says", "SaysOnce", "Set", "Step",
}

# Each has one sense: of the findings or gets of one placement, and of those of all.
OF_PLACEMENTS = {
    "AreGetLists", "AreGetsTo", "AreKeptGets", "ArePieces", "IsGroupedJson", "IsGroupedText",
    "IsInSome", "IsKeptGet", "IsPiece", "IsSureByFence", "IsSureByGet", "ToldIn",
}

# Each has one sense, for lists of events, of clocks or of fates, and for calls.
OF_LISTS = {
    "Clocks", "IsCall", "IsRising", "IsUntold", "RefusesOrder",
}


def crates_by_name() -> dict[str, list[str]]:
    """Of each definition's name the crates that define it."""
    found: dict[str, set[str]] = collections.defaultdict(set)
    for path in (TOP / "crates").glob("*/specs/*.antt"):
        for name in DEFINITION.findall(path.read_text(encoding="utf-8")):
            found[name].add(path.parent.parent.name)
    return {name: sorted(crates) for name, crates in found.items()}


class Names(unittest.TestCase):
    """The names of definitions."""

    def test_no_name_has_two_senses(self) -> None:
        known = OF_LANGUAGES | OF_PLACEMENTS | OF_LISTS
        twice = {crate: crates for crate, crates in crates_by_name().items()
                 if len(crates) > 1 and crate not in known}
        advice = "give one of each pair another name, or list it here with its sense"
        self.assertEqual(twice, {}, advice)

    def test_each_name_that_is_listed_stands_twice(self) -> None:
        crates = crates_by_name()
        for name in sorted(OF_LANGUAGES | OF_PLACEMENTS | OF_LISTS):
            self.assertGreater(len(crates.get(name, [])), 1, name)


if __name__ == "__main__":
    unittest.main()
