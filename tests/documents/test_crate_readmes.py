"""Tests of the README of each crate: its form, its length, and the files of crates that it names.

The other files that it names are looked at with those of all documents.
"""
import re
import unittest

from tests.support import TOP


CRATES = TOP / "crates"
MOST_WORDS = 200
MOST_COLUMNS = 100
# Where tests show no more than contracts say, nothing is said of them.
SECTIONS = ("## What contracts see", "## What only tests show", "## Where to begin")
ALLOWED = (SECTIONS, (SECTIONS[0], SECTIONS[2]))

FILE = r"((?:src|specs|proofs)/[\w/]+\.(?:rt|antt))"


def crate_names() -> list[str]:
    """The crates of crates.txt, in its order."""
    lines = (TOP / "crates.txt").read_text(encoding="utf-8").splitlines()
    return [line.partition(":")[0] for line in lines if line and not line.startswith("#")]


def read_readme(crate: str) -> str:
    """The README of a crate."""
    return (CRATES / crate / "README.md").read_text(encoding="utf-8")


def named_files(crate: str, text: str) -> list[str]:
    """The files of crates that the README of a crate names, from the top of the repository."""
    own = [f"crates/{crate}/{found}" for found in re.findall(f"`{FILE}`", text)]
    others = [f"crates/{name}/{item}" for name, item in re.findall(rf"`(\w+)/{FILE}`", text)]
    folders: list[str] = re.findall(r"`(crates/\w+)`", text)
    return own + others + folders


class CrateReadmes(unittest.TestCase):
    """The README of each crate of crates.txt."""

    def test_each_crate_has_a_readme(self) -> None:
        names = [path.parent.name for path in CRATES.glob("*/README.md")]
        self.assertEqual(sorted(names), sorted(crate_names()))

    def test_each_has_its_title_and_its_sections(self) -> None:
        for crate in crate_names():
            lines = read_readme(crate).splitlines()
            self.assertEqual(lines[0], f"# `{crate}`")
            self.assertIn(tuple(line for line in lines if line.startswith("##")), ALLOWED, crate)

    def test_each_is_half_a_page_at_most(self) -> None:
        for crate in crate_names():
            text = read_readme(crate)
            self.assertLessEqual(len(text.split()), MOST_WORDS, crate)
            self.assertLessEqual(max(map(len, text.splitlines())), MOST_COLUMNS, crate)

    def test_named_files_are_there(self) -> None:
        for crate in crate_names():
            for path in named_files(crate, read_readme(crate)):
                self.assertTrue((TOP / path).exists(), f"{crate}: {path}")


if __name__ == "__main__":
    unittest.main()
