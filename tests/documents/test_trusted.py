"""What docs/guarantees.md says is trusted: it names each library of the kit that the program is
built with, and no other."""
import functools
import re
import shutil
import subprocess
import unittest
from pathlib import Path

from build import crate_list
from tests.support import TOP

# Parts of the standard library, which the document names as one.
STANDARD = re.compile(r"std(_\w+)?|os|libc|core|io")
# What the standard library and `clap` bring along, seen among the names of the built program.
BROUGHT = {"simdutf8", "strsim"}


@functools.cache
def find_kit() -> Path | None:
    """The folder of the kit; None where there is none."""
    if not shutil.which("rt"):
        return None
    ran = subprocess.run(["rt", "doc"], capture_output=True, text=True, check=False)
    return Path(ran.stdout.partition("\n")[0]).parent


def list_direct() -> set[str]:
    """The libraries of the kit that the program's crates name."""
    uses = crate_list.uses_at(TOP)
    crates = crate_list.names_below("program")
    return {text for crate in crates for text in uses[crate] if text not in uses}


def list_below(name: str) -> set[str]:
    """The libraries that one of the kit is built with, by the kit's own list."""
    kit = find_kit()
    found = (kit / "rlibs" / f"{name}.rlib" / "below").glob("*") if kit else ()
    names = {path.name.removesuffix(".rlib") for path in found}
    return {each_name for each_name in names if not STANDARD.fullmatch(each_name)}


def list_all(names: set[str]) -> set[str]:
    """These libraries, and all that they are built with."""
    more = names.union(*map(list_below, names))
    return more if more == names else list_all(more)


def list_named() -> set[str]:
    """The libraries that the document names."""
    with open(TOP / "docs" / "guarantees.md", encoding="utf-8") as file:
        trusted = file.read().partition("\n## What is trusted\n")[2]
    _, _, crates = trusted.partition("The contracts of these crates of the kit")
    return set(re.findall(r"`(\w+)`", crates))


class Trusted(unittest.TestCase):
    """The list of libraries."""

    def test_each_library_is_named(self) -> None:
        """Those that crates.txt has; and where the kit is there, all that these are built with."""
        direct, named = list_direct(), list_named()
        self.assertLessEqual(direct, named)
        if find_kit():
            self.assertEqual(list_all(direct) | BROUGHT, named)


if __name__ == "__main__":
    unittest.main()
