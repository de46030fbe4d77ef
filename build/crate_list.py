"""Reads crates.txt: the names of the crates, and what each uses."""

from pathlib import Path

from build.places import TOP


def uses_at(top: Path) -> dict[str, list[str]]:
    """The crates and libraries that each crate uses, by its name."""
    text = (top / "crates.txt").read_text(encoding="utf-8")
    lines = [line.partition("#")[0].partition(":") for line in text.splitlines()]
    return {left.split()[0]: right.split() for left, _, right in lines if left.strip()}


def names_below(name: str | None, top: Path = TOP) -> list[str]:
    """The crate of this name and all below it, each after those that it uses; without a name
    all crates of the repository."""
    uses, found = uses_at(top), dict[str, None]()

    def add(crate: str) -> None:
        for lower in uses.get(crate, []):
            add(lower)
        if crate in uses:
            found[crate] = None

    for crate in [name] if name else uses:
        add(crate)
    return list(found)
