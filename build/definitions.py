"""The definitions of the repository, and what each rests on: the items of specs/, and the types,
traits and functions of src/ that contracts and definitions name.

The kit has no command that says what a name stands for, so names are resolved by the lines that
bring them in: a file of specs/ takes each name by a `use`, a source file by `ghost use` or `use`.
Each word of a text that its file defines or takes counts as that, also where it is a variable, and
so do all parts of a type and all files of one name: rather too much counts than too little.
"""
import functools
import glob
import re
from collections.abc import Iterable, Iterator
from dataclasses import dataclass

from build.places import CRATES

WORD = re.compile(r"[^\s(){},;:.&<>\[\]|?!]+")
# A word of a module that was taken whole, as in `runs.Finding`.
OF_MODULE = re.compile(r"\b(\w+)(?:\.|::)([^\s(){},;:.&<>\[\]|?!]+)")
USED = re.compile(
    r"^(?:pub )?(?:ghost )?use (?P<path>\w+(?:(?:\.|::)\w+)*)"
    r"(?:(?:\.|::)\{(?P<names>[^}]*)\})?(?: as (?P<name>\w+))?;?$",
    re.M,
)
# Where an item of specs/ begins, and its name. Other lines are equations and parts of it.
ITEM = re.compile(
    r"(?:(?:abbrev|unfoldable|opaque|pub|record|data) )+(?P<marked>[^\s:]+)"
    r"|(?P<plain>[^\s:(){},=]+) (?:[({][^=]*[)}] )?:(?= )"
)
# A constructor.
PART = re.compile(r"^ +(?:pub )?([^\s:]+) :(?= )", re.M)
# An item of a source file. Its text ends with the next line that isn't further in.
RUST = re.compile(
    r"^(?P<margin> *)(?:pub(?:\([^)]*\))? )?(?:unsafe )?"
    r"(?P<kind>struct|enum|trait|type|const|fn|impl(?:<.*>)? Model for) (?P<name>\w+).*\n"
    r"(?:(?P=margin)[ )}].*\n|\n)*",
    re.M,
)
COMMENT = re.compile(r"^\s*(?:///?|--).*\n", re.M)


@dataclass(frozen=True, order=True)
class Item:
    """A definition: its file below the folder of all crates, its name, and its text without
    comments."""

    path: str
    name: str
    text: str

    def lines(self) -> int:
        return len([line for line in self.text.splitlines() if line.strip()])


@dataclass(frozen=True)
class File:
    """A file: its items by each name that leads to them, and what its lines take, by each word: the
    path of a module, and the name there, or nothing for the whole module."""

    items: dict[str, list[Item]]
    taken: dict[str, tuple[str, str]]


def taken_in(text: str) -> dict[str, tuple[str, str]]:
    """What the lines of a file take."""
    found = {}
    for hit in USED.finditer(text):
        path = hit["path"].replace("::", ".").removeprefix("Rattle.")
        above, _, last = path.rpartition(".")
        if hit["names"] is None:
            found[hit["name"] or last] = (path, "") if ".specs." in path else (above, last)
        for named in re.sub(r"\w+::\{?", "", hit["names"] or "").split(","):
            name, _, other = named.strip().partition(" as ")
            found[other or name] = path, name
    return found


def begins_item(line: str) -> str:
    """The name of the item of specs/ that begins at a line; nothing where none does."""
    begun = ITEM.match(line)
    return begun["marked"] or begun["plain"] if begun else ""


def lines_of(text: str) -> Iterator[str]:
    """The lines of a file of specs/ without comments and imports, those in a module without a name
    at the margin."""
    is_inside = False
    for line in COMMENT.sub("", text).splitlines():
        if not line.startswith(" ") and line:
            is_inside = line.startswith("module ")
        if not line.startswith(("use ", "pub use ", "module ", "pub mod ", "mod ")):
            yield line.removeprefix("  " * is_inside)


def spec_items(path: str, text: str) -> Iterator[Item]:
    """The items of a file of specs/, in their order."""
    name, lines = "", list[str]()
    for line in lines_of(text):
        found = begins_item(line)
        if found and found != name:
            if name:
                yield Item(path, name, "\n".join(lines))
            name, lines = found, []
        lines.append(line)
    if name:
        yield Item(path, name, "\n".join(lines))


def declared_in(path: str, text: str) -> Iterator[tuple[str, Item]]:
    """The items of a source file, each with its kind."""
    for hit in RUST.finditer(text):
        yield hit["kind"], Item(path, hit["name"], COMMENT.sub("", hit[0]))


def source_items(path: str, text: str) -> Iterator[Item]:
    """The types and traits of a source file, and what clauses see of a type. (No clause names a
    function.)"""
    return (item for kind, item in declared_in(path, text) if kind != "fn")


def constructors(item: Item) -> list[str]:
    """The names of the constructors of an item of specs/. (A field of a record leads to nothing:
    the type of what has it is named before.)"""
    is_data = re.match(r"(?:pub |unfoldable )*data ", item.text)
    return PART.findall(item.text) if is_data else []


@functools.cache
def file_at(path: str) -> File:
    """A file, by its path below the folder of all crates."""
    text = (CRATES / path).read_text(encoding="utf-8")
    items: dict[str, list[Item]] = {}
    for item in spec_items(path, text) if path.endswith(".antt") else source_items(path, text):
        for name in [item.name, *constructors(item)]:
            items.setdefault(name, []).append(item)
    return File(items, taken_in(text))


@functools.cache
def files_of(crate: str, name: str) -> list[str]:
    """The source files of a crate with an item of this name."""
    found = sorted(glob.glob(f"{crate}/src/**/*.rt", root_dir=CRATES, recursive=True))
    return [item for item in found if name in file_at(item).items]


def passed_on(crate: str, module: str) -> str:
    """The path of a module of specs/ that a crate passes on from another; nothing where it
    doesn't."""
    path = CRATES / crate / "specs" / "Lib.antt"
    if not path.exists():
        return ""
    text = path.read_text(encoding="utf-8")
    found = re.search(rf"^pub use Rattle\.([\w.]+\.{module})$", text, re.M)
    return found[1] if found else ""


def files_at(module: str, name: str) -> list[str]:
    """The files with the items of a name of a module, by its path: of specs/, or of what the source
    declares, where a type has one name in a crate, and its variants stand with it."""
    crate, _, rest = module.partition(".")
    if not (CRATES / crate).is_dir():
        return []
    if rest.startswith("specs.") and not rest.startswith("specs.declared."):
        last = rest.removeprefix("specs.")
        path = f"{crate}/specs/{last.replace('.', '/')}.antt"
        if (CRATES / path).exists():
            return [path]
        other = passed_on(crate, last)
        return files_at(other, name) if other else []
    return files_of(crate, name)


def named(path: str, word: str, of: str = "") -> list[Item]:
    """The items that a word in a file stands for; `of` is what it is asked of a module that was
    taken whole."""
    here = file_at(path)
    found = [] if of else list(here.items.get(word, []))
    if word in here.taken:
        module, name = here.taken[word]
        wanted = name or of
        if ".declared." in module:
            wanted = module.removesuffix(".TheVariants").rpartition(".")[2]
        if module.startswith("crate"):
            module = path.partition("/")[0]
        for file in files_at(module, wanted):
            other = file_at(file)
            found += other.items.get(wanted, [])
            if wanted in other.taken and not path.endswith(".rt"):
                found += named(file, wanted)
    return found


def rests_on(item: Item) -> set[Item]:
    """The items that a definition names."""
    found: set[Item] = set()
    for word in set(WORD.findall(item.text)):
        found.update(named(item.path, word))
    for word, of in set(OF_MODULE.findall(item.text)):
        found.update(named(item.path, word, of))
    return found - {item}


def closure_of(items: Iterable[Item]) -> set[Item]:
    """These items, and all that they rest on."""
    found, left = set[Item](), list(items)
    while left:
        item = left.pop()
        if item not in found:
            found.add(item)
            left += rests_on(item)
    return found


def functions_in(path: str) -> list[Item]:
    """The functions of a source file."""
    text = (CRATES / path).read_text(encoding="utf-8")
    return [item for kind, item in declared_in(path, text) if kind == "fn"]
