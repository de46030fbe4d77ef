"""The functions of a source file, as `rt fmt` lays it out, with the names that the prover gives
them."""
import functools
import itertools
import re
from dataclasses import dataclass
from pathlib import Path

from build import kit
from build.crates import Crate

HEADER = re.compile(r"^( *)(?:pub(?:\([a-z]+\))? )?(?:const )?(?:unsafe )?fn (\w+)", re.M)
TYPE = re.compile(r"^(?:pub(?:\([a-z]+\))? )?(?:struct|enum) (\w+)", re.M)
IMPL = re.compile(r"^impl\b(.*) \{$", re.M)
BRACE = re.compile(r"\{$", re.M)


@dataclass(frozen=True)
class Function:
    """A function of a source file: where its text, and in that its body, begins and ends."""

    # Its path below the crate.
    path: str
    begin: int
    body: int
    end: int
    # Whether a trait asks for it.
    is_of_trait: bool = False

    @property
    def name(self) -> str:
        return self.path.rpartition("::")[2]


@dataclass(frozen=True)
class Impl:
    """An `impl` of a source file: where it begins and ends, and the path of its type."""

    begin: int
    end: int
    path: list[str]
    is_of_trait: bool


def without_parameters(text: str) -> str:
    """A type or a trait without what stands in its angle brackets."""
    was = ""
    while was != text:
        was, text = text, re.sub(r"<[^<>]*>", "", text)
    return text


def head_of(words: str) -> str:
    """What stands behind `impl`, without parameters and bounds."""
    return re.sub(r"^<[^<>]*(?:<[^<>]*>[^<>]*)*>", "", words.strip()).partition(" where ")[0]


def owner_of(words: str) -> str:
    """The name that the prover gives the methods of an `impl`: its type's, and then its trait's
    where it has one."""
    trait, is_of_trait, of = head_of(words).partition(" for ")
    if not is_of_trait:
        return re.sub(r"\W", "", without_parameters(trait).rpartition("::")[2])
    argument = re.search(r"<(\w+)>", trait)
    own = without_parameters(of).rpartition("::")[2]
    parts = own, without_parameters(trait), argument[1] if argument else ""
    return re.sub(r"\W", "", "".join(parts))


def end_of(text: str, at: int, indent: str) -> int:
    """Where the block ends whose first line begins here: with the brace that stands as far right as
    it."""
    first = text.find("\n", at)
    if text[at:first].endswith("}"):
        return first
    closed = re.compile(rf"^{indent}(?:\}}|\{{\}})$", re.M).search(text, first)
    return closed.end() if closed else len(text)


def body_of(text: str, begin: int, end: int, indent: str) -> int:
    """Where the body of a function begins: behind its clauses, if it has any."""
    opened = re.compile(rf"^{indent}\{{$", re.M).search(text, begin, end)
    return opened.start() if opened else begin


def module_of(file: str) -> list[str]:
    """The path of the module that a source file holds."""
    parts = file[len("src/"):-len(".rt")].split("/")
    return [part for part in parts if part not in ("lib", "main")]


def source_files(crate: Crate) -> list[str]:
    """The source files of a crate, by their paths in it."""
    files = [str(file.relative_to(crate.place)) for file in kit.files_of(crate.place)]
    return [file for file in files if file.startswith("src/") and file.endswith(".rt")]


def files_below(folder: Path) -> list[Path]:
    """The paths of the files below a folder."""
    return [path for path in folder.rglob("*") if path.is_file()]


def source_of(crate: Crate, file: str) -> str:
    """The text of a source file of a crate."""
    return kit.text_of(crate.place / file)


@functools.cache
def homes_of(crate: Crate) -> dict[str, list[str]]:
    """The module of each type of a crate: the prover names a method after the place of its type,
    wherever the `impl` stands."""
    found: dict[str, list[str]] = {}
    for file in source_files(crate):
        found.update(
            (each_found, module_of(file)) for each_found in TYPE.findall(source_of(crate, file))
        )
    return found


def impls_of(crate: Crate, file: str, text: str) -> list[Impl]:
    """The `impl` blocks of a source file."""
    homes = {
        **homes_of(crate),
        **{each_found: module_of(file) for each_found in TYPE.findall(text)},
    }
    found = []
    for hit in IMPL.finditer(text):
        owner, end = owner_of(hit[1]), end_of(text, hit.start(), "")
        path = [*homes.get(owner, module_of(file)), owner]
        found.append(Impl(hit.start(), end, path, " for " in head_of(hit[1])))
    return found


def functions_of(crate: Crate, file: str, text: str) -> list[Function]:
    """The functions of a source file, but for those of a trait that have no body."""
    impls, headers = impls_of(crate, file, text), list(HEADER.finditer(text))
    later = [header.start() for header in headers[1:]] + [len(text) + 1]
    found = []
    for header, after in zip(headers, later):
        begin, end = header.start(), end_of(text, header.start(), header[1])
        if after > end:
            around = next((each for each in impls if each.begin <= begin < each.end), None)
            path = "::".join([*(around.path if around else module_of(file)), header[2]])
            body = body_of(text, begin, end, header[1])
            found.append(Function(path, begin, body, end, bool(around and around.is_of_trait)))
    return found


def attributes_of(text: str, function: Function) -> str | None:
    """The attributes of a function, each a line of its own between the function and what stands
    above it; nothing where other lines stand there, such as those of a long attribute."""
    above = text[: function.begin].split("\n")[:-1]

    def is_own(line: str) -> bool:
        return bool(line.strip()) and not line.endswith(("{", "}"))

    own = list(itertools.takewhile(is_own, reversed(above)))
    if not all(each_line.lstrip().startswith(("#[", "//")) for each_line in own):
        return None
    return "".join(
        f"{each_text}\n" for each_text in reversed(own) if each_text.lstrip().startswith("#[")
    )


def is_in_cycle(attributes: str) -> bool:
    """Whether the attributes of a function say that it is in a cycle of calls."""
    return "#[cycle" in attributes


def brace_of(text: str, function: Function) -> int | None:
    """Where the body of a function begins, with its brace, if it has lines of its own."""
    opened = BRACE.search(text, function.body, function.end)
    return opened.start() if opened else None


def lines_of(text: str, function: Function) -> tuple[int, int]:
    """The first and the last line of a function."""
    return text.count("\n", 0, function.begin) + 1, text.count("\n", 0, function.end) + 1
