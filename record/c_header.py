"""Reads the functions that a preprocessed C header declares."""
import re
from dataclasses import dataclass


class HeaderError(Exception):
    """A declaration that can't be read; its text says which."""


@dataclass(frozen=True)
class Parameter:
    """A parameter of a function: its declaration is `start`, `name` and `end` together."""

    start: str
    name: str
    end: str

    @property
    def declaration(self) -> str:
        """The parameter as the header declares it."""
        return f"{self.start}{self.name}{self.end}"

    def renamed(self, name: str) -> "Parameter":
        """The same parameter under another name."""
        return Parameter(self.start, name, self.end)


@dataclass(frozen=True)
class Function:
    """A function that a header declares: the type that it answers, or '*' for a pointer, its name,
    and the text between the parentheses."""

    answer: str
    name: str
    text: str

    @property
    def is_variadic(self) -> bool:
        """Whether it takes further arguments, which can't be passed on."""
        return "..." in self.text

    def parameters(self) -> tuple[Parameter, ...]:
        """The parameters. Raises HeaderError for one without a name."""
        if self.text in ("void", ""):
            return ()
        return tuple(self._parameter(part.strip()) for part in self.text.split(","))

    def _parameter(self, declaration: str) -> Parameter:
        found = re.fullmatch(r"(.*[\s*])(\w+)((?:\s*\[[^\]]*\])*)", declaration)
        if not found:
            raise HeaderError(f"{self.name}: the parameter '{declaration}' has no name")
        return Parameter(*found.groups())


def find_end(text: str, start: int) -> int:
    """Where the parenthesis closes that is open before `start`. Raises HeaderError if none does."""
    depth = 1
    for position in range(start, len(text)):
        depth += {"(": 1, ")": -1}.get(text[position], 0)
        if not depth:
            return position
    raise HeaderError(f"a parenthesis doesn't close: {text[start:start + 60]}")


def read_functions(header: str, prefix: str) -> dict[str, Function]:
    """The functions whose names begin with the prefix and `_`, by name."""
    lines = (line for line in header.splitlines() if not line.startswith("#"))
    text = re.sub(r"\s+", " ", "\n".join(lines))
    functions = {}
    for found in re.finditer(rf"([\w ]+?[ *]+)\b({prefix}_\w+) ?\(", text):
        answer = "*" if "*" in found[1] else found[1].split()[-1]
        if answer == "typedef":
            continue
        parameters = text[found.end():find_end(text, found.end())].strip()
        functions[found[2]] = Function(answer, found[2], parameters)
    return functions
