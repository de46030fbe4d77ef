"""Text as HTML takes it."""
import html
from collections.abc import Iterable

# What stands for a character that HTML can't have.
REPLACEMENT = "\ufffd"
# Characters that HTML can't have besides control characters.
REFUSED = "\x7f\ufffe\uffff"


def escape(text: str) -> str:
    """A text as HTML takes it, in an attribute too."""
    shown = (letter if is_allowed(letter) else REPLACEMENT for letter in text)
    return html.escape("".join(shown), quote=True)


def is_allowed(character: str) -> bool:
    """Whether HTML can have a character."""
    return (character >= " " and character not in REFUSED) or character == "\t"


def escape_lines(lines: Iterable[str]) -> str:
    """Lines as HTML takes them."""
    return "\n".join(map(escape, lines))


def link_to_line(markup: str, line: int | None, title: str | None = None) -> str:
    """An element of SVG that leads to a line of the plan, if there is one, and has a title."""
    shown = f"<title>{escape(title)}</title>" if title else ""
    if line:
        return f'<a href="#line-{line}">{shown}{markup}</a>'
    return f"<g>{shown}{markup}</g>" if shown else markup
