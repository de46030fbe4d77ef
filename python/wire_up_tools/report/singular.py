"""What the head of a recorded plan counts, as one says it of one: `1 receive that failed`.

The recorder writes each count with a plural, since programs read these lines.
"""
import re

ONE = re.compile(r"1 \w+s\b")
# What a plural has behind it, and what a singular has there.
BEHIND = (
    ("that don't", "that doesn't"),
    ("that aren't", "that isn't"),
    ("that were", "that was"),
    ("or were", "or was"),
    ("that go away by themselves", "that goes away by itself"),
    ("that go away with their application", "that goes away with its application"),
    ("whose recordings end", "whose recording ends"),
    ("their calls", "its calls"),
    ("their size in bytes stands for them", "its size in bytes stands for it"),
    ("they aren't there", "it isn't there"),
    ("they met those", "it met those"),
    ("they order what", "it orders what"),
    ("they began", "it began"),
    ("it waited for them", "it waited for it"),
    ("they got", "it got"),
    ("they went", "it went"),
    ("they stay", "it stays"),
    ("they find all", "it finds all"),
    ("their gets of what they stored", "its gets of what it stored"),
    ("they wait", "it waits"),
)


def say_counted(line: str) -> str:
    """A line that begins with a count, in the singular where that is one."""
    if not ONE.match(line):
        return line
    noun = line.split(" ")[1]
    one = noun.removesuffix("es" if noun.endswith(("sses", "shes")) else "s")
    said = line.replace(noun, one, 1)
    for plural, singular in BEHIND:
        said = re.sub(rf"\b{plural}\b", singular, said)
    return said
