"""On which libraries each run of a plan does as the rules say: `wire_up check --portable` tells."""
import json
from collections.abc import Sequence
from dataclasses import dataclass
from typing import Any

from wire_up_tools.checker import Checker

OPTION = "--portable"
# How the names of libraries begin that are told by their versions alone.
OF_OPENPMIX = "openpmix-"
# What served them where they were measured.
LAUNCHERS = "mpirun or prterun"
ANSWERED = (0, 1)


@dataclass(frozen=True)
class Unportable:
    """A call by which a plan isn't portable: its rank, its number and its verb; the rule; and the
    libraries, by their versions."""

    rank: str
    call: int
    verb: str
    rule: str
    libraries: Sequence[str]

    def __str__(self) -> str:
        return f"{self.rank} {self.call} {self.verb}"


@dataclass(frozen=True)
class Portable:
    """The libraries on which each run of a plan does as the rules say, by their versions; and the
    calls by which it may not on others."""

    libraries: Sequence[str]
    calls: Sequence[Unportable]

    def is_for(self, name: str) -> bool:
        """Whether it is portable for a library, by its whole name, such as `openpmix-4.2`."""
        return name.removeprefix(OF_OPENPMIX) in self.libraries

    def is_judged(self, name: str, version: str) -> bool:
        """Whether a library, by its whole name, and a version, by what it says of itself, such as
        `OpenPMIx 4.2.2`, are of one of the lines that the checker judges: none under Slurm is."""
        line = name.removeprefix(OF_OPENPMIX)
        return name != line and version.startswith(f"OpenPMIx {line}.")

    def blamed(self, name: str) -> list[Unportable]:
        """The calls by which it isn't portable for a library."""
        version = name.removeprefix(OF_OPENPMIX)
        return [call for call in self.calls if version in call.libraries]


def find_portable(checker: Checker, plan: bytes) -> Portable | None:
    """On which libraries a plan is portable; None where the checker can't tell. It is asked with
    whatever is found in the plan."""
    try:
        if not checker.takes("check", OPTION):
            return None
        answer = checker.ask("check", OPTION, "--json", plan=plan)
    except OSError:
        return None
    return read_portable(answer.stdout) if answer.status in ANSWERED else None


def read_portable(text: str) -> Portable | None:
    """What the checker wrote; None where it isn't that."""
    try:
        said = json.loads(text)
        calls = [read_call(line) for line in said["unportable"]]
        return Portable([str(line) for line in said["portable"]], calls)
    except (ValueError, KeyError, TypeError):
        return None


def read_call(said: dict[str, Any]) -> Unportable:
    """A call. Raises KeyError, TypeError, ValueError."""
    libraries = [str(line) for line in said["libraries"]]
    return Unportable(said["proc"], int(said["call"]), said["verb"], said["rule"], libraries)


def list_libraries(portable: Portable) -> str:
    """The libraries in words: `OpenPMIx 5.0 and 7.0`; nothing where there are none."""
    *before, last = portable.libraries or [""]
    return f"OpenPMIx {', '.join(before)}{' and ' * bool(before)}{last}" if last else ""


def say_calls(portable: Portable) -> str:
    """By how many calls a plan isn't portable for each library, and what names them."""
    count = len({str(call) for call in portable.calls})
    return f"by {count} call{'s' * (count != 1)} (wire_up check {OPTION})"


def say_portable(portable: Portable) -> str:
    """For which libraries a plan is portable, as a clause."""
    listed, of_calls = list_libraries(portable), say_calls(portable)
    if not listed:
        return f"portable for no library that is known, {of_calls}"
    return f"portable for {listed}" + (f", for no other {of_calls}" if portable.calls else "")


def say_unjudged(version: str, host: str) -> str:
    """What is added of a library that the checker doesn't judge, by what it says of its version,
    and by its host, if that isn't empty."""
    return f"; of {version.split(' (')[0]}{f' under {host}' * bool(host)} it isn't known"


def say_promise(portable: Portable) -> str:
    """What that promises, as a sentence."""
    listed, count = list_libraries(portable), len({str(call) for call in portable.calls})
    of_calls = f"(by {count} call{'s' * (count != 1)}: check {OPTION})"
    if not listed:
        return f"The plan is portable for no known library {of_calls}."
    others = f", on no other {of_calls}" if portable.calls else ""
    where = f"On {listed} under {LAUNCHERS}"
    return f"{where}, if it keeps axioms, each run does as the rules say{others}."
