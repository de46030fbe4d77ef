"""How calls are called: in a plan written by hand by its verbs, and in a recorded plan as the
program calls them.

A recorded plan has names that stand for messages of MPI, and fences that stand for collectives. A
comment above such a line says which, as far as that is known: `# MPI: barrier`.
"""
import re

from wire_up_tools.plan import Call
from wire_up_tools.report.phrases import count_of

# What is said last of a call: whether it waits.
HOW = (" that doesn't wait", " with PMIX_WAIT")
# What the calls of a recorded plan are called, with what they are about in the place of {}.
NAMES = {
    "put": "PMIx_Put {}",
    "commit": "PMIx_Commit",
    "fence": "PMIx_Fence",
    "get": "PMIx_Get {}",
    "get-now": f"PMIx_Get {{}}{HOW[0]}",
    "publish": "PMIx_Publish {}",
    "unpublish": "PMIx_Unpublish {}",
    "lookup": "PMIx_Lookup {}",
    "lookup-wait": f"PMIx_Lookup {{}}{HOW[1]}",
}
# The name that stands for a message, or for a part of a collective: from whom, to whom, and which.
MESSAGE = re.compile(r"mpi_*\.([^.]+)\.([^.]+)\.\d+")
TO_ALL, FROM_ANY = "all", "from any source"
COLLECTIVE = "MPI collective"
TAG = re.compile(r"tag -?\d+")
# What the recorder writes in the place of a value that no word can be: what it is, and its size.
SIZED = re.compile(r"(number|text|bytes):(\d+)")


def name_verb(verb: str, *, is_recorded: bool) -> str:
    """What calls of a verb are called."""
    return " ".join(NAMES[verb].format("").split()) if is_recorded else verb


def name_kind(call: Call) -> str:
    """What a call is called, without what it is about."""
    return name_mpi(call) or name_verb(call.verb, is_recorded=call.rank.is_recorded)


def name_bare(call: Call) -> str:
    """The function that a call calls, without anything else about it."""
    kind = name_kind(call)
    return kind if kind == COLLECTIVE else kind.split(" ")[0]


def name_call(call: Call) -> str:
    """What a call is called, with what it is about."""
    return name_mpi(call) or name_about(call, call.about)


def name_about(call: Call, about: str) -> str:
    """What a call of PMIx on a key or name is called."""
    collects = " collect" if call.collects else ""
    if not call.rank.is_recorded:
        return f"{call.verb}{collects}{f' {about}' if about else ''}"
    return " ".join(NAMES[call.verb].format(about).split()) + collects


def name_mpi(call: Call) -> str | None:
    """What a call of MPI is called; None for a call of PMIx."""
    if not call.rank.is_recorded:
        return None
    message = find_message(call)
    if call.verb == "fence" or (message and message[2] == TO_ALL):
        of_all = name_function(call.remark) if call.remark else COLLECTIVE
        return of_all if message or call.remark else None
    if not message:
        return None
    tag = TAG.search(call.remark or "")
    said = f"MPI_Send to {message[2]}" if call.verb == "publish" else f"MPI_Recv from {message[1]}"
    return f"{said}, {tag[0]}" if tag else said


def name_function(remark: str) -> str:
    """The function of MPI that a remark names, such as `barrier`."""
    return f"MPI_{remark.capitalize()}"


def say_value(value: str, *, is_recorded: bool) -> str:
    """A value as a reader takes it. Of one for which a recorded plan has only the size: that."""
    sized = SIZED.fullmatch(value) if is_recorded else None
    if not sized:
        return value
    size = count_of(int(sized[2]), "byte")
    return size if sized[1] == "bytes" else f"a {sized[1]} of {size}"


def find_message(call: Call) -> "re.Match[str] | None":
    """The message for which the name of a recorded call stands, if it stands for one."""
    on_name = call.rank.is_recorded and call.verb in ("publish", "lookup-wait")
    return MESSAGE.fullmatch(call.about) if on_name else None


def is_from_any(call: Call) -> bool:
    """Whether it is a receive that takes a message of any process, where that is known."""
    return FROM_ANY in (call.remark or "")
