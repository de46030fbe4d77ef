"""Patterns in which nothing is found: whether every call is answered, with any number of ranks.

In most of those that wait a circle has to go down one turn in each of several loops. So it needs as
many ranks of the group as there are loops, and one more: no size is large enough to try.
"""
from typing import NamedTuple

# That no call waits, whatever the number of ranks.
ANSWERED = b"every call is answered for every number of ranks"


class Told(NamedTuple):
    """A pattern, its lines with ` / ` between them; what is written behind the first line; the
    status with `--complete`; and the first size of all groups with which a call waits, if any does
    up to SIZES. A group that has a `min` has at least that."""

    name: str
    lines: str
    told: bytes
    status: int
    first: int | None = None


SIZES = 6
# That none does in the instances that are judged, and no more is known.
UP_TO_3 = b"every call is answered for up to 3 ranks of each group, not known for more\n"
# The same of groups of which more than 3 ranks are judged, and of a pattern without groups.
UP_TO_4 = UP_TO_3.replace(b"3", b"4")
UP_TO_5_AND_3 = UP_TO_3.replace(b"3 ranks of each group", b"5 ranks of v, up to 3 ranks of w")
JUDGED = b"every call is answered for the instances that are judged, not known for others\n"


def asks(caller: str, other: str) -> str:
    """The loop of a single role that publishes a name for each worker, and waits for another."""
    return f"one {caller} / for w / publish {caller}[each] 1 / lookup-wait {other}[each] / end"


# Each single role waits for the next of them, and the last for the workers, each of which publishes
# its name once it has been served by the first.
WORKERS = "for w / lookup-wait a[each] / end / publish z[self] 1"
A_Z, A_B, B_Z, B_C, C_Z = (asks(*word) for word in ("az", "ab", "bz", "bc", "cz"))
C_D, D_Z, D_E, E_Z = (asks(*word) for word in ("cd", "dz", "de", "ez"))
# By keys in place of names.
BY_KEYS = " / ".join(
    f"one {text} / for w / put global {text}[each] 1 / commit / get {of} {of}[each] / end"
    for text, of in (("a", "b"), ("b", "c"))
)
BY_KEYS += " / one c / for w / put global c[each] 1 / commit / get each z / end"
# Each publishes for all workers before it waits.
FIRST_ALL = " / ".join(
    f"one {text} / for w / publish {text}[each] 1 / end / for w / lookup-wait {of}[each] / end"
    for text, of in (("a", "b"), ("b", "c"), ("c", "z"))
)
SERVERS = "many server / for client / lookup-wait ask[each,self] / publish reply[self,each] 1 / end"
ASK, REPLY = "publish ask[self,each] 1", "lookup-wait reply[each,self]"
CARD = "put global card v / commit"
MEET = "fence self,each"
HEAD = "pattern 1 / job app"
# A root publishes a name, and takes it away once others have waited for it between two fences.
LENT = "one root / publish port 1 / fence all / fence all / unpublish port"
BORROWED = "fence all / lookup-wait port / fence all"
# A root asks a single role by names in many loops, each of which has one turn; the other answers.
LOOPS = 50
ASK_OTHER = " / ".join(
    f"for other / publish a{n}[each] 1 / lookup-wait b{n}[each] / end" for n in range(LOOPS)
)
ANSWER_ROOT = " / ".join(
    f"lookup-wait a{n}[self] / publish b{n}[self] 1" for n in range(LOOPS)
)
EVERY = ANSWERED + b"\n"


def waits(*lines: str) -> bytes:
    """A line for each call at which something waits."""
    return b"".join(b"waits %s\n" % line.encode() for line in lines)


def later(size: int, *lines: str) -> bytes:
    """A line for each call at which something waits first with so many ranks of each group."""
    return b"".join(b"later %d %s\n" % (size, line.encode()) for line in lines)


def later_lookups(size: int, callers: str, line: int = 1) -> bytes:
    """Those of single roles, and of the workers at this line."""
    return later(size, *(f"{caller} 2 lookup-wait" for caller in callers), f"w {line} lookup-wait")


FOUR_WAIT = waits(*(f"{letter} 2 lookup-wait" for letter in "abc"), "w 1 lookup-wait")
ROWS = [
    Told(
        "two loops: it waits with three ranks",
        f"{HEAD} / {A_B} / {B_Z} / many w / {WORKERS}",
        waits("a 2 lookup-wait", "b 2 lookup-wait", "w 1 lookup-wait"),
        1,
        3,
    ),
    Told(
        "three: with four",
        f"{HEAD} / {A_B} / {B_C} / {C_Z} / many w / {WORKERS}",
        later_lookups(4, "abc"),
        1,
        4,
    ),
    Told(
        "four: with five",
        f"{HEAD} / {A_B} / {B_C} / {C_D} / {D_Z} / many w / {WORKERS}",
        later_lookups(5, "abcd"),
        1,
        5,
    ),
    Told(
        "five: with six",
        f"{HEAD} / {A_B} / {B_C} / {C_D} / {D_E} / {E_Z} / many w / {WORKERS}",
        later_lookups(6, "abcde"),
        1,
        6,
    ),
    Told(
        "one loop",
        f"{HEAD} / {A_Z} / many w / {WORKERS}",
        waits("a 2 lookup-wait", "w 1 lookup-wait"),
        1,
        2,
    ),
    Told(
        "three loops, at least four ranks",
        f"{HEAD} / {A_B} / {B_C} / {C_Z} / many w min 4 / {WORKERS}",
        b"at least 4 w\n" + FOUR_WAIT,
        1,
        4,
    ),
    Told(
        "three loops, the group in another job",
        f"{HEAD} / {A_B} / {B_C} / {C_Z} / job work / many w / {WORKERS}",
        later_lookups(4, "abc"),
        1,
        4,
    ),
    Told(
        "three loops, by keys",
        f"{HEAD} / {BY_KEYS} / many w / for w / get a a[each] / end / put global z 1 / commit",
        later(4, "a 3 get", "b 3 get", "c 3 get", "w 1 get"),
        1,
        4,
    ),
    Told(
        "three loops, and one of some ranks that only reads",
        f"{HEAD} / {A_B} / {B_C} / {C_Z} / many w / {CARD} / fence w collect"
        f" / for some w / get-now each card / end / {WORKERS}",
        later_lookups(4, "abc", 5),
        1,
        4,
    ),
    Told(
        "three loops, each of which publishes all first",
        f"{HEAD} / {FIRST_ALL} / many w / {WORKERS}",
        EVERY,
        0,
    ),
    Told(
        "each waits for all cards, from the rank behind it on",
        f"{HEAD} / many w / {CARD} / for w cyclic / get each card / end",
        EVERY,
        0,
    ),
    Told(
        "clients ask all servers, and then wait for all replies",
        f"{HEAD} / {SERVERS} / many client / for server / {ASK} / end / for server / {REPLY} / end",
        EVERY,
        0,
    ),
    Told(
        "clients ask one server after the other",
        f"{HEAD} / {SERVERS} / many client / for server / {ASK} / {REPLY} / end",
        EVERY,
        0,
    ),
    Told(
        "cyclic over another group is rank order",
        f"{HEAD} / {SERVERS} / many client / for server cyclic / {ASK} / {REPLY} / end",
        EVERY,
        0,
    ),
    Told(
        "a server waits for the question, and a client for the reply before it asks",
        f"{HEAD} / {SERVERS} / many client / for server / {REPLY} / {ASK} / end",
        waits("server 1 lookup-wait", "client 1 lookup-wait"),
        1,
        1,
    ),
    Told(
        "groups with a min exchange cards",
        f"{HEAD} / many v min 5 / {CARD} / for w / get each card / end"
        f" / many w min 2 / {CARD} / for v / get each card / end",
        b"at least 5 v\nat least 2 w\n" + EVERY,
        0,
    ),
    Told(
        "nobody publishes",
        f"{HEAD} / many w / lookup-wait port",
        waits("w 1 lookup-wait"),
        1,
        1,
    ),
    Told("fences in pairs, in rank order", f"{HEAD} / many w / for w / {MEET} / end", EVERY, 0),
    Told(
        "fences in pairs, from the rank behind on: three wait in a ring",
        f"{HEAD} / many w / for w cyclic / {MEET} / end",
        waits("w 1 fence"),
        1,
        3,
    ),
    Told(
        "a root meets each worker, and then all",
        f"{HEAD} / one root / for w / {MEET} / end / fence all / many w / fence root,self"
        " / fence all",
        EVERY,
        0,
    ),
    Told(
        "wait for the cards of some, then meet",
        f"{HEAD} / many w / {CARD} / for some w / get each card / end / fence all",
        EVERY,
        0,
    ),
    Told(
        "the roots of two jobs meet by names",
        "pattern 1 / job left / one first / publish x 1 / lookup-wait y / fence all / many v"
        " / fence all / lookup-wait x / job right / one other / publish y 1 / lookup-wait x"
        " / fence all / many w / fence all / lookup-wait y",
        EVERY,
        0,
    ),
    Told(
        "two groups meet pair by pair, with names in between: it isn't known that no call waits",
        f"{HEAD} / many v / publish n[self] 1 / for w / {MEET} / lookup-wait m[each,self] / {MEET}"
        f" / lookup-wait o[each] / end / for v / {MEET} / {MEET} / lookup-wait n[each] / end"
        f" / many w / for v / publish m[self,each] 1 / {MEET} / {MEET} / end / publish o[self] 1",
        UP_TO_3,
        1,
    ),
    Told(
        "a name that is taken away at the end: it isn't known",
        f"{HEAD} / {LENT} / many w / {BORROWED}",
        UP_TO_3,
        1,
    ),
    Told(
        "so it is with two groups with a min of 4",
        f"{HEAD} / {LENT} / many v min 4 / {BORROWED} / many w min 4 / {BORROWED}",
        b"at least 4 v\nat least 4 w\n" + UP_TO_4,
        1,
    ),
    Told(
        "with a group with a min of 5 and one without",
        f"{HEAD} / {LENT} / many v min 5 / {BORROWED} / many w / {BORROWED}",
        b"at least 5 v\n" + UP_TO_5_AND_3,
        1,
    ),
    Told(
        "and with single roles alone, where there are no more ranks",
        f"{HEAD} / {LENT} / one other / {BORROWED}",
        JUDGED,
        1,
    ),
    Told(
        "so it is with many loops over a single role, which has one rank in every instance",
        f"{HEAD} / {LENT} / {ASK_OTHER} / one other / {BORROWED} / {ANSWER_ROOT}",
        JUDGED,
        1,
    ),
    Told(
        "turns that may be left out, before what nobody publishes",
        f"{HEAD} / one a / {CARD} / for some b / get each card / end / lookup-wait port"
        f" / one b / {CARD} / for some a / get each card / end",
        waits("a 4 lookup-wait"),
        1,
        0,
    ),
    Told(
        "a single role has no min",
        f"{HEAD} / one root / publish port 1 / many w min 1 / lookup-wait port",
        b"at least 1 w\n" + EVERY,
        0,
    ),
    Told(
        "each call is answered, and one fails",
        f"{HEAD} / many w / publish port[self] 1 / lookup nothing",
        EVERY,
        1,
    ),
    Told(
        "a get fails on its owner's node alone",
        f"{HEAD} / one root / put remote k v / commit / many w / get root k",
        EVERY,
        1,
    ),
]
