"""What a finding is called, what it means, and how it is mended: as docs/races.md has it."""
from collections.abc import Sequence

from wire_up_tools.plan import Call
from wire_up_tools.report.barriers import (
    find_move,
    is_of_mpi,
    list_changes,
    name_barrier,
    say_turns,
)
from wire_up_tools.report.findings import LOOKUPS, Finding, Kind
from wire_up_tools.report.language import name_bare, name_verb, say_value
from wire_up_tools.report.messages import find_late, mend_early, mend_late
from wire_up_tools.report.orders import Order
from wire_up_tools.report.phrases import VALUE_WIDTH, cut
from wire_up_tools.report.places import name_shown
from wire_up_tools.report.readers import find_readers, name_readers, say_readers
from wire_up_tools.words import NOT_WAITED

# How many keys or names a title has.
SHOWN = 3

# The words of a plan that was written by hand, and those of a program that was recorded.
BY_HAND = {
    "get_now": "get-now",
    "lookup": "lookup",
    "lookup_wait": "lookup-wait",
    "use_get": "use get in place of get-now",
    "use_wait": "use lookup-wait in place of lookup",
    "wait": "wait for the name with lookup-wait",
}
IN_PROGRAM = {
    "get_now": "PMIx_Get with PMIX_IMMEDIATE or PMIX_OPTIONAL",
    "lookup": "PMIx_Lookup",
    "lookup_wait": "PMIx_Lookup with PMIX_WAIT",
    "use_get": "leave out PMIX_IMMEDIATE and PMIX_OPTIONAL, so that the get waits",
    "use_wait": "wait for the name with PMIX_WAIT",
    "wait": "wait for the name with PMIX_WAIT",
}

# What a race on a key means, by the verb of the call that brings the key.
MEANING_OF_KEY = {
    "fence": (
        "{get_now} doesn't wait. The key comes to the node of the reader by this fence, "
        "and nothing makes the get wait for it. "
        "If the fence is over, the get finds the value; if not, it replies PMIX_ERR_NOT_FOUND."
    ),
    "get": (
        "{get_now} doesn't wait. The plan keeps what gets bring, so the key comes to the node of "
        "the reader by this get of another rank there, and nothing makes the reader wait for it. "
        "If the get comes first, the reader finds the value; "
        "if not, it replies PMIX_ERR_NOT_FOUND."
    ),
    "commit": (
        "{get_now} doesn't wait: it sees what the owner of the key has committed so far, "
        "and nothing makes it wait for the commit. "
        "If the commit comes first, the get finds the value; if not, it replies PMIX_ERR_NOT_FOUND."
    ),
}
MEANING_OF_UNPUBLISH = (
    "An unpublish takes the name away, and no chain of calls orders the two. "
    "What the name says, or whether it is there, depends on which of them comes first."
)
MEANING_OF_TWO_PUBLISHES = (
    "Only the first publish of a name holds: the other replies PMIX_ERR_DUPLICATE_KEY. "
    "Which of the two is first depends on timing, and so does the value that others find."
)
MEANING_OF_LOOKUP = (
    "{lookup} doesn't wait, and nothing makes it wait for the publish. "
    "If the publish comes first, it finds the value; if not, it replies PMIX_ERR_NOT_FOUND."
)
# What it means that one place of the program looks a name up again and again.
MEANING_OF_POLL = (
    " It is called {count} times there: if that is a poll until the name is found, runs differ "
    "only in how often it asks, and {lookup_wait} is one call that waits."
)
MEANING_OF_LOOKUP_WAIT = (
    "The name is published more than once or taken away again, "
    "so {lookup_wait} may find one value or another, or wait for ever."
)
MEANING_OF_LOOKUP_WAIT_THAT_FINDS = (
    "The name is published once, and taken away only after this {lookup_wait}: it finds the name "
    "in every run. It is reported all the same, since the checker takes no order from a lookup of "
    "a name that is taken away."
)

FIXES_OF_REWRITE = ("put the key once", "put each value under a key of its own")
FIX_OF_FENCE = (
    "let the reader meet in the fence itself: "
    "make its rank a member, and let it ask after the fence"
)
# Behind it, where some get has neither, by the head.
BY_LIBRARY = ", if it has one of them: else this library answered it with an error and didn't wait"
FIX_BY_WAITING = "{use_wait}: it is published once and never taken away"
NO_WAIT = ". To {wait} isn't enough: it is {why}"
# MPI's lookup doesn't wait. What a program can do: in one job, and between two.
BY_MPI = " (MPI_Lookup_name can't{})"
BY_MESSAGE = ": receive a message before it that is sent after the MPI_Publish_name"
BY_ASKING_AGAIN = ": call it until it finds the name; the race is still reported then"
WAIT_AND_REPORTED = (
    "{use_wait}: it is published once, and taken away only after the {lookup}. "
    "The race is still reported then"
)


def title(finding: Finding, abouts: Sequence[str] = (), order: Order | None = None) -> str:
    """What findings of one cause are, in one line, by the first, and by all keys or names if they
    have several; with the order, also who reads a key that is put twice."""
    (one, other), what = finding.verbs, say_what(finding, abouts)
    recorded = finding.first.rank.is_recorded
    said, said_too = name_verb(one, is_recorded=recorded), name_verb(other, is_recorded=recorded)
    has_many = len(abouts) > 1
    if finding.kind is Kind.REWRITE:
        either = find_readers(order, finding).either if order and not has_many else ()
        more = f": {name_readers(either)} may get either value" if either else ""
        return f"{finding.owner} puts {what} twice{more}"
    if finding.kind is Kind.KEY:
        bringer = name_verb(finding.bringer, is_recorded=recorded)
        early = f"can come before the {bringer} that brings {'them' if has_many else 'it'}"
        if recorded:
            return f"A {name_verb('get', is_recorded=recorded)} of {what} doesn't wait, and {early}"
        return f"A get-now of {what} {early}"
    if one in LOOKUPS and other == "publish":
        article = "the" if one == "lookup" else "a"
        return f"A {said} of {what} can come before {article} {said_too}"
    if one == other:
        return f"Two calls of {said}, of {what}, can come in either order"
    article = "a" if recorded else "an"
    return f"A {said} and {article} {said_too} of {what} can come in either order"


def say_what(finding: Finding, abouts: Sequence[str]) -> str:
    """The key or the name of findings, or how many they have and the first of them."""
    noun = "name" if finding.kind is Kind.NAME else "key"
    if len(abouts) < 2:
        return f"the {noun} {quote(finding, finding.about)}"
    some = [quote(finding, text) for text in abouts[:SHOWN]]
    shown = ", ".join([*some, *([".."] if len(abouts) > SHOWN else [])])
    return f"{len(abouts):,} {noun}s ({shown})"


def quote(finding: Finding, about: str) -> str:
    """A key, or a name in quotes: it may be a common word."""
    return f'"{about}"' if finding.kind is Kind.NAME else about


def explain(finding: Finding, order: Order) -> str:
    """What a finding means."""
    if finding.kind is Kind.REWRITE:
        return explain_rewrite(finding, order)
    if finding.verbs == ("lookup-wait", "publish") and is_taken_later(finding, order):
        return say(MEANING_OF_LOOKUP_WAIT_THAT_FINDS, finding)
    return say(choose_meaning(finding), finding) + say_poll(finding, order)


def say_poll(finding: Finding, order: Order) -> str:
    """What it means that a program asks for a name again and again where a lookup of a race comes
    from; nothing where it asks once."""
    lookup = next((call for call in finding.calls if call.verb == "lookup"), None)
    if not lookup or not lookup.place or not choose_wait(finding, order):
        return ""
    same = [
        call
        for call in order.plan.calls_of[lookup.rank.name]
        if (call.verb, call.about, call.place) == (lookup.verb, lookup.about, lookup.place)
    ]
    return say(MEANING_OF_POLL, finding, count=f"{len(same)}") if len(same) > 1 else ""


def explain_rewrite(finding: Finding, order: Order) -> str:
    """What it means that a key is put twice."""
    spots = [name_shown(order.plan, call) for call in finding.calls]
    one, other = map(order.uses.find_commit, finding.calls)
    puts = f"{finding.owner} puts it at {spots[0]} and again at {spots[1]}"
    if not other:
        return f"{puts}. No commit follows, so no other rank sees the second value."
    if one is other:
        return f"{puts}. One commit follows both, so other ranks see only the second value."
    replaced = f"the next {name_bare(other)} replaces the first value by the second"
    return f"{puts}; {replaced}. {say_readers(order.plan, find_readers(order, finding))}"


def role(finding: Finding, call: Call) -> str:
    """What a call does that is told of a key that is put twice; nothing for another finding."""
    if finding.kind is not Kind.REWRITE:
        return ""
    value = cut(say_value(call.words[-1], is_recorded=call.rank.is_recorded), VALUE_WIDTH)
    said = {finding.first: f"first value: {value}", finding.second: f"second value: {value}"}
    return said.get(call, "reads it")


def say(text: str, finding: Finding, **more: str) -> str:
    """A text in the words of the plan that has a finding."""
    return text.format(**(IN_PROGRAM if finding.first.rank.is_recorded else BY_HAND), **more)


def choose_meaning(finding: Finding) -> str:
    """What a kind of race means."""
    if finding.kind is Kind.KEY:
        return MEANING_OF_KEY[finding.bringer]
    if "unpublish" in finding.verbs:
        return MEANING_OF_UNPUBLISH
    if finding.verbs == ("publish", "publish"):
        return MEANING_OF_TWO_PUBLISHES
    return MEANING_OF_LOOKUP if "lookup" in finding.verbs else MEANING_OF_LOOKUP_WAIT


def fix(finding: Finding, order: Order) -> str:
    """How a finding is mended, in a sentence."""
    said = "; or ".join(list_fixes(finding, order))
    return f"{said[0].upper()}{said[1:]}."


def list_fixes(finding: Finding, order: Order) -> list[str]:
    """The ways in which a finding is mended, without their full stops."""
    if finding.kind is Kind.REWRITE:
        return list_rewrite_fixes(finding, order)
    if finding.kind is Kind.KEY and finding.bringer == "fence":
        return [FIX_OF_FENCE]
    late, wait = find_late(order, finding), choose_wait(finding, order)
    ways = mend_late(order.plan, late) if late else mend_early(order.plan, finding)
    ways += [say(wait, finding) + say_by_mpi(finding, order, is_named=bool(ways))] if wait else []
    # A barrier may keep a message from its receive, so it isn't named beside one.
    ways += [] if late else [say_barrier(finding, order)]
    if finding.verbs != ("lookup", "publish") or wait:
        return ways
    if is_taken_later(finding, order):
        return [*ways, say(WAIT_AND_REPORTED, finding)]
    return [*ways[:-1], ways[-1] + say_no_wait(finding, order)]


def say_by_mpi(finding: Finding, order: Order, *, is_named: bool) -> str:
    """What a program with MPI can do in the place of a lookup that waits, unless a message is named
    that orders the two if it is moved; nothing for others."""
    if finding.kind is not Kind.NAME or not is_of_mpi(order.plan):
        return ""
    is_one_job = finding.first.rank.job == finding.second.rank.job
    way = BY_MESSAGE if is_one_job else BY_ASKING_AGAIN
    return BY_MPI.format("" if is_named else way)


def choose_wait(finding: Finding, order: Order) -> str | None:
    """The fix by which the call waits that doesn't; None where that orders nothing."""
    if finding.kind is Kind.KEY:
        is_open = any(text.endswith(NOT_WAITED) for text in order.plan.declared.head)
        return "{use_get}" + BY_LIBRARY * is_open
    is_open = "lookup" in finding.verbs and finding.about not in order.uses.unpublished
    return FIX_BY_WAITING if is_open and is_published_once(finding, order) else None


def is_published_once(finding: Finding, order: Order) -> bool:
    """Whether one call alone publishes the name of a race."""
    return len(order.uses.publishes.get(finding.about, ())) == 1


def is_taken_later(finding: Finding, order: Order) -> bool:
    """Whether the name of a race is published once, and taken away only after the lookup in every
    run: then a lookup that waits always finds it, though the checker has no order from that."""
    lookup = finding.find_other(finding.leader or finding.first)
    changes = list_changes(order, finding)
    return is_published_once(finding, order) and all(
        order.is_before(lookup, change) for change in changes
    )


def list_rewrite_fixes(finding: Finding, order: Order) -> list[str]:
    """How it is mended that a key is put twice."""
    commit = order.uses.find_commit(finding.second)
    either = find_readers(order, finding).either
    gets = list({call.rank: call for call in reversed(either)}.values())
    if (
        not commit
        or not gets
        or order.plan.declared.keeps
        or any(call.verb != "get" for call in gets)
    ):
        return [*FIXES_OF_REWRITE]
    barrier = name_barrier(order.plan, commit, gets[0])
    turns = say_turns(order, commit, [*reversed(gets)])
    by_barrier = (
        f"if the second value is meant, put {barrier} between the {name_bare(commit)} and the "
        f"{name_bare(gets[0])}: {turns}. The second put is still reported then"
    )
    return [*FIXES_OF_REWRITE, by_barrier]


def say_no_wait(finding: Finding, order: Order) -> str:
    """Why a lookup that waits isn't ordered with the publish."""
    is_gone = finding.about in order.uses.unpublished
    return say(NO_WAIT, finding, why="taken away again" if is_gone else "published more than once")


def say_barrier(finding: Finding, order: Order) -> str:
    """The fix by a barrier: one that is there, or else who calls a new one where."""
    leader = finding.leader or finding.first
    move = find_move(order, finding, leader)
    if move:
        return move.say(order.plan)
    other = finding.find_other(leader)
    barrier, turns = name_barrier(order.plan, leader, other), say_turns(order, leader, [other])
    return f"put {barrier} between the two calls: {turns}"
