"""The message that would order two calls that race, and comes too late or is sent too early."""
import itertools
import re
from collections.abc import Sequence
from dataclasses import dataclass

from wire_up_tools.plan import Call, Plan
from wire_up_tools.report.findings import Finding, Kind
from wire_up_tools.report.language import find_message, is_from_any, name_bare, name_kind
from wire_up_tools.report.orders import Order
from wire_up_tools.report.places import list_later, name_spot, tell_call
from wire_up_tools.words import LEFT_OUT, LEFT_OUT_HARMLESS, LEFT_TO_LUCK


@dataclass(frozen=True)
class Late:
    """A message that is sent after one call of a race, and that the rank of the other call need
    have only after that call."""

    after: Call
    sent: Call
    received: Call
    before: Call

    @property
    def calls(self) -> Sequence[Call]:
        """The calls that send and receive it."""
        return [self.sent, self.received]


def find_late(order: Order, finding: Finding) -> Late | None:
    """The message that would let that call of a race come first which should; None where there is
    none, or where it is sent only after the other call."""
    if finding.kind is Kind.REWRITE:
        return None
    for one in [finding.leader] if finding.leader else finding.calls:
        other = finding.find_other(one)
        received = {
            call.about: call for call in list_later(order.plan, other) if find_message(call)
        }
        sent = (
            each_call for each_call in list_later(order.plan, one) if each_call.verb == "publish"
        )
        found = next(
            (
                other_call
                for other_call in sent
                if find_message(other_call) and other_call.about in received
            ),
            None,
        )
        if found and not order.is_before(other, found):
            return Late(one, found, received[found.about], other)
    return None


def explain_late(plan: Plan, late: Late) -> str:
    """When the message comes, and what it would do if it came in time."""
    sent, received = late.sent, late.received
    sender, receiver = sent.rank.name, received.rank.name
    after, before = name_bare(late.after), name_bare(late.before)
    is_any = is_from_any(received)
    why = "receives from any source, and may have it only" if is_any else "receives it only"
    spot = name_spot(plan, received)
    source = f" from {sender}" if is_any else ""
    return (
        f"{sender} sends {receiver} a message after its {after} ({name_kind(sent)}, at "
        f"{name_spot(plan, sent)}), but {receiver} {why} after its {before}, at {spot}. "
        f"If {receiver} received it{source} before its {before}, the {after} would come first."
    )


def mend_late(plan: Plan, late: Late) -> list[str]:
    """The fixes by which the message comes in time."""
    before = tell_call(plan, late.before)
    moved = f"move the {before} after the {tell_call(plan, late.received)} that follows it"
    named = f"receive from {late.sent.rank.name} in place of MPI_ANY_SOURCE before the {before}"
    return [moved, *[named] * is_from_any(late.received)]


# --- a message that is sent too early ---

# What a send can be moved past: what waits for no other rank.
FREE = ("put", "commit", "publish", "unpublish", "lookup", "get-now")
# What isn't in the plan where it was called, and may be a receive.
MAY_RECEIVE = re.compile(r"\d+ (receives|messages|collectives|calls of MPI_).*")


def mend_early(plan: Plan, finding: Finding) -> list[str]:
    """The fix by which a message is sent after the call that should come first; none where no
    message is sent before it that orders the two then."""
    leader, sent = finding.leader, find_early(plan, finding)
    if not leader or not sent:
        return []
    return [f"move the {tell_call(plan, sent)} after the {tell_call(plan, leader)}"]


def find_early(plan: Plan, finding: Finding) -> Call | None:
    """The send before the call that should come first, of a message that the rank of the other call
    has before that; None where it can't be moved behind the first."""
    leader = finding.leader
    if not leader or leader.verb not in FREE or may_receive(plan, leader):
        return None
    other = finding.find_other(leader)
    earlier = itertools.islice(plan.calls_of[other.rank.name], other.number - 1)
    received = {call.about for call in earlier if is_receive(call)}
    calls = reversed(plan.calls_of[leader.rank.name][: leader.number - 1])
    passed = itertools.takewhile(lambda call: call.verb in FREE, calls)
    sent = next((call for call in passed if find_message(call)), None)
    return sent if sent and is_remarked(sent, "send") and sent.about in received else None


def may_receive(plan: Plan, call: Call) -> bool:
    """Whether the rank of a call may wait for a message before it where the plan doesn't say so:
    one that is left out or polled for, or one of any source, which may stand later than it was
    received."""
    left_out = [*plan.list_in_head(LEFT_OUT), *plan.list_in_head(LEFT_OUT_HARMLESS)]
    is_left_out = any(map(MAY_RECEIVE.fullmatch, left_out))
    is_polled = any(LEFT_TO_LUCK in text for text in plan.declared.head)
    return (
        is_left_out
        or is_polled
        or any(is_from_any(each_call) for each_call in list_later(plan, call))
    )


def is_receive(call: Call) -> bool:
    """Whether a call receives a message of one process."""
    return bool(find_message(call)) and is_remarked(call, "receive") and not is_from_any(call)


def is_remarked(call: Call, word: str) -> bool:
    """Whether the comment above a call says that it is of this kind."""
    return (call.remark or "").split(",")[0] == word
