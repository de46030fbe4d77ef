"""What becomes of the calls of a plan without findings, as `wire_up replay` tells it."""
import contextlib
import dataclasses
import re
from collections.abc import Mapping
from dataclasses import dataclass, field

from wire_up_tools.plan import Call, Plan
from wire_up_tools.report.asking import Asker, stream_blocks
from wire_up_tools.report.plan_parts import PlanPart, list_parts

# At which call each rank waits for ever, by the name of the rank; None for one that doesn't wait.
WaitingAt = Mapping[str, int | None]
# How many calls that fail are listed.
LISTED = 40
# A call that doesn't succeed, and the last line.
OTHER_END = re.compile(rb"^(\S+:\d+) (\d+) \S+ (?!PMIX_SUCCESS\b)(\S+)", re.MULTILINE)
SUCCESS = b" PMIX_SUCCESS"
LAST = re.compile(rb"(?:^|\n)waiting \d+\n\Z")
WAITING, UNREACHED = b"waiting", b"unreached"


@dataclass(frozen=True)
class Failure:
    """A call that fails, and its reply."""

    call: Call
    reply: str


@dataclass
class Replies:
    """What becomes of the calls: where ranks wait for ever, how many calls fail, and the first of
    these."""

    waiting_at: dict[str, int | None]
    failed: int = 0
    failures: list[Failure] = field(default_factory=list)

    def add(self, plan: Plan, rank: str, number: int, reply: bytes) -> None:
        """Takes how a call ends that doesn't succeed."""
        if reply == WAITING:
            self.waiting_at[rank] = number
        elif reply != UNREACHED:
            self.failed += 1
            if len(self.failures) < LISTED:
                self.failures.append(Failure(plan.find_call(rank, number), reply.decode()))


def find_replies(asker: Asker, plan: Plan) -> Replies:
    """Asks what becomes of the calls of a plan without findings: of a large one, part by part.

    Raises Refused if no report is written.
    """
    replies = Replies({rank.name: None for rank in plan.ranks})
    for part in list_parts(plan, asker.data):
        take_replies(dataclasses.replace(asker, data=part.data), plan, part, replies)
    return replies


def take_replies(asker: Asker, plan: Plan, part: PlanPart, replies: Replies) -> None:
    """Takes what becomes of the calls of a part. Raises Refused if no report is written."""
    last = b""
    try:
        with contextlib.closing(stream_blocks(asker, "replay")) as blocks:
            for block in blocks:
                last = block
                if all_succeed(block):
                    continue
                for said, count, reply in OTHER_END.findall(block):
                    rank = said.decode()
                    number = part.find_number(rank, int(count))
                    if number:
                        replies.add(plan, rank, number, reply)
    except (LookupError, ValueError):
        raise asker.refuse("report") from None
    if not LAST.search(last):
        raise asker.refuse("report")


def all_succeed(block: bytes) -> bool:
    """Whether each line is that of a call that succeeds, which is found without a look at each. A
    value that is named like the reply stands right behind it: such a block isn't said to."""
    return block.count(SUCCESS) == block.count(b"\n") and SUCCESS * 2 not in block
