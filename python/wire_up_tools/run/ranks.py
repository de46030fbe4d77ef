"""The ranks of a run: what each was told, and how far it is."""
import time
from collections.abc import Mapping, Sequence
from dataclasses import dataclass, field

from wire_up_tools.failures import Refused
from wire_up_tools.plan import Call, Plan, Rank
from wire_up_tools.run.channels import Channel
from wire_up_tools.run.reports import READY, UNREACHED, WAITING, Line, Place, Report

SUCCESS, TIMEOUT = "PMIX_SUCCESS", "PMIX_ERR_TIMEOUT"
HOST_NAME = "PMIX_HOSTNAME"
# Where a call names ranks: in its second word.
WITH_RANKS = ("get", "get-now", "fence")


@dataclass(eq=False)
class LiveRank:
    """A rank that runs: its replies so far, and whether it stands in a call."""

    rank: Rank
    channel: Channel
    host: str
    space: str
    replies: list[str] = field(default_factory=list)
    began: float = 0.0
    is_in_call: bool = False
    is_done: bool = False

    @property
    def is_given_up(self) -> bool:
        """Whether the library gave up on its last call by a time limit of its own."""
        return bool(self.replies) and self.replies[-1] == TIMEOUT

    def take(self, line: str) -> None:
        """Takes a line that it sent."""
        word, *rest = line.split(" ", 2)
        if word == "begin":
            self.is_in_call, self.began = True, time.monotonic()
        elif word == "end":
            self.is_in_call = False
            self.replies.append(rest[1] if len(rest) > 1 else "")
        elif word == "done":
            self.is_done = True


def number_jobs(plan: Plan) -> dict[str, int]:
    """The number of each job, in the order of the plan."""
    return {job: number for number, job in enumerate(plan.declared.jobs)}


def list_jobs(plan: Plan) -> list[str]:
    """The jobs that have ranks."""
    return list(dict.fromkeys(rank.job for rank in plan.ranks))


def number_ranks(word: str, jobs: Mapping[str, int]) -> str:
    """A word that names ranks, with the numbers of jobs in place of their names."""
    if word == "all":
        return word
    items = (part.rpartition(":") for part in word.split(","))
    return ",".join(f"{jobs[job]}:{rank}" for job, _, rank in items)


def write_call(call: Call, jobs: Mapping[str, int]) -> str:
    """The line that tells a rank a call."""
    words = list(call.words)
    if call.verb in WITH_RANKS:
        words[1] = number_ranks(words[1], jobs)
    return " ".join(["call", *words])


def write_script(plan: Plan, rank: Rank, spaces: Mapping[str, str]) -> list[str]:
    """The lines that tell a rank all before its script begins: the namespaces, and its calls."""
    jobs = number_jobs(plan)
    named = [f"space {jobs[job]} {space}" for job, space in spaces.items()]
    return [*named, *(write_call(call, jobs) for call in plan.calls_of[rank.name]), "go"]


def hold_places(ranks: Sequence[LiveRank]) -> dict[str, str]:
    """The node of each host. Raises Refused where ranks aren't on hosts as the plan has them on
    nodes."""
    node_of: dict[str, str] = {}
    host_of: dict[str, str] = {}
    for rank in ranks:
        node, host = rank.rank.node, rank.host
        if node_of.setdefault(host, node) != node or host_of.setdefault(node, host) != host:
            others = sorted({each_rank.rank.name for each_rank in ranks if each_rank.host == host})
            raise Refused(
                f"{', '.join(others)} run on the host {host}: the plan has {rank.rank.name} on "
                f"{node}, and each node needs a host of its own"
            )
    return node_of


def translate_host(reply: str, node_of: Mapping[str, str]) -> str:
    """A reply that has the name of a host, with the node that it stands for."""
    status, _, value = reply.partition(" ")
    short = {host.partition(".")[0]: node for host, node in node_of.items()}
    node = node_of.get(value) or short.get(value.partition(".")[0])
    return f"{status} {node}" if node else reply


def write_reply(call: Call, live: LiveRank, node_of: Mapping[str, str], *, is_held: bool) -> str:
    """What became of a call. `is_held`: the order is over, so that no rank begins a call."""
    at, ended = call.number - 1, len(live.replies) - live.is_given_up
    if at > ended:
        return UNREACHED
    if at == ended:
        begun = live.is_in_call or live.is_given_up
        return READY if is_held and not begun else WAITING
    reply = live.replies[at]
    return translate_host(reply, node_of) if call.about == HOST_NAME else reply


def make_report(
    plan: Plan, ranks: Mapping[str, LiveRank], node_of: Mapping[str, str], *, is_held: bool
) -> Report:
    """The report of what became of all calls."""
    lines = []
    for rank in plan.ranks:
        for call in plan.calls_of[rank.name]:
            place = Place(rank.name, call.number, call.verb)
            lines.append(Line(place, write_reply(call, ranks[rank.name], node_of, is_held=is_held)))
    return Report(lines)


def find_standing(live: LiveRank, calls: Sequence[Call]) -> Call | None:
    """The call at which a rank stands; None at its end."""
    return calls[len(live.replies)] if len(live.replies) < len(calls) else None
