"""The names by which a call of one run is found again in another: what it is, and the how-manieth
such call of its process. record/core/call_names.c makes the same ones."""
import itertools
import re
from collections import Counter
from collections.abc import Iterator, Mapping
from dataclasses import dataclass

from wire_up_tools.failures import Refused
from wire_up_tools.plan import Call, Plan
from wire_up_tools.words import escape

# Verbs of the recorder. Calls with the last ones have no word in their names.
OF_PMIX = ("put", "commit", "fence", "group", "get", "publish", "lookup", "unpublish")
BARE = ("commit", "fence")
# Numbers that differ between runs: those of ports, processes and namespaces.
OF_RUN = re.compile(r"\d{6,}")
MASK = "#"
# Verbs of plans that are others in recordings.
RECORDED_VERBS = {"get-now": "get", "lookup-wait": "lookup"}
# What parts the words of a recording, besides spaces.
PARTING = b",:="
# The lines at the head of a plan that say which namespace a job is, and what a word stands for.
NAMESPACE = re.compile(r"The job (\S+) is the namespace (.+)\.")
RENAMED = re.compile(r"The (?:key|name) (\S+) is (.+)\.")
# What stands above a fence that is the making or the end of a group.
OF_GROUP = "# PMIx: "
# What a call of every name or key is about, in recordings and in plans.
EVERY, EVERY_NAME = "every", "*"


@dataclass(frozen=True)
class Target:
    """A call that is held or waited for: its process and number in the plan; its job's number and
    its rank, its name, and the how-manieth of that name it is, from 1; and its verb in the plan.
    One that the plan leaves out has the number 0, and says what it is in place of the verb."""

    process: str
    number: int
    job: int
    rank: int
    name: str
    ordinal: int
    verb: str

    @property
    def place(self) -> str:
        """How findings name it."""
        return f"{self.process} {self.number or self.verb}"

    @property
    def what(self) -> str:
        """Which call of its process it is, with its verb."""
        return f"{self.number} {self.verb}" if self.number else self.verb

    @property
    def title(self) -> str:
        """Its process, and which call of that it is."""
        return f"{self.process} {self.what}"

    @property
    def key(self) -> tuple[str, int]:
        """What finds it again in another run."""
        return self.name, self.ordinal


def mask(text: str) -> str:
    """A text with `#` for each number that differs between runs."""
    return OF_RUN.sub(MASK, text)


def cut_item(item: str) -> str:
    """What of an item of a list is behind its last colon and before its value."""
    return item.partition("=")[0].rpartition(":")[2]


def name_call(text: str) -> list[str]:
    """The names of a call whose record has this text: one on several names has one for each."""
    words = text.split(" ")
    verb = words[0]
    if verb == "send":
        return [mask(" ".join(words[:4]))]
    if verb not in OF_PMIX or verb in BARE:
        return [verb if verb in BARE else mask(text)]
    if verb == "get":
        return [mask(" ".join([verb, *map(cut_item, words[2:4])]))]
    return [mask(f"{verb} {cut_item(part)}") for part in words[2].split(",")]


def number_job(namespace: str) -> int:
    """The number of a job in its namespace: what follows the last `@`, where the launcher is PRRTE;
    of a number the lower half, as Open MPI 4 has it; else 0."""
    _, at, number = namespace.rpartition("@")
    if not number.isdecimal():
        return 0
    return int(number) if at else int(number) & 0xFFFF


def spell(word: str, renamed: Mapping[str, str]) -> str:
    """A key or name of a plan, as a recording has it."""
    if word in renamed:
        parts = renamed[word].replace(" ", "%20")
        return "".join(f"%{ord(part):02X}" if part in PARTING.decode() else part for part in parts)
    return EVERY if word == EVERY_NAME else escape(word.encode(), PARTING)


def name_line(call: Call, renamed: Mapping[str, str]) -> str:
    """The name of a call of a plan that a program made."""
    verb = RECORDED_VERBS.get(call.verb, call.verb)
    if verb in BARE:
        return verb
    rank = [call.target.rpartition(":")[2]] if verb == "get" else []
    return mask(" ".join([verb, *rank, spell(call.about, renamed)]))


class Naming:
    """The names of the calls of a recorded plan, by its text alone."""

    def __init__(self, plan: Plan) -> None:
        self.plan = plan
        head = plan.declared.head
        self.renamed = {hit[1]: hit[2] for hit in map(RENAMED.fullmatch, head) if hit}
        named = [hit for hit in map(NAMESPACE.fullmatch, head) if hit]
        self.jobs = {hit[1]: number_job(hit[2]) for hit in named}
        # Names that stand for messages begin so: no call of PMIx made their lines.
        marks = [re.match(r"`([^`]+)`, and the fences below", text) for text in head]
        self.marks = tuple(mark[1] for mark in marks if mark)

    def is_of_program(self, call: Call) -> bool:
        """Whether a call of PMIx made the line."""
        is_order = call.verb in ("publish", "lookup-wait") and call.about.startswith(self.marks)
        above = self.plan.lines[call.line - 2] if call.verb == "fence" else ""
        is_group = above.startswith(OF_GROUP)
        return call.remark is None and not is_group and not (self.marks and is_order)

    def list_targets(self, process: str) -> Iterator[Target | None]:
        """The calls of a process of the plan, one after another; None for an order of MPI."""
        job, _, rank = process.rpartition(":")
        names: Counter[str] = Counter()
        for call in self.plan.calls_of[process]:
            if not self.is_of_program(call):
                yield None
                continue
            name = name_line(call, self.renamed)
            names[name] += 1
            own = self.jobs.get(job, 0)
            yield Target(process, call.number, own, int(rank), name, names[name], call.verb)

    def find(self, process: str, number: int) -> Target:
        """The target of a call. Raises Refused."""
        calls = self.list_targets(process) if process in self.plan.calls_of else iter(())
        found = list(itertools.islice(calls, number))
        if not 0 < number <= len(found):
            raise Refused(f"{process} {number}: this plan has no such call")
        target = found[-1]
        if target is None:
            raise Refused(f"{process} {number}: is an order of MPI, and no call of PMIx")
        if not target.job and len(self.plan.declared.jobs) > 1:
            raise Refused(f"{process} {number}: which of several jobs it is isn't known in a run")
        return target
