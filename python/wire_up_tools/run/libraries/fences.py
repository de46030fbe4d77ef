"""How fences end, by the rules of a library."""
import collections
from collections.abc import Mapping, Sequence
from dataclasses import dataclass, field

from wire_up_tools.plan import Call
from wire_up_tools.run.libraries.rules import Rule
from wire_up_tools.run.libraries.traits import Brought, Kept, Mixed
from wire_up_tools.run.libraries.world import SUCCESS, Arrival, Reply, World

# What identifies a fence to the library: the job of a fence of all its ranks, or a list.
Sign = tuple[str, ...]
ALL, LIST, OF_MPI = "all", "list", "of MPI"
# Behind a job: all its ranks.
STAR = ":*"


def names_twice(items: Sequence[str]) -> bool:
    """Whether a set names a rank twice, as an item that repeats, or by its job too."""
    whole = {item.removesuffix(STAR) for item in items if item.endswith(STAR)}
    by_job = any(item.partition(":")[0] in whole for item in items if not item.endswith(STAR))
    return by_job or len(set(items)) < len(items)


@dataclass(eq=False)
class Meeting:
    """The calls that the library takes for one fence."""

    sign: Sign
    arrived: dict[str, Arrival] = field(default_factory=dict)
    has_brought: bool = False


@dataclass(eq=False)
class Fences:
    """All fences of a run: how often each rank called each, and where each stands."""

    world: World
    counts: collections.Counter[tuple[str, Sign]] = field(default_factory=collections.Counter)
    meetings: dict[tuple[Sign, int], Meeting] = field(default_factory=dict)
    standing: dict[str, Meeting] = field(default_factory=dict)

    def find_sign(self, call: Call) -> Sign:
        """How the library knows a fence. What stands for a collective of MPI isn't one of its."""
        if call.remark is not None:
            return (OF_MPI, *sorted(self.world.members(call)))
        job = call.rank.job
        if call.target in ("all", f"{job}:*"):
            return (ALL, job)
        if not self.world.has(Rule.LIST_AS_SPELT):
            return (LIST, *sorted(self.world.members(call)))
        items: Sequence[str] = call.target.split(",")
        return (LIST, *sorted(set(items) if self.world.traits.drops_repeats else items))

    def node_of(self, name: str) -> str:
        """The node of a rank."""
        return self.world.ranks[name].node

    def list_mixed(self) -> list[str]:
        """The ranks that arrived at a fence of whose callers on their node some collect and others
        don't."""
        found: dict[str, None] = {}
        for meeting in self.meetings.values():
            flags: dict[str, set[bool]] = {}
            for name, arrival in meeting.arrived.items():
                flags.setdefault(self.node_of(name), set()).add(arrival.collects)
            mixed = {node for node, them in flags.items() if len(them) > 1}
            found.update((name, None) for name in meeting.arrived if self.node_of(name) in mixed)
        return list(found)

    def arrive(self, call: Call) -> None:
        """Lets a rank arrive."""
        name, sign = call.rank.name, self.find_sign(call)
        self.counts[name, sign] += 1
        key = (sign, self.counts[name, sign])
        meeting = self.meetings.setdefault(key, Meeting(sign))
        meeting.arrived[name] = Arrival(
            call.collects, dict(self.world.owners[name].elsewhere)
        )
        self.standing[name] = meeting

    def leave(self, call: Call) -> Reply:
        """How the fence ends for a rank that has arrived; None while it doesn't."""
        meeting = self.standing[call.rank.name]
        alike = [
            each_meeting
            for each_meeting in self.meetings.values()
            if each_meeting.sign == meeting.sign
        ]
        end = End(self.world, call, meeting, alike)
        if end.is_barred() or not end.is_complete():
            return None
        del self.standing[call.rank.name]
        reply = end.answer_mixed()
        end.bring()
        return reply or SUCCESS


@dataclass(frozen=True, eq=False)
class End:
    """How a fence ends for one of its callers."""

    world: World
    call: Call
    meeting: Meeting
    # All fences that the library knows by the same sign, in their order.
    alike: Sequence[Meeting]

    @property
    def members(self) -> frozenset[str]:
        """The members, by the plan."""
        return self.world.members(self.call)

    @property
    def arrived(self) -> Mapping[str, Arrival]:
        """Those that have arrived at what the library takes for the same fence. Where others wait
        for their node alone, those that collect meet each other across nodes: the first of a node
        the first of another."""
        if not self.meets_collecting:
            return self.meeting.arrived
        at = self.list_collecting(self.here).index(self.meeting)
        met = {node: self.list_collecting(node)[at:] for node in self.nodes}
        there = [member for member in self.members if met[self.node_of(member)]]
        return {text: met[self.node_of(text)][0].arrived[text] for text in there}

    @property
    def is_of_node(self) -> bool:
        """Whether it waits for its node alone, if it doesn't collect. MPI waits for all."""
        return self.world.has(Rule.FENCE_OF_NODE) and self.call.remark is None

    @property
    def meets_collecting(self) -> bool:
        """Whether it meets those that collect, and no others."""
        return self.is_of_node and self.is_collecting(self.meeting, self.here)

    @property
    def here(self) -> str:
        """The node of the caller."""
        return self.call.rank.node

    def is_collecting(self, meeting: Meeting, node: str) -> bool:
        """Whether all members on a node have arrived at a fence, and all collect."""
        members = [member for member in self.members if self.node_of(member) == node]
        return all(
            member in meeting.arrived and meeting.arrived[member].collects for member in members
        )

    def list_collecting(self, node: str) -> list[Meeting]:
        """The fences like this one at which a node collects, in their order."""
        return [meeting for meeting in self.alike if self.is_collecting(meeting, node)]

    def node_of(self, name: str) -> str:
        """The node of a rank."""
        return self.world.ranks[name].node

    @property
    def nodes(self) -> list[str]:
        """The nodes of the members."""
        return sorted({self.node_of(member) for member in self.members})

    def is_barred(self) -> bool:
        """Whether it never ends."""
        words = self.list_counted()
        counts_twice = not self.world.traits.drops_repeats and self.world.has(Rule.LIST_AS_SPELT)
        if counts_twice and names_twice(words):
            return True
        is_list = self.meeting.sign[0] == LIST and len(self.nodes) > 1
        return is_list and self.call.collects and self.is_of_node

    def list_counted(self) -> list[str]:
        """The items of the set of which it waits for each, as they are spelt."""
        words = self.call.target.split(",")
        if not self.is_of_node or self.call.collects:
            return words
        return [
            word
            for word in words
            if word not in self.world.ranks or self.node_of(word) == self.here
        ]

    def is_complete(self) -> bool:
        """Whether all have arrived that it waits for."""
        if not self.is_of_node or self.meets_collecting:
            return self.members <= self.arrived.keys()
        near = {member for member in self.members if self.node_of(member) == self.here}
        return near <= self.meeting.arrived.keys()

    def find_flags(self, node: str | None = None) -> set[bool]:
        """Whether those that have arrived collect, on a node or on all."""
        there = [member for member in self.members if member in self.arrived]
        return {self.arrived[text].collects for text in there if node in (None, self.node_of(text))}

    def answer_mixed(self) -> str | None:
        """The reply of a fence whose callers differ in collecting, if it is another one."""
        if len(self.find_flags()) < 2 or not self.world.has(Rule.MIXED_COLLECT):
            return None
        traits, here = self.world.traits, self.here
        is_mixed_here = len(self.find_flags(here)) > 1
        if traits.mixed is Mixed.FAILS:
            is_spared = self.world.spares_others and not is_mixed_here and self.is_mixed_elsewhere()
            return None if is_spared else traits.invalid
        if traits.mixed is Mixed.FAILS_FOR_FIRST:
            first = next(text for text in self.arrived if self.node_of(text) == here)
            return traits.invalid if is_mixed_here and first == self.call.rank.name else None
        self.bring_between_nodes()
        return traits.invalid if is_mixed_here else None

    def is_mixed_elsewhere(self) -> bool:
        """Whether callers on one of the nodes differ in collecting."""
        return any(len(self.find_flags(node)) > 1 for node in self.nodes)

    def bring_between_nodes(self) -> None:
        """Brings keys from each node whose callers collect to each other such node."""
        whole = [each_node for each_node in self.nodes if self.find_flags(each_node) == {True}]
        for member in self.members:
            for node in whole if self.node_of(member) in whole else []:
                if node != self.node_of(member):
                    self.world.on_node[node, member].update(self.arrived[member].values)

    def bring(self) -> None:
        """Brings what its members committed to their nodes, once, if it collects."""
        if self.find_flags() != {True} or len(self.nodes) < 2 or self.meeting.has_brought:
            return
        if self.world.has(Rule.COLLECT_BRINGS_NOTHING):
            return
        self.meeting.has_brought = True
        for member in self.members & self.arrived.keys():
            self.bring_from(member)

    def find_nodes(self, member: str) -> set[str]:
        """The nodes to which it brings the keys of a member."""
        ranks = self.world.ranks
        if not self.world.has(Rule.FENCE_OF_JOBS):
            return set(self.nodes)
        only_members = self.world.traits.brought is Brought.WITH_MEMBERS
        among = self.members if only_members else ranks
        of_job = {
            self.node_of(each_member)
            for each_member in among
            if ranks[each_member].job == ranks[member].job
        }
        return of_job.intersection(self.nodes)

    def bring_from(self, member: str) -> None:
        """Brings what a member committed to nodes of the others."""
        values, is_apart = self.arrived[member].values, self.world.traits.kept is Kept.APART
        for node in self.find_nodes(member):
            if is_apart:
                self.world.by_fences[node, member].update(values)
            elif node != self.node_of(member):
                self.world.on_node[node, member].update(values)
