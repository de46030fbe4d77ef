"""Finds the script of a role: one from which the calls of all its ranks come, also those of several
plans side by side."""
from collections.abc import Iterator, Sequence
from dataclasses import dataclass, field

from wire_up_tools.record.patterns.scripts import (
    ASKING,
    EACH,
    INDEXED,
    VALUES,
    NotSaid,
    Over,
    Role,
    Roles,
    Said,
    Script,
    Speaker,
)

COMMIT = "commit"
# What stands in a loop over some ranks of a group.
MAY_BE_LEFT = ("put", COMMIT, "get", "get-now", "lookup", "lookup-wait")
# The longest turn of a loop that is looked for, and how often the search turns back at most.
MOST_LINES, MOST_TURNS = 24, 20_000


@dataclass(frozen=True)
class Loop:
    """A loop over a role: over whom of it (`workers`, `workers cyclic`, `some workers`), and the
    lines of a turn."""

    group: Role
    over: Over
    lines: Sequence[str]

    @property
    def is_cyclic(self) -> bool:
        """Whether it begins with the next rank."""
        return self.over is Over.CYCLIC

    @property
    def is_some(self) -> bool:
        """Whether ranks may be left out."""
        return self.over is Over.SOME

    @property
    def head(self) -> str:
        """Its first line."""
        some, cyclic = "some " * self.is_some, " cyclic" * self.is_cyclic
        return f"for {some}{self.group.name}{cyclic}"

    def make_turn(self, other: str) -> list[Said]:
        """The calls of the turn for a rank. A single role is named by itself in them."""
        if not self.group.is_group:
            return [Said(rename_rank(line, EACH, self.group.name), None) for line in self.lines]
        return [Said(line, None if line == COMMIT else other) for line in self.lines]

    @property
    def verbs(self) -> Sequence[str]:
        """What its lines call."""
        return [line.partition(" ")[0] for line in self.lines]


def rename_rank(said: str, old: str, new: str) -> str:
    """A call with another word for a rank, outside of sets."""
    words = said.split(" ")
    for n, word in enumerate(words[1:], 1):
        key = INDEXED.fullmatch(word)
        if words[0] in ASKING and n == 1:
            words[n] = new if word == old else word
        elif key and n != VALUES.get(words[0]):
            indices = (new if part == old else part for part in key[2].split(","))
            words[n] = f"{key[1]}[{','.join(indices)}]"
    return " ".join(words)


# An item of a script: a line, or a loop.
Item = str | Loop


@dataclass(frozen=True)
class Broken:
    """Where no script goes on: the rank, the number of its call, and why, if there is more to say
    than that no script has it."""

    rank: str
    number: int
    why: str = ""


@dataclass(frozen=True)
class Told:
    """The calls of one rank, in the words of a pattern, and the roles of the ranks of its plan."""

    rank: str
    calls: Sequence[Said]
    roles: Roles


@dataclass
class State:
    """How far a search is: at which call each rank is, the items so far, and whether a put waits
    for a commit."""

    at: tuple[int, ...]
    items: list[Item] = field(default_factory=list)
    has_open_put: bool = False


def order_turns(ranks: Sequence[str], rank: str, is_cyclic: bool) -> Sequence[str]:
    """Whom a loop of a rank over a group is over, in order: the others of the group."""
    if rank not in ranks:
        return ranks
    place = ranks.index(rank)
    before, after = ranks[:place], ranks[place + 1:]
    return [*after, *before] if is_cyclic else [*before, *after]


class Search:
    """The search for the script of one role, whose ranks are of one plan or of several."""

    def __init__(self, told: Sequence[Told]) -> None:
        self.told = told
        self.ends = tuple(len(each_told.calls) for each_told in told)
        self.seen: set[tuple[int, ...]] = set()
        self.furthest: tuple[int, ...] = tuple(0 for _ in told)
        # The role of each rank, and the ranks of each role, in the plan of each of `told`.
        roles = {id(each_told.roles): each_told.roles.all for each_told in told}
        of_rank = {
            key: {r: role for role in them for r in role.ranks} for key, them in roles.items()
        }
        of_name = {key: {role.name: role.ranks for role in them} for key, them in roles.items()}
        self.group_of = [of_rank[id(each_told.roles)] for each_told in told]
        self.ranks_of = [of_name[id(each_told.roles)] for each_told in told]

    def find(self) -> Sequence[Item] | Broken:
        """The items of the script, or where none goes on."""
        waiting = [iter([State(self.furthest)])]
        for _ in range(MOST_TURNS):
            if not waiting:
                break
            state = next(waiting[-1], None)
            if state is None:
                waiting.pop()
                continue
            state = self.pass_lines(state)
            if state.at == self.ends:
                return state.items
            if state.at not in self.seen:
                self.seen.add(state.at)
                waiting.append(self.go_on(state))
        return self.say_broken()

    def find_next(self, state: State) -> list[Said | None]:
        """The next call of each rank; None where it has no more."""
        return [
            told.calls[at] if at < len(told.calls) else None
            for told, at in zip(self.told, state.at)
        ]

    def pass_lines(self, state: State) -> State:
        """Takes the lines that all ranks have next, outside of loops."""
        at, items, has_put = list(state.at), list(state.items), state.has_open_put
        while True:
            found = self.find_next(State(tuple(at)))
            one = found[0]
            if one is None or one.other or any(said != one for said in found):
                break
            items.append(one.words)
            has_put = one.words != COMMIT and (has_put or one.words.startswith("put "))
            at = [number + 1 for number in at]
        if sum(at) > sum(self.furthest):
            self.furthest = tuple(at)
        return State(tuple(at), items, has_put)

    def go_on(self, state: State) -> Iterator[State]:
        """All loops that may come next: longer turns first, and of two alike the one over all
        ranks in their order. Last those in which some have a turn for a single role."""
        for index, said in enumerate(self.find_next(state)):
            if said is None or not said.other:
                continue
            group = self.group_of[index][said.other]
            for lines in self.find_turns(index, state.at[index], said.other):
                for over in Over:
                    yield from self.go_through(Loop(group, over, lines), state)
        for index, said in enumerate(self.find_next(state)):
            for role in self.find_named(index, said):
                for lines in self.find_turns_for(index, state.at[index], role.name):
                    yield from self.go_through(Loop(role, Over.SOME, lines), state)

    def go_through(self, loop: Loop, state: State) -> Iterator[State]:
        """How the search is after a loop, if it may come next."""
        ended = self.take(loop, state) if self.may_stand(loop, state) else None
        if ended and ended != state.at:
            yield State(ended, [*state.items, loop], self.leaves_put(loop, state))

    def find_named(self, index: int, said: Said | None) -> Sequence[Role]:
        """The single roles that a call names by themselves."""
        if said is None or said.other:
            return []
        singles = (role for role in self.told[index].roles.all if not role.is_group)
        return [role for role in singles if rename_rank(said.words, role.name, EACH) != said.words]

    def find_turns_for(self, index: int, at: int, role: str) -> Iterator[Sequence[str]]:
        """The turns for a single role that may begin at a call, longest first."""
        calls, lines = self.told[index].calls, list[str]()
        for call in calls[at:at + MOST_LINES]:
            line = rename_rank(call.words, role, EACH)
            if call.other or (line == call.words and line != COMMIT):
                break
            lines.append(line)
        while lines:
            yield tuple(lines)
            lines.pop()

    def find_turns(self, index: int, at: int, other: str) -> Iterator[Sequence[str]]:
        """The turns that may begin at a call, longest first."""
        calls, lines = self.told[index].calls, list[str]()
        for call in calls[at:at + MOST_LINES]:
            if call.other != other and call.words != COMMIT:
                break
            lines.append(call.words)
        while lines:
            yield tuple(lines)
            lines.pop()

    def may_stand(self, loop: Loop, state: State) -> bool:
        """Whether a pattern may have a loop here."""
        verbs = loop.verbs
        if loop.is_some and any(verb not in MAY_BE_LEFT for verb in verbs):
            return False
        last = len(verbs) - 1 - verbs[::-1].index(COMMIT) if COMMIT in verbs else None
        return last is None or not (state.has_open_put or "put" in verbs[last:])

    def leaves_put(self, loop: Loop, state: State) -> bool:
        """Whether a put waits for a commit after a loop."""
        return state.has_open_put or ("put" in loop.verbs and COMMIT not in loop.verbs)

    def take(self, loop: Loop, state: State) -> tuple[int, ...] | None:
        """Where each rank is after a loop; None where one doesn't make it."""
        ended = []
        for told, ranks_of, at in zip(self.told, self.ranks_of, state.at):
            others = order_turns(ranks_of[loop.group.name], told.rank, loop.is_cyclic)
            for other in others:
                turn = loop.make_turn(other)
                if list(told.calls[at:at + len(turn)]) == turn:
                    at += len(turn)
                elif not loop.is_some:
                    return None
            ended.append(at)
        return tuple(ended)

    def find_break(self) -> int:
        """Where no script goes on: the index of the first rank that isn't as most are there."""
        found = self.find_next(State(self.furthest))
        alike = [sum(said == other for other in found) for said in found]
        return min(range(len(found)), key=lambda n: (alike[n], found[n] is None, n))

    def say_broken(self) -> Broken:
        """The rank and the call at which no script goes on."""
        index = self.find_break()
        return Broken(self.told[index].rank, self.furthest[index] + 1)


@dataclass(frozen=True)
class RoleScript:
    """The script of a role, and what its ranks call."""

    role: Role
    items: Sequence[Item]
    told: Sequence[Told]


def tell_all(roles: Roles, scripts: Sequence[Script]) -> Sequence[Told] | Broken:
    """What ranks call, in the words of a pattern; or the first call that has none."""
    told = []
    for script in scripts:
        speaker, said = Speaker(roles, script.rank), list[Said]()
        for number, words in enumerate(script.calls, 1):
            try:
                said.append(speaker.say(words))
            except NotSaid as why:
                return Broken(script.rank, number, str(why))
        told.append(Told(script.rank, said, roles))
    return told


def find_scripts(roles: Roles, scripts: Sequence[Script]) -> Sequence[RoleScript] | Broken:
    """The script of each role, from what its ranks call; or where none goes on."""
    found = []
    for role in roles.all:
        told = tell_all(roles, [script for script in scripts if script.rank in role.ranks])
        if isinstance(told, Broken):
            return told
        items = Search(told).find()
        if isinstance(items, Broken):
            return items
        found.append(RoleScript(role, items, told))
    return found
