"""Makes patterns of which some names stand for messages and some fences for barriers: what ranks
know by them decides what races."""
import random
from collections.abc import Sequence
from typing import NamedTuple

# The names of the single roles before and behind the group, and that of the group.
BEFORE, BEHIND = ((), ("root",), ("root", "u")), ((), ("last",))
GROUP = "w"
# How a role comes to know of others between two rounds.
NOT_AT_ALL, BY_FENCE, BY_COLLECTING, BY_MESSAGES, BY_ROOT = (
    "not at all", "by a fence", "by a fence that collects", "by a message of each", "by one role"
)
WAYS = (
    BY_FENCE, BY_COLLECTING, BY_COLLECTING, *([BY_MESSAGES] * 4), BY_ROOT, BY_ROOT, NOT_AT_ALL
)
# How often a line that brings order is forgotten.
FORGOTTEN = 0.07


def ask(verb: str, role: str, name: str) -> list[str]:
    """The lines that ask for a name of a role, or of each of its ranks."""
    if role != GROUP:
        return [f"{verb} {name}[{role}]"]
    return [f"for {role}", f"{verb} {name}[each]", "end"]


def choose_roles(dice: random.Random) -> list[str]:
    """The roles of a pattern: one group, and others before it and behind it."""
    return [*dice.choice(BEFORE), GROUP, *dice.choice(BEHIND)]


def write_pattern(scripts: dict[str, list[str]]) -> str:
    """The text of a pattern with these scripts of its roles."""
    lines = ["pattern 1", "job app"]
    for role, script in scripts.items():
        lines += [f"{'many' if role == GROUP else 'one'} {role}", *script]
    return "".join(f"{line}\n" for line in lines)


class Mixed:
    """Makes patterns of calls, messages and fences at random places."""

    def __init__(self, dice: random.Random) -> None:
        self.dice = dice
        self.roles, self.fences = choose_roles(dice), dice.choice((0, 0, 1, 2))
        self.sent: dict[str, int] = {role: dice.choice((0, 1, 1, 2, 3)) for role in self.roles}

    def wait(self, role: str) -> list[str]:
        """The lines that wait for a message of a role, or of each of its ranks, if it sends one."""
        count = self.sent[role]
        return ask("lookup-wait", role, f"m{self.dice.randrange(count)}") if count else []

    def make_item(self) -> list[str]:
        """A call that can race, or a wait for a message."""
        dice, other, name = self.dice, self.dice.choice(self.roles), self.dice.choice("nnp")
        match dice.choice(("wait", "wait", "ask", "ask", "publish", "publish", "unpublish", "get")):
            case "wait":
                return self.wait(other)
            case "ask":
                waits = self.wait(other) if dice.random() < 0.6 else []
                return [*waits, *ask("lookup", other, name)]
            case "get":
                return ["put global a v", "commit"] if dice.random() < 0.5 else ["get-now self a"]
            case verb:
                return [f"{verb} {name}[self]{' v' if verb == 'publish' else ''}"]

    def make_role(self, role: str) -> list[str]:
        """The script of a role, with its messages and fences at random places."""
        items = [self.make_item() for _ in range(self.dice.randint(1, 5))]
        for n in reversed(range(self.sent[role])):
            items.insert(self.dice.randint(0, len(items)), [f"publish m{n}[self] sent"])
        if self.dice.random() < 0.6:
            items.insert(0, ["publish n[self] v"])
        for _ in range(self.fences):
            items.insert(self.dice.randint(0, len(items)), ["fence all"])
        return sum(items, [])

    def make(self) -> str:
        """The text of a pattern."""
        return write_pattern({role: self.make_role(role) for role in self.roles})


class Deal(NamedTuple):
    """A name, or a key, that a role writes in a round and others read in later ones: one for each
    rank of the group, or for all."""

    base: str
    is_name: bool
    writer: str
    round_of: int
    is_each: bool


class Rounds:
    """Makes patterns of rounds, between which roles come to know of each other: most calls that
    could race are in order by that."""

    def __init__(self, dice: random.Random) -> None:
        self.dice, self.roles = dice, choose_roles(dice)
        self.rounds = dice.choice((2, 2, 3, 4))
        self.ways = [dice.choice(WAYS) for _ in range(self.rounds - 1)]
        # Through which role others come to know of each other.
        self.hub = dice.choice(self.roles)
        names = dice.choice((0.5, 1, 1))
        self.deals = [
            Deal(
                base, dice.random() < names, dice.choice(self.roles),
                dice.randrange(self.rounds - dice.choice((0, 1, 1))), dice.random() < 0.25,
            )
            for base in "abc"[:dice.choice((2, 2, 3))]
        ]

    def remember(self) -> bool:
        """Whether a line isn't forgotten."""
        return self.dice.random() >= FORGOTTEN

    def write(self, deal: Deal) -> list[str]:
        """The lines by which its role writes a deal."""
        if deal.is_name:
            return self.take_turns(deal, f"publish {self.name(deal)} v")
        lines = self.take_turns(deal, f"put global {deal.base}{'[each]' if deal.is_each else ''} v")
        return [*lines, "commit"] if self.remember() else lines

    def name(self, deal: Deal) -> str:
        """The name of a deal in the script of its writer."""
        return f"{deal.base}[self{',each' if deal.is_each else ''}]"

    def take_turns(self, deal: Deal, line: str) -> list[str]:
        """A line for each rank of the group, or for all."""
        return [f"for {GROUP}", line, "end"] if deal.is_each else [line]

    def read(self, role: str, deal: Deal) -> list[str]:
        """The lines by which a role reads a deal: of each of its writers, or of some role."""
        if deal.is_each and role != GROUP:
            return []
        owner = "each" if deal.writer == GROUP else deal.writer
        if deal.is_name:
            verb = self.dice.choice(("lookup", "lookup", "lookup-wait"))
            line = f"{verb} {deal.base}[{owner}{',self' if deal.is_each else ''}]"
        else:
            verb = self.dice.choice(("get-now", "get-now", "get"))
            line = f"{verb} {owner} {deal.base}{'[self]' if deal.is_each else ''}"
        return [f"for {GROUP}", line, "end"] if deal.writer == GROUP else [line]

    def make_round(self, role: str, number: int) -> list[str]:
        """The calls of a role in a round, without what it knows by it."""
        dice, found = self.dice, list[list[str]]()
        for deal in self.deals:
            is_own = deal.writer == role
            if is_own and deal.round_of == number:
                found.append(self.write(deal))
            elif dice.random() < (0.75 if deal.round_of < number else 0.04):
                found.append(self.read(role, deal))
            if is_own and deal.is_name and deal.round_of < number and dice.random() < 0.15:
                found.append(self.take_turns(deal, f"unpublish {self.name(deal)}"))
        dice.shuffle(found)
        return sum(found, [])

    def meet(self, role: str, number: int) -> list[str]:
        """The lines by which a role comes to know of others behind a round."""
        way = self.ways[number]
        if way in (BY_FENCE, BY_COLLECTING):
            return ["fence all collect" if way == BY_COLLECTING else "fence all"]
        if way == NOT_AT_ALL:
            return []
        sent, answered = f"m{number}", f"r{number}"
        if way == BY_ROOT and role != self.hub:
            return [f"publish {sent}[self] sent", *ask("lookup-wait", self.hub, answered)]
        sending = [role for role in self.roles if way == BY_MESSAGES or role != self.hub]
        lines = [f"publish {sent}[self] sent"] if role in sending else []
        for other in sending:
            is_heard = (other != role or role == GROUP) and self.remember()
            lines += ask("lookup-wait", other, sent) if is_heard else []
        return lines + ([f"publish {answered}[self] sent"] if way == BY_ROOT else [])

    def make(self) -> str:
        """The text of a pattern."""
        scripts: dict[str, list[str]] = {}
        for role in self.roles:
            script = scripts.setdefault(role, [])
            for number in range(self.rounds):
                script += self.make_round(role, number)
                script += self.meet(role, number) if number + 1 < self.rounds else []
        return write_pattern(scripts)


def make_ordered(dice: random.Random) -> str:
    """The text of a pattern whose verdict depends on order."""
    makers: Sequence[type[Mixed] | type[Rounds]] = (Mixed, Rounds, Rounds)
    return dice.choice(makers)(dice).make()
