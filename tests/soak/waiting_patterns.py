"""Random patterns whose calls wait for each other.

A chain of links goes over the roles. Each link is a name or a key that one role gives, a single
role one for each rank of a group, and a group one of each of its ranks. Who gives one waits for the
next, before it gives or behind. The last link is waited for by nobody's first, by the first (so
that the links make a ring), or waits for one in the middle. Each is given once, so nothing is
found; and in most rings a wait needs as many ranks as there are loops, and one more.
"""
import random
from typing import NamedTuple

Lines = list[str]


class Role(NamedTuple):
    """A role, or a group: a role of many ranks."""

    name: str
    is_group: bool


class Link(NamedTuple):
    """What a role gives, for each rank of a group where it isn't one of these itself."""

    base: str
    giver: Role
    group: Role
    is_key: bool


class Block(NamedTuple):
    """Lines of a role: those of one loop over a group, or plain ones."""

    over: str
    lines: Lines


def given(link: Link) -> Block:
    """The lines that give a link."""
    index = "" if link.giver.is_group and link.is_key else "[self]"
    index, over = (index, "") if link.giver.is_group else ("[each]", link.group.name)
    if link.is_key:
        return Block(over, [f"put global {link.base}{index} 1", "commit"])
    return Block(over, [f"publish {link.base}{index} 1"])


def awaited(dice: random.Random, taker: Role, link: Link) -> Block:
    """The line at which a role waits for a link: its own one, or all of them."""
    is_own = taker == link.group and link.giver != taker and dice.random() < 0.7
    index, over = ("[self]", "") if is_own else ("[each]", link.group.name)
    if not link.is_key:
        return Block(over, [f"lookup-wait {link.base}{index}"])
    if link.giver.is_group:
        return Block(over, [f"get each {link.base}"])
    return Block(over, [f"get {link.giver.name} {link.base}{index}"])


class Maker:
    """Makes one pattern of some links, each of which waits for the next."""

    def __init__(self, dice: random.Random) -> None:
        self.dice = dice
        self.groups = [Role(word, True) for word in ("w", "v")[: dice.choice((1, 1, 1, 2))]]
        self.singles = [
            Role(letter, False) for letter in "rstuo"[: dice.choice((1, 2, 3, 3, 4, 5))]
        ]
        self.by_keys = dice.choice((0, 0, 0.3, 1))
        # How often a role gives and waits in one loop, and gives before it waits there.
        self.joined, self.first = dice.choice((0.6, 1, 1)), dice.choice((0.5, 0.8, 1))
        self.cyclic = dice.choice((0, 0, 0, 0.2, 1))
        self.links = self.all_links()
        self.blocks: dict[str, list[Block]] = {
            role.name: [] for role in (*self.singles, *self.groups)
        }

    def all_links(self) -> list[Link]:
        """The links, in an order in which a group doesn't give two behind each other."""
        raise NotImplementedError

    def link(self, number: int, giver: Role, group: Role) -> Link:
        own = giver if giver.is_group else group
        return Link(f"k{number}", giver, own, self.dice.random() < self.by_keys)

    def join(self, link: Link, other: Link) -> None:
        """A role gives a link, and waits for another."""
        dice = self.dice
        blocks = [given(link), awaited(dice, link.giver, other)]
        if dice.random() >= self.first:
            blocks.reverse()
        one, two = blocks
        if one.over == two.over and dice.random() < self.joined:
            blocks = [Block(one.over, one.lines + two.lines)]
        self.blocks[link.giver.name] += blocks

    def ends(self) -> None:
        """What the last link waits for."""
        dice, last = self.dice, self.links[-1]
        if dice.random() < 0.75:
            self.join(last, self.links[0])
        elif dice.random() < 0.3:
            self.join(last, dice.choice(self.links[:-1] or self.links))
        else:
            self.blocks[last.giver.name].append(given(last))

    def script(self, role: Role) -> Lines:
        """The lines of a role."""
        dice, lines = self.dice, Lines()
        blocks = self.blocks[role.name]
        if dice.random() < 0.3:
            dice.shuffle(blocks)
        for block in blocks:
            mode = " cyclic" if dice.random() < self.cyclic else ""
            head = [f"for {block.over}{mode}"] if block.over else []
            lines += [*head, *block.lines, *(["end"] if head else [])]
        return lines

    def lines(self) -> Lines:
        """The lines of the pattern."""
        dice = self.dice
        for link, other in zip(self.links, self.links[1:]):
            self.join(link, other)
        self.ends()
        meets = dice.choice(("", "", "", "fence all", "fence all collect"))
        is_late = dice.random() < 0.5
        roles = [*self.singles, *self.groups]
        dice.shuffle(roles)
        lines = ["pattern 1", "job app"]
        for role in roles:
            least = f" min {dice.choice((1, 2, 4))}" if dice.random() < 0.05 else ""
            lines.append(f"many {role.name}{least}" if role.is_group else f"one {role.name}")
            script = self.script(role)
            lines += [*script, meets] if is_late else [meets, *script]
        return [line for line in lines if line]


class Chain(Maker):
    """Each single role has at most one link."""

    def all_links(self) -> list[Link]:
        group = self.dice.choice(self.groups)
        roles = [*self.singles, *self.groups]
        self.dice.shuffle(roles)
        return [self.link(n, role, group) for n, role in enumerate(roles)]


class Walk(Maker):
    """A walk over the roles, which comes to some of them again and again."""

    def all_links(self) -> list[Link]:
        dice, links = self.dice, list[Link]()
        group = dice.choice(self.groups)
        for number in range(dice.choice((2, 3, 4, 4, 5, 6, 7))):
            giver = dice.choice([*self.singles, *self.singles, *self.groups])
            if links and giver.is_group and links[-1].giver == giver:
                giver = dice.choice(self.singles)
            if dice.random() < 0.1:
                group = dice.choice(self.groups)
            links.append(self.link(number, giver, group))
        return links


def random_pattern(dice: random.Random) -> bytes:
    """The text of a random pattern."""
    lines = dice.choice((Chain, Walk, Walk))(dice).lines()
    return "".join(f"{line}\n" for line in lines).encode()
