"""Makes random patterns, as lines and as files that may be damaged."""
import random
import re
from collections.abc import Callable, Sequence
from typing import NamedTuple

from tests.soak import random_plans
from tests.soak.random_plans import NUMBERS, RESERVED, Words, styled


JOBS = (b"app", b"srv", b"all", b"self", b"some", b"!\"$%&'()", b"-", b"0")
ROLES = (b"root", b"w", b"v", b"u", b"last", b"one", b"min", b"end", b"fence", b"9")
KEYS = (b"a", b"b", b"c", b"x", b"**", b":", b",", b"#k", b"each", b"*")
SCOPES = (b"global", b"global", b"global", b"remote", b"local")
VALUES = (b"v", b"1", b"[", b"v[self]", b"#", b"*", b'"\\')
READING = [b"get-now", b"lookup"]
OPTIONAL = [b"put", b"get", b"get-now", b"lookup-wait", b"get-now"]
# What stands behind the roles of a loop, but before them for `some`.
PLAIN, CYCLIC, SOME = list[bytes](), [b"cyclic"], [b"some"]
WORDS = b"""
    pattern 1 2 rehearsal keep job one many min 0 10 for some cyclic end self each all root w v *
    all,self w,all self,each app:* : app:0 * *[self] k[ k] k[] k[self k[self]x [self] k[self,] k[w]
    k[root] k[[self]] k[self][each] put commit fence collect get get-now publish lookup lookup-wait
    unpublish local remote global rank node # a,b
""".split()
NOT_ROLES = (b"self", b"each", b"all", b"app:*", b"srv:*")
ITEM = re.compile(rb"(?<=[ ,[])(?:%s)(?=[],\s])" % b"|".join([*ROLES, b"self", b"each", b"all"]))
# What a damage may bring: words of the grammar, words that are too long, words of plans.
ODD_WORDS = [
    *WORDS,
    *random_plans.WORDS,
    b"k" * 63,
    b"k" * 64,
    b"k" * 60 + b"[self]",
    b"k" * 64 + b"[self]",
    b"k[" + b"w" * 64 + b"]",
    b"w" * 64 + b",self",
    b"w" * 64 + b":*,self",
    b"v" * 255,
    b"v" * 256,
]


class Part(NamedTuple):
    """A role that is made: its job, its name, and the least size of a group, or None."""

    job: bytes
    name: bytes
    least: int | None


def head_of(roles: Sequence[Part], mode: Sequence[bytes]) -> Words:
    """The first line of a loop."""
    names = b",".join(role.name for role in roles)
    return [b"for", *mode, names] if mode == SOME else [b"for", names, *mode]


class Script:
    """The lines of a role, as they are made."""

    def __init__(self, maker: "Maker", part: Part) -> None:
        self.maker, self.part, self.dice = maker, part, maker.dice
        self.lines: list[Words] = []
        # The roles of the loop that is open, and whether a put waits for a commit.
        self.looped: list[Part] = []
        self.waits = False
        self.keys = 0

    def who(self) -> bytes:
        """A process that a line may name."""
        single = [part.name for part in self.maker.parts if part.least is None]
        return self.dice.choice([b"self", *single, *([b"each"] * 3 if self.looped else [])])

    def key(self, needs_each: bool) -> bytes:
        """A key or a name."""
        dice = self.dice
        base = dice.choice(RESERVED if dice.random() < 0.04 else KEYS[: dice.choice((2, 3, 10))])
        indices = [self.who() for _ in range(dice.choice((0, 0, 1, 1, 2)))]
        if needs_each and self.looped and b"each" not in indices:
            indices.insert(dice.randrange(len(indices) + 1), b"each")
        is_bare = not indices and base != b"*"
        return base if is_bare else b"%s[%s]" % (base, b",".join(indices or [self.who()]))

    def some_set(self) -> bytes:
        """A set that has the caller, and in a loop `each` but not the loop's groups."""
        dice, part = self.dice, self.part
        if not self.looped and dice.random() < 0.6:
            return dice.choice((b"all", b"all", part.job + b":*"))
        is_own = not self.looped or part in self.looped
        items = [b"self"] if is_own else [dice.choice((b"self", part.name))]
        others = [each_part for each_part in self.maker.parts if each_part not in self.looped]
        items += [dice.choice(others).name] if others and dice.random() < 0.4 else []
        jobs = {each_part.job for each_part in self.maker.parts} - {
            each_part.job for each_part in self.looped
        }
        items += [dice.choice(sorted(jobs)) + b":*"] if jobs and dice.random() < 0.15 else []
        items += [b"each"] if self.looped else []
        dice.shuffle(items)
        return b",".join(items)

    def call(self, verb: bytes) -> Words:
        """A call line."""
        dice = self.dice
        if verb == b"fence":
            return [verb, self.some_set(), b"collect"][: dice.choice((2, 3, 3))]
        if verb in (b"get", b"get-now"):
            owner = self.who()
            return [verb, owner, self.key(owner != b"each")]
        if verb == b"put":
            self.waits = True
            return [verb, dice.choice(SCOPES), self.key(True), self.value()]
        if verb == b"commit":
            self.waits = False
            return [verb]
        if verb == b"unpublish" and not self.looped and dice.random() < 0.5:
            return [verb, b"*"]
        return [verb, self.key(True), *([self.value()] if verb == b"publish" else [])]

    def value(self) -> bytes:
        return b"v" if self.dice.random() < 0.8 else self.dice.choice(VALUES)

    def verbs(self, mode: Sequence[bytes]) -> list[bytes]:
        """The verbs of the lines of a loop."""
        dice = self.dice
        if mode == SOME:
            its = dice.choice((READING, OPTIONAL))
        else:
            its = dice.choice(([b"fence"], [b"put"], [b"get-now"], self.maker.verbs))
        verbs = [dice.choice(its) for _ in range(dice.choice((0, 1, 1, 1, 2, 2, 3)))]
        return [verb for verb in verbs if verb != b"commit"]

    def loop(self) -> None:
        """A loop over a group, if there is one, or over several roles."""
        dice, groups = self.dice, [part for part in self.maker.parts if part.least is not None]
        if not groups:
            return
        self.looped, waited = [dice.choice(groups)], self.waits
        mode = dice.choice((PLAIN, PLAIN, PLAIN, CYCLIC, SOME))
        if mode != CYCLIC:
            self.looped = self.maker.more_roles(self.looped[0])
        self.lines.append(head_of(self.looped, mode))
        verbs = self.verbs(mode)
        self.lines += [self.call(verb) for verb in verbs]
        if b"put" in verbs and not waited and dice.random() < 0.5:
            self.lines.append(self.call(b"commit"))
        self.lines.append([b"end"])
        self.looped, self.waits = [], self.waits or waited

    def fill(self, rounds: int) -> list[Words]:
        """The lines of a script of so many rounds."""
        dice, meets = self.dice, self.maker.meets
        for n in range(rounds):
            for _ in range(dice.choice((0, 1, 1, 2, 3))):
                if dice.random() < 0.5:
                    self.loop()
                else:
                    self.lines.append(self.call(dice.choice(self.maker.verbs)))
            if self.waits and dice.random() < 0.8:
                self.lines.append(self.call(b"commit"))
            if dice.random() < self.maker.met:
                self.lines.append(meets[n])
        return self.lines


class Maker:
    """Makes patterns of the whole language."""

    VERBS = b"put put put commit get get get-now get-now get-now publish lookup lookup-wait fence"

    def __init__(self, dice: random.Random) -> None:
        self.dice = dice
        self.verbs = self.VERBS.split() + [b"unpublish"] * (dice.random() < 0.2)
        if dice.random() < 0.6:
            names = (b"publish", b"unpublish", b"lookup", b"lookup-wait")
            self.verbs = [verb for verb in self.verbs if verb not in names]
        self.jobs = list(JOBS[:2]) if dice.random() < 0.9 else dice.sample(JOBS, 2)
        self.jobs = self.jobs[: dice.choice((1, 1, 2))]
        self.parts = self.all_parts()
        # What all scripts do between their rounds, unless they forget.
        everywhere = b",".join(job + b":*" for job in self.jobs)
        meeting = [b"fence", b"all" if len(self.jobs) == 1 else everywhere, b"collect"]
        self.meets = [meeting[: dice.choice((2, 3, 3, 3))] for _ in range(3)]
        self.met = dice.choice((0, 0.9, 1, 1, 1))
        self.rounds = dice.choice((1, 1, 2, 2, 3))

    def all_parts(self) -> list[Part]:
        """The roles, of which at most three are groups."""
        dice, parts = self.dice, list[Part]()
        names = list(ROLES[:5]) if dice.random() < 0.9 else dice.sample(ROLES, 5)
        for name in names[: dice.choice((1, 2, 2, 2, 3, 3, 4))]:
            groups = sum(part.least is not None for part in parts)
            is_group = dice.random() < (0.75 if groups < 2 else 0.1)
            least = dice.choice((0, 0, 0, 1, 2, 4)) if is_group else None
            parts.append(Part(dice.choice(self.jobs), name, least))
        return sorted(parts, key=lambda part: self.jobs.index(part.job))

    def more_roles(self, group: Part) -> list[Part]:
        """The roles of a loop over a group: sometimes others too, or another."""
        dice, parts = self.dice, self.parts
        if dice.random() < 0.75:
            return [group]
        return dice.sample(parts, dice.randint(1, len(parts)))

    def looped(self, group: Part, mode: Sequence[bytes], lines: list[Words]) -> list[Words]:
        """Lines as a loop over a group, and perhaps other roles."""
        roles = [group] if mode == CYCLIC else self.more_roles(group)
        return [head_of(roles, mode), *lines, [b"end"]]

    def lines(self) -> list[Words]:
        """The lines, each a list of words."""
        dice = self.dice
        lines = [[b"pattern", b"1"], *([[b"keep"]] if dice.random() < 0.3 else [])]
        for job in self.jobs:
            lines.append([b"job", job])
            for part in (each_part for each_part in self.parts if each_part.job == job):
                least = [b"min", b"%d" % part.least] if part.least else []
                kind = b"one" if part.least is None else b"many"
                lines += [[kind, part.name, *least], *self.script(part)]
        return lines

    def script(self, part: Part) -> list[Words]:
        """The lines of a role's script."""
        return Script(self, part).fill(self.rounds)


class Deal(NamedTuple):
    """A key or a name that a role writes for others to read: whether it is a name, its base, who
    writes it, and for whom: for a group one each, or for all alike (None)."""

    is_name: bool
    base: bytes
    writer: Part
    group: Part | None


class DealMaker(Maker):
    """Makes patterns whose roles read what others write, before or after they all meet."""

    def __init__(self, dice: random.Random) -> None:
        super().__init__(dice)
        self.met = dice.choice((0.8, 1, 1, 1))
        groups = [part for part in self.parts if part.least is not None]
        names = dice.choice((0, 0, 0.3, 1))
        self.deals = [
            Deal(dice.random() < names, base, dice.choice(self.parts), dice.choice([None, *groups]))
            for base in KEYS[: dice.choice((1, 2, 2, 3))]
        ]
        # In which round each deal is written. One that isn't is only read.
        self.rounds = dice.choice((2, 2, 3))
        self.when = {deal: dice.choice((0, 0, 0, 1, 5)) for deal in self.deals}
        self.gets = dice.choice(((b"get-now",), (b"get-now", b"get"), (b"get",)))
        self.lookups = dice.choice(((b"lookup",), (b"lookup-wait",), (b"lookup", b"lookup-wait")))

    def writes(self, deal: Deal) -> list[Words]:
        """The lines that write a deal."""
        dice, index = self.dice, b"[each]" if deal.group else b""
        if deal.is_name:
            own = b"self,each" if deal.group else b"self"
            key = b"%s[%s]" % (deal.base, own) if dice.random() < 0.8 else deal.base + index
            lines = [[b"publish", key, b"v"]]
        else:
            lines = [[b"put", dice.choice(SCOPES), deal.base + index, b"v"]]
        if deal.group:
            lines = self.looped(deal.group, dice.choice((PLAIN, PLAIN, CYCLIC)), lines)
        return lines if deal.is_name else [*lines, [b"commit"]]

    def reads(self, part: Part, deal: Deal) -> list[Words]:
        """The lines by which a role reads a deal, if it may."""
        dice, is_own = self.dice, deal.writer.least is not None
        if deal.group not in (None, part):
            return []
        writer = b"each" if is_own else deal.writer.name
        verb = dice.choice(self.lookups if deal.is_name else self.gets)
        if deal.is_name:
            key = b"%s[%s%s]" % (deal.base, writer, b",self" if deal.group else b"")
            lines = [[verb, key]]
        else:
            lines = [[verb, writer, deal.base + (b"[self]" if deal.group else b"")]]
        mode = dice.choice((PLAIN, PLAIN, CYCLIC, SOME))
        return self.looped(deal.writer, mode, lines) if is_own else lines

    def round(self, part: Part, number: int) -> list[Words]:
        """The lines of a role before a meeting."""
        dice, lines = self.dice, list[Words]()
        for deal in self.deals:
            if deal.writer == part and self.when[deal] == number:
                lines += self.writes(deal)
            is_early = self.when[deal] >= number
            if dice.random() < (0.15 if is_early else 0.7):
                lines += self.reads(part, deal)
        groups = [each_part for each_part in self.parts if each_part.least is not None]
        if groups and dice.random() < 0.15:
            fence = [b"fence", b"self,each", b"collect"][: dice.choice((2, 3))]
            lines += self.looped(dice.choice(groups), dice.choice((PLAIN, CYCLIC)), [fence])
        if part.least is not None and dice.random() < 0.1:
            lines.append([b"fence", part.name, b"collect"])
        if number and dice.random() < 0.05:
            lines.append([b"unpublish", b"*"])
        return lines

    def script(self, part: Part) -> list[Words]:
        lines = []
        for number in range(self.rounds):
            lines += self.round(part, number)
            if self.dice.random() < self.met and number + 1 < self.rounds:
                lines.append(self.meets[number])
        return lines


def pattern_lines(dice: random.Random) -> list[Words]:
    """The lines of a random pattern, each a list of words."""
    return dice.choice((Maker, DealMaker, DealMaker))(dice).lines()


def with_word(dice: random.Random, text: bytes) -> bytes:
    """A word takes the place of another: one of the file, of the grammar, or a number."""
    spans = [hit.span() for hit in re.finditer(rb"[^ \t\r\n]+", text)]
    if not spans:
        return text
    start, end = dice.choice(spans)
    other = dice.choice(spans)
    own = text[other[0]:other[1]]
    word = dice.choice((own, own, dice.choice(ODD_WORDS), dice.choice(NUMBERS)))
    return text[:start] + word + text[end:]


def with_item(dice: random.Random, text: bytes) -> bytes:
    """A role, or what stands in its place, takes the place of another."""
    spans = [hit.span() for hit in ITEM.finditer(text)]
    if not spans:
        return text
    start, end = dice.choice(spans)
    other = dice.choice(spans)
    item = dice.choice((text[other[0]:other[1]], *NOT_ROLES))
    return text[:start] + item + text[end:]


DAMAGES: tuple[Callable[[random.Random, bytes], bytes], ...] = (
    random_plans.cut,
    random_plans.doubled,
    random_plans.swapped,
    random_plans.with_byte,
    with_word,
    with_word,
    with_word,
    with_item,
    with_item,
    random_plans.with_lines,
    random_plans.with_lines,
)


def damaged(dice: random.Random, text: bytes) -> bytes:
    """A text with one more damage."""
    return dice.choice(DAMAGES)(dice, text)


def random_file(dice: random.Random) -> tuple[bytes, int]:
    """A random file, and how often it was damaged."""
    text = styled(dice, pattern_lines(dice))
    count = dice.choice((0, 0, 0, 0, 1, 1, 1, 2, 3, 8))
    for _ in range(count):
        text = damaged(dice, text)
    return text, count
