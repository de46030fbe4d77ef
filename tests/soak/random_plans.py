"""Makes random plans, as lines and as files that may be damaged."""
import random
import re
from collections import defaultdict
from collections.abc import Callable, Sequence

from tests.models import grammar


NAMES = [
    b"app",
    b"a",
    b"b",
    b"all",
    b"n0",
    b"tool",
    b"j" * 63,
    b"!\"$%&'()",
    b"collect",
    b"-",
    b"0",
]
KEYS = [
    b"k",
    b"m",
    b"card",
    b"x",
    b"y",
    b"#k",
    b"**",
    b":",
    b"k" * 63,
    b'q"\\',
    b"all",
    b"-1",
]
RESERVED = [
    b"PMIX_RANK",
    b"PMIX_LOCAL_RANK",
    b"PMIX_NODE_RANK",
    b"PMIX_JOB_SIZE",
    b"PMIX_HOSTNAME",
    b"pmix.x",
    b"PMIX_",
    b"pmix",
]
VALUES = [
    b"v",
    b"1",
    b"w",
    b'"',
    b"\\",
    b'\\"q\\',
    b"v" * 255,
    b"#",
    b"*",
    b"{}",
    b"\\u0000",
    b"~!",
]
NUMBERS = b"0 00 01 1 2 63 64 65 255 256 16384 999999999 1000000000 9999999999 -1 +1".split() + [
    b"9" * 30
]
WORDS = b"rehearsal node job rank * all collect all,app:0 , : app:* app:00 # keep".split()
WORDS += [b"rehearsal 1", b"rehearsal 2", b"\t", b"k" * 64, b"v" * 256]
WORDS += [*grammar.SHAPES, *grammar.SCOPES]
VERBS = b"put put commit commit fence fence get get get-now get-now publish lookup lookup-wait"
VERBS_OF = [*VERBS.split(), b"unpublish"]
# A line of a plan.
Words = list[bytes]


class Maker:
    """Makes plans of the whole grammar."""

    def __init__(self, dice: random.Random) -> None:
        self.dice = dice
        self.is_tame = dice.random() < 0.4
        numbered = [b"n%d" % n for n in range(4)] + NAMES
        self.nodes = dice.sample(numbered, dice.choice((1, 1, 2, 2, 3, 5)))
        self.jobs = dice.sample(NAMES[:10], dice.choice((1, 1, 1, 2, 2, 3)))
        self.sizes = [dice.choice((0, 1, 2, 2, 2, 3, 3, 3, 4, 6)) for _ in self.jobs]
        if dice.random() < 0.01:
            self.sizes[0] = dice.choice((40, 255, 256, 257, 512, 513))
        self.procs = self.all_procs()
        self.puts: dict[bytes, list[bytes]] = defaultdict(list)
        self.published: list[bytes] = []
        self.version = dice.choice((b"1", b"2", b"2"))
        self.stars = 0.01 if self.version == b"1" else 0.4

    def all_procs(self) -> list[bytes]:
        """The PROC of each rank of each job."""
        sizes = zip(self.jobs, self.sizes)
        return [b"%s:%d" % (job, rank) for job, size in sizes for rank in range(size)]

    def proc(self) -> bytes:
        return self.dice.choice(self.procs)

    def some_set(self, caller: bytes) -> bytes:
        """A SET that has the caller, in most cases."""
        dice, job = self.dice, caller.partition(b":")[0]
        kind = dice.random()
        if kind < 0.4:
            return b"all"
        if kind < 0.5:
            return job + b":*"
        count = dice.choice((0, 1, 1, 2, 3))
        items = [caller]
        items += [dice.choice((self.proc(), dice.choice(self.jobs) + b":*")) for _ in range(count)]
        if dice.random() < 0.02:
            items.pop(0)
        dice.shuffle(items)
        return b",".join(items) or b"all"

    def call(self, caller: bytes) -> Words:
        """One call, of any kind."""
        dice = self.dice
        verb = dice.choice(VERBS_OF)
        if dice.random() < 0.12:
            key = dice.choice(RESERVED)
        else:
            key = dice.choice(KEYS[: dice.choice((1, 2, 3, 12))])
        if verb == b"put":
            return [verb, dice.choice(grammar.SCOPES), key, dice.choice(VALUES)]
        if verb == b"commit":
            return [verb]
        if verb == b"fence":
            return [verb, self.some_set(caller), b"collect"][: dice.choice((2, 3))]
        if verb in (b"get", b"get-now"):
            return [verb, self.proc(), key]
        if verb == b"unpublish" and dice.random() < self.stars:
            return [verb, b"*"]
        return [verb, key, dice.choice(VALUES)] if verb == b"publish" else [verb, key]

    def tame_call(self, caller: bytes) -> Words:
        """One call that races seldom: keys are put once, and waited for."""
        dice = self.dice
        kind = dice.random()
        if kind < 0.25:
            key = b"k%d" % len(self.puts[caller])
            self.puts[caller].append(key)
            scope = dice.choice((b"global", b"global", b"local", b"remote"))
            return [b"put", scope, key, dice.choice(VALUES)]
        if kind < 0.45:
            return [b"commit"]
        if kind < 0.55:
            return [b"fence", b"all", b"collect"][: dice.choice((2, 3, 3))]
        if kind < 0.62:
            return [b"fence", self.some_set(caller)]
        if kind < 0.85:
            return [b"get", self.proc(), b"k%d" % dice.choice((0, 0, 0, 1, 2))]
        return self.tame_call_on_name(kind)

    def tame_call_on_name(self, kind: float) -> Words:
        """One call on a name, or a get of a key that the map has."""
        dice = self.dice
        if kind < 0.9:
            self.published.append(b"x%d" % len(self.published))
            return [b"publish", self.published[-1], dice.choice(VALUES)]
        if kind < 0.95 and self.published:
            return [b"lookup-wait", dice.choice(self.published)]
        if kind < 0.96 and self.stars > 0.1:
            return [b"unpublish", b"*"]
        return [b"get", self.proc(), dice.choice(RESERVED)]

    def head(self, keeps: float) -> list[Words]:
        """The lines above the first job, with `keep` as often as this."""
        keep = [[b"keep"]] if keeps and self.dice.random() < keeps else []
        return [[b"rehearsal", self.version], *keep, *([b"node", node] for node in self.nodes)]

    def lines(self) -> list[Words]:
        """The lines, each a list of words."""
        dice, most = self.dice, self.dice.choice((2, 4, 8, 14))
        lines = self.head(0.01 if self.version == b"1" else 0.5)
        make = self.tame_call if self.is_tame else self.call
        for job, size in zip(self.jobs, self.sizes):
            lines.append([b"job", job])
            for rank in range(size):
                lines.append([b"rank", dice.choice(self.nodes)])
                caller = b"%s:%d" % (job, rank)
                lines += [make(caller) for _ in range(dice.randrange(most + 1))]
        if self.procs and dice.random() < 0.01:
            line = dice.choice(([b"commit"], [b"fence", b"all"], [b"lookup", b"x"]))
            lines += [line] * dice.choice((500, 16_300, 16_384, 16_385))
        return lines


class MeetingMaker(Maker):
    """Makes small plans whose ranks meet in fences. In between one of them puts most keys, and the
    others get them: with races of all kinds."""

    def __init__(self, dice: random.Random) -> None:
        super().__init__(dice)
        self.nodes = self.nodes[: dice.choice((2, 2, 3))]
        self.sizes = [min(size, 3) for size in self.sizes]
        self.procs = self.all_procs()
        self.calls: dict[bytes, list[Words]] = {proc: [] for proc in self.procs}
        self.again = dice.choice((0, 0, 0.7))
        self.owner = self.proc() if self.procs else b""

    def between(self, caller: bytes) -> list[Words]:
        """A call or two between fences."""
        dice, kind, name = self.dice, self.dice.random(), self.dice.choice((b"x", b"y"))
        if kind < (0.6 if caller == self.owner else 0.15):
            key = b"k0" if dice.random() < self.again else b"k%d" % len(self.puts[caller])
            self.puts[caller].append(key)
            scope = dice.choice((b"global", b"global", b"remote", b"local"))
            put = [b"put", scope, key, b"v%d" % len(self.puts[caller])]
            return [put, [b"commit"]][: dice.choice((1, 2, 2, 2))]
        if kind < 0.85:
            owner = self.owner if dice.random() < 0.8 else self.proc()
            verb = dice.choice((b"get", b"get-now", b"get-now"))
            return [[verb, owner, dice.choice((b"k0", b"k0", b"k0", b"k1"))]]
        if kind < 0.9:
            return [[b"commit"]]
        star = [b"unpublish", b"*"] if self.stars > 0.1 else [b"unpublish", name]
        calls = [b"publish", name, b"w"], [b"lookup", name], [b"lookup-wait", name], star
        return [dice.choice(calls)]

    def meet(self) -> None:
        """A fence, which a rank may miss or come to without collecting."""
        dice, job = self.dice, self.dice.choice(self.jobs)
        members = [proc for proc in self.procs if proc.partition(b":")[0] == job]
        if dice.random() < 0.4:
            count = min(len(self.procs), dice.choice((2, 2, 3)))
            members = sorted(dice.sample(self.procs, count))
        for member in members:
            if dice.random() < 0.97:
                fence = [b"fence", b",".join(members), b"collect"]
                self.calls[member].append(fence[: 3 - (dice.random() < 0.05)])

    def fill(self) -> None:
        """Makes the calls of all ranks."""
        dice = self.dice
        for _ in range(dice.choice((1, 2, 2, 3, 4)) if self.procs else 0):
            for caller in self.procs:
                for _ in range(dice.choice((0, 1, 1, 2))):
                    self.calls[caller] += self.between(caller)
            self.meet()
        for caller in self.procs:
            self.calls[caller] += self.between(caller)

    def lines(self) -> list[Words]:
        self.fill()
        lines = self.head(0.5 if self.version == b"2" else 0)
        for job in self.jobs:
            lines.append([b"job", job])
            for caller in (proc for proc in self.procs if proc.partition(b":")[0] == job):
                lines += [[b"rank", self.dice.choice(self.nodes)], *self.calls[caller]]
        return lines


def plan_lines(dice: random.Random) -> list[Words]:
    """The lines of a random plan, each a list of words."""
    return dice.choice((Maker, Maker, MeetingMaker))(dice).lines()


def styled(dice: random.Random, lines: Sequence[Words]) -> bytes:
    """Lines as a text, with what a reader must pass over: comments, blank lines, tabs, spaces,
    carriage returns."""
    crlf, gap, ends = dice.random() < 0.3, dice.choice((0, 0.1, 0.5)), dice.random() < 0.8
    out = []
    for words in lines:
        out += passed_over(dice, gap)
        out.append(spaced(dice, gap, words))
    ending = b"\r\n" if crlf else b"\n"
    return ending.join(out) + (ending if ends else b"")


def passed_over(dice: random.Random, gap: float) -> list[bytes]:
    """Lines without words that are read."""
    out = []
    while dice.random() < gap * 0.6:
        foreign = b"#" + bytes(dice.choice((0, 13, 200, 255)) for _ in range(3))
        out.append(dice.choice((b"", b" ", b"\t", b"# note", b" \t# \xc8\x00 *", foreign)))
    return out


def spaced(dice: random.Random, gap: float, words: Words) -> bytes:
    """Words as a line."""

    def space() -> bytes:
        return dice.choice((b" ", b"  ", b"\t", b" \t ")) if dice.random() < gap else b" "

    spaces = [space() for _ in words]
    line = b"".join(text for pair in zip(words, spaces) for text in pair).rstrip()
    return (b"  " if dice.random() < gap else b"") + line + (b" \t" if dice.random() < gap else b"")


def cut(dice: random.Random, text: bytes) -> bytes:
    at = dice.randrange(len(text) + 1)
    return text[:at] + text[at + dice.choice((1, 1, 2, 5, 20, len(text))):]


def doubled(dice: random.Random, text: bytes) -> bytes:
    at, size = dice.randrange(len(text) + 1), dice.choice((1, 1, 2, 5, 20))
    return text[: at + size] + text[at:at + size] + text[at + size:]


def swapped(dice: random.Random, text: bytes) -> bytes:
    if len(text) < 2:
        return text
    i, j = sorted(dice.sample(range(len(text)), 2))
    return text[:i] + text[j:j + 1] + text[i + 1:j] + text[i:i + 1] + text[j + 1:]


def with_byte(dice: random.Random, text: bytes) -> bytes:
    at = dice.randrange(len(text) + 1)
    odd = 0, 9, 10, 13, 13, 32, 35, 42, 44, 58, 127, 128, 200, 255, dice.randrange(256)
    return text[:at] + bytes([dice.choice(odd)]) + text[at + dice.choice((0, 1)):]


def with_word(dice: random.Random, text: bytes) -> bytes:
    """A word takes the place of another: one of the file, of the grammar, or a number."""
    spans = [hit.span() for hit in re.finditer(rb"[^ \t\r\n]+", text)]
    if not spans:
        return text
    start, end = dice.choice(spans)
    other = dice.choice(spans)
    own = text[other[0]:other[1]]
    word = dice.choice((own, own, dice.choice(WORDS), dice.choice(NUMBERS)))
    return text[:start] + word + text[end:]


def with_number(dice: random.Random, text: bytes) -> bytes:
    spans = [hit.span() for hit in re.finditer(rb"[0-9]+", text)]
    if not spans:
        return text
    start, end = dice.choice(spans)
    return text[:start] + dice.choice(NUMBERS) + text[end:]


def with_lines(dice: random.Random, text: bytes) -> bytes:
    """A line is left out, doubled, or comes elsewhere."""
    lines = text.split(b"\n")
    line = lines.pop(dice.randrange(len(lines))) if dice.random() < 0.7 else dice.choice(lines)
    for _ in range(dice.choice((0, 1, 1, 2))):
        lines.insert(dice.randrange(len(lines) + 1), line)
    return b"\n".join(lines)


DAMAGES: tuple[Callable[[random.Random, bytes], bytes], ...] = (
    cut,
    doubled,
    swapped,
    with_byte,
    with_word,
    with_word,
    with_number,
    with_lines,
)


def damaged(dice: random.Random, text: bytes) -> bytes:
    """A text with one more damage."""
    return dice.choice(DAMAGES)(dice, text)


def random_file(dice: random.Random) -> tuple[bytes, int]:
    """A random file, and how often it was damaged."""
    text = styled(dice, plan_lines(dice))
    count = dice.choice((0, 0, 0, 1, 1, 1, 1, 2, 3, 8))
    for _ in range(count):
        text = damaged(dice, text)
    return text, count
