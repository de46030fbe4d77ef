"""What `check --anywhere` must say of a plan, by `check` and `replay` of each of its placements."""
from collections.abc import Callable, Iterator

from tests.models import grammar, placements


# What a command writes of a plan.
Answer = Callable[[list[str], bytes], bytes]
GETS = {b"get", b"get-now"}


class Everywhere:
    """A plan, and what comes of it on each placement of its ranks."""

    def __init__(self, scripts: grammar.Scripts, answer: Answer) -> None:
        self.scripts, self.answer = scripts, answer
        words = [placements.proc_word(scripts, n) for n in range(len(scripts.procs))]
        self.numbers = {word.encode(): n for n, word in enumerate(words)}
        self.texts = [grammar.canonical(placement) for placement in placements.placements(scripts)]
        self.found = [self.findings(text) for text in self.texts]

    def findings(self, text: bytes) -> list[bytes]:
        """The findings of a plan as it is written."""
        return self.answer(["check"], text).splitlines()[:-1]

    def apart(self, *ranks: int) -> bytes:
        """The plan with these ranks on a node of their own."""
        return grammar.canonical(placements.placed(self.scripts, ranks))

    def key_of_order(self, line: bytes) -> tuple[object, ...]:
        """By what a finding is sorted: the rewrites first, by their later put."""
        words = line.split(b" ")
        if words[0] == b"rewrite":
            return 0, self.numbers[words[1]], int(words[3])
        calls = [(self.numbers[words[at]], int(words[at + 1])) for at in (1, 3)]
        return 1, *calls, words[-1]

    def reader(self, line: bytes) -> int:
        """The rank of the get-now of a race on a key."""
        words = line.split(b" ")
        for proc, call in ((words[1], words[2]), (words[3], words[4])):
            number = self.numbers[proc]
            if self.scripts.procs[number].calls[int(call) - 1][0] == b"get-now":
                return number
        raise AssertionError(line)

    def with_pair(self, line: bytes) -> bytes:
        """A finding as it is written: a race on a key with the two ranks that need a node of their
        own, of which one is that of the get-now."""
        if b" key " not in line:
            return line
        reader = self.reader(line)
        for other in (n for n in range(len(self.scripts.procs)) if n != reader):
            pair = sorted((reader, other))
            if line in self.findings(self.apart(*pair)):
                return line + b" on " + placements.ranks_word(self.scripts, pair).encode()
        raise AssertionError(line)

    def list(self) -> list[bytes]:
        """The findings of all placements."""
        lines = {text for found in self.found for text in found}
        return [self.with_pair(line) for line in sorted(lines, key=self.key_of_order)]

    def differing(self) -> Iterator[bytes]:
        """The calls whose reply isn't the same on all placements, where nothing is found."""
        reports = [self.answer(["replay"], text).splitlines()[:-1] for text in self.texts]
        for at, lines in enumerate(zip(*reports)):
            proc, number, verb, *_ = lines[0].split(b" ")
            rank = self.numbers[proc]
            words = self.scripts.procs[rank].calls[int(number) - 1]
            is_mapped = verb in GETS and words[2].startswith((b"pmix", b"PMIX_"))
            if len(set(lines)) > 1 and not is_mapped:
                owner = self.numbers[words[1]]
                near, alone = (self.status(at, *pair) for pair in ((rank, owner), (rank,)))
                call = [proc, number, verb, b"key", words[1], words[2]]
                yield b" ".join([b"differs", *call, b"near", near, b"alone", alone])

    def status(self, at: int, *ranks: int) -> bytes:
        """The status of a call, by its line of the report, with these ranks on a node of their
        own."""
        return self.answer(["replay"], self.apart(*ranks)).splitlines()[at].split(b" ")[3]

    def verdict(self) -> bytes:
        """What `check --anywhere --same` writes."""
        found = self.list()
        lines = [*found, b"findings %d" % len(found)]
        if not found:
            differing = list(self.differing())
            lines += [*differing, b"differing %d" % len(differing)]
        return b"".join(line + b"\n" for line in lines)
