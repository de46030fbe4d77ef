"""`expand` of the built program: the plan of one instance of a pattern, and what is refused."""
import random
import resource
import unittest

from tests import support
from tests.models import grammar, pattern_reference
from tests.models.pattern_reference import Ranks
from tests.soak import pattern_soaking
from tests.soak.pattern_soaking import Instance
from tests.support.running import FULL, SPREAD_MISUSED, ProgramCase, Run, Runs, as_lines, onto


CARDS = "examples/patterns/business-cards.pattern"
# How many instances of each example are written.
INSTANCES = 8
MOST_NODES, MOST_RANKS = 64, 512
# A pattern with a single role, and a group of at least two ranks.
TEAM = as_lines(
    "pattern 1/job app/one root/put global k v/commit/many team min 2/get root k".split("/")
)
# Two groups, on the lines 3 and 5.
TEAMS = as_lines("pattern 1/job app/many first/commit/many second/commit".split("/"))
# A million ranks: of each a line for each other, of each a line that names all, or one line alone.
MANY = "workers=1000000"
EACH = as_lines("pattern 1/job app/many workers/for workers/commit/end".split("/"))
ALL = as_lines("pattern 1/job app/many workers/fence workers".split("/"))
WIDE = as_lines(["pattern 1", "job app", "many workers", "fence " + ",".join(["workers"] * 400000)])
# A loop without lines takes as many turns as any other.
EMPTY, EMPTY_RANKS, LARGE_NODES = EACH.replace(b"commit\n", b""), 400000, 65536
# With `--large` a text has 1 GiB at most, for which a vector has 2 GiB.
MEMORY, SECONDS = 6 << 30, 30
LONG_KEY = as_lines(["pattern 1", "job " + "j" * 58, "many w", "put global k[self] v"])


def cards(nodes: list[int]) -> bytes:
    """The plan of business cards, with a rank on each of these nodes."""
    lines = [b"rehearsal 2"]
    lines += [b"node n%d" % each_node for each_node in sorted(set(nodes))]
    lines.append(b"job app")
    for rank, node in enumerate(nodes):
        lines += [b"rank n%d" % node, b"put global card v", b"commit", b"fence app:* collect"]
        lines += [b"get-now app:%d card" % number for number in range(len(nodes)) if number != rank]
    return b"".join(line + b"\n" for line in lines)


def written_plans() -> Runs:
    """Instances of one pattern on all kinds of nodes."""
    yield Run("no rank", ["expand", CARDS], wrote=cards([]))
    placements: list[tuple[list[str], list[int]]] = [
        ([], [0, 1, 2]),
        (["--per-node", "2"], [0, 0, 1]),
        (["--per-node", "9"], [0, 0, 0]),
        (["--by", "node", "--nodes", "2"], [0, 1, 0]),
        (["--by", "node", "--nodes", "9"], [0, 1, 2]),
        (["--large"], [0, 1, 2]),
    ]
    for words, nodes in placements:
        told = ["expand", "--ranks", "workers=3", *words, CARDS]
        yield Run(" ".join(told), told, wrote=cards(nodes))
    apart = [number % MOST_NODES for number in range(MOST_NODES + 2)]
    told = ["expand", "--ranks", f"workers={len(apart)}", CARDS]
    yield Run("more ranks than nodes", told, wrote=cards(apart))
    wanted = cards([0, 1, 2])
    given = pattern_text(CARDS)
    told = ["expand", "--ranks", "workers=3"]
    yield Run("from standard input", told, given=given, wrote=wanted)
    yield Run(
        "onto a full device", told, given=given, status=4, said=FULL, set_up=onto("/dev/full", 1)
    )


def pattern_text(path: str) -> bytes:
    return (support.TOP / path).read_bytes()


def refusal(words: list[str], given: bytes, fault: str, number: int) -> Run:
    """A run that is refused."""
    said = grammar.Refused(fault, number).said()
    return Run(" ".join(words), ["expand", *words], given=given, status=2, said=said)


def refusals() -> Runs:
    """What is refused: the pattern, the word of the ranks, and an instance that is no plan."""
    yield refusal(["--ranks", "nobody=1"], b"pattern 2\n", "BadHeader", 1)
    for word in ("", "workers", "workers=", "workers=x", "workers=01", "workers=1000000000"):
        yield refusal(["--ranks", word], pattern_text(CARDS), "BadOrder", 1)
    yield refusal(["--ranks", "workers=1,others=2"], pattern_text(CARDS), "BadOrder", 2)
    yield refusal(["--ranks", "workers=1,workers=1"], pattern_text(CARDS), "BadOrder", 2)
    for word in ("team=1", "root=1", "root=2"):
        yield refusal(["--ranks", word], TEAM, "BadOrder", 1)
    large = f"workers={MOST_RANKS + 1}"
    yield refusal(["--ranks", large], pattern_text(CARDS), "TooMany", 4)
    # Call 32,769 is the get of rank 162 from rank 41.
    yield refusal(["--ranks", "workers=200"], pattern_text(CARDS), "TooMany", 9)
    many = ["--ranks", "workers=66", "--per-node", "1"]
    yield refusal(many, pattern_text(CARDS), "TooMany", 4)
    # The first rank on the node past the limit is the rank 128.
    for first, line in ((128, 5), (129, 3)):
        words = ["--ranks", f"first={first},second=9", "--per-node", "2"]
        yield refusal(words, TEAMS, "TooMany", line)
    yield refusal(["--ranks", "w=11"], LONG_KEY, "TooLong", 4)


def with_bounds() -> None:
    resource.setrlimit(resource.RLIMIT_AS, (MEMORY, MEMORY))
    resource.setrlimit(resource.RLIMIT_CPU, (SECONDS, SECONDS))


def endless_texts() -> Runs:
    """Texts that no memory holds, of which no more is written than tells that they are too long;
    and turns without lines, which take no time."""
    for given, line in ((EACH, 5), (ALL, 4), (WIDE, 4)):
        run = refusal(["--ranks", MANY, "--large"], given, "TooLong", line)
        yield run._replace(name=f"{run.name}: {given[:60]!r}", set_up=with_bounds)
    lines = ["rehearsal 2", *(f"node n{number}" for number in range(LARGE_NODES)), "job app"]
    lines += [f"rank n{number % LARGE_NODES}" for number in range(EMPTY_RANKS)]
    told = ["expand", "--ranks", f"workers={EMPTY_RANKS}", "--large"]
    yield Run("turns without lines", told, EMPTY, wrote=as_lines(lines), set_up=with_bounds)


def usages() -> Runs:
    """Words that are no command line."""
    yield Run("help on expand", ["expand", "--help"], wrote=(b"Usage: wire_up expand",))
    for words in (
        "--per-node 0",
        "--per-node x",
        "--by node",
        "--nodes 2",
        "--by rank --nodes 2",
        "--by node --nodes 0",
        "--per-node 1 --by node --nodes 1",
    ):
        told = ["expand", *words.split(" "), CARDS]
        yield Run(words, told, status=5, said=SPREAD_MISUSED)


class Expand(ProgramCase):
    """`expand` of the built program."""

    @classmethod
    def setUpClass(cls) -> None:
        super().setUpClass()
        if not pattern_soaking.has_expand(cls.program):
            raise unittest.SkipTest("this wire_up has no expand")

    def test_written_plans(self) -> None:
        self.hold_all(written_plans())

    def test_refusals(self) -> None:
        self.hold_all(refusals())

    def test_endless_texts(self) -> None:
        self.hold_all(endless_texts())

    def test_usages(self) -> None:
        self.hold_all(usages())

    def test_examples(self) -> None:
        """Instances of all examples, as the reference has them."""
        verdicts = (support.TOP / "tests" / "examples" / "patterns").glob("*.verdict")
        for path in sorted(verdicts):
            file = f"{support.TOP}/examples/patterns/{path.stem}.pattern"
            pattern = pattern_reference.read_pattern(pattern_text(file))
            for number in range(INSTANCES):
                dice = random.Random(number)
                sizes = [
                    1
                    if each_role.least is None
                    else dice.randint(each_role.least, max(6, each_role.least))
                    for each_role in pattern.roles
                ]
                ranks = Ranks(pattern, sizes)
                scripts = [
                    ranks.script(each_number, frozenset()) for each_number in range(ranks.count)
                ]
                named = [
                    f"{role.name.decode()}={size}"
                    for role, size in zip(pattern.roles, sizes)
                    if role.least is not None
                ]
                told = ["--ranks", ",".join(named)] if named else []
                wanted = Instance(ranks, scripts, [*range(ranks.count)]).text
                with self.subTest(file, sizes=sizes):
                    self.hold(Run(file, ["expand", *told, file], wrote=wanted))


if __name__ == "__main__":
    unittest.main()
