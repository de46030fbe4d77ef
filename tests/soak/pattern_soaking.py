"""Holds the program, on one pattern, to the reference (pattern_reference.py) and to itself.

- A file that the second reader (pattern_grammar.py) refuses is refused by every command with the
  fault and the line that this reader names.
- `check --pattern` writes what the reference writes, with `--answers` and without; the same about
  the file, standard input, and the file with comments, blank lines, tabs and carriage returns
  added. That every call is answered is said only where none waits.
- A counterexample is a plan of which `check` finds what the counterexample says.
- Of a pattern without findings, `check` finds nothing in instances that are larger than those that
  are judged: 4 to 8 ranks of a group, any turns, and any placement. No get-now there has a status
  that `--answers` doesn't list, also where ranks wait. If it is said that every call is answered,
  none of these waits.
- With `--complete` the same is written. The status is 0 only if it is said that every call is
  answered, and then each succeeds in an instance of a size that is judged.
- `expand` writes the plan of an instance in which all turns are taken, as the reference has it.

A pattern with too many instances for the reference is held to all of this but the second, and one
with very many isn't looked at.
"""
import functools
import json
import random
import subprocess
from typing import NamedTuple

from tests.models import grammar, pattern_grammar, pattern_reference
from tests.models.pattern_calls import Script
from tests.models.pattern_reference import ANSWERED, CLEAN, Ranks, without_answered
from tests.soak.random_plans import styled
from tests.soak.soak_runner import Difference, Ran, Runner, same


# Patterns of more instances aren't held to the reference, or not looked at.
MOST_INSTANCES, MOST_LOOKED_AT = 200, 4_096
# How many larger instances are looked at, how many ranks of each group they have, and how many
# calls in all they may have.
LARGER, LARGER_SIZES, MOST_CALLS = 4, (4, 8), 4_000
CHECK, ANSWERS = ("check", "--pattern"), ("check", "--pattern", "--answers")


# The statuses of each get-now line, by the name of its role and its number.
Statuses = dict[tuple[bytes, int], frozenset[bytes]]


class Instance(NamedTuple):
    """One instance of a pattern: its ranks with their scripts, and the node of each."""

    ranks: Ranks
    scripts: list[Script]
    nodes: list[int]

    @property
    def text(self) -> bytes:
        return pattern_reference.instance_text(self.ranks, self.scripts, self.nodes)


@functools.cache
def takes(program: str, words: tuple[str, ...]) -> bool:
    """Whether a program takes these words with a pattern."""
    ran = subprocess.run(
        [program, *words], input=b"pattern 1\n", capture_output=True, check=False
    )
    return not ran.returncode


def has_patterns(program: str) -> bool:
    """Whether a program checks patterns."""
    return takes(program, CHECK)


def has_answers(program: str) -> bool:
    """Whether a program says with which statuses a get-now of a pattern is answered."""
    return takes(program, ANSWERS)


@functools.cache
def has_expand(program: str) -> bool:
    """Whether a program writes instances of patterns."""
    ran = subprocess.run([program, "expand", "--help"], capture_output=True, check=False)
    return not ran.returncode


def known(ran: Ran) -> Ran:
    """How a run ended, without the line that the reference can't say."""
    return ran._replace(wrote=without_answered(ran.wrote))


def read_statuses(wrote: bytes) -> Statuses:
    """The statuses of each get-now line, of what `--answers` wrote."""
    lines = [
        each_line.split(b" ")
        for each_line in wrote.splitlines()
        if each_line.startswith(b"answers ")
    ]
    return {(role, int(line)): frozenset(told) for _, role, line, _, *told in lines}


def canonical_nodes(nodes: list[int]) -> list[int]:
    """The same placement, with nodes that count up in rank order."""
    seen: dict[int, int] = {}
    return [seen.setdefault(node, len(seen)) for node in nodes]


def random_instance(
    pattern: pattern_grammar.Pattern, dice: random.Random, few: int, many: int
) -> Instance:
    """A random instance on a random placement, with so many ranks of each group, or as many as need
    be."""
    sizes = [
        1 if role.least is None else dice.randint(max(few, role.least), max(many, role.least))
        for role in pattern.roles
    ]
    ranks = Ranks(pattern, sizes)
    taken = dice.choice((0, 0.3, 0.7, 1))
    scripts = [
        ranks.script(
            number, frozenset(at for at in ranks.optional(number) if dice.random() >= taken)
        )
        for number in range(ranks.count)
    ]
    hosts = dice.choice((1, 2, 3, 64))
    nodes = canonical_nodes([dice.randrange(hosts) for _ in scripts])
    return Instance(ranks, scripts, nodes)


def placed(count: int, size: int) -> list[tuple[list[str], list[int]]]:
    """The options of `expand` that place so many ranks, each with the nodes: all apart, so many on
    each node, and in turn on so many nodes."""
    return [
        ([], [*range(count)]),
        (["--per-node", str(size)], [number // size for number in range(count)]),
        (["--by", "node", "--nodes", str(size)], [number % size for number in range(count)]),
    ]


class Look:
    """All looks at one pattern. The dice choose what is asked."""

    def __init__(
        self, runner: Runner, text: bytes, pattern: pattern_grammar.Pattern, seed: int
    ) -> None:
        self.runner, self.text, self.pattern = runner, text, pattern
        self.dice = random.Random(seed)
        self.path = runner.written("it.pattern", text)

    def at_all(self) -> str:
        """Looks at all of it. Answers whether it has findings."""
        said = self.runner.run(*CHECK, self.path)
        words = ANSWERS if has_answers(self.runner.program) else CHECK
        longest = self.runner.run(*words, self.path)
        if pattern_reference.instance_count(self.pattern) <= MOST_INSTANCES:
            status, wrote, more = pattern_reference.judge(self.text)
            name = "another answer of check --pattern than the reference's"
            same(name, Ran(status, wrote, b""), known(said), "check --pattern")
            if words == ANSWERS:
                wanted = Ran(status, wrote + more, b"")
                same(name, wanted, known(longest), "check --pattern --answers")
            self.runner.held["check --pattern"] += 1
        self.at_inputs(words, longest)
        if has_expand(self.runner.program):
            self.at_expanded()
        if said.status:
            self.at_counterexample(said)
            return "with findings"
        same("the first line of a pattern without findings", CLEAN, said.wrote.split(b"\n")[0])
        is_answered = ANSWERED in said.wrote
        if is_answered and b"\nwaits " in said.wrote:
            raise Difference("every call is answered, and one waits", said.wrote.decode())
        self.at_larger(is_answered, read_statuses(longest.wrote) if words == ANSWERS else None)
        self.at_complete(said, is_answered)
        return "without findings"

    def at_inputs(self, words: tuple[str, ...], said: Ran) -> None:
        """The same from standard input, and in another spelling."""
        name, run = "another answer of check --pattern", self.runner.run
        same(name, said, run(*words, given=self.text), "a file and standard input")
        lines = [line for _, line in grammar.lines_of(self.text)[0]]
        other = styled(self.dice, lines)
        same(name, said, run(*words, given=other), "other spaces and comments")

    def at_counterexample(self, said: Ran) -> None:
        """A counterexample is a plan with the findings that it tells."""
        lines = [line for line in said.wrote.splitlines(True) if line.startswith(b"# ")][1:]
        found = b"".join(line.removeprefix(b"# ") for line in lines)
        checked = self.runner.run("check", given=said.wrote)
        same("a counterexample that has other findings", Ran(1, found, b""), checked)

    def at_larger(self, is_answered: bool, listed: Statuses | None) -> None:
        """Nothing is found in larger instances; where every call is answered, no rank waits; and
        their get-nows have no other statuses than are listed."""
        for _ in range(LARGER):
            instance = random_instance(self.pattern, self.dice, *LARGER_SIZES)
            is_plan = instance.ranks.count <= grammar.LIMITS[b"2"].ranks
            if is_plan and sum(len(script.calls) for script in instance.scripts) <= MOST_CALLS:
                text = instance.text
                checked = self.runner.run("check", given=text)
                if checked.status != 2:
                    found = "findings in a larger instance of a clean pattern"
                    same(found, Ran(0, b"findings 0\n", b""), checked, text)
                    self.runner.held["a larger instance"] += 1
                if checked.status == 0 and is_answered:
                    self.at_answered(text)
                if checked.status == 0 and listed is not None:
                    self.at_statuses(instance, listed)

    def at_answered(self, plan: bytes) -> None:
        """No rank of an instance waits."""
        last = self.runner.run("replay", given=plan).wrote.splitlines()[-1]
        same("a call waits in a pattern that is answered", b"waiting 0", last, plan)
        self.runner.held["an answered instance"] += 1

    def at_statuses(self, instance: Instance, listed: Statuses) -> None:
        """Each get-now of an instance that is answered has a status that is listed for its line."""
        report = json.loads(self.runner.run("replay", "--json", given=instance.text).wrote)
        waits = "where ranks wait" if report["waiting"] else "where none waits"
        for script, ended in zip(instance.scripts, report["ranks"]):
            role = self.pattern.roles[instance.ranks.role[script.rank]].name
            for call, told in zip(script.calls, ended["calls"]):
                status = told["reply"].encode()
                if call.verb == b"get-now" and status.startswith(b"PMIX_"):
                    if status not in listed[role, call.line]:
                        where = (role, call.line, status, instance.text)
                        raise Difference("a status that isn't listed", repr(where))
                    self.runner.held[f"a status {waits}"] += 1

    def at_complete(self, said: Ran, is_answered: bool) -> None:
        """What `--complete` says by its status."""
        ran = self.runner.run(*CHECK, "--complete", self.path)
        same("other lines with --complete", said.wrote, ran.wrote)
        if ran.status:
            return
        same("a complete pattern that isn't answered", True, is_answered)
        judged = random_instance(self.pattern, self.dice, 0, 3)
        apart = judged._replace(nodes=[*range(judged.ranks.count)]).text
        replayed = self.runner.run("replay", "--complete", given=apart)
        same("a call that fails in a complete pattern", 0, replayed.status, apart)
        self.runner.held["a complete instance"] += 1

    def at_expanded(self) -> None:
        """The plan of one instance."""
        sizes = [
            1
            if each_role.least is None
            else self.dice.randint(each_role.least, max(5, each_role.least))
            for each_role in self.pattern.roles
        ]
        ranks = Ranks(self.pattern, sizes)
        scripts = [ranks.script(number, frozenset()) for number in range(ranks.count)]
        counts = [
            b"%s=%d" % (role.name, size)
            for role, size in zip(self.pattern.roles, sizes)
            if role.least is not None
        ]
        words, nodes = self.dice.choice(placed(ranks.count, self.dice.choice((1, 2, 3))))
        # A name may begin with a dash.
        told = ["--ranks=" + b",".join(counts).decode()] if counts else []
        wanted = Instance(ranks, scripts, nodes).text
        ran = self.runner.run("expand", *told, *words, self.path)
        same("another text of expand", Ran(0, wanted, b""), ran, [*told, *words])
        self.runner.held["expand"] += 1


def at_refusal(runner: Runner, text: bytes, said: bytes) -> None:
    """Each command refuses a pattern alike."""
    refused, path = Ran(2, b"", said), runner.written("it.pattern", text)
    longest = ANSWERS if has_answers(runner.program) else CHECK
    for words in (CHECK, longest):
        two = "the second reader's and the program's"
        same("a refusal of check --pattern", refused, runner.run(*words, path), two)
    same("a refusal of a pattern from standard input", refused, runner.run(*CHECK, given=text))


def look(runner: Runner, text: bytes, seed: int) -> str:
    """Looks at a pattern. Answers whether it was refused, or has findings, or has none, or is too
    large to look at. Raises a difference."""
    try:
        pattern = pattern_reference.read_pattern(text)
    except grammar.Refused as why:
        at_refusal(runner, text, why.said())
        return "refused"
    if pattern_reference.instance_count(pattern) > MOST_LOOKED_AT:
        return "too large"
    return Look(runner, text, pattern, seed).at_all()


def difference_of(runner: Runner, text: bytes, seed: int) -> tuple[Difference | None, str]:
    """The difference that a pattern shows, or None, and what kind of file it is."""
    try:
        return None, look(runner, text, seed)
    except Difference as failure:
        return failure, "different"
