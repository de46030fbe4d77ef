"""A reference for patterns, slow and unproved: says what `check --pattern` must write, byte for
byte, but for the lines about larger numbers of ranks: where a call waits later, and for which
numbers of ranks every call is answered. It judges all casts to the cutoff, by the checker of
tests/models/pattern_plan.py.

Usage: python3 -m tests.models.pattern_reference [--answers] FILE
"""
import itertools
import sys
from collections import Counter, defaultdict
from collections.abc import Iterator, Sequence
from typing import NamedTuple

from tests.models import grammar, pattern_grammar
from tests.models.grammar import Refused
from tests.models.pattern_calls import Call, Script
from tests.models.pattern_grammar import Line, Loop, Pattern
from tests.models.pattern_plan import NOT_FOUND, OUTSIDE, SUCCESS, Finding, Plan, Verdict, answered


CLEAN = b"findings 0 for every number of ranks on every placement"
# What a judge can say besides, and the reference can't: it judges few sizes.
ANSWERED = b"every call is answered for every number of ranks\n"
BEYOND = (b"later ", b"every call is answered for ")
# How many turns may be left out or taken in the largest instance that is judged.
MOST_TURNS = 20
STATUSES = (SUCCESS, NOT_FOUND, OUTSIDE)


class Turn(NamedTuple):
    """A turn of a loop for a caller: the step's number in the role's script, and for whom it is."""

    step: int
    each: int


class Ranks:
    """The ranks of a pattern whose roles have these sizes, and the calls that they may make."""

    def __init__(self, pattern: Pattern, sizes: Sequence[int]) -> None:
        self.pattern, self.count = pattern, sum(sizes)
        self.role = [n for n, size in enumerate(sizes) for _ in range(size)]
        self.job = [pattern.roles[number].job for number in self.role]
        self.group = {
            role.name: [rank for rank in range(self.count) if self.role[rank] == n]
            for n, role in enumerate(pattern.roles)
        }
        numbers: Counter[int] = Counter()
        self.spelt = []
        for job in self.job:
            self.spelt.append(b"%s:%d" % (pattern.jobs[job], numbers[job]))
            numbers[job] += 1
        self.known: dict[tuple[int, int, int], Call] = {}

    def who(self, caller: int, each: int, word: bytes) -> int:
        """The rank that a word names."""
        if word in (b"self", b"each"):
            return caller if word == b"self" else each
        return self.group[word][0]

    def members(self, caller: int, each: int, item: bytes) -> list[int]:
        """The ranks of an item of a set."""
        if item in (b"self", b"each"):
            return [self.who(caller, each, item)]
        if item in self.group:
            return self.group[item]
        job = self.pattern.jobs[self.job[caller]] if item == b"all" else item[:-2]
        return [
            number for number in range(self.count) if self.pattern.jobs[self.job[number]] == job
        ]

    def item_texts(self, caller: int, each: int, item: bytes) -> list[bytes]:
        """An item of a set as the plan spells it, which is nothing for an empty group."""
        if item == b"all":
            return [self.pattern.jobs[self.job[caller]] + b":*"]
        if item.endswith(b":*"):
            return [item]
        return [self.spelt[member] for member in self.members(caller, each, item)]

    def key_text(self, caller: int, each: int, line: Line) -> bytes:
        """The key or the name of a line."""
        if line.key is None:
            return b"*" if line.verb == b"unpublish" else b""
        indices = [self.spelt[self.who(caller, each, index)] for index in line.key.indices]
        return line.key.base + (b"[%s]" % b",".join(indices) if indices else b"")

    def call(self, caller: int, each: int, line: Line) -> Call:
        """The call that a line is for a caller, in the turn for another rank."""
        place = (line.at, caller, each)
        if place not in self.known:
            self.known[place] = self.new_call(caller, each, line)
        return self.known[place]

    def new_call(self, caller: int, each: int, line: Line) -> Call:
        key, owner, words = self.key_text(caller, each, line), -1, [*line.words]
        if line.who is not None:
            owner = self.who(caller, each, line.who)
            words[1] = self.spelt[owner]
        if line.items:
            words[1] = b",".join(
                text for item in line.items for text in self.item_texts(caller, each, item)
            )
        if line.key is not None:
            words[line.key_place] = key
        members = frozenset(n for item in line.items for n in self.members(caller, each, item))
        scope = words[1] if line.verb == b"put" else b""
        collects = line.collects
        text = b" ".join(words)
        return Call(line.number, line.verb, key, scope, owner, members, collects, text)

    # The turns of loops, and scripts.

    def others(self, caller: int, loop: Loop) -> list[int]:
        """The ranks for which a loop may take a turn, in the order of its turns."""
        group = self.group[loop.group]
        if loop.mode == b"cyclic" and caller in group:
            return [number for number in group if number > caller] + [
                number for number in group if number < caller
            ]
        return [number for number in group if number != caller]

    def optional(self, caller: int) -> list[Turn]:
        """The turns that a caller may take or leave. Loops of reads alone take all of theirs: more
        reads keep every finding."""
        return [
            Turn(n, each)
            for n, step in enumerate(self.pattern.roles[self.role[caller]].steps)
            if isinstance(step, Loop) and step.is_optional
            for each in self.others(caller, step)
        ]

    def script(self, caller: int, left: frozenset[Turn]) -> Script:
        """The script of a rank that leaves these turns out."""
        calls = []
        for n, step in enumerate(self.pattern.roles[self.role[caller]].steps):
            turns = self.others(caller, step) if isinstance(step, Loop) else [caller]
            for each in turns:
                lines = step.lines if isinstance(step, Loop) else (step,)
                if Turn(n, each) not in left:
                    calls += [self.call(caller, each, line) for line in lines]
        return Script(caller, calls, left)

    def left_out(self, scripts: Sequence[Script]) -> Iterator[bytes]:
        """The turns that may be left out and aren't taken in these scripts, in words."""
        for script in scripts:
            steps = self.pattern.roles[self.role[script.rank]].steps
            for turn in self.optional(script.rank):
                if turn in script.left:
                    words = (self.spelt[script.rank], self.spelt[turn.each], steps[turn.step].at)
                    yield b"%s for %s, line %d of the file" % words

    def variants(self, caller: int) -> list[Script]:
        """The scripts of a rank by the turns that it takes. These count up as a number does, and
        the first turn of its script is the lowest bit."""
        optional = self.optional(caller)
        lefts = [
            frozenset(turn for bit, turn in enumerate(optional) if not bits >> bit & 1)
            for bits in range(1 << len(optional))
        ]
        return [self.script(caller, group) for group in lefts]

    def plans(self) -> Iterator[Plan]:
        """The plans by the turns that are taken. The first rank's count up fastest."""
        variants = [self.variants(number) for number in range(self.count)]
        for scripts in itertools.product(*reversed(variants)):
            yield Plan(self.pattern.keeps, scripts[::-1])


def sizes_of(pattern: Pattern) -> list[tuple[int, ...]]:
    """The sizes of the roles that are judged: by their sum, and then from the first role on."""
    ranges = [
        range(1 if role.least is None else role.least, role.most + 1) for role in pattern.roles
    ]
    return sorted(itertools.product(*ranges), key=lambda row: (sum(row), row))


def instance_count(pattern: Pattern) -> int:
    """How many instances are judged, placements aside."""
    count = 0
    for sizes in sizes_of(pattern):
        ranks = Ranks(pattern, sizes)
        count += 1 << sum(len(ranks.optional(number)) for number in range(ranks.count))
    return count


def placements(count: int) -> Iterator[list[int]]:
    """The node of each rank: first all apart, then each pair on one node. Nodes count up in rank
    order."""
    yield list(range(count))
    for one, other in itertools.combinations(range(count), 2):
        yield [one if number == other else number - (number > other) for number in range(count)]


# What is written.


def finding_text(ranks: Ranks, finding: Finding) -> bytes:
    """A finding as `check` writes it."""
    spelt = ranks.spelt
    (one, n), (other, m) = finding.lower, finding.higher
    kind, *about = finding.about.split(b" ")
    if not about:
        return b"rewrite %s %d %d %s" % (spelt[one], n + 1, m + 1, kind)
    if kind == b"key":
        about[0] = spelt[int(about[0])]
    place = b"%s %d %s %d" % (spelt[one], n + 1, spelt[other], m + 1)
    return b"race %s %s %s" % (place, kind, b" ".join(about))


class Written(NamedTuple):
    """A line of an instance, and the line of the pattern that it comes from: for a node that of the
    role of the first rank there."""

    text: bytes
    at: int


def written(ranks: Ranks, scripts: Sequence[Script], nodes: Sequence[int]) -> Iterator[Written]:
    """The lines of one instance of a pattern: each call as its line spells it."""
    pattern = ranks.pattern
    at = [pattern.roles[number].at for number in ranks.role]
    yield Written(b"rehearsal 2", 0)
    if pattern.keeps:
        yield Written(b"keep", 0)
    for node in range(max(nodes, default=-1) + 1):
        yield Written(b"node n%d" % node, at[[*nodes].index(node)])
    for job, name in enumerate(pattern.jobs):
        yield Written(b"job " + name, pattern.job_lines[job])
        for script in (
            each_script for each_script in scripts if ranks.job[each_script.rank] == job
        ):
            lines = [line.at for line in pattern.roles[ranks.role[script.rank]].lines]
            yield Written(b"rank n%d" % nodes[script.rank], at[script.rank])
            for call in script.calls:
                yield Written(call.text, lines[call.line - 1])


def instance_text(ranks: Ranks, scripts: Sequence[Script], nodes: Sequence[int]) -> bytes:
    """The text of one instance."""
    return text_of([each_written.text for each_written in written(ranks, scripts, nodes)])


def counterexample(ranks: Ranks, plan: Plan, nodes: Sequence[int], found: list[Finding]) -> bytes:
    """What is written of an instance with findings."""
    size = b"1 rank" if ranks.count == 1 else b"%d ranks" % ranks.count
    lines = [b"# " + finding_text(ranks, finding) for finding in found]
    ends = text_of([*lines, b"# findings %d" % len(found)])
    return b"# counterexample, %s\n" % size + instance_text(ranks, plan.scripts, nodes) + ends


def text_of(lines: Sequence[bytes]) -> bytes:
    return b"".join(line + b"\n" for line in lines)


# The largest instance.


def judge_limits(pattern: Pattern) -> None:
    """The fourth pass: raises what the largest instance that is judged is refused for. It has too
    many turns that may be left out, or with all of them taken, and all ranks apart, it is no plan
    within the limits."""
    ranks = Ranks(pattern, [role.most for role in pattern.roles])
    turns = [(rank, each_turn) for rank in range(ranks.count) for each_turn in ranks.optional(rank)]
    for rank, turn in turns[MOST_TURNS:]:
        raise Refused("TooMany", pattern.roles[ranks.role[rank]].steps[turn.step].at)
    scripts = [ranks.script(number, frozenset()) for number in range(ranks.count)]
    lines = [*written(ranks, scripts, range(ranks.count))]
    try:
        grammar.read(text_of([line.text for line in lines]))
    except Refused as why:
        raise Refused(why.name, lines[why.line - 1].at) from why


def read_pattern(text: bytes) -> Pattern:
    """The pattern of a file. Raises what it's refused for."""
    pattern = pattern_grammar.read(text)
    judge_limits(pattern)
    return pattern


# What is judged.


class Judge:
    """A pattern, the call lines that wait in an instance, and the statuses of each get-now line. A
    call line is told by its role's number and its own."""

    def __init__(self, pattern: Pattern) -> None:
        self.pattern = pattern
        self.waits: set[tuple[int, int, bytes]] = set()
        self.statuses: dict[tuple[int, int], set[bytes]] = defaultdict(set)

    def counterexample(self) -> bytes | None:
        """The first instance with findings, as it is written. If there is none, all that waits and
        all statuses are noted."""
        for sizes in sizes_of(self.pattern):
            ranks = Ranks(self.pattern, sizes)
            for plan in ranks.plans():
                verdict = Verdict(plan)
                shown = self.first_found(ranks, plan, verdict)
                if shown:
                    return shown
                self.note(ranks, plan, verdict)
        return None

    def first_found(self, ranks: Ranks, plan: Plan, verdict: Verdict) -> bytes | None:
        """The first placement of a plan with findings, as it is written."""
        if verdict.is_clean_everywhere():
            return None
        for nodes in placements(ranks.count):
            found = verdict.findings(nodes)
            if found:
                return counterexample(ranks, plan, nodes, found)
        return None

    def note(self, ranks: Ranks, plan: Plan, verdict: Verdict) -> None:
        """Notes what waits in a plan without findings, and the statuses of its get-nows."""
        for script, count in zip(plan.scripts, answered(plan)):
            role = ranks.role[script.rank]
            for call in script.calls[count:count + 1]:
                self.waits.add((role, call.line, call.verb))
            for call, at in zip(script.calls[:count], script.firsts):
                if call.verb == b"get-now":
                    known = self.statuses[role, call.line]
                    if len(known) < len(STATUSES):
                        known |= all_statuses(verdict, (script.rank, at), call)

    def lines(self) -> list[bytes]:
        """What is written of a pattern without findings."""
        roles = self.pattern.roles
        least = [b"at least %d %s" % (role.least, role.name) for role in roles if role.least]
        waits = [
            b"waits %s %d %s" % (roles[pair[0]].name, *pair[1:]) for pair in sorted(self.waits)
        ]
        return [CLEAN, *least, *waits]

    def answers(self) -> Iterator[bytes]:
        """What is written of each get-now line."""
        for n, role in enumerate(self.pattern.roles):
            for line in role.lines:
                if line.verb == b"get-now":
                    known = [
                        status for status in STATUSES if status in self.statuses[n, line.number]
                    ]
                    said = b" ".join(known or [b"none"])
                    yield b"answers %s %d get-now %s" % (role.name, line.number, said)


def all_statuses(verdict: Verdict, event: tuple[int, int], call: Call) -> set[bytes]:
    """The statuses of a get-now on all placements. Only who shares its node matters."""
    ranks = len(verdict.plan.scripts)
    alone = [*range(ranks)]
    shared = [[event[0] if number == other else number for number in alone] for other in alone]
    return {verdict.status(event, call, row) for row in shared}


class Wait(NamedTuple):
    """An instance in which a rank waits for ever: how many ranks each role has, its text, and the
    turns that it leaves out, in words."""

    ranks: Ranks
    text: bytes
    left: list[bytes]

    def words(self) -> bytes:
        """How many ranks it has, and each of its groups."""
        said = b"1 rank" if self.ranks.count == 1 else b"%d ranks" % self.ranks.count
        for role in self.ranks.pattern.roles:
            if role.least is not None:
                said += b", %s=%d" % (role.name, len(self.ranks.group[role.name]))
        return said

    def line(self) -> bytes:
        """The line above who waits."""
        return b"ranks wait for ever with %s:\n" % self.words()

    def not_taken(self) -> bytes:
        """The lines about the turns that it leaves out."""
        lines = [b"    %s\n" % turn for turn in self.left]
        return b"  turns not taken:\n" + b"".join(lines) if lines else b""


def find_first_wait(pattern: Pattern) -> Wait | None:
    """The first instance that is judged in which a rank waits for ever."""
    for sizes in sizes_of(pattern):
        ranks = Ranks(pattern, sizes)
        for plan in ranks.plans():
            ends = zip(plan.scripts, answered(plan))
            if any(count < len(script.calls) for script, count in ends):
                text = instance_text(ranks, plan.scripts, range(ranks.count))
                return Wait(ranks, text, [*ranks.left_out(plan.scripts)])
    return None


def judge(text: bytes) -> tuple[int, bytes, bytes]:
    """The exit status, what is written, and what `--answers` adds."""
    judge = Judge(read_pattern(text))
    shown = judge.counterexample()
    if shown:
        return 1, shown, b""
    return 0, text_of(judge.lines()), text_of([*judge.answers()])


def without_answered(wrote: bytes) -> bytes:
    """What is written without the lines about larger numbers of ranks."""
    return b"".join(line for line in wrote.splitlines(True) if not line.startswith(BEYOND))


def main(words: list[str]) -> int:
    answers = words[:1] == ["--answers"]
    if len(words) != 1 + answers:
        sys.exit(__doc__)
    with open(words[-1], "rb") as file:
        given = file.read()
    try:
        status, said, more = judge(given)
    except Refused as why:
        sys.stderr.buffer.write(why.said())
        return 2
    sys.stdout.buffer.write(said + (more if answers else b""))
    return status


if __name__ == "__main__":
    sys.exit(main(sys.argv[1:]))
