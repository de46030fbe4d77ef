"""What the checker finds in a plan: its findings in groups, of which each is one mistake.

They are taken from the JSON of `wire_up check --lines`, unless its lines say that there are too
many. The JSON has of each group its first finding and how many there are: the others of a group
are the findings of the same mistake.
"""
import collections
import contextlib
import dataclasses
import enum
import itertools
import json
import re
from collections.abc import Iterable, Sequence
from dataclasses import dataclass, field
from typing import Any

from wire_up_tools.plan import Call, Plan
from wire_up_tools.report.asking import Asker, stream_lines

# How many pairs of a group are listed besides its first.
PAIRS = 40
# The JSON is read of no more findings than this. Of more, the groups are read as lines, and pairs
# are taken from the first findings.
READ_AS_JSON, PAIRED = 20_000, 20_000
# A plan of at most so many calls can't have more findings: its JSON is read at once.
FEW_CALLS = 200
# How many groups are read.
MOST_GROUPS = 20_000
# The two lines of a group, and the last line.
CALL = r"(?P<rank>\S+) (?P<call>\d+) \S+"
COUNTED = re.compile(
    r".*:\d+: (?P<count>\d+) (?:races? on (?P<kind>key|name)|rewrites? of key) (?P<about>\S+): "
    + CALL
)
NOTE = re.compile(rf".*:\d+: note: {CALL}")
LAST = re.compile(r"findings (\d+)(?: in \d+ groups?)?")


class Kind(enum.Enum):
    """What a finding is: a put of a key again, a race on a key, or a race on a name."""

    REWRITE = "rewrite"
    KEY = "key"
    NAME = "name"


KINDS = {kind.value: kind for kind in Kind}
LOOKUPS = ("lookup", "lookup-wait")


@dataclass(frozen=True, eq=False)
class Finding:
    """A finding: what kind it is, its key or name, who owns the key, and its two calls."""

    kind: Kind
    about: str
    owner: str | None
    first: Call
    second: Call

    @property
    def calls(self) -> Sequence[Call]:
        """Its two calls, in rank order."""
        return (self.first, self.second)

    @property
    def verbs(self) -> Sequence[str]:
        """The verbs of its calls, in the order of the alphabet."""
        one, other = self.first.verb, self.second.verb
        return (one, other) if one <= other else (other, one)

    @property
    def mistake(self) -> str:
        """What the findings of a group have alike: a kind, a key or name, and two verbs."""
        return " ".join((self.kind.value, self.about, *self.verbs))

    @property
    def bringer(self) -> str:
        """Of a race on a key, the verb of the call that brings it: `commit`, `fence` or `get`."""
        return next(verb for verb in self.verbs if verb != "get-now")

    @property
    def leader(self) -> Call | None:
        """The call that a fix lets come first: what brings a key, a publish before a lookup, and a
        lookup before an unpublish. None where neither order is the better one."""
        if self.kind is Kind.KEY:
            return next(call for call in self.calls if call.verb != "get-now")
        lookup = next((call for call in self.calls if call.verb in LOOKUPS), None)
        if self.kind is Kind.REWRITE or not lookup:
            return None
        return next((call for call in self.calls if call.verb == "publish"), lookup)

    def find_other(self, call: Call) -> Call:
        """The other of its two calls."""
        return self.second if call is self.first else self.first


@dataclass(frozen=True, eq=False)
class Group:
    """Findings that are one mistake.

    The first of them stands for all, and `others` are the next. `count` is the number of all, and
    `rank_count` that of the ranks that make their calls, if it is known.
    """

    first: Finding
    others: Sequence[Finding]
    count: int
    rank_count: int | None


@dataclass
class Tally:
    """The findings of one mistake, as they come."""

    count: int = 0
    shown: list[Finding] = field(default_factory=list)
    ranks: set[str] = field(default_factory=set)

    def add(self, finding: Finding) -> None:
        """Counts a finding, and keeps it if there is room."""
        self.count += 1
        self.ranks.add(finding.first.rank.name)
        self.ranks.add(finding.second.rank.name)
        if len(self.shown) <= PAIRS:
            self.shown.append(finding)

    def close(self, count: int) -> Group:
        """The group of these, which has so many findings."""
        return Group(self.shown[0], self.shown[1:], count, len(self.ranks))


def find_groups(asker: Asker, plan: Plan) -> list[Group]:
    """The findings of a plan in their groups, the largest first.

    Raises Refused if the checker refuses the plan, ends with a fault, or doesn't write findings.
    """
    try:
        if plan.call_count <= FEW_CALLS:
            return ask_groups(asker, plan)
        with contextlib.closing(stream_lines(asker, "check", "--lines")) as lines:
            said = list(itertools.islice(lines, 2 * MOST_GROUPS))
        groups, total = read_counted(plan, said)
        if not total:
            return []
        if total > READ_AS_JSON or len(groups) >= MOST_GROUPS:
            return add_pairs(asker, plan, groups)
        return ask_groups(asker, plan)
    except (ValueError, LookupError, TypeError):
        raise asker.refuse("finding") from None


def ask_groups(asker: Asker, plan: Plan) -> list[Group]:
    """The groups of a plan of few findings, as JSON has them.

    Raises Refused if the plan is refused, and ValueError, LookupError or TypeError for an answer of
    another form.
    """
    answer = asker.ask("check", "--lines", "--json")
    asker.judge(answer.status, answer.stderr)
    return read_groups(plan, json.loads(answer.stdout))


def read_groups(plan: Plan, said: Any) -> list[Group]:
    """The groups that the checker wrote as JSON.

    Raises ValueError, LookupError or TypeError for what has another form.
    """
    findings = [read_finding(plan, line) for line in said["findings"]]
    tallies = tally_up(findings)
    return [
        tallies[findings[line["first"]].mistake].close(line["count"]) for line in said["groups"]
    ]


def read_finding(plan: Plan, said: Any) -> Finding:
    """A finding that the checker wrote as JSON."""
    first, second = (plan.find_call(line["proc"], line["call"]) for line in said["calls"])
    return add_subject(said["finding"], first, second)


def add_subject(line: str, first: Call, second: Call) -> Finding:
    """The finding of two calls. What it is about stands in its line alone."""
    words = line.split(" ")
    if words[0] == "rewrite":
        return Finding(Kind.REWRITE, words[-1], words[1], first, second)
    kind = KINDS[words[5]]
    return Finding(kind, words[-1], words[6] if kind is Kind.KEY else None, first, second)


def tally_up(findings: Iterable[Finding]) -> dict[str, Tally]:
    """The findings by their mistakes."""
    tallies: dict[str, Tally] = collections.defaultdict(Tally)
    for finding in findings:
        tallies[finding.mistake].add(finding)
    return tallies


# --- a plan with so many findings that the JSON isn't asked for ---


def read_counted(plan: Plan, said: Sequence[str]) -> tuple[list[Group], int]:
    """The groups that the checker wrote in lines, two for each, and how many findings there are.

    Raises ValueError or LookupError for what has another form.
    """
    groups = [read_counted_group(plan, *pair) for pair in zip(said[::2], said[1::2])]
    if len(groups) >= MOST_GROUPS:
        return groups, sum(group.count for group in groups)
    return groups, int(read_form(LAST, said[-1] if said else "")[1])


def read_counted_group(plan: Plan, one: str, other: str) -> Group:
    """A group by its two lines."""
    found, note = read_form(COUNTED, one), read_form(NOTE, other)
    first, second = (plan.find_call(hit["rank"], int(hit["call"])) for hit in (found, note))
    kind = KINDS[found["kind"]] if found["kind"] else Kind.REWRITE
    owner = first.rank.name if kind is Kind.REWRITE else None
    if kind is Kind.KEY:
        owner = next(call.target for call in (first, second) if call.verb == "get-now")
    finding = Finding(kind, found["about"], owner, first, second)
    return Group(finding, (), int(found["count"]), None)


def read_form(form: "re.Pattern[str]", line: str) -> "re.Match[str]":
    """A line of this form. Raises ValueError for any other."""
    found = form.fullmatch(line)
    if not found:
        raise ValueError(line)
    return found


def add_pairs(asker: Asker, plan: Plan, groups: Sequence[Group]) -> list[Group]:
    """The groups with those of their pairs that are among the first findings."""
    with contextlib.closing(stream_lines(asker, "check")) as lines:
        first = [
            line for line in itertools.islice(lines, PAIRED) if not line.startswith("findings ")
        ]
    tallies = tally_up(read_line(plan, text) for text in first)
    return [
        dataclasses.replace(group, others=tallies[group.first.mistake].shown[1:])
        for group in groups
    ]


def read_line(plan: Plan, line: str) -> Finding:
    """A finding by the line that `check` writes of it."""
    words = line.split(" ")
    is_rewrite = words[0] == "rewrite"
    first_rank, first = words[1:3]
    second_rank, second = [first_rank, words[3]] if is_rewrite else words[3:5]
    calls = (plan.find_call(first_rank, int(first)), plan.find_call(second_rank, int(second)))
    return add_subject(line, *calls)
