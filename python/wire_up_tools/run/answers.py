"""What runs of a plan gave, and how it is written: as lines, as JSON, and as JUnit XML."""
import json
from collections.abc import Mapping, Sequence
from dataclasses import dataclass
from xml.etree import ElementTree

from wire_up_tools.run.expected import Expected, Witness
from wire_up_tools.run.live import Outcome
from wire_up_tools.run.reports import Difference, Place, Report, compare

Object = Mapping[str, object]


@dataclass(frozen=True)
class Seen:
    """A report of the library: in how many runs it came, and where it differs from the rules'."""

    outcome: Outcome
    times: int
    differences: Sequence[Difference]


@dataclass(frozen=True)
class Runs:
    """What all runs of a plan gave, the most frequent report first."""

    expected: Expected
    seen: Sequence[Seen]
    launcher: str
    quiet: float

    @property
    def times(self) -> int:
        """How many runs there were."""
        return sum(seen.times for seen in self.seen)

    @property
    def library(self) -> str:
        """What the library says of its version."""
        return self.seen[0].outcome.library

    @property
    def differs(self) -> bool:
        """Whether a call was answered otherwise in one of the runs."""
        return any(seen.differences for seen in self.seen)


@dataclass(frozen=True)
class ShownRace:
    """Both runs of a race: the call that they are about, and its replies by the library."""

    witness: Witness
    call: Place
    replies: Sequence[str]

    @property
    def is_shown(self) -> bool:
        """Whether the library shows the difference."""
        return self.replies[0] != self.replies[1]

    @property
    def differences(self) -> list[str]:
        """The lines of the runs in which the library answers otherwise."""
        runs = zip(("first", "second"), self.witness.replies, self.replies)
        return [f"differs {run} rules {a} v library {b}" for run, a, b in runs if a != b]


def count_runs(expected: Expected, outcomes: Sequence[Outcome]) -> list[Seen]:
    """The different reports of runs, each with its count."""
    by_text: dict[str, list[Outcome]] = {}
    for outcome in outcomes:
        by_text.setdefault(outcome.report.write(), []).append(outcome)
    found = sorted(by_text.values(), key=len, reverse=True)
    return [
        Seen(letter[0], len(letter), compare(expected.report, letter[0].report)) for letter in found
    ]


def write_seen(seen: Seen, runs: Runs) -> str:
    """A report with its differences."""
    report = seen.outcome.report
    lines = [f"seen {seen.times} of {runs.times}"] if runs.times > 1 else []
    lines += report.write().splitlines()
    lines += [str(difference) for difference in seen.differences]
    lines += [f"late {text}" for text in seen.outcome.late]
    if report.waiting:
        lines.append(f"judged by time: waiting after {runs.quiet:g} seconds without progress")
    lines.append(f"differing {len(seen.differences)} of {len(report.lines)}")
    return "".join(f"{line}\n" for line in lines)


def write_text(runs: Runs) -> str:
    """What runs gave, as lines."""
    return "".join(write_seen(seen, runs) for seen in runs.seen)


def write_race(race: ShownRace) -> str:
    """Both runs of a race, in the form of `witness`."""
    first = f"{'shown' if race.is_shown else 'not shown'} {race.call}"
    replies = [f"{run} {reply}" for run, reply in zip(("first", "second"), race.replies)]
    last = f"differing {len(race.differences)} of 2"
    return "".join(f"{reply}\n" for reply in (first, *replies, *race.differences, last))


def make_ranks(report: Report) -> list[Object]:
    """The ranks of a report, as `replay --json` has them."""
    calls: dict[str, list[Object]] = {}
    for line in report.lines:
        status, _, value = line.reply.partition(" ")
        made: dict[str, object] = {"reply": status, "verb": line.place.verb}
        if value:
            made["value"] = value
        calls.setdefault(line.place.rank, []).append(made)
    return [{"calls": made, "proc": rank} for rank, made in calls.items()]


def make_difference(difference: Difference) -> Object:
    """A difference, as JSON has it."""
    made = {
        "call": difference.place.number,
        "proc": difference.place.rank,
        "verb": difference.place.verb,
    }
    return {**made, "library": difference.library, "rules": difference.rules}


def make_seen(seen: Seen) -> Object:
    """A report of the library with its differences, as JSON has it."""
    return {
        "differs": [make_difference(difference) for difference in seen.differences],
        "late": list(seen.outcome.late),
        "ranks": make_ranks(seen.outcome.report),
        "times": seen.times,
        "waiting": seen.outcome.report.waiting,
    }


def dump(made: Object) -> str:
    """An object as a line of JSON, as `wire_up` writes it."""
    return json.dumps(made, separators=(",", ":"), sort_keys=True) + "\n"


def write_json(runs: Runs) -> str:
    """What runs gave, as JSON."""
    made = {
        "findings": runs.expected.findings,
        "launcher": runs.launcher,
        "library": runs.library,
        "quiet": runs.quiet,
        "runs": runs.times,
        "seen": [make_seen(seen) for seen in runs.seen],
    }
    return dump(made)


def write_race_json(race: ShownRace) -> str:
    """Both runs of a race, as JSON."""
    made = {
        "call": race.call.number,
        "library": list(race.replies),
        "proc": race.call.rank,
        "rules": list(race.witness.replies),
        "shown": race.is_shown,
        "verb": race.call.verb,
    }
    return dump(made)


@dataclass(frozen=True)
class Case:
    """A case of JUnit: what it is about, and why it failed; nothing where it passed."""

    group: str
    name: str
    failure: str = ""


def write_junit(name: str, cases: Sequence[Case]) -> str:
    """Cases as JUnit XML, which CI servers read."""
    failed = sum(bool(each_case.failure) for each_case in cases)
    counts = {"tests": str(len(cases)), "failures": str(failed)}
    suite = ElementTree.Element("testsuite", {"name": name, **counts})
    for each_case in cases:
        case = ElementTree.SubElement(
            suite, "testcase", {"classname": each_case.group, "name": each_case.name}
        )
        if each_case.failure:
            ElementTree.SubElement(case, "failure", {"message": each_case.failure})
    ElementTree.indent(suite)
    text = ElementTree.tostring(suite, encoding="unicode")
    return f'<?xml version="1.0" encoding="UTF-8"?>\n{text}\n'


def list_cases(name: str, runs: Runs) -> list[Case]:
    """A case for each call: it fails if it was answered otherwise in one of the runs."""
    failures = {str(d.place): str(d) for seen in runs.seen for d in seen.differences}
    places = [str(line.place) for line in runs.expected.report.lines]
    return [Case(name, place, failures.get(place, "")) for place in places]
