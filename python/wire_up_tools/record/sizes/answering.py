"""The answer on a pattern from runs of several sizes: from which sizes it comes and against which
it was held, what is found and what shows it, and on what the answer rests."""
import json
from collections.abc import Mapping, Sequence
from dataclasses import dataclass, field, replace
from typing import Any

from wire_up_tools.record.patterns.scripts import NotSaid, Speaker
from wire_up_tools.record.sizes.inferring import Inferred
from wire_up_tools.record.sizes.judging import Named, Verdict
from wire_up_tools.record.sizes.plans import SizedPlan
from wire_up_tools.record.sizes.scripts import Skeleton, part_ranks
from wire_up_tools.record.sizes.writing import find_places
from wire_up_tools.words import NO_CALL_RACES

EVERYWHERE = "every number of ranks on every placement"
# On what a verdict for every number rests beside the pattern.
GUESS = "that other numbers do the same is a guess"
LACKS_FENCES = (
    "the pattern leaves out fences of some ranks: that they bring what is got at once, as in these "
    "runs, is part of the guess"
)
# The least number of ranks with three sides of 3: in a smaller grid one of three sides has 2 at
# most, so that its ranks are neighbours of all others along it.
LEAST_GRID = 27
# Prime numbers of ranks below it, whose grid is a line in which not each is a neighbour of all
# others.
LINES = (5, 7, 11, 13, 17, 19, 23)


@dataclass(frozen=True)
class Shown:
    """A recording in which something is found."""

    plan: SizedPlan
    verdict: Verdict


@dataclass(frozen=True)
class Answer:
    """All that is answered. Without `inferred` no call can race, or no pattern fits: `unfit` says
    why, and a recording has what is found. `of_library` says where the library may not do as the
    rules say, so that other runs may do otherwise."""

    taken: Sequence[SizedPlan]
    held: Sequence[SizedPlan]
    inferred: Inferred | None
    verdict: Verdict
    shown: Shown | None = None
    unfit: str = ""
    in_part: Sequence[str] = field(default_factory=list)
    of_library: Sequence[str] = field(default_factory=list)

    @property
    def findings(self) -> Sequence[str]:
        """What is found: in a recording, if one has it, or else in a plan of the pattern."""
        return self.shown.verdict.findings if self.shown else self.verdict.findings

    @property
    def calls(self) -> Sequence[Named]:
        """The calls that the findings name, with where in the program they come from."""
        if self.shown:
            return self.shown.verdict.calls
        if not self.inferred:
            return []
        return place_calls(self.inferred.skeleton, self.verdict)


def join_sizes(plans: Sequence[SizedPlan]) -> str:
    """Numbers of ranks in a row, such as `3, 4 and 8`."""
    sizes = [str(plan.size) for plan in plans]
    return f"{', '.join(sizes[:-1])} and {sizes[-1]}" if len(sizes) > 1 else "".join(sizes)


def say_origin(taken: Sequence[SizedPlan], held: Sequence[SizedPlan]) -> str:
    """From which sizes a pattern comes, and against which it was held."""
    against = join_sizes(held) if held else "none"
    runs = "runs" if len(taken) > 1 else "a run"
    return f"from {runs} with {join_sizes(taken)} ranks, held against {against}"


def place_calls(skeleton: Skeleton, verdict: Verdict) -> Sequence[Named]:
    """The calls that a counterexample names, with where in the program their lines come from."""
    places: Mapping[tuple[str, str], str] = find_places(skeleton)
    job = skeleton.roles[0].job
    roles = part_ranks([f"{job}:{n}" for n in range(verdict.ranks)], job, skeleton.way)
    found = []
    for call in verdict.calls:
        try:
            line = Speaker(roles, call.rank).say(call.words).words
        except NotSaid:
            line = ""
        found.append(replace(call, place=places.get((roles.by_rank[call.rank].name, line))))
    return found


def name_run(size: int) -> str:
    """The name of a run."""
    return f"the run with {size} ranks"


def say_shown(answer: Answer) -> str:
    """Whether a run has what is found, or the pattern alone."""
    if answer.shown:
        where = " on other placements of its ranks" if answer.shown.verdict.is_elsewhere else ""
        plan = answer.shown.plan
        is_here = plan.name == name_run(plan.size)
        return f"{name_run(plan.size)} has it{where}{'' if is_here else f': {plan.name}'}"
    return (
        f"the pattern alone has it, with {answer.verdict.ranks} ranks, and no run: it may lack "
        "order that the program has"
    )


def list_notes(answer: Answer) -> list[str]:
    """On what the answer rests, and what it can't say."""
    inferred, found = answer.inferred, list[str]()
    if not inferred:
        return [answer.unfit or NO_CALL_RACES, *answer.in_part, *answer.of_library]
    if answer.shown and not answer.verdict.findings:
        found.append("the pattern hasn't it: that is a mistake of wire_up-record")
    if inferred.failed:
        failed = inferred.failed.size
        found.append(f"a pattern of the smaller runs alone didn't hold for {failed} ranks")
    if inferred.dropped and answer.findings and not answer.shown:
        found.append(
            "the pattern leaves out order: ranks knew of all others by no more messages than with "
            f"fewer ranks, so that with more they may not; run more, such as {LEAST_GRID}"
        )
    found += [LACKS_FENCES] if inferred.lacks_fences else []
    if rests_on_messages(answer):
        order = "their order" if inferred.lacks_fences else "the messages of MPI"
        found += say_rest([*answer.taken, *answer.held], order)
    found += say_unanswered(answer.verdict, inferred)
    return [*found, *answer.in_part, *answer.of_library]


def say_unanswered(verdict: Verdict, inferred: Inferred) -> list[str]:
    """Which lines of a pattern wait for ever, or fail, in plans of it, though it has what brings
    what they get."""
    told = (
        (what, " ".join(line.split()[1:4]))
        for what, lines in (("waits for ever", verdict.waiting), ("may fail", verdict.failing))
        for line in lines
    )
    return [
        f"{what} in a plan of the pattern: {line}" for what, line in told
        if not (inferred.lacks_fences and line.endswith(" get-now"))
    ]


def rests_on_messages(answer: Answer) -> bool:
    """Whether nothing is found, and something would be without what ranks hear of others."""
    return bool(answer.inferred and answer.inferred.needs_messages and not answer.findings)


def needs_line(answer: Answer) -> bool:
    """Whether that order may be there only since the ranks form a small grid: no run has so many
    ranks that a grid of them is a line, or has long sides."""
    sizes = {plan.size for plan in (*answer.taken, *answer.held)}
    return rests_on_messages(answer) and max(sizes) < LEAST_GRID and not sizes.intersection(LINES)


def say_rest(plans: Sequence[SizedPlan], order: str) -> list[str]:
    """That the verdict rests on an order of some ranks, and which size tells more."""
    said, sizes = f"without {order} there would be a race", [plan.size for plan in plans]
    if max(sizes) >= LEAST_GRID:
        return [said]
    shown = f"a larger run would show, such as one with {LEAST_GRID}"
    if not {*LINES}.intersection(sizes):
        shown = (
            f"a run with {LINES[0]} would show, as their grid is a line, or a larger one, such as "
            f"one with {LEAST_GRID}"
        )
    return [
        f"{said}: if the ranks form a grid, a side of {max(sizes)} ranks may be so short that each "
        f"hears of all others, which {shown}"
    ]


def list_lines(answer: Answer) -> list[str]:
    """The answer in lines."""
    if not answer.findings:
        first = [f"findings 0 for {EVERYWHERE}"]
    else:
        calls = [
            f"  {call.rank} {call.number} {' '.join(call.words)}"
            f"{f' at {call.place}' if call.place else ''}"
            for call in answer.calls
        ]
        counted = f"findings {len(answer.findings)}"
        first = [*answer.findings, *calls, counted, say_shown(answer)]
    rests = say_origin(answer.taken, answer.held)
    if not answer.findings:
        rests += f"; {GUESS}{'' if answer.held else ', which one more size would test'}"
    return [*first, rests, *list_notes(answer)]


def write_answer(answer: Answer) -> str:
    """The answer as text."""
    return "".join(f"{line}\n" for line in list_lines(answer))


def write_json(answer: Answer) -> str:
    """The answer as one object of JSON."""
    said: dict[str, Any] = {
        "from": [plan.size for plan in answer.taken],
        "against": [plan.size for plan in answer.held],
        "findings": list(answer.findings),
        "notes": list_notes(answer),
    }
    if answer.findings:
        said["shown"] = "recording" if answer.shown else "pattern"
        said["ranks"] = answer.shown.plan.size if answer.shown else answer.verdict.ranks
        said["calls"] = [
            {
                "call": f"{call.rank} {call.number}", "words": " ".join(call.words),
                "place": call.place,
            }
            for call in answer.calls
        ]
    else:
        said["for"] = EVERYWHERE
    return json.dumps(said, sort_keys=True, separators=(",", ":")) + "\n"
