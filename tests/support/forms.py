"""What the commands write in other forms: as JSON, and with the places of calls."""
import json
from typing import Any

from tests.support.running import as_lines, text_of


def as_json(report: bytes) -> bytes:
    """A report as JSON."""
    ranks: dict[str, list[dict[str, str]]] = {}
    *calls, waiting = report.decode().splitlines()
    for line in calls:
        proc, _, verb, reply, *value = line.split(" ")
        ranks.setdefault(proc, []).append(
            {"reply": reply, "verb": verb, **dict(zip(["value"], value))}
        )
    form = {
        "ranks": [{"calls": calls, "proc": proc} for proc, calls in ranks.items()],
        "waiting": int(waiting.split()[1]),
    }
    return one_line(form)


def one_line(form: object) -> bytes:
    """An object of JSON as it is written."""
    return json.dumps(form, sort_keys=True, separators=(",", ":")).encode() + b"\n"


def found_as_json(findings: bytes) -> bytes:
    """What `check` writes, as JSON."""
    return one_line({"findings": findings.decode().splitlines()[:-1]})


def pattern_as_json(verdict: bytes) -> bytes:
    """What `check --pattern` writes, as JSON."""
    lines = verdict.splitlines(True)
    if lines[0].startswith(b"#"):
        plan = b"".join(
            each_line for each_line in lines if not each_line.startswith(b"# ")
        ).decode()
        said = [each_line.decode()[2:-1] for each_line in lines[1:] if each_line.startswith(b"# ")]
        ranks = int(lines[0].split()[2])
        return one_line({"counterexample": plan, "findings": said[:-1], "ranks": ranks})
    told: dict[str, Any] = {"findings": [], "later": [], "least": [], "waits": []}
    told["for"] = lines[0].decode().split(" for ")[1].strip()
    for line in lines[1:]:
        words = line.decode().strip()
        if words.startswith("every call is answered for "):
            told["answered"] = words.partition(" for ")[2].partition(", not known for ")[0]
        else:
            told.setdefault(words.split(" ")[words.startswith("at ")], []).append(words)
    return one_line(told)


def place_of(proc: str, number: str) -> dict[str, Any]:
    return {"call": int(number), "proc": proc}


def answer_as_json(answer: bytes) -> bytes:
    """What `why` writes, as JSON."""
    first, *lines = (line.split(" ") for line in answer.decode().splitlines())
    if first == ["unordered"]:
        return one_line({"before": None, "dead": [place_of(*words) for _, *words in lines]})
    steps = [
        {**place_of(proc, number), "verb": verb, **dict(zip(["half"], half))}
        for proc, number, verb, *half in lines
    ]
    return one_line({"before": {"before": "first", "after": "second"}[first[0]], "chain": steps})


def tried_as_json(text: bytes) -> bytes:
    """What `witness` writes of all races, as JSON."""
    *lines, last = (line.split(" ") for line in text.decode().splitlines())
    races = []
    for verdict, *words in lines:
        shown, words = (place_of(*words[:2]), words[2:]) if verdict == "shown" else (None, words)
        races.append({"finding": " ".join(words), "shown": shown})
    counts = {word.replace("-", "_"): int(count) for word, count in zip(last[::2], last[1::2])}
    return one_line({"counts": counts, "races": races})


def witness_as_json(text: bytes) -> bytes:
    """What `witness` writes of two calls, as JSON."""
    first, *lines = text.decode().splitlines()
    if first in ("no race", "not shown"):
        return one_line({"race": first == "not shown", "shown": None})
    _, proc, number, verb = first.split(" ")
    ends, rest = [line.split(" ")[1:] for line in lines[:2]], lines[2:]
    count = int(rest[0].split(" ")[1])
    orders = rest[1:count + 1], rest[count + 2:]
    told = [
        {"order": order, "reply": reply, **dict(zip(["value"], value))}
        for (reply, *value), order in zip(ends, orders)
    ]
    return one_line(
        {
            "first": told[0],
            "race": True,
            "second": told[1],
            "shown": {**place_of(proc, number), "verb": verb},
        }
    )


def calls_of(plan: bytes) -> dict[tuple[str, str], tuple[int, str]]:
    """The calls of a plan by their processes and numbers, each with its line and its verb."""
    calls: dict[tuple[str, str], tuple[int, str]] = {}
    job, ranks, count = "", 0, 0
    for number, line in enumerate(plan.decode().split("\n"), 1):
        words = line.split()
        if not words or words[0].startswith("#") or words[0] in ("rehearsal", "keep", "node"):
            continue
        if words[0] == "job":
            job, ranks = words[1], 0
        elif words[0] == "rank":
            ranks, count = ranks + 1, 0
        else:
            count += 1
            calls[f"{job}:{ranks - 1}", str(count)] = number, words[0]
    return calls


# A call by its process and its number, as words.
Call = tuple[str, str]


class Placed:
    """What the commands write of an example with the places of calls, by what they write
    without."""

    def __init__(self, name: str) -> None:
        self.plan = f"examples/{name}.plan"
        self.calls = calls_of(text_of(self.plan))

    def line(self, proc: str, number: str, text: str) -> str:
        """A line behind the place of a call."""
        return f"{self.plan}:{self.calls[proc, number][0]}: {text}"

    def note(self, proc: str, number: str) -> str:
        """The line of a call that goes with the one in the line above."""
        return self.line(proc, number, f"note: {proc} {number} {self.calls[proc, number][1]}")

    def call(self, proc: str, number: str) -> dict[str, Any]:
        """A call as JSON."""
        line, verb = self.calls[proc, number]
        return {**place_of(proc, number), "line": line, "verb": verb}

    def with_lines(self, form: Any) -> Any:
        """A form in which each call has its line."""
        if isinstance(form, list):
            return [self.with_lines(each_key) for each_key in form]
        if not isinstance(form, dict):
            return form
        form = {key: self.with_lines(item) for key, item in form.items()}
        if {"call", "proc"} <= form.keys():
            form["line"] = self.calls[form["proc"], str(form["call"])][0]
        return form

    def both(self, words: list[str]) -> tuple[Call, Call]:
        """The two calls of a finding, by its words."""
        first = words[1], words[2]
        return first, (words[3], words[4]) if words[0] == "race" else (first[0], words[3])

    def answer(self, text: bytes) -> bytes:
        """What `why` writes."""
        first, *lines = text.decode().splitlines()
        placed = []
        for line in lines:
            proc, number = line.split(" ")[first == "unordered":][:2]
            placed.append(self.line(proc, number, line))
        return as_lines([first, *placed])

    def findings(self, text: bytes) -> bytes:
        """What `check` writes as JSON."""
        found = [line.split(" ") for line in text.decode().splitlines()[:-1]]
        groups: dict[tuple[str, ...], list[int]] = {}
        for place, words in enumerate(found):
            verbs = sorted(self.calls[call][1] for call in self.both(words))
            kind = [words[5], words[-1]] if words[0] == "race" else ["rewrite", words[-1]]
            groups.setdefault((*kind, *verbs), []).append(place)
        by_count = sorted(groups.values(), key=lambda group: (-len(group), group[0]))
        findings = [
            {"calls": [self.call(*call) for call in self.both(words)], "finding": " ".join(words)}
            for words in found
        ]
        counted = [{"count": len(group), "first": group[0]} for group in by_count]
        return one_line({"findings": findings, "groups": counted})

    def tried(self, text: bytes) -> tuple[bytes, bytes]:
        """What `witness` writes of all races, in lines and as JSON."""
        *lines, last = text.decode().splitlines()
        form: dict[str, Any] = json.loads(tried_as_json(text))
        placed: list[str] = []
        for line, race in zip(lines, form["races"]):
            lower, higher = self.both(race["finding"].split(" "))
            placed += [self.line(*lower, line), self.note(*higher)]
            race["calls"] = [self.call(*lower), self.call(*higher)]
        return as_lines([*placed, last]), one_line(self.with_lines(form))

    def witness(self, words: list[str], text: bytes) -> tuple[bytes, bytes]:
        """What `witness` writes of two calls, in lines and as JSON."""
        first, *lines = text.decode().splitlines()
        form = json.loads(witness_as_json(text))
        if form["shown"] is None:
            return text, one_line(form)
        shown = first.split(" ")[1:3]
        proc, number = words[2:] if words[:2] == shown else words[:2]
        form["other"] = self.call(proc, number)
        text = as_lines([self.line(shown[0], shown[1], first), self.note(proc, number), *lines])
        return text, one_line(self.with_lines(form))
