"""Writes the findings of a report as SARIF 2.1.0: a result for each cause."""
import collections
import json
import os
import re
import urllib.parse
from collections.abc import Mapping, Sequence
from dataclasses import dataclass
from pathlib import Path
from typing import Any

from wire_up_tools.plan import Call, Plan
from wire_up_tools.report import explaining
from wire_up_tools.report.causes import Cause
from wire_up_tools.report.contents import Report
from wire_up_tools.report.findings import Finding, Kind
from wire_up_tools.report.language import name_kind
from wire_up_tools.report.partial import is_of_each_run
from wire_up_tools.report.patterns import PLAN_NAME
from wire_up_tools.report.phrases import count_of
from wire_up_tools.report.places import choose_place, list_frames, say_place
from wire_up_tools.report.tried import find_tried, say_in_vain
from wire_up_tools.report.verdict import say_found

SCHEMA = "https://json.schemastore.org/sarif-2.1.0.json"
NOT_WAITING = "A get that doesn't wait"
EITHER_ORDER = "can come in either order"
RULES = {
    "commit-race": f"{NOT_WAITING}, and the commit that brings its key, {EITHER_ORDER}",
    "get-race": (
        f"{NOT_WAITING}, and the get of another rank of its node that brings its key, "
        f"{EITHER_ORDER}"
    ),
    "fence-race": f"{NOT_WAITING}, and the fence that brings its key, {EITHER_ORDER}",
    "name-race": f"Two calls on a published name {EITHER_ORDER}",
    "rewrite": "A key is put twice",
}
# How a place ends: with the name of a file and a line.
PLACE = re.compile(r".*\((.+):([1-9]\d{0,8})\)")

# What relative paths are relative to.
ROOT = "SRCROOT"
# What a text of SARIF gives a meaning, and how it is written to stand for itself.
ESCAPES = str.maketrans({"{": "{{", "}": "}}", "\\": "\\\\", "[": "\\[", "]": "\\]"})

# The paths of files below a folder, by their names.
Paths = Mapping[str, Sequence[str]]


@dataclass(frozen=True)
class Source:
    """The folder of the files that places name, if it is known, and the paths of these below it."""

    folder: str | None
    paths: Paths


@dataclass(frozen=True)
class Location:
    """Where a call stands: the path of a file, and a line of it from 1.

    A path is absolute, or relative to the folder of the source."""

    path: str
    line: int


def write_sarif(report: Report, folder: str | None) -> str:
    """The whole text. `folder` is that of the files that places name, if it is known."""
    source = Source(folder, find_files(folder) if folder else {})
    results = [make_result(report, cause, source) for cause in report.causes]
    return write_results(report.version, results, folder, describe_verdict(report))


def describe_verdict(report: Report) -> dict[str, Any]:
    """What was found, why that holds only in part, whether it is said to hold of each run of the
    program, which orders the program kept, and for which libraries the plan is portable, if that
    is known."""
    portable = report.portable
    return {
        "verdict": say_found(report),
        "inPart": list(report.reasons),
        "eachRun": not report.causes and is_of_each_run(report.plan),
        "ordersKept": say_in_vain(report.plan),
        **({"portable": list(portable.libraries)} if portable else {}),
    }


def write_results(
    version: str,
    results: Sequence[Any],
    folder: str | None,
    properties: Mapping[str, Any] | None = None,
) -> str:
    """The whole text, by its results, the version of the checker, and what else is told."""
    rules = [{"id": rule, "shortDescription": {"text": said}} for rule, said in RULES.items()]
    driver = {"name": "wire_up", "version": version, "rules": rules}
    run: dict[str, Any] = {"tool": {"driver": driver}, "results": results}
    if properties:
        run["properties"] = properties
    if folder:
        run["originalUriBaseIds"] = {ROOT: {"uri": f"{make_absolute(folder)}/"}}
    said = {"version": "2.1.0", "$schema": SCHEMA, "runs": [run]}
    return json.dumps(said, indent=1) + "\n"


def find_files(folder: str) -> Paths:
    """The files below a folder. Hidden folders are left out."""
    found = collections.defaultdict(list)
    for path, folders, names in os.walk(folder):
        folders[:] = [each_folder for each_folder in folders if not each_folder.startswith(".")]
        for name in names:
            found[name].append(str(Path(path, name).relative_to(folder)))
    return found


def make_result(report: Report, cause: Cause, source: Source) -> dict[str, Any]:
    """The result of a cause: its first finding, with its calls in the program and in the plan."""
    one, rule = cause.first, choose_rule(cause.first)
    names = {call: f"{call.name} {name_kind(call)}" for call in one.calls}
    fix = explaining.fix(one, report.order)
    title = explaining.title(one, cause.abouts, report.order)
    meaning = f"({count_of(cause.count, 'finding')}). {explaining.explain(one, report.order)}"
    plan = PLAN_NAME if report.pattern else "the plan"
    in_plan = [
        {
            "id": number,
            **make_location(
                source, locate_in_plan(report, call, source), f"{names[call]} in {plan}"
            ),
        }
        for number, call in enumerate(one.calls, 1)
    ]
    in_program = [
        make_location(source, locate(report, call, source), say_call(report.plan, call))
        for call in one.calls
    ]
    tried = find_tried(report.plan, one)
    properties = {"tried": tried.word, "outcome": tried.said} if tried else None
    return {
        "ruleId": rule,
        "ruleIndex": list(RULES).index(rule),
        "level": "error" if tried and tried.ends_otherwise else "warning",
        "message": make_message(f"{title} {meaning} Fix: {fix}"),
        "locations": in_program,
        "relatedLocations": in_plan,
        "partialFingerprints": {"group/v1": one.mistake},
        **({"properties": properties} if properties else {}),
    }


def say_call(plan: Plan, call: Call) -> str:
    """A call with where it comes from, if that is more than one line."""
    where = f", {say_place(plan, call)}" if len(list_frames(call)) > 1 else ""
    return f"{call.name} {name_kind(call)}{where}"


def choose_rule(finding: Finding) -> str:
    """The rule of a finding, which is one of RULES."""
    if finding.kind is Kind.KEY:
        return f"{finding.bringer}-race"
    return "name-race" if finding.kind is Kind.NAME else "rewrite"


def make_message(said: str) -> dict[str, str]:
    """A message whose text says what it says: no part of it is a placeholder or a link."""
    return {"text": said.translate(ESCAPES)}


def locate(report: Report, call: Call, source: Source) -> Location:
    """Where a call stands in the program, if the plan has its place, else in the plan.

    A place has only the name of a file: its path is found if one file alone has that name.
    """
    read = PLACE.fullmatch(choose_place(report.plan, call))
    if not read:
        return locate_in_plan(report, call, source)
    found = source.paths.get(read[1], ())
    return Location(found[0] if len(found) == 1 else read[1], int(read[2]))


def locate_in_plan(report: Report, call: Call, source: Source) -> Location:
    """Where a call stands in the plan, which may be below the folder of the source. One of a
    counterexample stands in no file: then it is its line in the pattern."""
    path = Path(report.path).resolve()
    folder = Path(source.folder).resolve() if source.folder else None
    if folder and path.is_relative_to(folder):
        path = path.relative_to(folder)
    line = report.pattern_lines.get(call, 1) if report.pattern else call.line
    return Location(str(path), line)


def make_location(source: Source, where: Location, said: str) -> dict[str, Any]:
    """A location with a message."""
    place = {"artifactLocation": name_file(source, where), "region": {"startLine": where.line}}
    return {"physicalLocation": place, "message": make_message(said)}


def name_file(source: Source, where: Location) -> dict[str, str]:
    """The file of a location, by an absolute URI or one that is relative to the source."""
    if Path(where.path).is_absolute():
        return {"uri": make_absolute(where.path)}
    uri = urllib.parse.quote(os.fsencode(where.path))
    return {"uri": uri, "uriBaseId": ROOT} if source.folder else {"uri": uri}


def make_absolute(path: str) -> str:
    """The absolute URI of a file or folder."""
    return f"file://{urllib.parse.quote(os.fsencode(os.path.realpath(path)))}"
