"""Tests the SARIF 2.1.0 that `wire_up-report` writes."""
import importlib
import json
import os
import re
import tempfile
import unittest
from pathlib import Path
from typing import Any

from tests import support
from tests.support import report_support
from tests.support.needs import needs_program


# What a URI can have: no space, no control character, and % only before two digits.
URI = re.compile(r"(?:[A-Za-z0-9._~:/?#@!$&'()*+,;=\[\]-]|%[0-9A-F]{2})+")
# A plan with a key that has what SARIF gives a meaning.
BRACES = (
    b"rehearsal 1\nnode n\njob a\nrank n\nput global k{0}[x](1)\\ v\ncommit\n"
    b"rank n\nget-now a:0 k{0}[x](1)\\\n"
)


def read_sarif(path: Path) -> Any:
    """The one run of the SARIF in a file."""
    said = json.loads(report_support.read(path))
    assert said["version"] == "2.1.0" and said["$schema"].endswith("sarif-2.1.0.json")
    (run,) = said["runs"]
    return run


def read_text(text: str) -> str:
    """What the text of a message says to one who reads SARIF. Raises ValueError for a placeholder,
    a link, or what the standard doesn't allow."""
    plain = re.sub(r"\{\{|\}\}|\\[\[\]\\]", "", text)
    if re.search(r"[{}\[\]\\]", plain):
        raise ValueError(text)
    return re.sub(r"\\([\[\]\\])", r"\1", text).replace("{{", "{").replace("}}", "}")


@needs_program
@report_support.for_each_plan
class SarifTest(report_support.PlanCase):
    """The SARIF of each plan has the fields that the standard requires, and a result for each
    group."""

    def check(self, name: str) -> None:
        made = report_support.make_page(name)
        run = read_sarif(made.sarif)
        driver = run["tool"]["driver"]
        self.assertEqual(driver["name"], "wire_up")
        ids = [item["id"] for item in driver["rules"]]
        self.assertEqual(len(set(ids)), len(ids))
        self.assertEqual(bool(run["results"]), made.ran.returncode == 1)
        for result in run["results"]:
            self.assertEqual(ids[result["ruleIndex"]], result["ruleId"])
            self.check_result(run, result)

    def check_result(self, run: Any, result: Any) -> None:
        """Tests the fields of a result, with its two calls."""
        self.assertEqual(result["level"], "warning")
        self.assertTrue(read_text(result["message"]["text"]))
        self.assertEqual(len(result["locations"]), 2)
        self.assertEqual([item["id"] for item in result["relatedLocations"]], [1, 2])
        self.assertTrue(all(result["partialFingerprints"].values()))
        for location in result["locations"] + result["relatedLocations"]:
            where = location["physicalLocation"]
            self.check_file(run, where["artifactLocation"])
            self.assertGreaterEqual(where["region"]["startLine"], 1)
            self.assertTrue(read_text(location["message"]["text"]))

    def check_file(self, run: Any, file: Any) -> None:
        """Tests that a file has an absolute URI, or one relative to a folder that is named."""
        self.assertRegex(file["uri"], rf"\A{URI.pattern}\Z")
        if "uriBaseId" in file:
            self.assertFalse(file["uri"].startswith(("/", "..", "file:")))
            self.assertRegex(run["originalUriBaseIds"][file["uriBaseId"]]["uri"], "^file:///.*/$")
        else:
            self.assertTrue(file["uri"].startswith("file:///"), file["uri"])


# What the standard requires of each object, as a schema of JSON.
FIELDS = support.TOP / "tests" / "report" / "sarif_fields.json"


def find_validator() -> Any:
    """What validates by a schema. A test is skipped where there is none."""
    try:
        return importlib.import_module("jsonschema").Draft7Validator
    except ImportError:
        raise unittest.SkipTest(
            "there is no python3-jsonschema: SARIF isn't validated by a schema"
        ) from None


def list_faults(said: Any) -> list[str]:
    """What the standard doesn't allow in a text of SARIF."""
    schema = json.loads(report_support.read(FIELDS))
    return [error.message for error in find_validator()(schema).iter_errors(said)]


@needs_program
@report_support.for_each_plan
class FieldsTest(report_support.PlanCase):
    """The SARIF of each plan is valid by the fields that the standard requires."""

    def setUp(self) -> None:
        find_validator()

    def check(self, name: str) -> None:
        said = json.loads(report_support.read(report_support.make_page(name).sarif))
        self.assertEqual(list_faults(said), [])


@needs_program
class ValidatorTest(unittest.TestCase):
    """What lacks a field that the standard requires is refused."""

    def test_what_lacks_a_field(self) -> None:
        said = json.loads(report_support.read(report_support.make_page("early-get").sarif))
        self.assertEqual(list_faults(said), [])
        for path in (("runs",), ("runs", 0, "tool"), ("runs", 0, "results", 0, "message")):
            with self.subTest(path):
                other = json.loads(json.dumps(said))
                within = other
                for thing in path[:-1]:
                    within = within[thing]
                del within[path[-1]]
                (fault,) = list_faults(other)
                self.assertIn(f"'{path[-1]}' is a required property", fault)


@needs_program
class SourceTest(unittest.TestCase):
    """Where the plan has places, SARIF names the source by paths below the folder of --source."""

    def test_places_of_a_recording(self) -> None:
        run = read_sarif(report_support.make_page("recorded-wild1").sarif)
        found = [item["physicalLocation"] for item in run["results"][0]["locations"]]
        places = [(item["artifactLocation"]["uri"], item["region"]["startLine"]) for item in found]
        cases = "record/programs/cases.c"
        self.assertEqual(places, [(cases, 30), (cases, 23)])

    def test_a_folder_that_is_not_there(self) -> None:
        ran = report_support.run_report("--source", "no/such", "-o", "-", report_support.EARLY)
        self.assertEqual((ran.returncode, ran.stdout), (125, ""))
        self.assertEqual(ran.stderr, "wire_up-report: no/such: there is no such folder\n")


@needs_program
class EscapesTest(unittest.TestCase):
    """A text says what it says: SARIF finds no placeholder and no link in it."""

    def test_a_key_with_braces_and_brackets(self) -> None:
        with tempfile.TemporaryDirectory(prefix="wire-up-report-") as room:
            plan = report_support.write(Path(room, "a plan"), BRACES)
            made = Path(room, "made.sarif")
            ran = report_support.run_report("-o", os.devnull, "--sarif", made, plan)
            self.assertEqual(ran.returncode, 1, ran.stderr)
            (result,) = read_sarif(made)["results"]
        self.assertIn(" k{0}[x](1)\\ ", read_text(result["message"]["text"]))
        where = result["locations"][0]["physicalLocation"]["artifactLocation"]
        self.assertEqual(where, {"uri": f"file://{Path(room).resolve()}/a%20plan"})

    def test_a_plan_below_the_source(self) -> None:
        with tempfile.TemporaryDirectory(prefix="wire-up-report-") as room:
            made = Path(room, "made.sarif")
            words = ("-o", os.devnull, "--sarif", made, "--source", support.TOP)
            report_support.run_report(*words, report_support.EARLY)
            run = read_sarif(made)
        where = run["results"][0]["locations"][0]["physicalLocation"]["artifactLocation"]
        self.assertEqual(where, {"uri": "examples/early-get.plan", "uriBaseId": "SRCROOT"})


if __name__ == "__main__":
    unittest.main()
