"""The command `wire_up-report`: what its options mean, and how it ends."""
import os
import shutil
import sys
from collections.abc import Sequence
from dataclasses import dataclass, replace

from wire_up_tools.checker import Checker, find_checker
from wire_up_tools.failures import Refused, Unusable, explain
from wire_up_tools.files import STANDARD_OUTPUT, write_whole
from wire_up_tools.options import Option, Parser, answer_alone, describe, say_unusable
from wire_up_tools.report.asking import CLEAN, Asker
from wire_up_tools.report.contents import Report, make_report
from wire_up_tools.report.html_page import write_page
from wire_up_tools.report.library_page import find_judged
from wire_up_tools.report.pattern_page import write_pattern_page, write_pattern_text
from wire_up_tools.report.patterns import CleanPattern, is_pattern, judge_pattern, locate_calls
from wire_up_tools.report.sarif import write_results, write_sarif
from wire_up_tools.report.terminal_text import write_text
from wire_up_tools.run.libraries.traits import LIBRARIES, take_library

HELPED, FAILED = 0, 125
PAGE = "report.html"
NAME = "wire_up-report"
OPTIONS = (
    Option("-o", "FILE", f"where the report goes, else {PAGE}; - is standard output"),
    Option(
        "--text",
        "",
        "writes text for a terminal in place of HTML, to standard output where no -o is given",
    ),
    Option(
        "--sarif",
        "FILE",
        "writes the findings also as SARIF 2.1.0, which code hosts show beside the code",
    ),
    Option(
        "--source",
        "FOLDER",
        "looks below this folder for the files that the plan names as places, "
        "so that SARIF has their paths",
    ),
    Option(
        "--library",
        "NAME",
        f"says also which calls this library is known to answer otherwise: {', '.join(LIBRARIES)}",
    ),
    Option(
        "--checker",
        "FILE",
        "the program `wire_up`; else the one beside this command or on the path is taken",
    ),
    Option(
        "--large",
        "",
        "takes plans past the limits of their version, as `wire_up --large` does",
    ),
)
HELP = f"""\
Writes a report that people look at: what `wire_up` finds in a plan, with diagrams, places and \
fixes.

    wire_up-report [OPTION..] PLAN                  writes the report of a plan as one HTML file
    wire_up-report [OPTION..] PATTERN               does so for plans of every number of ranks

{describe(OPTIONS)}
The plan is a file. If it comes from `wire_up-record`, the report says where in the program each \
call comes from.
docs/report.md says what a report has.

Exit statuses: 0 the report is written and nothing was found, 1 it is written and something was \
found, 125 it isn't written: a line says why.
"""


@dataclass(frozen=True)
class Options:
    """What the command line asks for."""

    plan: str
    output: str
    is_text: bool
    is_large: bool
    sarif: str | None
    source: str | None
    checker: str | None
    library: str | None = None


def read_options(words: Sequence[str]) -> Options:
    """Reads the words of the command line. Raises Unusable, with what is wrong with them."""
    said = Parser(OPTIONS).read(words)
    if len(said.rest) != 1:
        raise Unusable("one plan at a time" if said.rest else "which plan?")
    output = said.o or (STANDARD_OUTPUT if said.text else PAGE)
    return Options(
        plan=said.rest[0],
        output=output,
        is_text=said.text,
        is_large=said.large,
        sarif=said.sarif,
        source=said.source,
        checker=said.checker,
        library=said.library,
    )


def choose_checker(asked: str | None, folder: str) -> str:
    """The path of the checker: what was asked for, else that beside the commands in a folder.

    Raises Refused if there is none.
    """
    if asked:
        return asked if os.sep in asked else shutil.which(asked) or asked
    found = find_checker(folder)
    if not found:
        raise Refused(
            "there is no wire_up beside this command or on the path: --checker says where it is"
        )
    return found


def write_report(options: Options, folder: str) -> int:
    """Makes and writes a report. Answers the status. Raises Refused or OSError."""
    if options.source is not None and not os.path.isdir(options.source):
        raise Refused(f"{options.source}: there is no such folder")
    if options.library is not None:
        take_library(options.library)
    with open(options.plan, "rb") as plan:
        data = plan.read()
    checker = Checker(choose_checker(options.checker, folder), options.is_large)
    written = write_forms(options, Asker(checker, data))
    if options.sarif:
        write_whole(options.sarif, written.sarif)
    write_whole(options.output, written.text)
    return written.status


@dataclass(frozen=True)
class Written:
    """A report in the form that is asked for, its SARIF if that is, and the status."""

    text: str
    sarif: str
    status: int


def write_forms(options: Options, asker: Asker) -> Written:
    """The report of a plan, or of a pattern. Raises Refused, OSError."""
    if not is_pattern(asker.data):
        return write_plan_forms(options, report_plan(options, asker))
    found = judge_pattern(options.plan, asker)
    if isinstance(found, CleanPattern):
        write = write_pattern_text if options.is_text else write_pattern_page
        sarif = write_results(found.version, [], options.source) if options.sarif else ""
        return Written(write(found), sarif, CLEAN)
    report = report_plan(options, replace(asker, data=found.data))
    lines = locate_calls(found.pattern, report.plan)
    report = replace(report, pattern=found.pattern, pattern_lines=lines)
    return write_plan_forms(options, report)


def report_plan(options: Options, asker: Asker) -> Report:
    """What is told of a plan, and what a library makes of it for which it isn't portable. Raises
    Refused, OSError."""
    report = make_report(options.plan, asker)
    if options.library is None:
        return report
    if report.portable and report.portable.is_for(options.library):
        return report
    return replace(report, judged=find_judged(asker, report.plan, options.library))


def write_plan_forms(options: Options, report: Report) -> Written:
    """The report of a plan."""
    text = write_text(report) if options.is_text else write_page(report)
    sarif = write_sarif(report, options.source) if options.sarif else ""
    return Written(text, sarif, report.status)


def tell(*lines: str) -> None:
    """Writes lines to standard error."""
    sys.stderr.writelines(f"{line}\n" for line in lines)


def main(words: Sequence[str], folder: str) -> int:
    """Runs the command that stands in a folder. Answers its exit status."""
    alone = answer_alone(words, NAME, HELP)
    if alone is not None:
        sys.stdout.write(alone)
        return HELPED
    try:
        return write_report(read_options(words), folder)
    except Unusable as why:
        sys.stderr.write(say_unusable(NAME, why))
    except Refused as why:
        tell(f"{why}" if f"{why}".startswith("wire_up: ") else f"{NAME}: {why}")
    except OSError as why:
        tell(f"{NAME}: {explain(why)}")
    return FAILED
