"""Runs the commands with `--lines`, which adds the places of calls, and with options that don't go
together."""
import json
import unittest
from pathlib import Path

from tests.support.forms import Placed, answer_as_json, one_line
from tests.support.running import (
    EARLY_GET,
    EXAMPLE,
    FULL,
    NOTHING,
    PATTERN_MISUSED,
    SAME_MISUSED,
    SPREAD_MISUSED,
    USAGE,
    WITNESS_MISUSED,
    ProgramCase,
    Run,
    Runs,
    as_lines,
    examples,
    onto,
    text_of,
    written,
)


NO_FORM: list[str] = []


def placings(room: Path) -> Runs:
    """The runs of `check`, `why` and `witness` with `--lines`, and with `--json` besides."""
    yield from lines_of_two_calls()
    yield from lines_of_races()
    yield from placings_of_findings()
    yield from placings_that_fail(room)
    yield from misused_placings()
    yield from misused_pattern_options()
    yield from placings_of_examples()


def lines_of_two_calls() -> Runs:
    """A chain and the runs of two calls, with lines."""
    pair = ["app:0", "2", "app:1", "1"]
    chain = as_lines(
        ["before", "<stdin>:6: app:0 1 put", "<stdin>:7: app:0 2 commit", "<stdin>:9: app:1 1 get"]
    )
    shown = (
        "%s:9: shown app:1 1 get-now\n%s:7: note: app:0 2 commit\n"
        "first PMIX_SUCCESS 10.0.0.1:7000\nsecond PMIX_ERR_NOT_FOUND\n"
    )
    orders = "order 3\napp:0\napp:0\napp:1\norder 3\napp:0\napp:1\napp:0\n"
    yield Run(
        "a question with lines",
        ["why", "--lines", "app:0", "1", "app:1", "1"],
        given=text_of(EXAMPLE),
        wrote=chain,
    )
    yield Run(
        "a witness with lines",
        ["witness", "--lines", *pair, EARLY_GET],
        status=1,
        wrote=(shown % (EARLY_GET, EARLY_GET) + orders).encode(),
    )
    yield Run(
        "no race, with lines",
        ["witness", "--lines", "app:0", "1", "app:1", "1", EARLY_GET],
        wrote=(b"no race\n",),
    )


def lines_of_races() -> Runs:
    """The races with lines."""
    tried = (
        "%s:7: shown app:1 1 race app:0 2 app:1 1 key app:0 card\n"
        "%s:9: note: app:1 1 get-now\nraces 1 shown 1 not-shown 0 not-tried 0\n"
    )
    none = b'{"counts":{"not_shown":0,"not_tried":1,"races":1,"shown":0},"races":[]}\n'
    yield Run(
        "the races with lines",
        ["witness", "--lines", EARLY_GET],
        status=1,
        wrote=(tried % (EARLY_GET, EARLY_GET)).encode(),
    )
    yield Run(
        "the races with lines, and none tried",
        ["witness", "--lines", "--most", "0", EARLY_GET],
        wrote=b"races 1 shown 0 not-shown 0 not-tried 1\n",
    )
    yield Run(
        "no race tried, as JSON with lines",
        ["witness", "--lines", "--json", "--most", "0", EARLY_GET],
        wrote=none,
    )


def placings_of_findings() -> Runs:
    """Findings as JSON with lines."""
    found = (
        b'{"findings":[{"calls":[{"call":2,"line":7,"proc":"app:0","verb":"commit"},{"call":1,'
        b'"line":9,"proc":"app:1","verb":"get-now"}],'
        b'"finding":"race app:0 2 app:1 1 key app:0 card"}],"groups":[{"count":1,"first":0}]}\n'
    )
    quoted = b'rehearsal 1\nnode n0\njob "\\\nrank n0\nput global k 1\nput global k 2\n'
    escaped = b'"proc":"\\"\\\\:0","verb":"put"}'
    words = ["check", "--lines", "--json"]
    yield Run("findings as JSON with lines", [*words, EARLY_GET], status=1, wrote=found)
    yield Run(
        "no findings, as JSON with lines",
        ["check", "--json", "--lines", "--large", EXAMPLE],
        wrote=b'{"findings":[],"groups":[]}\n',
    )
    yield Run(
        "a quote in a name, as JSON with lines",
        ["check", "--json", "--lines"],
        given=quoted,
        status=1,
        wrote=(escaped,),
    )


def placings_that_fail(room: Path) -> Runs:
    """Refusals and full devices, where lines are asked for."""
    odd = written(room, "odd.plan", b"# only\n")
    pair = ["app:0", "2", "app:1", "1"]
    for words in (["check"], ["why", *pair], ["witness"], ["witness", *pair]):
        for form in NO_FORM, ["--json"]:
            name = " ".join([*words, "--lines", *form])
            yield Run(
                f"{name}: a file that is refused",
                [*words, "--lines", *form, odd],
                status=2,
                said=b"wire_up: fault 3 BadHeader 2\n",
            )
            yield Run(
                f"{name}: a full device",
                [*words, "--lines", *form, EARLY_GET],
                status=4,
                said=FULL,
                set_up=onto("/dev/full", 1),
            )
    for words in (["why"], ["witness"]):
        yield Run(
            f"a wrong word of {words[0]}, with lines",
            [*words, "--lines", "app:0", "9", "app:1", "1", EARLY_GET],
            status=2,
            said=b"wire_up: fault 13 BadOrder 2\n",
        )


def placings_of_examples() -> Runs:
    """The runs of the examples' findings and questions, with lines."""
    for example in examples(".findings"):
        placed, text = Placed(example), text_of(f"tests/examples/{example}.findings")
        yield Run(
            f"findings of {example} as JSON with lines",
            ["check", "--lines", "--json", placed.plan],
            status=int(text != NOTHING),
            wrote=placed.findings(text),
        )
    for each_example in examples(".question"):
        asked = text_of(f"tests/examples/{each_example}.question").decode().split()
        placed, answer = Placed(each_example), text_of(f"tests/examples/{each_example}.answer")
        yield Run(
            f"a question about {each_example}, with lines",
            ["why", "--lines", *asked, placed.plan],
            wrote=placed.answer(answer),
        )
        yield Run(
            f"a question about {each_example}, as JSON with lines",
            ["why", "--lines", "--json", *asked, placed.plan],
            wrote=one_line(placed.with_lines(json.loads(answer_as_json(answer)))),
        )


def misused_placings() -> Runs:
    """Where lines don't go."""
    pair = ["app:0", "2", "app:1", "1"]
    for order in ("--first", "--second"):
        yield Run(
            f"witness {order} with lines",
            ["witness", order, "--lines", *pair, EARLY_GET],
            status=5,
            said=WITNESS_MISUSED,
        )
        yield Run(
            f"witness {order} with lines of the races",
            ["witness", order, "--lines", EARLY_GET],
            status=5,
            said=WITNESS_MISUSED,
        )
    yield Run(
        "check with --same alone",
        ["check", "--same", "--lines", EARLY_GET],
        status=5,
        said=SAME_MISUSED,
    )
    for words in (["replay"], ["follow", EARLY_GET], ["migrate"]):
        yield Run(f"{words[0]} with lines", [*words, "--lines", EARLY_GET], status=5, said=USAGE)
    for command in ("check", "why", "witness"):
        yield Run(
            f"lines in the help on {command}", [command, "--help"], wrote=(b"--lines", b"--json")
        )


def misused_pattern_options() -> Runs:
    """Options of patterns where they don't go."""
    pattern = "examples/patterns/business-cards.pattern"
    yield from misused_patterns(EARLY_GET)
    yield from misused_spreads(pattern)
    yield from misused_ranks(pattern)


def misused_patterns(file: str) -> Runs:
    """What doesn't go with `--pattern`."""
    usage = PATTERN_MISUSED
    for option in ("--anywhere", "--same", "--lines", "--large"):
        words = ["check", option, "--pattern", file]
        yield Run(f"check with --pattern and {option}", words, status=5, said=usage)
        words = ["check", "--pattern", "--answers", "--json", "--explain", option, file]
        yield Run(f"check with --answers and {option}", words, status=5, said=usage)
    for option in ("--answers", "--complete"):
        words = ["check", option, "--anywhere", file]
        yield Run(f"check with {option} and without --pattern", words, status=5, said=usage)
    words = ["check", "--answers", "--same", file]
    yield Run("check with --answers and --same", words, status=5, said=usage)
    words = ["check", "--pattern", "--anywhere", "--same", "--json"]
    yield Run("check with --pattern and three options", words, status=5, said=usage)
    words = ["check", "--pattern", file, file]
    yield Run("check with --pattern and two files", words, status=5, said=USAGE)
    for command in ("replay", "migrate"):
        words = [command, "--pattern", file]
        yield Run(f"{command} with --pattern", words, status=5, said=USAGE)
    yield Run(
        "--pattern in the help on check",
        ["check", "--help"],
        wrote=(
            b"--pattern",
            b"Judges a pattern: every number of ranks on every placement",
            b"--answers",
            b"--complete",
        ),
    )


def misused_spreads(file: str) -> Runs:
    """Options of `expand` that don't say on which nodes ranks are."""
    usage = SPREAD_MISUSED
    wrong = {
        "no ranks on a node": "--per-node 0",
        "ranks on a node that are no number": "--per-node x",
        "no nodes": "--by node --nodes 0",
        "nodes that are no number": "--by node --nodes 2x",
        "another way": "--by slot --nodes 2",
        "a way without nodes": "--by node",
        "nodes without a way": "--nodes 2",
        "two ways": "--per-node 2 --by node --nodes 2",
        "ranks on a node, and nodes": "--per-node 2 --nodes 2",
    }
    for name, options in wrong.items():
        words = ["expand", "--ranks", "workers=2", *options.split(), file]
        yield Run(f"expand with {name}", words, status=5, said=usage)
    for option in ("--json", "--lines"):
        yield Run(f"expand with {option}", ["expand", option, file], status=5, said=USAGE)
    yield Run(
        "the options in the help on expand",
        ["expand", "--help"],
        wrote=(b"--ranks <GROUPS>", b"--per-node <COUNT>", b"--by <WAY>", b"--nodes <COUNT>"),
    )


def misused_ranks(file: str) -> Runs:
    """Parts of `--ranks` that say nothing, or what the pattern can't have. Its one group is
    `workers`."""
    wrong = {
        "": 1,
        "workers": 1,
        "workers=": 1,
        "workers=x": 1,
        "workers=-1": 1,
        "worker=2": 1,
        "workers=2,": 2,
        "workers=2,workers=3": 2,
    }
    for word, part in wrong.items():
        yield Run(
            f"expand --ranks {word}",
            ["expand", "--ranks", word, file],
            status=2,
            said=b"wire_up: fault 13 BadOrder %d\n" % part,
        )


class Forms(ProgramCase):
    """Runs with the places of calls."""

    def test_placings(self) -> None:
        self.hold_all(placings(self.room))


if __name__ == "__main__":
    unittest.main()
