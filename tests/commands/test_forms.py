"""Runs the commands with `--json`."""
import json
import unittest
from pathlib import Path

from tests.support.forms import (
    Placed,
    answer_as_json,
    as_json,
    found_as_json,
    tried_as_json,
    witness_as_json,
)
from tests.support.running import (
    CARDS,
    CARDS_REPORT,
    EARLY_GET,
    EXAMPLE,
    FULL,
    NOTHING,
    RACY,
    ProgramCase,
    Run,
    Runs,
    examples,
    onto,
    start,
    text_of,
    written,
)


def forms(room: Path) -> Runs:
    """The runs of `check`, `follow`, `why` and `witness` with `--json`."""
    yield from forms_of_findings()
    yield from forms_of_chains()
    yield from forms_of_orders(room)
    yield from forms_of_examples()
    yield from forms_of_witnesses()
    yield from forms_that_fail(room)


def forms_of_findings() -> Runs:
    """Findings as JSON."""
    yield Run(
        "findings as JSON",
        ["check", "--json", EARLY_GET],
        status=1,
        wrote=b'{"findings":["race app:0 2 app:1 1 key app:0 card"]}\n',
    )
    yield Run("no findings, as JSON", ["check", "--json", EXAMPLE], wrote=b'{"findings":[]}\n')
    yield Run(
        "no findings of a large plan, as JSON",
        ["check", "--json", "--large", EXAMPLE],
        wrote=b'{"findings":[]}\n',
    )


def forms_of_chains() -> Runs:
    """Answers of `why` as JSON."""
    fence = "examples/card-fence.plan"
    still = "examples/standstill.plan"
    question = ["why", "--json", "app:0", "3", "app:1", "4"]
    chain = (
        b'{"before":"%s","chain":[{"call":3,"proc":"app:0","verb":"commit"},{"call":4,"half":'
        b'"arrive","proc":"app:0","verb":"fence"},'
        b'{"call":3,"half":"leave","proc":"app:1","verb":"fence"},{"call":4,"proc":"app:1",'
        b'"verb":"get-now"}]}\n'
    )
    dead = b'{"before":null,"dead":[{"call":2,"proc":"app:0"},{"call":2,"proc":"app:1"}]}\n'
    alone = b'{"before":null,"dead":[{"call":2,"proc":"app:0"}]}\n'
    yield Run("a chain as JSON", [*question, fence], wrote=chain % b"first")
    yield Run(
        "a chain the other way round, as JSON",
        ["why", "--json", "app:1", "4", "app:0", "3", fence],
        wrote=chain % b"second",
    )
    yield Run(
        "no chain, as JSON",
        ["why", "--json", "app:0", "2", "app:1", "1", EARLY_GET],
        wrote=b'{"before":null,"dead":[]}\n',
    )
    yield Run(
        "dead calls as JSON", ["why", "--json", "app:0", "2", "app:1", "2", still], wrote=dead
    )
    yield Run(
        "a dead call asked against itself, as JSON",
        ["why", "--json", "app:0", "2", "app:0", "2", still],
        wrote=alone,
    )


def forms_of_orders(room: Path) -> Runs:
    """Reports of orders as JSON."""
    cards = written(room, "cards.plan", CARDS)
    order = written(
        room, "lowest.order", "".join(f"app:{rank}\n" for rank in "00001112001222").encode()
    )
    late = written(room, "late.order", b"app:1\n")
    told = (
        b"app:0 1 put ready\napp:0 2 commit unreached\n"
        b"app:1 1 get-now PMIX_ERR_NOT_FOUND\nwaiting 0\n"
    )
    yield Run("an order as JSON", ["follow", "--json", order, cards], wrote=as_json(CARDS_REPORT))
    yield Run("a step as JSON", ["follow", "--json", late, EARLY_GET], wrote=as_json(told))


def forms_of_examples() -> Runs:
    """The examples as JSON."""
    for example in examples(".findings"):
        found = text_of(f"tests/examples/{example}.findings")
        status = int(found != NOTHING)
        yield Run(
            f"findings of {example} as JSON",
            ["check", "--json", f"examples/{example}.plan"],
            status=status,
            wrote=found_as_json(found),
        )
    for each_example in examples(".question"):
        words, answer = text_of(
            f"tests/examples/{each_example}.question"
        ).decode().split(), text_of(f"tests/examples/{each_example}.answer")
        yield Run(
            f"a question about {each_example}, as JSON",
            ["why", "--json", *words, f"examples/{each_example}.plan"],
            wrote=answer_as_json(answer),
        )
    for other_example in examples(".order"):
        report = text_of(f"tests/examples/{other_example}.followed")
        yield Run(
            f"an order of {other_example}, as JSON",
            [
                "follow",
                "--json",
                f"examples/{other_example}.order",
                f"examples/{other_example}.plan",
            ],
            wrote=as_json(report),
        )


def forms_of_witnesses() -> Runs:
    """What `witness` writes as JSON."""
    asked = ["witness", "--json", "app:0", "2", "app:1", "1", EARLY_GET]
    runs_of_it = (
        b'{"first":{"order":["app:0","app:0","app:1"],"reply":"PMIX_SUCCESS","value":"10.0.0.'
        b'1:7000"},"race":true,'
        b'"second":{"order":["app:0","app:1","app:0"],"reply":"PMIX_ERR_NOT_FOUND"},"shown":{'
        b'"call":1,"proc":"app:1","verb":"get-now"}}\n'
    )
    none = b'{"counts":{"not_shown":0,"not_tried":1,"races":1,"shown":0},"races":[]}\n'
    tried = (
        b'{"counts":{"not_shown":0,"not_tried":0,"races":1,"shown":1},'
        b'"races":[{"finding":"race app:0 2 app:1 1 key app:0 '
        b'card","shown":{"call":1,"proc":"app:1"}}]}\n'
    )
    yield Run("a witness as JSON", asked, status=1, wrote=runs_of_it)
    yield Run(
        "no race, as JSON",
        ["witness", "--json", "app:0", "1", "app:1", "1", EARLY_GET],
        wrote=b'{"race":false,"shown":null}\n',
    )
    yield Run(
        "a witness as JSON, and a full device",
        asked,
        status=4,
        said=FULL,
        set_up=onto("/dev/full", 1),
    )
    yield Run("no race tried, as JSON", ["witness", "--json", "--most", "0", EARLY_GET], wrote=none)
    yield Run("the races as JSON", ["witness", "--json", EARLY_GET], status=1, wrote=tried)


def forms_that_fail(room: Path) -> Runs:
    """Refusals and full devices, where JSON is asked for."""
    odd = written(room, "odd.plan", b"# only\n")
    fence = "examples/card-fence.plan"
    question = ["why", "--json", "app:0", "3", "app:1", "4"]
    late = written(room, "late.order", b"app:1\n")
    yield Run(
        "a file that is refused, for JSON",
        ["check", "--json", odd],
        status=2,
        said=b"wire_up: fault 3 BadHeader 2\n",
    )
    yield Run(
        "a wrong word, for JSON",
        ["why", "--json", "app:0", "9", "app:1", "1", EARLY_GET],
        status=2,
        said=b"wire_up: fault 13 BadOrder 2\n",
    )
    for words, plan in (
        (["check", "--json"], EARLY_GET),
        (question, fence),
        (["follow", "--json", late], EARLY_GET),
    ):
        yield Run(
            f"{words[0]} as JSON, and a full device",
            [*words, plan],
            status=4,
            said=FULL,
            set_up=onto("/dev/full", 1),
        )


class Forms(ProgramCase):
    """Runs in other forms than lines."""

    def test_forms(self) -> None:
        self.hold_all(forms(self.room))

    def test_anyway(self) -> None:
        """A plan with a race is run with `--anyway`, and gives the same report when it is followed
        in the order told."""
        for workers in (1, 2, 7):
            with self.subTest(workers=workers):
                self.hold_anyway(str(workers))
            with self.subTest("as JSON", workers=workers):
                self.hold_anyway_form(str(workers))

    def hold_anyway(self, workers: str) -> None:
        racy = written(self.room, "racy.plan", RACY)
        ran = start(self.program, Run("", ["replay", "--anyway", "--workers", workers, racy]))
        head, _, rest = ran.stdout.partition(b"\n")
        report, _, order = rest.partition(b"order ")
        count, _, order = order.partition(b"\n")
        self.told_alike((b"unsettled", 3), (head, int(count)))
        self.told_alike((1, b""), (ran.returncode, ran.stderr))
        self.told_alike(report, self.followed(order, racy))

    def hold_anyway_form(self, workers: str) -> None:
        racy = written(self.room, "racy.plan", RACY)
        words = ["replay", "--anyway", "--workers", workers, "--json", racy]
        ran = start(self.program, Run("", words))
        form = json.loads(ran.stdout)
        self.assertIs(form.pop("unsettled"), True)
        order = "".join(f"{item}\n" for item in form.pop("order")).encode()
        self.told_alike((1, b""), (ran.returncode, ran.stderr))
        self.told_alike(form, json.loads(as_json(self.followed(order, racy))))

    def followed(self, order: bytes, plan: str) -> bytes:
        """The report of an order of three steps."""
        self.assertEqual(18, len(order))
        path = written(self.room, "told.order", order)
        ran = start(self.program, Run("", ["follow", path, plan]))
        self.assertEqual(0, ran.returncode)
        return ran.stdout

    def test_witnesses(self) -> None:
        """`witness` tells the same of an example's races in lines and as JSON, and with the places
        of calls."""
        for name in examples(".plan"):
            with self.subTest(name):
                self.hold_witnesses(name)

    def hold_witnesses(self, name: str) -> None:
        plan, placed = f"examples/{name}.plan", Placed(name)
        lines = self.witness([], [], plan)
        self.hold_forms([], plan, tried_as_json(lines[1]), placed.tried(lines[1]), lines[0])
        findings = text_of(f"tests/examples/{name}.findings").decode().splitlines()
        for finding in (
            each_finding for each_finding in findings if each_finding.startswith("race ")
        ):
            words = finding.split(" ")[1:5]
            status, text = self.witness([], words, plan)
            form = witness_as_json(text)
            self.hold_forms(words, plan, form, placed.witness(words, text), status)

    def witness(self, options: list[str], words: list[str], plan: str) -> tuple[int, bytes]:
        """The status of `witness`, and what it writes."""
        ran = start(self.program, Run("", ["witness", *options, *words, plan]))
        self.assertEqual(b"", ran.stderr)
        return ran.returncode, ran.stdout

    def hold_forms(
        self, words: list[str], plan: str, form: bytes, wanted: tuple[bytes, bytes], status: int
    ) -> None:
        """Holds what `witness` writes in the other forms."""
        self.told_alike((status, form), self.witness(["--json"], words, plan))
        for options, text in zip((["--lines"], ["--lines", "--json"]), wanted):
            self.told_alike((status, text), self.witness(options, words, plan))


if __name__ == "__main__":
    unittest.main()
