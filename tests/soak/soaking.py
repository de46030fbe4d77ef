"""Holds the program, on one file, to itself, to a second reader (grammar.py) and to a model of
plans (model.py, model_runs.py).

- A file that the second reader refuses is refused by every command with the fault and the line that
  this reader names, and no other.
- Nothing comes on standard output after a fault. No run ends by a signal, by a status that isn't
  documented, or takes over 10 seconds.
- A command writes the same about the file, the same bytes on standard input, standard input that
  gives one byte a call, the canonical text, and the file with comments, blank lines, tabs and
  carriage returns added.
- `migrate` writes the canonical text under version 2 that the second reader has, and `check` and
  `replay`, with 1 and 7 workers, write the same about it. `--large` changes no byte of what `check`
  writes.
- Where rustc can build it, the unproved program of build/plain answers `check` in the same way.
- `place` writes the canonical text that the second reader has, with some ranks on one node and all
  others on another.
- Of a plan of at most 5 ranks, `check --anywhere --same` writes what `check` and `replay` of all
  placements of its ranks make of it.
- Without findings `replay` writes the same with 1, 2, 7 and 64 workers, its JSON form says the
  same, and so does the report of a random complete order. With findings it writes those that
  `check` writes, and the order of `--anyway`, followed, gives its report. `--complete` changes no
  byte of either, and tells the first line of the report that isn't `PMIX_SUCCESS`.
- `why` says the same of two calls in both directions. A question or an order that the second reader
  refuses is refused with the fault that it names. Where a step can't be taken, the order before it
  can be followed, and leaves that rank unready.
- Of a plan of at most 60 events, the findings of `check` are those of the model. Without findings,
  the report of `replay` is that of the model's plain run. So is each report of `follow` that of the
  same steps in the model, and a step that can't be taken is the same one. The first line of `why`
  is the model's too, and which calls are dead.
"""
import json
import random
import re
from collections.abc import Callable, Sequence

from tests.models import everywhere, grammar, model, placements
from tests.models.model_runs import Run, followed
from tests.soak.random_plans import NUMBERS, damaged, styled
from tests.soak.soak_runner import Difference, Ran, Runner, same


# Longer files aren't handed over one byte at a time, and no complete order of theirs is looked for.
MOST_BYTES, MOST_STEPS = 4_000, 24
# Longer plans aren't held to the model, and plans of more ranks not to all their placements.
MOST_EVENTS, MOST_RANKS = 60, 5
WORKERS = (1, 2, 7, 64)
NOT_READY = re.compile(rb"wire_up: fault 12 NotReady (\d+)\n")


class Look:
    """All looks at one file. The dice choose what is asked."""

    def __init__(self, runner: Runner, text: bytes, scripts: grammar.Scripts, seed: int) -> None:
        self.runner, self.text, self.dice = runner, text, random.Random(seed)
        self.path = runner.written("it.plan", text)
        self.is_small = len(text) <= MOST_BYTES
        self.scripts, self.canonical = scripts, grammar.canonical(scripts)
        calls = [words for proc in scripts.procs for words in proc.calls]
        self.events = sum(1 + (words[0] == b"fence") for words in calls)
        self.model = model.Plan(scripts) if self.events <= MOST_EVENTS else None

    def at_all(self) -> str:
        """Looks at all of it. Answers whether the file has findings."""
        again = grammar.canonical(grammar.read(self.canonical))
        same("canonical text that reads as another", self.canonical, again)
        checked = self.at_inputs("check")
        self.hold("check", checked.wrote, lambda plan: plan.findings())
        self.at_version_2()
        self.at_place()
        self.at_anywhere()
        large = self.runner.run("check", "--large", self.path)
        same("another answer with large limits", checked, large)
        self.runner.hold_to_unproved(checked, "check", self.path)
        self.runner.hold_to_unproved(large, "check", "--large", self.path)
        self.at_questions()
        self.at_odd_question()
        self.at_order(b"", "an empty order")
        self.at_odd_order()
        if checked.status:
            self.at_findings(checked)
            return "with findings"
        same("findings 0", Ran(0, b"findings 0\n", b""), checked, "check")
        self.at_report()
        return "without findings"

    def hold(
        self,
        command: str,
        wrote: bytes,
        answer: Callable[[model.Plan], bytes],
        what: object = "",
    ) -> None:
        """Holds what a command wrote of a small plan to an answer of the model."""
        if self.model:
            name = f"another answer of {command} than the model's"
            same(name, answer(self.model), wrote, what)
            self.runner.held[command] += 1

    def at_version_2(self) -> None:
        """The same plan under version 2: it is written as the second reader writes it, and answered
        as it was."""
        run = self.runner.run
        text = grammar.canonical(self.scripts._replace(version=b"2"))
        same("another migrated text", Ran(0, text, b""), run("migrate", self.path))
        if len(text) <= grammar.FILE_BYTES:
            name = "a migrated text that is migrated otherwise"
            same(name, Ran(0, text, b""), run("migrate", given=text))
            for words in (["check"], ["replay"], ["replay", "--workers", "7"]):
                was, now = run(*words, self.path), run(*words, given=text)
                same(f"another answer of {words[0]} under version 2", was, now)

    def at_place(self) -> None:
        """Some ranks on a node of their own."""
        count = len(self.scripts.procs)
        ranks = self.dice.choices(range(count), k=self.dice.choice((1, 2, 3, 9))) if count else []
        word = placements.ranks_word(self.scripts, ranks)
        # clap reads a word that begins so as an option.
        if not word or word.startswith("-"):
            return
        text = grammar.canonical(placements.placed(self.scripts, ranks))
        same("another placed text", Ran(0, text, b""), self.runner.run("place", word, self.path))

    def at_anywhere(self) -> None:
        """All placements of a few ranks."""
        if not self.model or len(self.scripts.procs) > MOST_RANKS:
            return
        run, words = self.runner.run, ("check", "--anywhere", "--same", self.path)
        held = everywhere.Everywhere(self.scripts, lambda row, plan: run(*row, given=plan).wrote)
        same("another answer than of all placements", held.verdict(), run(*words).wrote)
        self.runner.held["check --anywhere"] += 1

    def at_inputs(self, command: str) -> Ran:
        """What a command answers; the same from all places and in all spellings."""
        run = self.runner.run
        first = run(command, self.path)
        name = f"another answer of {command}"
        if first.status > 1:
            why = f"{command}: said {first.said!r}, and the second reader reads the file"
            raise Difference(f"a fault of {command}", why)
        same(name, first, run(command, given=self.text), "a file and standard input")
        if self.is_small:
            by_byte = run(command, given=self.text, by_byte=True)
            same(name, first, by_byte, "a file and one byte a call")
        if len(self.canonical) <= grammar.FILE_BYTES:
            canonical = run(command, given=self.canonical)
            same(name, first, canonical, "a file and its canonical text")
        lines = [line.split(b" ") for line in self.canonical.splitlines()]
        other = styled(self.dice, lines)
        if len(other) <= grammar.FILE_BYTES:
            what = "a file and its canonical text with other spaces and comments"
            same(name, first, run(command, given=other), what)
        return first

    def at_report(self) -> None:
        """A plan without findings."""
        run = self.runner.run
        report = self.at_inputs("replay")
        same("the status of a report", (0, b""), (report.status, report.said))
        self.hold("replay", report.wrote, lambda plan: Run(plan).go().report())
        as_form = report._replace(wrote=as_json(self.scripts, report.wrote))
        for workers in WORKERS:
            ran = run("replay", f"--workers={workers}", self.path)
            same("another report", report, ran, f"1 and {workers} workers")
        for workers in (1, self.dice.choice(WORKERS)):
            ran = run("replay", "--json", f"--workers={workers}", self.path)
            same("another form", as_form, ran, "text and JSON")
        same("another report anyway", report, run("replay", "--anyway", self.path))
        calls = report.wrote.splitlines(True)[:-1]
        failed = [line for line in calls if line.split()[3] != b"PMIX_SUCCESS"]
        said = b"".join([b"wire_up: ", *failed[:1]]) if failed else b""
        complete = report._replace(status=int(bool(failed)), said=said)
        same("the answer of --complete", complete, run("replay", "--complete", self.path))
        if self.is_small and self.events <= MOST_STEPS:
            self.at_complete_order(report)

    def at_complete_order(self, report: Ran) -> None:
        """Takes steps of ranks that can go on, whichever, until none can: the report must be the
        same."""
        order = b""
        while True:
            ran = self.at_order(order, "part of an order")
            lines = [line for line in ran.wrote.splitlines() if line.endswith(b" ready")]
            ready = sorted({line.split(b" ")[0] for line in lines})
            if not ready:
                break
            order += self.dice.choice(ready) + b"\n"
        same("two complete orders, and two reports", report.wrote, ran.wrote, order.split())

    def at_order(self, order: bytes, what: str) -> Ran:
        """Follows an order that can be followed."""
        ran = self.runner.run("follow", self.runner.written("it.order", order), self.path)
        if ran.status:
            why = f"{what}: {order.split()}: {ran.said!r}"
            raise Difference("an order that is refused", why)

        def report(plan: model.Plan) -> bytes:
            return followed(plan, order.split())[0].report()

        self.hold("follow", ran.wrote, report, order.split())
        return ran

    def at_findings(self, checked: Ran) -> None:
        """A plan with findings."""
        run, two = self.runner.run, "check and replay"
        *lines, last = checked.wrote.decode().split("\n")[:-1]
        same("the count of findings", f"findings {len(lines)}", last)
        same("the status of findings", (1, b""), (checked.status, checked.said))
        same("other findings", checked, run("replay", self.path), two)
        complete = run("replay", "--complete", self.path)
        same("other findings, with --complete", checked, complete, two)
        form = json.dumps({"findings": lines}, separators=(",", ":")).encode() + b"\n"
        ran = run("replay", "--json", "--workers", "2", self.path)
        same("another form of findings", checked._replace(wrote=form), ran)
        for workers in (1, self.dice.choice(WORKERS)):
            self.at_anyway(workers)
        self.at_anyway_form(self.dice.choice(WORKERS))

    def at_anyway(self, workers: int) -> None:
        """A plan with findings that is run once."""
        ran = self.runner.run("replay", "--anyway", f"--workers={workers}", self.path)
        head, _, rest = ran.wrote.partition(b"\n")
        report, told, rest = rest.rpartition(b"order ")
        count, _, order = rest.partition(b"\n")
        wanted = 1, b"unsettled", b"order ", order.count(b"\n")
        same("a run anyway", wanted, (ran.status, head, told, int(count or b"-1")))
        again = self.at_order(order, f"{workers} workers")
        same("another report of the order told", report, again.wrote)
        if b" ready\n" in report:
            why = f"{workers} workers: {order.split()}"
            raise Difference("a run anyway that could go on", why)

    def at_anyway_form(self, workers: int) -> None:
        """The same as JSON."""
        words = "replay", "--anyway", "--json", f"--workers={workers}"
        ran = self.runner.run(*words, self.path)
        form = json.loads(ran.wrote)
        order = "".join(item + "\n" for item in form["order"]).encode()
        again = self.at_order(order, f"JSON, {workers} workers")
        whole = json.loads(as_json(self.scripts, again.wrote))
        whole |= {"order": form["order"], "unsettled": True}
        same("the form of a run anyway", (1, dumped(whole)), (ran.status, ran.wrote))

    def at_questions(self) -> None:
        """Asks about two calls, from both sides."""
        calls = []
        for each_proc in self.scripts.procs:
            proc = f"{each_proc.job.decode()}:{each_proc.rank}"
            calls += [(proc, str(n)) for n in range(1, 1 + len(each_proc.calls))]
        if not calls:
            return
        x, y = self.dice.choice(calls), self.dice.choice(calls)
        dashes = ["--"] if x[0].startswith("-") or y[0].startswith("-") else []
        words = ["why", *dashes, *x, *y, self.path]
        ran = self.runner.run(*words)
        other = self.runner.run("why", *dashes, *y, *x, self.path)
        same("a question", (0, 0), (ran.status, other.status), f"{words}: {ran.said!r}")
        head = ran.wrote.partition(b"\n")[0]
        said = ran.wrote if head == b"unordered" else head + b"\n"
        x_call, y_call = ((proc.encode(), n) for proc, n in (x, y))
        self.hold("why", said, lambda plan: answer_of(plan, x_call, y_call), words)
        is_both = turned(ran.wrote), sides(other.wrote)
        same("a question from both sides", *is_both, words)

    def at_odd_question(self) -> None:
        """Asks with random words."""
        procs = [b"%s:%d" % (proc.job, proc.rank) for proc in self.scripts.procs]
        procs += [b"app:0", b"app", b"a:00", b"", b":0", b"no:1"]
        numbers = [b"1", b"1", b"2", b"3", *NUMBERS, b""]
        words = [self.dice.choice(row) for row in (procs, numbers, procs, numbers)]
        ran = self.runner.run("why", "--", *words, self.path)
        try:
            grammar.judge_question(self.scripts, words)
        except grammar.Refused as why:
            same("an odd question", Ran(2, b"", why.said()), ran, words)
            return
        same("the status of a question", 0, ran.status, words)

    def at_odd_order(self) -> None:
        """Follows a random order, which may be damaged."""
        procs = [b"%s:%d" % (proc.job, proc.rank) for proc in self.scripts.procs] or [b"app:0"]
        count = self.dice.choice((1, 2, 4, 8, 20))
        order = styled(self.dice, [[self.dice.choice(procs)] for _ in range(count)])
        for _ in range(self.dice.choice((0, 0, 1, 2))):
            order = damaged(self.dice, order)
        ran = self.runner.run("follow", self.runner.written("it.order", order), self.path)
        try:
            steps = grammar.steps_of(self.scripts, order)
        except grammar.Refused as why:
            same("an odd order", Ran(2, b"", why.said()), ran, order)
            return
        if ran.status:
            self.at_late_step(order, steps, ran)
        else:
            self.hold("follow", ran.wrote, lambda plan: followed(plan, steps)[0].report(), order)

    def at_late_step(self, order: bytes, steps: Sequence[bytes], ran: Ran) -> None:
        """An order of which a step can't be taken."""
        late = NOT_READY.fullmatch(ran.said)
        if not late or not 1 <= int(late[1]) <= len(steps):
            raise Difference("an order refused", f"{order!r}: {ran.said!r}")
        at = int(late[1]) - 1
        before = b"".join(step + b"\n" for step in steps[:at])
        lines = self.at_order(before, "the steps before it").wrote.splitlines()
        stands = [
            line for line in lines if line.startswith(steps[at] + b" ") and line.endswith(b" ready")
        ]
        same("a step that was ready", [], stands, order)
        self.hold("follow", late[1], lambda plan: b"%d" % (followed(plan, steps)[1] or 0), order)


def answer_of(plan: model.Plan, x: tuple[bytes, str], y: tuple[bytes, str]) -> bytes:
    """What the model says of two calls."""
    return plan.why(plan.call_named(*x), plan.call_named(*y))


def sides(wrote: bytes) -> tuple[bytes | None, object]:
    """What `why` says: which call comes first, and the rest, in an order that is the same from both
    sides."""
    head, _, rest = wrote.partition(b"\n")
    return head, sorted(rest.splitlines()) if head == b"unordered" else rest


def turned(wrote: bytes) -> tuple[bytes | None, object]:
    """What `why` must say of the same calls from the other side."""
    head, rest = sides(wrote)
    other = {b"before": b"after", b"after": b"before", b"unordered": b"unordered"}
    return other.get(head or b""), rest


def dumped(form: object) -> bytes:
    return json.dumps(form, sort_keys=True, separators=(",", ":")).encode() + b"\n"


def as_json(scripts: grammar.Scripts, report: bytes) -> bytes:
    """A report as JSON."""
    ranks: dict[str, list[dict[str, str]]] = {
        f"{each_proc.job.decode()}:{each_proc.rank}": [] for each_proc in scripts.procs
    }
    *calls, waiting = report.decode().splitlines()
    for line in calls:
        proc, _, verb, reply, *value = line.split(" ")
        ranks[proc].append({"reply": reply, "verb": verb, **dict(zip(["value"], value))})
    listed = [{"calls": calls_of, "proc": proc} for proc, calls_of in ranks.items()]
    return dumped({"ranks": listed, "waiting": int(waiting.split()[1])})


def at_refusal(runner: Runner, text: bytes, said: bytes) -> None:
    """Each command refuses a file alike."""
    run, path = runner.run, runner.written("it.plan", text)
    order, refused = runner.written("it.order", b"app:9\n"), Ran(2, b"", said)
    commands: list[list[str]] = [["check"], ["replay"], ["replay", "--json", "--workers", "2"]]
    commands += [["replay", "--anyway"], ["follow", order]]
    commands += [["why", "a:0", "1", "x", "0"], ["migrate"], ["place", "a:0"]]
    two = "the second reader's and the program's"
    for words in commands:
        same(f"a refusal by {words[0]}", refused, run(*words, path), two)
    same("a refusal of standard input", refused, run("check", given=text))
    runner.hold_to_unproved(refused, "check", path)
    if len(text) <= MOST_BYTES:
        by_byte = run("check", given=text, by_byte=True)
        same("a refusal by the byte", refused, by_byte)


def look(runner: Runner, text: bytes, seed: int) -> str:
    """Looks at a file. Answers whether it was refused, or has findings, or has none. Raises a
    difference."""
    try:
        scripts = grammar.read(text)
    except grammar.Refused as why:
        at_refusal(runner, text, why.said())
        return "refused"
    return Look(runner, text, scripts, seed).at_all()


def difference_of(runner: Runner, text: bytes, seed: int) -> tuple[Difference | None, str]:
    """The difference that a file shows, or None, and what kind of file it is."""
    try:
        return None, look(runner, text, seed)
    except Difference as failure:
        return failure, "different"
