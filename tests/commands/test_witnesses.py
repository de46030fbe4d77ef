"""Holds `witness` to the model (model.py), to `check` and to `follow`: on the examples, on two
plans in which values are alike, and on random plans; or on the plans of the folders that
WIRE_UP_PLANS names, with `:` between them: all files *.plan there and below, and all that are named
`plan`.

- `witness` has a line for each race that `check` reports, in the same order, and its last line
  counts them. So it has with `--most 1`. These are the races of the model.
- A race that the four runs of the model show is called shown, and `witness P N Q M` writes the
  call, the ends and the two runs of the model.
- Of any race that is called shown, `witness P N Q M` shows the same call, with two ends that read
  differently. The two orders that are written are those of `--first` and `--second`, and each of
  these, followed, gives the end of that call that is written. All this holds of `witness Q M P N`
  too. The orders, and what is said of `witness Q M P N`, are held for two races of a plan, and for
  all that the model doesn't show.
- Of a race that isn't called shown, `witness P N Q M` says so, with status 0. Of two calls without
  a race it says that.

The first 200 races of a plan are looked at. At least one race of all plans must be shown.
"""
import os
import random
import re
import subprocess
import unittest
from collections import Counter
from collections.abc import Iterator, Sequence
from pathlib import Path

from tests import support
from tests.models import grammar, model, model_runs
from tests.soak.random_plans import Maker, MeetingMaker
from tests.support.running import SECONDS, ProgramCase


# How many random plans, and of at most how many calls.
PLANS, MOST_CALLS, SEED = 500, 100, 1
# How many races of a plan are looked at, and how many of these are followed.
MOST_RACES, MOST_FOLLOWED = 200, 2
# How many races `witness` tries by itself.
MOST_TRIED = 1000
# Plans in which a lookup brings a value that two calls publish. Of the runs of the second that are
# tried, only the publish differs that it comes from.
ALIKE = (
    b"rank n0\npublish x v\nrank n0\npublish x v\nrank n0\nlookup x\n",
    b"rank n0\nget app:1 k\nlookup x\n"
    b"rank n0\npublish x v\nput global k 1\ncommit\nunpublish x\nput global m 2\ncommit\n"
    b"rank n0\nget app:1 m\npublish x v\n",
)
LAST = re.compile(r"races (\d+) shown (\d+) not-shown (\d+) not-tried (\d+)")
VERDICT = re.compile(r"^(shown \S+ \d+|not-shown) ")
Lines = list[str]


class Wrong(AssertionError):
    """What isn't as it should be."""


def want(holds: bool, what: str) -> None:
    if not holds:
        raise Wrong(what)


def end_in(report: Lines, call: str) -> str:
    """The end of a call in a report, without its verb."""
    found = [line for line in report if line.startswith(f"{call} ")]
    want(len(found) == 1, f"{call} stands {len(found)} times in the report")
    return found[0][len(call) + 1:].partition(" ")[2]


def counts_in(line: str) -> list[int]:
    """The counts of the last line of `witness`."""
    found = LAST.fullmatch(line)
    if not found:
        raise Wrong(f"the last line is {line}")
    return [int(part) for part in found.groups()]


class Look:
    """The looks at the races of one plan."""

    def __init__(self, program: str, plan: str, room: Path) -> None:
        self.program, self.plan, self.room = program, plan, room
        self.model = model.Plan(grammar.read(Path(plan).read_bytes()))

    def run(self, *words: str) -> tuple[int, Lines]:
        """The status and the lines of a run."""
        ran = subprocess.run(
            [self.program, *words],
            stdin=subprocess.DEVNULL,
            capture_output=True,
            timeout=SECONDS,
            check=False,
        )
        return ran.returncode, ran.stdout.decode("latin-1").splitlines()

    def witness(self, *words: str) -> tuple[int, Lines]:
        """The status and the lines of `witness` about words, which may begin with dashes."""
        return self.run("witness", "--", *words, self.plan)

    def words(self, x: model.Event, y: model.Event) -> Lines:
        return f"{self.model.call_text(x).decode()} {self.model.call_text(y).decode()}".split()

    def at_all(self, dice: random.Random) -> Counter[bool]:
        """Looks at all races. Answers how many of them are shown, and how many aren't."""
        lines, races = self.listed()[:MOST_RACES], self.model.races()
        told: Counter[bool] = Counter()
        far = dice.sample(range(len(lines)), min(MOST_FOLLOWED, len(lines)))
        for number, (line, race) in enumerate(zip(lines, races)):
            told[self.at_race(race, line, number in far)] += 1
        if lines:
            self.at_not_shown(self.words(races[0].x, races[0].x), "no race")
        return told

    def listed(self) -> Lines:
        """The lines of `witness` about the plan, beside those of `check` and of the model."""
        _, findings = self.run("check", self.plan)
        modelled = self.model.findings().decode("latin-1").splitlines()
        want(findings == modelled, "the findings aren't those of the model")
        races = [line for line in findings if line.startswith("race ")]
        status, lines = self.run("witness", self.plan)
        told = [VERDICT.sub("", line) for line in lines[:-1]]
        shown = sum(line.startswith("shown ") for line in lines[:-1])
        tried = min(len(races), MOST_TRIED)
        counts = [len(races), shown, tried - shown, len(races) - tried]
        want(told == races[:tried] and counts_in(lines[-1]) == counts, f"the list: {lines[-1]}")
        want(status == int(shown > 0), f"the list: status {status}")
        _, few = self.run("witness", "--most", "1", self.plan)
        want(few[:-1] == lines[:-1][:1], f"--most 1: {few}")
        want(counts_in(few[-1])[3] == max(0, len(races) - 1), f"--most 1: {few[-1]}")
        return lines[:-1]

    def at_race(self, race: model.Race, line: str, is_far: bool) -> bool:
        """Looks at a race, of which the list has a line, and also at its orders if that is asked.
        Answers whether it is shown."""
        x, y = race.x, race.y
        shown, words = model_runs.witness(self.model, x, y), self.words(x, y)
        if not line.startswith("shown "):
            want(not shown, f"{words}: not shown, and the model shows it")
            self.at_not_shown(words, "not shown")
            return False
        is_far = is_far or not shown
        call = self.at_shown(words, shown, is_far)
        want(call == line.split()[1:3], f"{words}: {call}, and in the list {line}")
        if is_far:
            self.at_shown(self.words(y, x), model_runs.witness(self.model, y, x), True)
        return True

    def at_shown(self, words: Lines, shown: model_runs.Shown | None, is_far: bool) -> Lines:
        """Looks at two calls of a race that is called shown, beside what shows it in the model.
        Answers the call that ends differently."""
        status, lines = self.witness(*words)
        want(status == 1 and lines[0].startswith("shown "), f"witness {words}: {status}")
        first, second = lines[1].removeprefix("first "), lines[2].removeprefix("second ")
        want(first != second, f"witness {words}: both ends read alike, {first}")
        if shown:
            text = model_runs.witness_text(self.model, shown).decode("latin-1")
            want(lines == text.splitlines(), f"{words}: other runs than in the model")
        if is_far:
            self.at_orders(words, lines)
        return lines[0].split()[1:3]

    def at_orders(self, words: Lines, lines: Lines) -> None:
        """Follows both orders that `witness` writes of two calls."""
        call, count = " ".join(lines[0].split()[1:3]), int(lines[3].removeprefix("order "))
        orders = lines[4:4 + count], lines[5 + count:]
        told = int(lines[4 + count].removeprefix("order "))
        want(len(orders[1]) == told, f"{words}: the second order")
        ends = (line.partition(" ")[2] for line in lines[1:3])
        for option, order, end in zip(("--first", "--second"), orders, ends):
            report = self.followed(option, words, order)
            want(end_in(report, call) == end, f"{option} {words}: not {end}")

    def followed(self, option: str, words: Lines, lines: Lines) -> Lines:
        """The report of an order that `witness` writes by itself."""
        status, order = self.run("witness", option, "--", *words, self.plan)
        want(status == 1 and order == lines, f"{option} {words}")
        path = self.room / "order"
        path.write_text("".join(f"{line}\n" for line in order), encoding="latin-1")
        status, report = self.run("follow", str(path), self.plan)
        want(status == 0, f"follow {option} {words}: {status}")
        return report

    def at_not_shown(self, words: Lines, says: str) -> None:
        """Looks at two calls of which nothing is shown."""
        status, lines = self.witness(*words)
        well = status == 0 and lines[0] == says and len(lines) == 2
        want(well, f"witness {words}: {status} {lines}")


def written(room: Path, name: str, text: bytes) -> str:
    """The path of a plan of this text."""
    path = room / f"{name}.plan"
    path.write_bytes(text)
    return str(path)


def our_plans(room: Path, dice: random.Random) -> Iterator[str]:
    """The examples, plans in which values are alike, and random plans that are read, have races and
    aren't long."""
    yield from map(str, sorted((support.TOP / "examples").glob("*.plan")))
    for number, ranks in enumerate(ALIKE):
        yield written(room, f"alike-{number}", b"rehearsal 1\nnode n0\njob app\n" + ranks)
    count = PLANS
    while count:
        maker = MeetingMaker if count % 2 else Maker
        text = b"".join(b" ".join(line) + b"\n" for line in maker(dice).lines())
        if is_wanted(text):
            yield written(room, str(count), text)
            count -= 1


def is_wanted(text: bytes) -> bool:
    """Whether a random plan is read, has races and isn't long."""
    try:
        scripts = grammar.read(text)
    except grammar.Refused:
        return False
    count = sum(len(proc.calls) for proc in scripts.procs)
    return count <= MOST_CALLS and bool(model.Plan(scripts).races())


def plans_below(folders: Sequence[str]) -> Lines:
    """All plans in and below folders."""
    found = [path for folder in folders for path in Path(folder).rglob("*") if path.is_file()]
    return sorted(str(path) for path in found if path.suffix == ".plan" or path.name == "plan")


class Witnesses(ProgramCase):
    """`witness` on many plans."""

    def test_plans(self) -> None:
        dice, told = random.Random(SEED), Counter[bool]()
        folders = os.environ.get("WIRE_UP_PLANS", "")
        plans = plans_below(folders.split(":")) if folders else our_plans(self.room, dice)
        for plan in plans:
            if self.is_read(plan):
                with self.subTest(plan if folders else Path(plan).name):
                    told += Look(self.program, plan, self.room).at_all(dice)
        print(f"witness: {told[True]} of {told.total()} races shown", flush=True)
        with self.subTest("at least one race is shown"):
            self.assertTrue(told[True])

    def is_read(self, plan: str) -> bool:
        """Whether `check` reads a plan."""
        ran = subprocess.run(
            [self.program, "check", plan],
            stdin=subprocess.DEVNULL,
            capture_output=True,
            check=False,
        )
        return ran.returncode < 2


if __name__ == "__main__":
    unittest.main()
