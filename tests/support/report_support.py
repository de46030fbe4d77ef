"""What the tests of `wire_up-report` share: how it is run, and plans of every kind."""
import atexit
import functools
import shutil
import subprocess
import sys
import tempfile
import unittest
from collections.abc import Callable
from dataclasses import dataclass
from pathlib import Path
from typing import TypeVar

from tests import support
from tests.support import Word

COMMAND = str(support.TOP / "wire_up-report")
RECORDER = str(support.TOP / "wire_up-record")
EXAMPLES = support.TOP / "examples"
RECORDINGS = support.TOP / "record" / "recordings"
EARLY = str(EXAMPLES / "early-get.plan")
SECONDS = 300

Case = TypeVar("Case", bound=unittest.TestCase)


def run_report(*words: Word, checker: Word | None = None) -> "subprocess.CompletedProcess[str]":
    """Runs the command with a checker: the built program, if none is named."""
    return subprocess.run(
        [sys.executable, COMMAND, "--checker", checker or support.program(), *words],
        stdin=subprocess.DEVNULL,
        capture_output=True,
        text=True,
        errors="replace",
        timeout=SECONDS,
        check=False,
    )


# A checker that judges only the placement written.
OLDER = """#!/bin/sh
case "$*" in
*--anywhere*|place*) exit 5 ;;
*) exec "{program}" "$@" ;;
esac
"""


@functools.cache
def make_older() -> Path:
    """The path of a checker that judges only the placement written, and is else the built one."""
    text = OLDER.format(program=support.program())
    path = write(make_room() / "older", text.encode())
    path.chmod(0o755)
    return path


def run_checker(*words: Word) -> "subprocess.CompletedProcess[str]":
    """Runs the built program."""
    return subprocess.run(
        [support.program(), *words], capture_output=True, text=True, timeout=SECONDS, check=False
    )


def write(path: Path, data: bytes) -> Path:
    """Writes a file. Answers its path."""
    path.write_bytes(data)
    return path


def read(path: Word) -> str:
    """The text of a file."""
    return Path(path).read_text(encoding="utf-8")


# --- plans ---


def write_cards(ranks: int, nodes: int, gets: int, fence: str = "") -> str:
    """A plan in which each rank puts its card, and asks for those of the ranks after it."""
    lines = ["rehearsal 1", *(f"node n{number}" for number in range(nodes)), "job app"]
    for rank in range(ranks):
        lines += [
            f"rank n{rank * nodes // ranks}",
            f"put global card 10.0.{rank // 250}.{rank % 250}:7000",
            "commit",
            *([fence] if fence else []),
            *(f"get-now app:{(rank + number + 1) % ranks} card" for number in range(gets)),
        ]
    return "".join(f"{line}\n" for line in lines)


def write_shapes() -> str:
    """A plan whose ranks have more shapes than a diagram has lanes."""
    lines = ["rehearsal 1", *(f"node n{number}" for number in range(14)), "job a"]
    for rank in range(28):
        lines += [f"rank n{rank % 14}", f"put global k{'x' * (rank % 20)} v", "commit"]
        lines += ["fence all collect", *["get a:0 k"] * (rank % 5), "fence all"]
    return "".join(f"{line}\n" for line in lines)


def write_many_groups(keys: int, names: int, readers: int) -> str:
    """A plan in which one rank puts and publishes, and others ask without waiting."""
    puts = "".join(f"put global key{number} v\n" for number in range(keys))
    publishes = "".join(f"publish svc{number} v\n" for number in range(names))
    gets = "".join(f"get-now app:0 key{number}\n" for number in range(keys))
    lookups = "".join(f"lookup svc{number}\n" for number in range(names))
    owner = f"rank n0\n{puts}commit\n{publishes}"
    return f"rehearsal 2\nnode n0\njob app\n{owner}" + f"rank n0\n{gets}{lookups}" * readers


def write_wide() -> str:
    """A plan of long names of jobs, keys and nodes, whose ranks give to each other in a ring."""
    job, key, node = "j" * 60, "k" * 63, "n" * 63
    script = f"rank {node}\nput global {key} v\ncommit\nget {job}:{{}} {key}\nfence all\n"
    ring = "".join(script.format((number + 1) % 6) for number in range(6))
    last = f"rank {node}\nget-now {job}:0 {key}\nlookup {key}\nrank {node}\npublish {key} v\n"
    return f"rehearsal 1\nnode {node}\njob {job}\n{ring}{last}".replace("fence all", "commit")


def write_two_lanes() -> str:
    """A plan of two ranks with a race, whose names are as long as they can be."""
    job, key, node = "j" * 63, "k" * 63, "n" * 63
    head = f"rehearsal 1\nnode {node}\njob {job}\n"
    first = f"rank {node}\nput global {key} v\ncommit\npublish {key} v\n"
    return f"{head}{first}rank {node}\nget-now {job}:0 {key}\nlookup-wait {key}\n"


EVIL = b"<script>document.title='in'</script>&amp;\"'><img/src=x/onerror=alert(1)>"
HOSTILE = (
    b"# Recorded by wire_up-record <i>on\xff\x00\x1b[31m a day</i>\n"
    b"# Left out:\n#   3 <b>things</b>\n"
    b"rehearsal 1\nnode <n>\nnode \"n'\njob <j>&\nrank <n>\n"
    b'# at <u>f</u> (a&b".c:3)\n'
    b"put global " + EVIL[:63] + b" " + EVIL + b"\n"
    b"put global " + EVIL[:63] + b" " + b"<" * 255 + b"\n"
    b"commit\n"
    b"publish '\"<x>&--> " + b"&" * 255 + b"\n"
    b"rank \"n'\n"
    b"# at <u>f</u> (c.c:4)\nlookup '\"<x>&-->\n"
    b"# \x1b]0;bad\x07 \xe2\x80\xae\n"
    b"put global ]]></svg></style> v\n"
    b"lookup " + b"z" * 63 + b"\n"
    b"rank <n>\npublish " + b"z" * 63 + b" 1\npublish &lt; <\n"
)
IN_CIRCLE = "rank n\nget a:{} k\nput global k v\ncommit\nfence all\n"
CIRCLE = (
    "rehearsal 1\nnode n\njob a\n"
    + "".join(IN_CIRCLE.format(number) for number in (1, 2, 0))
    + "rank n\nfence all\nlookup-wait no\n"
)
LATE = (
    "rehearsal 1\nnode n\njob a\nrank n\nget a:0 own\npublish p 1\nrank n\nlookup-wait p\n"
    "rank n\nput global k v\nget a:1 none\nrank n\nget a:2 k\n"
)
FAILING = (
    "rehearsal 1\nnode n\njob a\nrank n\n"
    "get-now a:1 x\nget-now a:1 y\nlookup z\nrank n\nget a:0 never\n"
)
NAMES = (
    "rehearsal 1\nnode n\njob a\n"
    + "rank n\npublish p 1\nunpublish p\nlookup-wait p\n" * 3
    + "rank n\nlookup p\n"
)
STAR = "rehearsal 2\nnode n\njob a\nrank n\npublish p 1\nunpublish *\nrank n\nlookup-wait p\n"
# Plans as recorded of three ranks that put a card twice and read it, and of four that publish a
# name and take it away, with a collective and a message between. Helpers make the calls.
BEGUN = "# Recorded by wire_up-record on a day\nrehearsal 1\nnode n\njob app\n"
INIT = "rank n\n# at main (a.c:20)\nfence all collect\n"
PUT = (
    "# at main (a.c:{0}) -> put_card (a.c:8)\nput global card v{0}\n"
    "# at main (a.c:{0}) -> put_card (a.c:9)\ncommit\n"
)
BARRIER = "# at main (a.c:32)\n# MPI: barrier\nfence all\n"
READ = "# at main (a.c:{}) -> read_card (a.c:15)\nget app:0 card\n"
CAST = "# at main (a.c:32)\n# MPI: bcast\n{} mpi.0.all.1{}\n"
GONE = "# at main (a.c:38)\n# MPI: receive, tag 1\nlookup-wait mpi.3.0.1\n# at main (a.c:39)\n"
TWICE = (
    BEGUN + INIT
    + PUT.format(31) + BARRIER + PUT.format(33)
    + "".join(INIT + BARRIER + READ.format(number) for number in (35, 37))
)
TURNS = (
    BEGUN + INIT + "# at main (a.c:31)\npublish port v\n" + CAST.format("publish", " sent")
    + f"{GONE}unpublish port\n"
    + INIT + CAST.format("lookup-wait", "") + "# at main (a.c:35) -> find (a.c:5)\nlookup port\n"
    + INIT + CAST.format("lookup-wait", "")
    + INIT + CAST.format("lookup-wait", "")
    + "# at main (a.c:36)\n# MPI: send, tag 1\npublish mpi.3.0.1 sent\n"
)
# Plans by their names. Those of which the name begins with `large` are past the limits of both
# versions: 2,048 ranks with some 100,000 calls.
WRITTEN: dict[str, Callable[[], bytes]] = {
    "hostile": lambda: HOSTILE,
    "circle": lambda: CIRCLE.encode(),
    "late": lambda: LATE.encode(),
    "failing": lambda: FAILING.encode(),
    "names": lambda: NAMES.encode(),
    "star": lambda: STAR.encode(),
    "twice": lambda: TWICE.encode(),
    "turns": lambda: TURNS.encode(),
    "empty": lambda: b"rehearsal 1\n",
    "shapes": lambda: write_shapes().encode(),
    "cards": lambda: write_cards(6, 2, 5).encode(),
    "hostile-wide": lambda: write_wide().encode(),
    "two-lanes": lambda: write_two_lanes().encode(),
    "manygroups": lambda: write_many_groups(500, 8, 6).encode(),
    "large": lambda: write_cards(2048, 64, 46).encode(),
    "large-fence": lambda: write_cards(2048, 64, 46, "fence all collect").encode(),
}
RECORDED = {
    f"recorded-{path.name}": path
    for path in sorted(RECORDINGS.iterdir())
    if path.is_dir()
}
SHIPPED = {
    path.name.removesuffix(".plan"): path
    for path in sorted(EXAMPLES.glob("*.plan"))
}
NAMES_OF_PLANS = (*SHIPPED, *RECORDED, *WRITTEN)


@functools.cache
def make_room() -> Path:
    """The folder of the plans and pages that are made: it goes when the tests end."""
    room = tempfile.mkdtemp(prefix="wire-up-report-")
    atexit.register(shutil.rmtree, room, ignore_errors=True)
    return Path(room)


@functools.cache
def find_plan(name: str) -> Path:
    """The path of a plan, which is made if need be."""
    if name in SHIPPED:
        return SHIPPED[name]
    path = make_room() / f"{name}.plan"
    if name in WRITTEN:
        return write(path, WRITTEN[name]())
    words: list[Word] = ["--checker", support.program(), "-o", path, "--from", RECORDED[name]]
    subprocess.run(
        [sys.executable, RECORDER, *words], capture_output=True, timeout=SECONDS, check=True
    )
    return path


def list_options(name: str) -> list[str]:
    """The options that a plan needs."""
    return ["--large"] if name.startswith("large") else []


@dataclass(frozen=True)
class Made:
    """How the command ended that made a page, and the paths of the page and of its SARIF."""

    ran: "subprocess.CompletedProcess[str]"
    page: Path
    sarif: Path


@functools.cache
def make_page(name: str) -> Made:
    """The page of a plan, which is made once, and its SARIF."""
    path = find_plan(name)
    page, sarif = (make_room() / f"{name}.{word}" for word in ("html", "sarif"))
    words = ("-o", page, "--sarif", sarif, "--source", support.TOP)
    return Made(run_report(*list_options(name), *words, path), page, sarif)


def for_each_plan(case: type[Case]) -> type[Case]:
    """Gives a test case a test for each plan, which calls its `check` with the plan's name."""
    for name in NAMES_OF_PLANS:
        setattr(case, f"test_{name.replace('-', '_')}", make_test(name))
    return case


def make_test(name: str) -> Callable[["PlanCase"], None]:
    """A test of one plan."""

    def test(self: "PlanCase") -> None:
        self.check(name)

    return test


class PlanCase(unittest.TestCase):
    """Tests one thing of the reports of all plans."""

    def check(self, name: str) -> None:
        """Tests the report of a plan by its name."""
        raise NotImplementedError
