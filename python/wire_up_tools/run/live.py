"""Runs a plan on a real library: each rank is a process that makes its calls."""
import contextlib
import itertools
import shutil
import subprocess
import tempfile
import threading
import time
from collections.abc import Iterator, Sequence
from dataclasses import dataclass, field
from pathlib import Path

from wire_up_tools.failures import Refused
from wire_up_tools.files import write_file
from wire_up_tools.plan import Plan, Rank
from wire_up_tools.run import fake_nodes
from wire_up_tools.run.channels import Channel, Hall, Heard, open_hall
from wire_up_tools.run.ending import TICK, end_process, ends_within, find_status
from wire_up_tools.run.interrupts import held, released
from wire_up_tools.run.launchers import (
    Kind,
    Launcher,
    Start,
    make_environment,
    write_command,
    write_hosts,
)
from wire_up_tools.run.ranks import (
    LiveRank,
    find_standing,
    hold_places,
    list_jobs,
    make_report,
    number_jobs,
    write_script,
)
from wire_up_tools.run.reports import Report
from wire_up_tools.run.turns import Turns, read_steps

# How long after a rank its launcher ends that took it along, in seconds: one whose rank died needs
# longer.
SOON = 1.0
# What a rank says at its end whose server isn't there any more.
LOST = ("ended PMIX_ERR_UNREACH", "ended PMIX_ERR_LOST_CONNECTION", "ended PMIX_ERR_COMM_FAILURE")
# The job of the process that starts the jobs of a plan.
STARTER = "start"
LINE_LENGTH = 200


class Stopped(Exception):
    """A run was stopped: something else needs no answer of it any more."""


@dataclass(frozen=True)
class Setting:
    """How plans are run. `hosts` are those of the nodes in their order; None means fake nodes.

    `quiet` is after how many seconds without progress the rest counts as waiting, `start` how long
    the ranks may take to be there. `stop` ends all runs.
    """

    launcher: Launcher
    program: str
    hosts: Sequence[str] | None = None
    quiet: float = 6.0
    start: float = 60.0
    stop: threading.Event = field(default_factory=threading.Event)


@dataclass(frozen=True)
class Task:
    """A plan that is run, and in which order, if in one. With `is_held` nothing comes after it."""

    plan: Plan
    order: Sequence[str] | None = None
    is_held: bool = False


@dataclass(frozen=True)
class Outcome:
    """What came of a run: the library's version, and the calls that didn't keep to the order."""

    report: Report
    library: str
    late: Sequence[str] = ()


@dataclass(eq=False)
class Run:
    """A run that is under way."""

    task: Task
    setting: Setting
    hall: Hall
    process: "subprocess.Popen[bytes]"
    ranks: dict[str, LiveRank] = field(default_factory=dict)
    names: dict[Channel, str] = field(default_factory=dict)
    spaces: dict[str, str] = field(default_factory=dict)
    library: str = ""
    turns: Turns | None = None

    @property
    def plan(self) -> Plan:
        """The plan that is run."""
        return self.task.plan

    def hear(self) -> list[Heard]:
        """What comes within a tick. Raises Stopped, and Refused if the launcher has ended."""
        if self.setting.stop.is_set():
            raise Stopped
        heard = list(self.hall.hear(TICK))
        status = None if heard else find_status(self.process)
        if status is not None:
            raise Refused(f"{self.tell_end(status)} before the ranks did{self.quote()}")
        return heard

    def tell_end(self, status: int) -> str:
        """How the launcher ended, by its status."""
        how = f"with status {status}" if status >= 0 else f"by signal {-status}"
        return f"{self.setting.launcher.name} ended {how}"

    def quote(self) -> str:
        """The first sentence that the launcher said, as the end of a message; nothing if it said
        none."""
        list(self.hall.hear(TICK))
        lines = self.hall.said.decode("utf-8", "replace").split("\n")
        said = [line.strip() for line in lines if line.strip(" -=*\t\r")]
        # A line that goes on with the sentence begins with a small letter.
        more = itertools.takewhile(lambda line: line[0].islower(), said[1:])
        first = " ".join([*said[:1], *more])
        return f": {first[:LINE_LENGTH]}" if first else ""

    def refuse_loss(self, lost: str) -> Refused:
        """What is raised where a process or its server is lost: its launcher took it along, or
        it ended alone."""
        ends_within(self.process, SOON)
        status = find_status(self.process)
        if status is not None:
            return Refused(f"{lost}: {self.tell_end(status)}{self.quote()}")
        return Refused(f"{lost}: the library or a signal ended it")

    def gather(self) -> None:
        """Waits until all ranks are there. Raises Refused, Stopped."""
        until = time.monotonic() + self.setting.start
        while len(self.ranks) < len(self.plan.ranks):
            for heard in self.hear():
                self.meet(heard)
            if time.monotonic() > until:
                count = f"{len(self.ranks)} of {len(self.plan.ranks)} ranks"
                within = f"in {self.setting.start:g} seconds"
                raise Refused(f"only {count} came up {within}{self.quote()}")

    def meet(self, heard: Heard) -> None:
        """Takes what a process says before its script begins. Raises Refused."""
        if heard.line is None:
            if heard.channel in self.names:
                name = self.names[heard.channel]
                raise self.refuse_loss(f"{name} ended before the script of each rank began")
            return
        words = heard.line.split(" ", 6)
        if words[0] == "started" and heard.channel in self.names:
            if words[2] != "PMIX_SUCCESS":
                raise Refused(f"{self.setting.launcher.name} starts no further job: {words[2]}")
        elif len(words) < 4 or words[1] != self.hall.word:
            heard.channel.connection.shutdown(2)
        elif words[0] == "failed":
            raise Refused(
                f"PMIx_Init replied {words[3]}: did a PMIx server start it, and has the disk room?"
            )
        elif words[2] == STARTER:
            self.start_jobs(heard.channel)
        else:
            self.add_rank(heard.channel, words)

    def start_jobs(self, channel: Channel) -> None:
        """Tells the process that is there first to start the jobs."""
        numbers = number_jobs(self.plan)
        self.names[channel] = "the process that starts the jobs"
        for job in list_jobs(self.plan):
            ranks = [rank for rank in self.plan.ranks if rank.job == job]
            hosts = choose_hosts(self.plan, ranks, self.setting.hosts)
            channel.send(f"start {numbers[job]} {','.join(hosts)}")

    def add_rank(self, channel: Channel, words: Sequence[str]) -> None:
        """Takes a rank. Raises Refused if the plan has none such."""
        _, _, job, space, number, host, self.library = words
        jobs = self.plan.declared.jobs
        name = f"{jobs[int(job)]}:{number}"
        rank = next((each_rank for each_rank in self.plan.ranks if each_rank.name == name), None)
        if rank is None or name in self.ranks:
            raise Refused(f"a process came up as {name}: the plan has no such rank, or one")
        self.ranks[name] = LiveRank(rank, channel, host, space)
        self.names[channel] = name
        self.spaces[rank.job] = space

    def begin(self) -> None:
        """Tells each rank its script, and how it may go on."""
        for live_rank in self.ranks.values():
            live_rank.channel.send(*write_script(self.plan, live_rank.rank, self.spaces))
        if self.task.order is None:
            for each_live_rank in self.ranks.values():
                each_live_rank.channel.send("free")
        else:
            steps = read_steps(self.plan, self.task.order)
            patience = self.setting.quiet / 2
            self.turns = Turns(steps, self.ranks, patience, not self.task.is_held)

    def follow(self) -> None:
        """Follows the ranks until all are done, or nothing has moved for a time. Raises Refused,
        Stopped."""
        changed = time.monotonic()
        at = -1
        while not self.is_done():
            heard = self.hear()
            for each_heard in heard:
                self.take(each_heard)
            if self.turns:
                self.turns.go_on()
            moved = self.turns is not None and self.turns.at != at
            if heard or moved:
                changed, at = time.monotonic(), self.turns.at if self.turns else -1
            if time.monotonic() - changed > self.setting.quiet:
                return

    def is_done(self) -> bool:
        """Whether nothing more can come."""
        if self.turns and self.turns.is_over and self.task.is_held:
            return not any(live_rank.is_in_call for live_rank in self.ranks.values())
        return all(live_rank.is_done for live_rank in self.ranks.values())

    def take(self, heard: Heard) -> None:
        """Takes what a rank says. Raises Refused if it has ended."""
        name = self.names.get(heard.channel)
        if name is None:
            return
        if name not in self.ranks:
            if heard.line is None:
                raise self.refuse_loss(f"{name} ended before the ranks did")
            return
        live = self.ranks[name]
        if heard.line is not None:
            live.take(heard.line)
            return
        call = find_standing(live, self.plan.calls_of[name])
        at = f" at its call {call.number} {call.verb}" if call else ""
        raise self.refuse_loss(f"{name} ended{at} before the run did")

    def run(self) -> Outcome:
        """Runs the plan to its end. Raises Refused, Stopped, OSError."""
        self.gather()
        node_of = hold_places(list(self.ranks.values()))
        self.begin()
        self.follow()
        report = make_report(self.plan, self.ranks, node_of, is_held=self.task.is_held)
        self.dismiss()
        return Outcome(report, self.library, self.turns.late if self.turns else ())

    def dismiss(self) -> None:
        """Lets the ranks end that are done, and hears that each still has its server: else its last
        replies may come of that. Raises Refused."""
        left = {
            live_rank.channel: name for name, live_rank in self.ranks.items() if live_rank.is_done
        }
        for channel in left:
            channel.send("end")
        until = time.monotonic() + SOON
        while left and time.monotonic() < until:
            for heard in self.hall.hear(TICK):
                self.hold_served(left.pop(heard.channel, ""), heard.line)

    def hold_served(self, name: str, line: str | None) -> None:
        """Takes what a rank says at its end; without a name it is of another process. Raises
        Refused if it has no server any more, or is gone."""
        if name and line is None:
            raise self.refuse_loss(f"{name} ended before the run did")
        if name and line in LOST:
            raise self.refuse_loss(f"{name} lost its PMIx server before the run ended")


def choose_hosts(
    plan: Plan, ranks: Sequence[Rank], hosts: Sequence[str] | None
) -> list[str]:
    """The host of each rank. Raises Refused if there are too few."""
    nodes = plan.declared.nodes
    names = [fake_nodes.name_host(*node) for node in enumerate(nodes)] if hosts is None else hosts
    if len(names) < len(nodes):
        raise Refused(f"the plan has {len(nodes)} nodes, and there are {len(names)} hosts")
    host_of = dict(zip(nodes, names))
    return [host_of[rank.node] for rank in ranks]


def is_among_fake_nodes(setting: Setting) -> bool:
    """Whether plans are run on fake nodes."""
    return setting.hosts is None and setting.launcher.makes_fake_nodes


def list_reached(task: Task, setting: Setting) -> Sequence[str] | None:
    """The hosts that must reach this machine; None where all is on it. Of a command of the user's
    without hosts none is known: an empty name stands for any. Raises Refused."""
    if is_among_fake_nodes(setting):
        return None
    if setting.hosts is None and setting.launcher.kind is Kind.OWN:
        return [""]
    return choose_hosts(task.plan, task.plan.ranks, setting.hosts)


def make_start(task: Task, setting: Setting, folder: Path, hall: Hall) -> Start:
    """What is started. Raises Refused, OSError."""
    plan, launcher = task.plan, setting.launcher
    jobs = list_jobs(plan)
    has_several = len(jobs) > 1
    if has_several and not launcher.takes_several_jobs:
        raise Refused(f"{launcher.name} starts one job: the plan has {len(jobs)}")
    is_fake = is_among_fake_nodes(setting)
    hosts = choose_hosts(plan, plan.ranks, setting.hosts)
    if has_several and is_fake:
        hosts.insert(0, fake_nodes.HEAD)
    job = STARTER if has_several else str(number_jobs(plan)[jobs[0]])
    program = [setting.program, hall.address, hall.word, job]
    agent = fake_nodes.write_agent(folder) if is_fake else None
    return Start(program, hosts, has_several, folder, agent)


def start_process(task: Task, setting: Setting, folder: Path, hall: Hall) -> Run:
    """Starts a run. Raises Refused, OSError."""
    start, launcher = make_start(task, setting, folder, hall), setting.launcher
    write_file(start.host_file, write_hosts(launcher, start))
    before: list[str] = []
    if start.agent:
        table = fake_nodes.write_names(folder, start.hosts)
        before = fake_nodes.write_start(table if launcher.kind is Kind.PRRTE else None)
    process = subprocess.Popen(
        [*before, *write_command(launcher, start)],
        stdin=subprocess.DEVNULL,
        stdout=subprocess.PIPE,
        stderr=subprocess.STDOUT,
        env=make_environment(launcher, start),
        start_new_session=True,
    )
    return Run(task, setting, hall, process)


def end(run: Run) -> None:
    """Ends a run: its ranks first, which end where nobody listens any more."""
    run.hall.close()
    end_process(run.process, is_fake=is_among_fake_nodes(run.setting))
    if run.process.stdout:
        run.process.stdout.close()


@contextlib.contextmanager
def started(task: Task, setting: Setting) -> Iterator[Run]:
    """A run that has started. At the end nothing of it is left. Raises Refused, OSError."""
    folder = Path(tempfile.mkdtemp(prefix="wire_up-run-"))
    try:
        # To ask for the addresses of hosts can take long.
        with released():
            hall = open_hall(folder, list_reached(task, setting))
        with contextlib.closing(hall):
            run = start_process(task, setting, folder, hall)
            try:
                if run.process.stdout:
                    hall.watch(run.process.stdout.fileno())
                yield run
            finally:
                end(run)
    finally:
        shutil.rmtree(folder, ignore_errors=True)


def run_plan(task: Task, setting: Setting) -> Outcome:
    """Runs a plan once. Raises Refused, Stopped, OSError."""
    if not task.plan.ranks:
        return Outcome(Report([]), "")
    with held(), started(task, setting) as each_started, released():
        return each_started.run()
