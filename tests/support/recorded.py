"""What the recordings of the repository are, and what the checker finds in plans of them."""
import re
from dataclasses import dataclass

from wire_up_tools import words
from wire_up_tools.report.singular import say_counted
from tests.support import Word
from tests.support.tapes import ask_program, read_file

RACE = re.compile(r"race app:\d+ \d+ app:\d+ \d+ name \w+\n")

IN_PART = "a verdict over this plan holds only in part: "
NOT_FINALIZED = (
    "2 processes whose recordings end before PMIx_Finalize: how they went on isn't known\n"
)
LAST_LINES = "2 last lines of recordings, which were cut, "
UNAWAITED = (
    "1 call of the program that doesn't block and ended before others: in the plan it waited for "
    "it\n"
)
UNAWAITED_LAST = (
    "2 calls of the program that don't block and ended before others: in the plan it waited for "
    "them, 1 process that called from several threads: its calls stand in the order in which it "
    "began\n"
)
SHORT_WAIT = (
    "1 wait for less than a minute at most (pmix.timeout): in the plan it waits for an answer\n"
)
GOES_AWAY = "1 name that goes away by itself (pmix.persist): in the plan it stays\n"
PAST_RECORDER = (
    "2 processes in which plugin.so calls MPI past the recorder: its calls aren't seen\n"
)
PMIX_PAST_RECORDER = (
    "2 processes in which pmix_plugin.so calls PMIx past the recorder: its calls aren't seen\n"
)


OPENED = "2 processes in which lookups.so calls MPI past the recorder: its calls aren't seen\n"
OPENED_AGAIN = "1 process with libmpi in a namespace of its own: calls of it aren't seen\n"
CHILD = "1 process of which a child called PMIx or MPI by fork: its calls aren't seen\n"
FAILED = (
    "2 collectives that failed, or were left by a jump: whether they met those of the others isn't "
    "known\n"
)
EACH_RUN = f"wire_up-record: {words.EACH_RUN}\n"
ONCE_OTHERWISE = (
    "wire_up-record: answered otherwise than by the rules: 1 of 23 calls, first app:0 11 lookup at "
    "look_up (luck.c:26): PMIX_ERR_NOT_FOUND, by the rules PMIX_SUCCESS text: the verdict doesn't "
    "hold of this library's run\n"
)
FOUND_BY_TEST = "MPI_Test that found a request complete"
FREED = "not in the plan: 1 call of MPI_Request_free of a receive\n"
HANDLER = "1 process that called in a handler of a signal: another run may call elsewhere\n"
CALLBACK = (
    "1 process that called PMIx in a function that MPI calls: another run may call elsewhere\n"
)
THREADS = (
    "1 process that called from several threads: its calls stand in the order in which it began\n"
)


@dataclass(frozen=True)
class Program:
    """A program that was recorded: on how many processes, how many findings its plan has, and how
    many where MPI's order is left out. `said` is what the recorder says where it runs, and
    `in_part` why a verdict over its recording holds only in part. `words` are what runs it, if that
    isn't its name. `luck` counts the ends that were left to luck, without which there is one more
    finding, `received` the receives that could have got another message, and `first` those that
    were the first of several requests; `poll` is the function by which `polls` found nothing before
    another call, and `called` another, whose `calls` have a result that is luck. `is_replayed` says
    that the replay of the plan answers as the program was answered, and `tested` is what the
    recorder says of that, or of each run of the program, where there is a checker. `ends` counts
    the ends that were left to luck, where that makes no finding more, and `ends_now` those that the
    recording of the repository, which is older, doesn't have; `left_out` says what that leaves out
    that can hide a race, as one made now doesn't."""

    processes: int
    findings: int
    without_mpi: int
    said: str = ""
    in_part: str = ""
    words: tuple[str, ...] = ()
    luck: int = 0
    received: int = 0
    first: int = 0
    poll: str = ""
    polls: int = 1
    called: str = ""
    calls: int = 1
    is_replayed: bool = True
    tested: str = ""
    ends: int = 0
    ends_now: int = 0
    left_out: str = ""

    @property
    def says_both(self) -> str:
        """What the recorder says of the plans with and without --strict, where they differ."""
        if not self.luck:
            return ""
        both = f"findings {self.findings}, and findings {self.findings + 1} with --strict"
        return f"wire_up-record: {both}, which takes nothing from {self.luck} ends of requests\n"

    def says_otherwise(
        self, with_mpi: bool = True, is_checked: bool = True, is_live: bool = False
    ) -> str:
        """What the recorder says of polls that found nothing and, with MPI's order, of receives
        that could have got another message or were the first of several requests, and of ends that
        were left to luck, unless the verdicts by a checker tell them."""
        told = [f"{self.calls} calls of {self.called}"] if self.called else []
        told += [f"{self.polls} calls of {self.poll} that found nothing"] if self.poll else []
        if self.received and with_mpi:
            told.append(f"{self.received} receives that could have got another message")
        if self.first and with_mpi:
            told.append(f"{self.first} receives that were the first of several requests")
        ends = self.ends_now if is_live else 0
        if with_mpi:
            ends += self.ends if is_checked else self.ends or self.luck
        told += [f"{ends} {words.LEFT_TO_LUCK}"] if ends else []
        counted = ", ".join(map(say_counted, told))
        what = "it" if len(told) == 1 and counted.startswith("1 ") else "them"
        said = f"wire_up-record: {counted}: another run may do otherwise after {what}\n"
        return said if told else ""

    @property
    def says_left_out(self) -> str:
        """What the recorder says of what the recording of the repository leaves out."""
        return f"wire_up-record: {IN_PART}not in the plan: {self.left_out}\n" * bool(self.left_out)

    @property
    def says_in_part(self) -> str:
        """What the recorder says of its recording, but for the verdicts."""
        return f"wire_up-record: {self.in_part}" if self.in_part else ""


# The small programs of `cases`, by their names.
CASES = {
    "wild1": Program(3, 1, 2, received=2),
    "wild2": Program(3, 1, 2, received=2),
    "poll": Program(2, 0, 1, luck=1),
    "probe": Program(2, 0, 1, tested=EACH_RUN),
    "matched": Program(2, 0, 1, tested=EACH_RUN),
    "later": Program(2, 0, 1, tested=EACH_RUN),
    "split": Program(2, 0, 1, tested=EACH_RUN),
    "window": Program(2, 0, 2, called="MPI_Win_allocate_shared", calls=2),
    "duplicate": Program(2, 0, 1),
    "epoch": Program(2, 0, 1, ends=1),
    "tags": Program(2, 0, 0),
    "inter": Program(4, 0, 1, tested=EACH_RUN),
    "scattered": Program(2, 1, 1),
    "merged": Program(4, 0, 1, tested=EACH_RUN),
    "jump": Program(2, 0, 1, tested=EACH_RUN),
    "begun": Program(2, 0, 1),
    "unsent": Program(2, 0, 1, IN_PART, f"{IN_PART}not in the plan: 2 sends that failed\n"),
    "failed": Program(2, 0, 1, IN_PART, f"{IN_PART}{FAILED}"),
    "limit": Program(
        2, 0, 0, "no room", f"the run was cut off: {IN_PART}{LAST_LINES}{NOT_FINALIZED}"
    ),
    "many": Program(2, 0, 0),
}
# Programs of their own.
OTHERS = {
    "collectives": Program(4, 0, 0, tested=EACH_RUN),
    "early": Program(2, 1, 1),
    "names": Program(4, 0, 2),
    "ring": Program(4, 0, 0, tested=EACH_RUN),
    "spawn": Program(2, 0, 0),
    "told": Program(2, 0, 1),
    "mpi4py": Program(3, 0, 3),
    "sleep": Program(2, 0, 0, "", f"the run was cut off: {IN_PART}{NOT_FINALIZED}"),
}
# Programs that call MPI in another way than by its plain functions in C: each with its words.
OTHER_WAYS = {
    "pmpi": Program(2, 1, 1, words=("unseen", "pmpi")),
    "barrier": Program(2, 1, 1, words=("unseen", "barrier")),
    "looked-up": Program(2, 1, 1, words=("unseen", "looked-up")),
    "plugin": Program(
        2, 0, 1, IN_PART, f"{IN_PART}{PAST_RECORDER}", ("unseen", "plugin", "plugin.so")
    ),
    "closed": Program(
        2, 0, 1, IN_PART, f"{IN_PART}{PAST_RECORDER}", ("unseen", "closed", "plugin.so")
    ),
    "past": Program(
        2, 0, 1, IN_PART, f"{IN_PART}{PMIX_PAST_RECORDER}", ("direct", "past", "pmix_plugin.so")
    ),
    "mixed": Program(2, 1, 1, words=("mixed", "message")),
    "mixed-barrier": Program(2, 1, 1, words=("mixed", "barrier")),
    "fortran": Program(2, 0, 4, words=("fortran",)),
    "profiled": Program(2, 0, 1, words=("profiled",)),
    "sessions": Program(2, 0, 2, words=("sessions",)),
    "large": Program(
        2, 0, 2, words=("large",), left_out="4 directives pmix.range of some processes"
    ),
}
# Those of `direct`.
DIRECT = {
    "partial": Program(2, 0, 1),
    "unwaited": Program(2, 0, 1, IN_PART, f"{IN_PART}{UNAWAITED}"),
    "last": Program(2, 1, 1, IN_PART, f"{IN_PART}{UNAWAITED_LAST}"),
}
# Those of `luck`.
LUCK = {
    "cancelled": Program(2, 0, 1, luck=1, poll="MPI_Iprobe"),
    "several": Program(3, 0, 1, luck=2, first=1),
    "asked": Program(2, 0, 1, luck=1),
    "taken": Program(
        2, 0, 1, luck=20, poll="MPI_Test", polls=19, called=FOUND_BY_TEST, calls=20
    ),
    "elsewhere": Program(3, 0, 1, poll="MPI_Test", ends=1),
    "either": Program(2, 0, 1, poll="MPI_Test", ends=2),
    "nothing": Program(2, 0, 1, poll="MPI_Iprobe", ends=1),
    "helped": Program(2, 0, 1, poll="MPI_Iprobe", ends=1),
    "alike": Program(3, 0, 1, poll="MPI_Iprobe", ends=1),
    "turn": Program(2, 0, 1, poll="MPI_Iprobe", ends=1),
    "sent": Program(2, 0, 1, called=FOUND_BY_TEST),
    "patient": Program(2, 0, 1, called=FOUND_BY_TEST),
    "beside": Program(2, 0, 1, called="MPI_Waitany of sends"),
    "among": Program(2, 0, 1, called="MPI_Testany that found a request complete", ends_now=1),
    "header": Program(3, 0, 1, luck=2, received=2),
    "answer": Program(3, 0, 1, luck=2, received=2),
    "once": Program(
        2, 0, 1, IN_PART, f"{IN_PART}{GOES_AWAY}", is_replayed=False, tested=ONCE_OTHERWISE
    ),
    "brief": Program(2, 0, 0, IN_PART, f"{IN_PART}{SHORT_WAIT}"),
}
# Those of `handles`.
HANDLES = {
    "ended": Program(2, 0, 1),
    "freed": Program(2, 0, 1),
    "kept": Program(2, 0, 1),
    "restarted": Program(2, 1, 1, IN_PART, f"{IN_PART}{FREED}"),
    "refused": Program(2, 0, 1),
}
# Those of `hidden`.
HIDDEN = {
    "behind": Program(2, 1, 1),
    "opened": Program(2, 0, 1, IN_PART, f"{IN_PART}{OPENED}", ("lookups.so",)),
    "namespace": Program(2, 0, 1, IN_PART, f"{IN_PART}{OPENED_AGAIN}"),
    "child": Program(2, 0, 1, IN_PART, f"{IN_PART}{CHILD}"),
    "handler": Program(2, 0, 1, IN_PART, f"{IN_PART}{HANDLER}"),
    "thread": Program(2, 0, 1, IN_PART, f"{IN_PART}{THREADS}"),
    "event": Program(2, 0, 1, called="PMIx_Register_event_handler"),
}
SHIPPED = {**CASES, **DIRECT, **HANDLES, **HIDDEN, **LUCK, **OTHERS, **OTHER_WAYS}


def drop_each_run(said: str) -> str:
    """What the recorder says, but for the line that each run makes the calls of the plan: it is
    said where there is a checker, and of some programs with some libraries alone."""
    return said.replace(EACH_RUN, "")


def why_other_findings(program: str, plan: Word, count: int) -> str | None:
    """What is wrong with the findings of a plan, which must be so many races on names."""
    is_large = any(line.startswith("# Larger than") for line in read_file(plan).splitlines())
    ran = ask_program(program, "check", *["--large"] * is_large, plan)
    is_well = ran.returncode == int(count > 0) and ran.stdout.count("\n") == count + 1
    if is_well and RACE.sub("", ran.stdout) == f"findings {count}\n":
        return None
    return f"check ended with {ran.returncode} and wrote {ran.stdout}"


def is_alike(real: str, replayed: str) -> bool:
    """Whether a call ended as in the replay: with success or not, and with the same value."""
    (*call, how), (*same, reply) = (text.split(" ", 3) for text in (real, replayed))
    if call != same or how == reply:
        return call == same
    must_be_equal = how.startswith(("PMIX_SUCCESS", "wait", "un"))
    return not must_be_equal and reply.startswith("PMIX_ERR")


def why_other_replay(program: str, plan: Word, answers: Word) -> str | None:
    """Where the replay of a plan and the real ends of its calls differ, if they do."""
    ran, real = ask_program(program, "replay", plan), read_file(answers).splitlines()
    replayed = ran.stdout.splitlines()
    if ran.returncode or len(real) != len(replayed):
        return f"replay ended with {ran.returncode}: {len(replayed)} lines, not {len(real)}"
    for one, other in zip(real, replayed):
        if not is_alike(one, other):
            return f"the real call ended '{one}', and replay writes '{other}'"
    return None


def why_wrong(
    program: str, plan: Word, answers: Word, count: int, is_replayed: bool = True
) -> str | None:
    """What is wrong with a plan that must have so many findings. One without must be replayed as
    it was, if it `is_replayed`."""
    found = why_other_findings(program, plan, count)
    if found or count or not is_replayed:
        return found
    return why_other_replay(program, plan, answers)
