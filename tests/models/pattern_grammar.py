"""A second reader of patterns: judges a file, and gives its pattern. The limits of its largest
instance are judged in tests/models/pattern_reference.py.

A pattern has jobs, a job has roles, and a role has a script: call lines and loops. Roles count from
0 in the order of the file, over all jobs.
"""
import re
from typing import NamedTuple

from tests.models import grammar
from tests.models.grammar import NAME_BYTES, VALUE_BYTES, Refused, Words


# The largest size of a group that has to be judged, if it has no larger least size. And how many
# jobs, roles and groups a file may have.
CUTOFF = 3
JOBS, ROLES, GROUPS = grammar.LIMITS[b"2"].jobs, grammar.LIMITS[b"2"].nodes, 6
# How many roles a loop may list.
LISTED = 8
SELF, EACH, ALL = b"self", b"each", b"all"
NOT_ROLES = (SELF, EACH, ALL, b"some", b"cyclic")
READS = (b"get-now", b"lookup")
OPTIONAL = (b"put", b"commit", b"get", b"get-now", b"lookup", b"lookup-wait")
# What stands behind the first word of each call: `who` is a process, `word` a key or a name.
SHAPES: dict[bytes, tuple[str, ...]] = {
    b"put": ("scope", "word", "value"),
    b"commit": (),
    b"fence": ("set",),
    b"get": ("who", "word"),
    b"get-now": ("who", "word"),
    b"publish": ("word", "value"),
    b"lookup": ("word",),
    b"lookup-wait": ("word",),
    b"unpublish": ("word",),
}


class Word(NamedTuple):
    """A key or a name: its base, and the words of its indices."""

    base: bytes
    indices: tuple[bytes, ...]


class Line(NamedTuple):
    """A call line: its line in the file; its number among the call lines of its role, from 1; its
    words; and of these the key or the name, the process that is asked, the items of the set."""

    at: int
    number: int
    words: tuple[bytes, ...]
    key: Word | None
    who: bytes | None
    items: tuple[bytes, ...]

    @property
    def verb(self) -> bytes:
        return self.words[0]

    @property
    def key_place(self) -> int:
        """Which word the key or the name is."""
        return 2 if self.verb in (b"put", b"get", b"get-now") else 1

    @property
    def collects(self) -> bool:
        return self.verb == b"fence" and len(self.words) == 3

    @property
    def is_read(self) -> bool:
        """Whether it only reads what is there."""
        is_reserved = self.key and self.key.base.startswith((b"pmix", b"PMIX_"))
        return self.verb in READS and not is_reserved

    @property
    def processes(self) -> tuple[bytes, ...]:
        """The words that name one process each, those of the set aside."""
        asked = () if self.who is None else (self.who,)
        return asked + (self.key.indices if self.key else ())


class Loop(NamedTuple):
    """A loop over one role: its line in the file, its role, its mode (`cyclic`, `some`, or none),
    and its lines. A loop over several roles is one over each."""

    at: int
    group: bytes
    mode: bytes
    lines: tuple[Line, ...]

    @property
    def is_optional(self) -> bool:
        """Whether its turns may be left out, and each such choice is judged. A loop that only reads
        what is there orders nothing, and takes all of them."""
        return self.mode == b"some" and not all(line.is_read for line in self.lines)


Step = Line | Loop


class Role(NamedTuple):
    """A role: its line in the file, its job's number, its name, the least size of a group or None
    for a single process, and its script."""

    at: int
    job: int
    name: bytes
    least: int | None
    steps: list[Step]

    @property
    def most(self) -> int:
        """The largest size that is judged."""
        return 1 if self.least is None else max(CUTOFF, self.least)

    @property
    def lines(self) -> list[Line]:
        """The call lines."""
        return [
            line
            for step in self.steps
            for line in (step.lines if isinstance(step, Loop) else [step])
        ]


class Pattern(NamedTuple):
    """What a file says: whether it keeps what gets bring, the jobs with their lines, the roles."""

    keeps: bool
    jobs: list[bytes]
    job_lines: list[int]
    roles: list[Role]

    def role(self, name: bytes) -> Role | None:
        return next((each_role for each_role in self.roles if each_role.name == name), None)


# The words of a line.


def is_name(word: bytes) -> bool:
    """Whether a job may be named so, length aside."""
    return grammar.is_name(word) and not re.search(rb"[][]", word)


def is_role_name(word: bytes) -> bool:
    """Whether a role may be named so, length aside."""
    return is_name(word) and word not in NOT_ROLES


def is_who(word: bytes) -> bool:
    """Whether it may name a process."""
    return word in (SELF, EACH) or is_role_name(word)


def is_item(word: bytes) -> bool:
    """Whether it may be an item of a set."""
    return is_name(word[:-2]) if word.endswith(b":*") else is_who(word)


def parts_of_word(text: bytes) -> Word | None:
    """A key or a name in parts, or None if it's none."""
    found = re.fullmatch(rb"([^][]+)(?:\[([^][]+)\])?", text)
    if not found or found[1] == b"*":
        return None
    base, inside = found.groups()
    indices = inside.split(b",") if inside else []
    return Word(base, tuple(indices)) if all(is_who(index) for index in indices) else None


def parts_of_set(text: bytes) -> tuple[bytes, ...] | None:
    """The items of a set, or None if it's none."""
    items = tuple(text.split(b","))
    return items if items == (ALL,) or all(is_item(part) for part in items) else None


def fits(kind: str, word: bytes) -> bool:
    """Whether a word has its shape, length aside."""
    if kind == "word":
        return parts_of_word(word) is not None
    if kind == "who":
        return is_who(word)
    if kind == "set":
        return parts_of_set(word) is not None
    return grammar.fits(kind, word)


def shape_of(verb: bytes, rest: Words) -> tuple[str, ...]:
    """The shape of what stands behind the first word of a call line."""
    if verb == b"fence" and len(rest) == 2:
        return ("set", "collect")
    if verb == b"unpublish" and rest == [b"*"]:
        return ("star",)
    return SHAPES[verb]


def line_of(at: int, number: int, words: Words) -> Line | None:
    """A call line, or None if it's none."""
    if words[0] not in SHAPES:
        return None
    shape = shape_of(words[0], words[1:])
    if len(words) - 1 != len(shape) or not all(fits(*pair) for pair in zip(shape, words[1:])):
        return None
    named = dict(zip(shape, words[1:]))
    key = parts_of_word(named["word"]) if "word" in named else None
    items = parts_of_set(named["set"]) if "set" in named else None
    return Line(at, number, tuple(words), key, named.get("who"), items or ())


def is_long(line: Line) -> bool:
    """Whether a name in a call line, the base of a key or a value is past its limit."""
    names = [*line.processes, *(item.removesuffix(b":*") for item in line.items)]
    names += [line.key.base] if line.key else []
    value = line.words[-1] if line.verb in (b"put", b"publish") else b""
    return any(len(name) > NAME_BYTES for name in names) or len(value) > VALUE_BYTES


class FirstPass:
    """The lines from the top, each judged by itself and by those above it."""

    def __init__(self) -> None:
        self.pattern = Pattern(False, [], [], [])
        # The loop that is open, over the first of its roles, and all its roles. And how many call
        # lines the last role has.
        self.loop: Loop | None = None
        self.listed: list[bytes] = []
        self.count = 0

    def take(self, at: int, words: Words) -> None:
        """Takes the next line, which isn't skipped."""
        verb = words[0]
        takes = {b"keep": self.take_keep, b"job": self.take_job, b"end": self.take_end}
        takes |= {b"one": self.take_role, b"many": self.take_role, b"for": self.take_for}
        if any(byte < 33 or byte > 126 for word in words for byte in word):
            raise Refused("BadLine", at)
        if verb in takes:
            takes[verb](at, words)
        else:
            self.take_call(at, words)

    def judge(self, at: int, is_well: bool) -> None:
        """Refuses a line that isn't well-formed or stands in a wrong place."""
        if not is_well:
            raise Refused("BadLine", at)

    def judge_name(self, at: int, name: bytes, names: list[bytes]) -> None:
        """Refuses a name that is declared, if it is too long or was declared before."""
        if len(name) > NAME_BYTES:
            raise Refused("TooLong", at)
        if name in names:
            raise Refused("Twice", at)

    def take_keep(self, at: int, words: Words) -> None:
        self.judge(at, len(words) == 1 and not self.pattern.keeps and not self.pattern.jobs)
        self.pattern = self.pattern._replace(keeps=True)

    def take_job(self, at: int, words: Words) -> None:
        jobs = self.pattern.jobs
        self.judge(at, len(words) == 2 and is_name(words[1]) and not self.loop)
        self.judge_name(at, words[1], jobs)
        if len(jobs) == JOBS:
            raise Refused("TooMany", at)
        jobs.append(words[1])
        self.pattern.job_lines.append(at)

    def take_role(self, at: int, words: Words) -> None:
        roles, least = self.pattern.roles, None
        if words[0] == b"many":
            has_least = len(words) == 4 and words[2] == b"min"
            self.judge(at, not has_least or bool(re.fullmatch(rb"[1-9]", words[3])))
            least, words = (int(words[3]), words[:2]) if has_least else (0, words)
        is_well = len(words) == 2 and is_role_name(words[1])
        self.judge(at, is_well and bool(self.pattern.jobs) and not self.loop)
        self.judge_name(at, words[1], [role.name for role in roles])
        roles.append(Role(at, len(self.pattern.jobs) - 1, words[1], least, []))
        self.count = 0
        if len(roles) > ROLES or sum(role.least is not None for role in roles) > GROUPS:
            raise Refused("TooMany", at)

    def is_in_role(self) -> bool:
        """Whether the last job has a role."""
        return any(role.job == len(self.pattern.jobs) - 1 for role in self.pattern.roles[-1:])

    def take_for(self, at: int, words: Words) -> None:
        mode, rest = b"", words[1:]
        if len(rest) == 2 and rest[0] == b"some":
            mode, rest = rest[0], rest[1:]
        elif len(rest) == 2 and rest[1] == b"cyclic":
            mode, rest = rest[1], rest[:1]
        self.listed = rest[0].split(b",") if len(rest) == 1 else []
        is_well = bool(self.listed) and all(is_role_name(text) for text in self.listed)
        is_well = is_well and (mode != b"cyclic" or len(self.listed) == 1)
        self.judge(at, is_well and self.is_in_role() and not self.loop)
        if any(len(text) > NAME_BYTES for text in self.listed):
            raise Refused("TooLong", at)
        front = self.listed[: LISTED + 1]
        if len({*front}) < len(front):
            raise Refused("Twice", at)
        if len(self.listed) > LISTED:
            raise Refused("TooMany", at)
        self.loop = Loop(at, self.listed[0], mode, ())

    def take_end(self, at: int, words: Words) -> None:
        self.judge(at, len(words) == 1 and bool(self.loop))
        if self.loop:
            self.add_loops(self.loop)
        self.loop = None

    def add_loops(self, loop: Loop) -> None:
        """Adds a loop over each of the roles. Its lines count once for each."""
        length = len(loop.lines)
        for n, role in enumerate(self.listed):
            lines = [line._replace(number=line.number + n * length) for line in loop.lines]
            loop = loop._replace(group=role)
            self.pattern.roles[-1].steps.append(loop._replace(lines=tuple(lines)))
        self.count += (len(self.listed) - 1) * length

    def take_call(self, at: int, words: Words) -> None:
        line = line_of(at, self.count + 1, words)
        self.judge(at, line is not None and self.is_in_role())
        if line is None:
            return
        has_each = EACH in line.processes + line.items
        self.judge(at, has_each == bool(self.loop) or (bool(self.loop) and words == [b"commit"]))
        if is_long(line):
            raise Refused("TooLong", at)
        self.count += 1
        if self.loop:
            self.loop = self.loop._replace(lines=(*self.loop.lines, line))
        else:
            self.pattern.roles[-1].steps.append(line)


class SecondPass:
    """The scripts from the top, judged by all that the file declares."""

    def __init__(self, pattern: Pattern) -> None:
        self.pattern = pattern
        for role in pattern.roles:
            for step in role.steps:
                if isinstance(step, Loop):
                    self.judge_loop(role, step)
                else:
                    self.judge_line(role, step, None)

    def judge_loop(self, role: Role, loop: Loop) -> None:
        loops = [step for step in role.steps if isinstance(step, Loop) and step.at == loop.at]
        if not all(self.pattern.role(each_loop.group) for each_loop in loops):
            raise Refused("UnknownName", loop.at)
        for line in loop.lines:
            self.judge_line(role, line, loop)

    def judge_line(self, role: Role, line: Line, loop: Loop | None) -> None:
        single = [process for process in line.processes if process not in (SELF, EACH)]
        items = [item for item in line.items if item not in (SELF, EACH, ALL)]
        jobs = [item[:-2] for item in items if item.endswith(b":*")]
        roles = single + [item for item in items if not item.endswith(b":*")]
        if not all(self.pattern.role(each_role) for each_role in roles) or not set(jobs) <= {
            *self.pattern.jobs
        }:
            raise Refused("UnknownName", line.at)
        has_group = any(
            each_role.least is not None
            for each_role in self.pattern.roles
            if each_role.name in single
        )
        if has_group or (loop and not self.may_loop(role, line, loop)):
            raise Refused("BadLine", line.at)
        if line.items and not self.contains(role, line, role):
            raise Refused("NotMember", line.at)

    def contains(self, caller: Role, line: Line, role: Role) -> bool:
        """Whether an item of a fence's set contains a role by its name or its job, or the caller by
        `self`."""
        whole = {role.name, self.pattern.jobs[role.job] + b":*"}
        whole |= {ALL} if role.job == caller.job else set()
        whole |= {SELF} if role is caller else set()
        return bool(whole & {*line.items})

    def may_loop(self, role: Role, line: Line, loop: Loop) -> bool:
        """Whether a line may stand in a loop: a fence's set doesn't contain the loop's role as a
        whole, and in an optional loop there are neither fences nor calls that write names."""
        group = self.pattern.role(loop.group)
        single = {SELF} if group is None or group.least is not None else {SELF, group.name}
        bare = line._replace(items=tuple(item for item in line.items if item not in single))
        if loop.mode == b"some" and line.verb not in OPTIONAL:
            return False
        return group is None or not self.contains(role, bare, group)


def judge_commits(role: Role) -> None:
    """The third pass: refuses a loop with a commit, if a put waits for a commit where it begins or
    where a turn ends."""
    waits = False
    for step in role.steps:
        if isinstance(step, Line):
            waits = puts_wait(waits, (step,))
            continue
        commits = [line for line in step.lines if line.verb == b"commit"]
        waits = waits or puts_wait(False, step.lines)
        if commits and waits:
            raise Refused("BadLine", commits[0].at)


def puts_wait(waits: bool, lines: tuple[Line, ...]) -> bool:
    """Whether a put waits for a commit behind these lines."""
    for line in lines:
        waits = line.verb == b"put" or (waits and line.verb != b"commit")
    return waits


def read(text: bytes) -> Pattern:
    """The pattern of a file. Raises what it's refused for."""
    if len(text) > grammar.FILE_BYTES:
        raise Refused("TooLong", 1 + text[: grammar.FILE_BYTES].count(b"\n"))
    lines, count = grammar.lines_of(text)
    if not lines or lines[0][1] != [b"pattern", b"1"]:
        raise Refused("BadHeader", lines[0][0] if lines else count + 1)
    first = FirstPass()
    for at, words in lines[1:]:
        first.take(at, words)
    if first.loop:
        raise Refused("BadLine", lines[-1][0] + 1)
    SecondPass(first.pattern)
    for role in first.pattern.roles:
        judge_commits(role)
    return first.pattern
