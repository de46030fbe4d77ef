"""Which rules each library has, and how: read off the tables of what it did."""
import enum
import re
from collections.abc import Mapping
from dataclasses import dataclass
from pathlib import Path

from wire_up_tools.failures import Refused
from wire_up_tools.run.launchers import Kind
from wire_up_tools.run.libraries.rules import Rule

TABLES = Path(__file__).parent.parent / "tables"
OUTSIDE, NOT_FOUND = "PMIX_ERR_EXISTS_OUTSIDE_SCOPE", "PMIX_ERR_NOT_FOUND"


class Mixed(enum.Enum):
    """What a fence does whose callers differ in collecting."""

    COLLECTS_NOT = "it doesn't collect"
    FAILS_ON_NODE = "it fails on a node with both; from the other nodes it may bring"
    FAILS_FOR_FIRST = "on a node with both it fails for the caller that arrives there first"
    FAILS = "it fails"


class Publish(enum.Enum):
    """What a second publish of a name does."""

    REFUSED = "it is refused"
    ADDED = "it is added to the first"


class Several(enum.Enum):
    """What a lookup of a name gives that is published more than once."""

    LAST = "the last value"
    PARTIAL = "a status that says so, without a value"


class Kept(enum.Enum):
    """Where what fences brought is kept on a node."""

    WITH_GETS = "with what gets brought"
    APART = "apart, where it is seen before all else"


class Brought(enum.Enum):
    """To which nodes of its members a fence of several jobs brings the keys of one of them."""

    WITH_RANKS = "to those that have a rank of its job"
    WITH_MEMBERS = "to those that have a member of its job"


class MapRule(enum.Enum):
    """Of which ranks the map can be asked."""

    EVERY_RANK = "of every rank"
    HOST_OF_OWN_JOB = "of every rank, for the host name of ranks of the caller's job alone"
    OWN_JOB_AND_NODE = "of ranks of the caller's job, on other nodes for the host name alone"


@dataclass(frozen=True)
class Traits:
    """How a library answers.

    `local_elsewhere` is the reply for a key of scope local on another node, `missing_elsewhere`
    that for one that isn't there, of a job that the caller's node doesn't have, `invalid` that for
    a fence whose callers differ, and `kept_all` that for an unpublish without names that takes none
    away. With `asks_owner_at_once` a get of a rank on another node that has committed anything is
    answered at once. `drops_repeats`: a list is taken as a set.
    """

    rules: frozenset[Rule]
    local_elsewhere: str = OUTSIDE
    missing_elsewhere: str = NOT_FOUND
    invalid: str = ""
    kept_all: str = "PMIX_SUCCESS"
    asks_owner_at_once: bool = False
    drops_repeats: bool = False
    brought: Brought = Brought.WITH_MEMBERS
    has_names: bool = True
    unpublishes_of_others: bool = False
    takes_reserved: bool = True
    has_own_reserved: bool = True
    asks_owner_of_reserved: bool = False
    mixed: Mixed = Mixed.COLLECTS_NOT
    publish: Publish = Publish.ADDED
    several: Several = Several.PARTIAL
    kept: Kept = Kept.WITH_GETS
    map_rule: MapRule = MapRule.HOST_OF_OWN_JOB


COMMON = frozenset(
    {
        Rule.LIST_AS_SPELT,
        Rule.REMOTE_ON_OWN_NODE,
        Rule.GET_BRINGS_ALL,
        Rule.LOCAL_ELSEWHERE,
        Rule.RESERVED_KEYS,
        Rule.NAMES,
    }
)


@dataclass(frozen=True)
class Library:
    """A library with the host that served it, by versions; and what is known of it. `release` is
    how what it says of its version begins, and `kind` that of its launcher."""

    name: str
    version: str
    host: str
    release: str
    kind: Kind
    traits: Traits

    @property
    def table(self) -> Path:
        """The path of the table of what it did."""
        return TABLES / f"{self.name}.txt"


# Each was measured by itself and stands by itself: lines that two share aren't put together, since
# the next version may differ in any of them.
OPENPMIX_4 = Traits(
    rules=COMMON
    | {
        Rule.OWNER_ANSWERS,
        Rule.ANSWERED_AT_COMMIT,
        Rule.MIXED_COLLECT,
        Rule.FENCE_OF_JOBS,
        Rule.OWN_FROM_STORE,
        Rule.UNPUBLISH_ALL,
    },
    local_elsewhere="PMIX_STATUS(-13,HANDSHAKE-FAILED)",
    missing_elsewhere="PMIX_STATUS(-17,PROC-ENTRY-NOT-FOUND)",
    invalid="PMIX_STATUS(-33,INVALID-ARG)",
    kept_all="PMIX_ERR_BAD_PARAM",
    asks_owner_at_once=True,
    brought=Brought.WITH_RANKS,
    has_own_reserved=False,
    mixed=Mixed.FAILS_ON_NODE,
    several=Several.LAST,
    map_rule=MapRule.EVERY_RANK,
)
OPENPMIX_5 = Traits(
    rules=COMMON
    | {
        Rule.KEPT_BY_CALLER,
        Rule.COLLECT_BRINGS_NOTHING,
        Rule.ANSWERED_AT_COMMIT,
        Rule.SHARED_REQUEST,
        Rule.MIXED_COLLECT,
        Rule.UNPUBLISH_ALL,
    },
    invalid="PMIX_STATUS(-33,PMIX_ERR_INVALID_ARG)",
    mixed=Mixed.FAILS_FOR_FIRST,
)
OPENPMIX_7 = Traits(
    rules=COMMON
    | {
        Rule.KEPT_BY_CALLER,
        Rule.ANSWERED_AT_COMMIT,
        Rule.SHARED_REQUEST,
        Rule.MIXED_COLLECT,
        Rule.FENCE_OF_JOBS,
    },
    invalid="PMIX_STATUS(-33,PMIX_ERR_INVALID_ARG)",
    drops_repeats=True,
    unpublishes_of_others=True,
    takes_reserved=False,
    asks_owner_of_reserved=True,
    mixed=Mixed.FAILS,
    publish=Publish.REFUSED,
    kept=Kept.APART,
)
SLURM = Traits(
    rules=COMMON
    | {
        Rule.KEPT_BY_CALLER,
        Rule.OWNER_ANSWERS,
        Rule.ANSWERED_AT_COMMIT,
        Rule.MIXED_COLLECT,
        Rule.FENCE_OF_NODE,
    },
    local_elsewhere="PMIX_ERROR",
    invalid="PMIX_STATUS(-33,PMIX_ERR_INVALID_ARG)",
    mixed=Mixed.FAILS_FOR_FIRST,
    asks_owner_at_once=True,
    has_names=False,
    map_rule=MapRule.OWN_JOB_AND_NODE,
)
_ALL = (
    Library(
        "openpmix-4.2",
        "OpenPMIx 4.2.2",
        "orted of Open MPI 4.1.4",
        "OpenPMIx 4.",
        Kind.OPEN_MPI_4,
        OPENPMIX_4,
    ),
    Library(
        "openpmix-5.0", "OpenPMIx 5.0.7", "PRRTE 3.0.8", "OpenPMIx 5.", Kind.PRRTE, OPENPMIX_5
    ),
    Library(
        "openpmix-7.0",
        "OpenPMIx 7.0.0rc1",
        "PRRTE 5.0.0rc1",
        "OpenPMIx 7.",
        Kind.PRRTE,
        OPENPMIX_7,
    ),
    Library("slurm-24.11", "OpenPMIx 5.0.7", "Slurm 24.11.5", "OpenPMIx 5.", Kind.SLURM, SLURM),
)
LIBRARIES: Mapping[str, Library] = {library.name: library for library in _ALL}


# How a namespace begins that a host gives to a job.
NAMESPACES = {
    Kind.OPEN_MPI_4: re.compile(r"\d+$"),
    Kind.PRRTE: re.compile("prte"),
    Kind.SLURM: re.compile(r"slurm\.pmix\."),
}


def take_library(name: str) -> Library:
    """The library of this name. Raises Refused if nothing is known of one."""
    if name not in LIBRARIES:
        raise Refused(f"{name} isn't known: {', '.join(LIBRARIES)} are")
    return LIBRARIES[name]


def find_recorded(version: str, namespace: str) -> Library | None:
    """The library that served a job of this namespace, by what it said of its version; None where
    nothing is known of it."""
    kinds = (kind for kind, form in NAMESPACES.items() if form.match(namespace))
    kind = next(kinds, None)
    return find_library(version, kind) if kind else None


def find_library(version: str, kind: Kind) -> Library | None:
    """The library of which most is known that is like one of this version, with a launcher of this
    kind: of the same release."""
    alike = (
        library for library in _ALL if library.kind is kind and version.startswith(library.release)
    )
    return next(alike, None)
