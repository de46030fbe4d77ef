"""The ways in which libraries answer otherwise than the profile."""
import enum


class Rule(enum.Enum):
    """A way in which a library answers otherwise, and its words."""

    LIST_AS_SPELT = "a fence is known by its list as it is spelt, so that another spelling of the \
same ranks is another fence, and a rank that repeats makes it wait for ever"
    KEPT_BY_CALLER = "a caller keeps what a get gave it, and never sees a later value"
    REMOTE_ON_OWN_NODE = "a key of scope remote isn't found on its own node"
    GET_BRINGS_ALL = "a get of a rank on another node brings all its keys to the caller's node"
    OWNER_ANSWERS = "a get of a rank on another node that has committed something doesn't wait for \
another key"
    ANSWERED_AT_COMMIT = "a get that waits for a rank of its node isn't found once that rank \
commits, if that brings no such key"
    SHARED_REQUEST = "gets of ranks of one node of one rank on another share a request: all are \
answered once the key comes that was asked for first, found or not, and none before"
    LOCAL_ELSEWHERE = "a key of scope local gives an error of the library on other nodes"
    RESERVED_KEYS = "reserved keys are taken like others, and some of the map isn't found"
    NAMES = "a second publish of a name succeeds, and so does an unpublish of what isn't there"
    UNPUBLISH_ALL = "an unpublish without names takes nothing away"
    MIXED_COLLECT = "a fence whose callers differ in collecting fails for all or one of them, or \
brings a part"
    FENCE_OF_JOBS = "a fence of several jobs brings no keys of a rank to a node without its job"
    COLLECT_BRINGS_NOTHING = "a fence that collects brings nothing"
    OWN_FROM_STORE = "a rank reads of its own keys what it has committed, before what it has put"
    FENCE_OF_NODE = "a fence that doesn't collect waits only for the ranks of the caller's node"

    @property
    def label(self) -> str:
        """How lines name it."""
        return self.name.lower().replace("_", "-")


EVERY_RULE = frozenset(Rule)
# Those by which a reply can depend on which rank is fast, although nothing is found in the plan.
TIMED = frozenset(
    {
        Rule.KEPT_BY_CALLER,
        Rule.GET_BRINGS_ALL,
        Rule.ANSWERED_AT_COMMIT,
        Rule.SHARED_REQUEST,
        Rule.FENCE_OF_NODE,
    }
)
