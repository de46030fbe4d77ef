"""The rules of the profile, as the conformance suite names them: docs/profile.md has them in full.
"""
import enum
from dataclasses import dataclass

OWN = "own"


@dataclass(frozen=True)
class Words:
    """The words of a rule, and the heading of the PMIx Standard that says it, or `own`."""

    text: str
    source: str


class ProfileRule(enum.Enum):
    """A rule that plans of the suite are about."""

    PUT_COMMIT = Words("a put and a commit succeed", OWN)
    SCOPE_LOCAL = Words(
        "a key of scope local exists outside the scope of a get on another node", "PMIx_Get"
    )
    SCOPE_REMOTE = Words(
        "a key of scope remote exists outside the scope of a get on its own node", "PMIx_Get"
    )
    GET_OWN = Words("a rank reads its own last put of a key, committed or not", OWN)
    GET_WAITS = Words(
        "a get of another rank waits until it has committed the key",
        "Retrieval Rules for Non-Reserved Keys",
    )
    GET_LAST = Words("a get replies with the value that was committed last", OWN)
    GET_BRINGS_NOTHING = Words("a get brings nothing to the caller's node", OWN)
    GET_NOW_SAMENODE = Words(
        "a get-now of a rank on the same node looks at what it has committed", OWN
    )
    GET_NOW_OTHERNODE = Words(
        "a get-now of a rank on another node looks only at what fences brought", OWN
    )
    FENCE_BARRIER = Words("a fence ends once all members have arrived, and succeeds", "PMIx_Fence")
    FENCE_SET = Words("the members of a fence are a set, however it is spelt", OWN)
    FENCE_COLLECT = Words(
        "a fence that collects brings what its members committed", "PMIx_Fence"
    )
    FENCE_MIXED = Words("a fence collects if every one of its calls says so", OWN)
    PUBLISH_DUPLICATE = Words("a second publish of a name is refused", "PMIx_Publish")
    LOOKUP = Words("a lookup replies with what is there now", "PMIx_Lookup")
    LOOKUP_WAIT = Words("a lookup-wait waits until there is something", "PMIx_Lookup")
    UNPUBLISH = Words("an unpublish takes away what the caller published, and no more", OWN)
    UNPUBLISH_ALL = Words(
        "an unpublish without names takes away all that the caller published", "PMIx_Unpublish"
    )
    MAP = Words("five reserved keys tell where a rank is", "Reserved Keys")
    RESERVED = Words("a put or a name that is reserved is refused", OWN)
    RESERVED_GET = Words("a get of another reserved key finds nothing", OWN)
    MIXED = Words("all rules together, in random plans", OWN)

    @property
    def label(self) -> str:
        """How files and lines name it."""
        return self.name.lower().replace("_", "-")


BY_LABEL = {profile_rule.label: profile_rule for profile_rule in ProfileRule}
