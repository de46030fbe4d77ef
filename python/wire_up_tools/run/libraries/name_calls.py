"""What a call on a name gives, by the rules of a library."""
from wire_up_tools.plan import Call
from wire_up_tools.run.libraries.rules import Rule
from wire_up_tools.run.libraries.traits import NOT_FOUND, Publish, Several
from wire_up_tools.run.libraries.world import (
    SUCCESS,
    Published,
    Reply,
    World,
    succeed,
)
from wire_up_tools.words import EVERY_NAME, is_reserved

UNSUPPORTED, BAD = "PMIX_ERR_NOT_SUPPORTED", "PMIX_ERR_BAD_PARAM"
DUPLICATE = "PMIX_ERR_DUPLICATE_KEY"
PARTIAL = "PMIX_STATUS(-104,PMIX_QUERY_PARTIAL_SUCCESS)"


def answer_name_call(world: World, call: Call) -> Reply:
    """What a publish, a lookup or an unpublish gives. What stands for a message of MPI is none."""
    has_names = world.traits.has_names or call.remark is not None
    if not has_names and world.has(Rule.NAMES):
        return UNSUPPORTED
    if is_reserved(call.about) and not world.has(Rule.RESERVED_KEYS):
        return BAD
    if call.verb == "publish":
        return publish(world, call)
    if call.verb == "unpublish":
        return unpublish(world, call)
    return look_up(world, call)


def publish(world: World, call: Call) -> Reply:
    """What a publish gives."""
    there = world.names[call.about]
    is_refused = world.traits.publish is Publish.REFUSED or not world.has(Rule.NAMES)
    if there and is_refused:
        return DUPLICATE
    there.append(Published(call.rank, call.words[2]))
    return SUCCESS


def look_up(world: World, call: Call) -> Reply:
    """What a lookup gives, one that waits or one that doesn't."""
    there, waits = world.names[call.about], call.verb == "lookup-wait"
    if not there:
        return None if waits else NOT_FOUND
    if len(there) == 1:
        return succeed(there[0].value)
    if world.traits.several is Several.LAST:
        return succeed(there[-1].value)
    return None if waits else PARTIAL


def unpublish(world: World, call: Call) -> Reply:
    """What an unpublish gives."""
    if call.about == EVERY_NAME:
        if world.has(Rule.UNPUBLISH_ALL):
            return world.traits.kept_all
        for there in world.names.values():
            there[:] = [name for name in there if name.owner is not call.rank]
        return SUCCESS
    there = world.names[call.about]
    if not world.has(Rule.NAMES):
        is_own = bool(there) and there[0].owner is call.rank
        there[:] = [] if is_own else there
        return SUCCESS if is_own else NOT_FOUND
    of_others = world.traits.unpublishes_of_others
    there[:] = [] if of_others else [name for name in there if name.owner is not call.rank]
    return SUCCESS
