"""What a get gives, by the rules of a library."""
from wire_up_tools.run.libraries.rules import Rule
from wire_up_tools.run.libraries.traits import NOT_FOUND, OUTSIDE, Kept, MapRule
from wire_up_tools.run.libraries.world import Question, Reply, succeed
from wire_up_tools.words import is_reserved

RANK, JOB_SIZE, HOST = "PMIX_RANK", "PMIX_JOB_SIZE", "PMIX_HOSTNAME"
MAP = (RANK, "PMIX_LOCAL_RANK", "PMIX_NODE_RANK", JOB_SIZE, HOST)


def answer_get(asked: Question) -> Reply:
    """What a get gives."""
    if is_reserved(asked.key):
        if not asked.has(Rule.RESERVED_KEYS):
            return read_map(asked) if asked.key in MAP else NOT_FOUND
        if asked.key in MAP:
            return answer_map(asked)
        if not is_taken_like_others(asked):
            return NOT_FOUND
    if asked.is_own:
        return answer_own(asked)
    return answer_other(asked)


def read_map(asked: Question) -> str:
    """What the map of the plan says of a rank."""
    owner, ranks = asked.owner, asked.world.plan.ranks
    if asked.key == HOST:
        return succeed(owner.node)
    before = [rank for rank in ranks if rank.index < owner.index]
    if asked.key == RANK:
        return succeed(str(sum(rank.job == owner.job for rank in before)))
    if asked.key == JOB_SIZE:
        return succeed(str(sum(rank.job == owner.job for rank in ranks)))
    near = [rank for rank in before if rank.node == owner.node]
    of_all = asked.key == "PMIX_NODE_RANK"
    return succeed(str(sum(of_all or rank.job == owner.job for rank in near)))


def answer_map(asked: Question) -> Reply:
    """What a get of the map gives."""
    if asked.key in (RANK, JOB_SIZE):
        is_asked = asked.traits.asks_owner_of_reserved and asked.waits and not asked.is_near
        if is_asked and asked.key == RANK:
            return read_map(asked)
        return None if is_asked and asked.is_of_job else NOT_FOUND
    rule = asked.traits.map_rule
    is_told = rule is MapRule.EVERY_RANK or asked.is_of_job
    if rule is MapRule.HOST_OF_OWN_JOB and asked.key != HOST:
        is_told = True
    if rule is MapRule.OWN_JOB_AND_NODE and asked.key != HOST and not asked.is_near:
        is_told = False
    return read_map(asked) if is_told else NOT_FOUND


def is_taken_like_others(asked: Question) -> bool:
    """Whether a reserved key, which isn't of the map, is looked for like one that isn't."""
    traits = asked.traits
    is_put = asked.key in asked.put.put and traits.has_own_reserved
    is_asked = traits.asks_owner_of_reserved and asked.waits and not asked.is_near
    return is_put or is_asked or asked.key.startswith("PMIX_")


def miss(asked: Question) -> Reply:
    """What a get gives that finds nothing yet."""
    return None if asked.waits else NOT_FOUND


def answer_own(asked: Question) -> Reply:
    """What a get of a key of one's own gives."""
    if asked.traits.kept is Kept.APART and asked.key in asked.by_fences:
        return succeed(asked.by_fences[asked.key])
    if asked.has(Rule.OWN_FROM_STORE) and asked.key in asked.put.here:
        return succeed(asked.put.here[asked.key])
    found = asked.put.put.get(asked.key)
    return succeed(found.value) if found else miss(asked)


def answer_other(asked: Question) -> Reply:
    """What a get of a key of another rank gives."""
    if asked.traits.kept is Kept.APART and asked.key in asked.by_fences:
        return succeed(asked.by_fences[asked.key])
    if asked.has(Rule.KEPT_BY_CALLER) and asked.key in asked.in_caller:
        return succeed(asked.in_caller[asked.key])
    if asked.is_near:
        return answer_near(asked)
    if asked.key in asked.on_node and asked.has(Rule.GET_BRINGS_ALL):
        asked.in_caller.update(asked.on_node)
        return succeed(asked.on_node[asked.key])
    return answer_far(asked) if asked.waits else answer_far_now(asked)


def answer_near(asked: Question) -> Reply:
    """What a get of a rank on the same node gives."""
    put = asked.put
    if asked.key in put.here:
        asked.in_caller.update(put.here)
        return succeed(put.here[asked.key])
    if asked.key in put.committed and put.committed[asked.key].scope == "remote":
        return NOT_FOUND if asked.has(Rule.REMOTE_ON_OWN_NODE) else OUTSIDE
    return miss_near(asked)


def miss_near(asked: Question) -> Reply:
    """What a get of a rank on the same node gives that finds nothing yet."""
    if not asked.waits or not asked.has(Rule.ANSWERED_AT_COMMIT):
        return miss(asked)
    name, commits = asked.caller.name, asked.put.commits
    *of, before = asked.world.asked.get(name, (None, None, commits))
    if of == [asked.owner.name, asked.key] and before < commits:
        del asked.world.asked[name]
        return NOT_FOUND
    asked.world.asked[name] = (asked.owner.name, asked.key, commits)
    return None


def answer_far_now(asked: Question) -> Reply:
    """What a get gives at once of a rank on another node."""
    found = asked.on_node.get(asked.key)
    return NOT_FOUND if found is None else succeed(found)


def answer_far(asked: Question) -> Reply:
    """What a get that waits gives of a rank on another node."""
    if not asked.has(Rule.SHARED_REQUEST):
        return answer_asked(asked)
    request = asked.join()
    if not asked.world.holds_answers and request.key in asked.put.committed:
        request.is_answered = True
    if not request.is_answered:
        return None
    del asked.world.joined[asked.caller.name]
    return answer_asked(asked) or NOT_FOUND


def answer_asked(asked: Question) -> Reply:
    """What a get gives of a rank on another node by a request of its own."""
    put, asks_at_once = asked.put, asked.traits.asks_owner_at_once
    is_at_once = asks_at_once and asked.has(Rule.OWNER_ANSWERS)
    if not put.commits or (asked.key not in put.committed and not is_at_once):
        return None
    if asked.has(Rule.GET_BRINGS_ALL):
        asked.on_node.update(put.elsewhere)
    if asked.key not in put.elsewhere:
        has_others = bool(put.elsewhere)
        if is_at_once and has_others:
            return NOT_FOUND if asked.knows_job else asked.traits.missing_elsewhere
        if not asked.has(Rule.LOCAL_ELSEWHERE):
            return OUTSIDE
        if not asks_at_once and has_others:
            return NOT_FOUND
        return asked.traits.local_elsewhere if is_at_once else OUTSIDE
    if asked.has(Rule.GET_BRINGS_ALL):
        asked.in_caller.update(put.elsewhere)
    return succeed(put.elsewhere[asked.key])
