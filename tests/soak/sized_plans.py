"""Plans of several sizes from one pattern."""
from wire_up_tools.record.patterns.expanding import expand, read_pattern
from wire_up_tools.record.sizes.plans import Call, SizedPlan


def expand_plan(text: str, size: int) -> SizedPlan:
    """The plan of a pattern of one job, with so many ranks in each group."""
    roles = read_pattern(text)
    sizes = {role.name: size for role in roles if role.is_group}
    calls = {
        rank: [Call(words) for words in them] for rank, them in expand(roles, sizes, {}).items()
    }
    return SizedPlan(f"{size} in a group", roles[0].job, calls)
