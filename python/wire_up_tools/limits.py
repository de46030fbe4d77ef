"""The limits of a plan: how much it may have, by its version and with the option --large."""
from dataclasses import dataclass


@dataclass(frozen=True)
class Limits:
    """The most that a plan may have: counts of what it declares, and sizes in bytes.

    `calls` are those of all processes together, `plan_bytes` is the size of the file, and
    `order_bytes` that of an order for `wire_up follow`.
    """

    nodes: int
    jobs: int
    processes: int
    calls: int
    plan_bytes: int
    order_bytes: int
    name_bytes: int = 63
    value_bytes: int = 255


VERSION_1 = Limits(
    nodes=64, jobs=16, processes=256, calls=16_384, plan_bytes=4 << 20, order_bytes=8 << 20
)
VERSION_2 = Limits(
    nodes=64, jobs=16, processes=512, calls=32_768, plan_bytes=4 << 20, order_bytes=8 << 20
)
LARGE = Limits(
    nodes=65_536,
    jobs=256,
    processes=1_048_576,
    calls=33_554_432,
    plan_bytes=1 << 30,
    order_bytes=1 << 30,
)
