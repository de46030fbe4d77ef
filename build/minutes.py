"""How many minutes things took when they were measured (minutes.txt)."""
from pathlib import Path

FILE = Path(__file__).with_name("minutes.txt")


def minutes_of() -> dict[str, float]:
    """The minutes, by the name of a crate or of a part of the gate."""
    with FILE.open(encoding="utf-8") as file:
        lines = [line.split() for line in file if line.strip() and not line.startswith("#")]
    return {name: float(minutes) for name, minutes in lines}
