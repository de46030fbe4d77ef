"""Which calls of a recording are open: begun, and not ended."""
from array import array

# How far a number may be past all before it to have a place in the array.
MOST_AHEAD = 1 << 12
# In the array: no call of that number is open.
CLOSED = -1


class OpenCalls:
    """The open calls by their numbers, each with an index.

    The recorder counts from 1 on. So an array has them, since sends mostly have no end, and a
    large recording has millions; numbers far beyond it are in a dict.
    """

    def __init__(self) -> None:
        self.near = array("q")
        self.far: dict[int, int] = {}

    def add(self, number: int, index: int) -> bool:
        """Opens a call. Answers whether none of that number was open."""
        near, ahead = self.near, number - len(self.near)
        if number in self.far or (ahead < 0 and near[number] != CLOSED):
            return False
        if ahead < MOST_AHEAD:
            near.extend([CLOSED] * (ahead + 1))
            near[number] = index
        else:
            self.far[number] = index
        return True

    def remove(self, number: int) -> int | None:
        """Closes a call. Answers its index; None where it isn't open."""
        if number < len(self.near) and self.near[number] != CLOSED:
            index, self.near[number] = self.near[number], CLOSED
            return index
        return self.far.pop(number, None)
