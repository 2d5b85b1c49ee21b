"""What the frames that run in this thread hold: the collector is not told of it."""
import ctypes
import sys
from array import array
from collections import Counter
from types import FrameType
from typing import NamedTuple

from ..heap.frames import HEAD, INNER, OWN, variables_of
from ..heap.whole import WORD


class Running(NamedTuple):
    """How often running frames have each address: as their variables, and in the room for their intermediate values.

    What stands in that room may be left from frames that have ended. So it counts for iterators alone, as of loops.
    """

    variables: Counter[int]
    room: Counter[int]

    def holds(self, one: object) -> int:
        """How often the frames hold an object."""
        return self.variables[id(one)] + (self.room[id(one)] if hasattr(type(one), "__next__") else 0)


def running() -> Running:
    """The frames from the caller on."""
    found = Running(Counter(), Counter())
    frame: FrameType | None = sys._getframe(1)
    while frame is not None:
        code = frame.f_code
        behind = HEAD + len(variables_of(code))
        place = ctypes.c_size_t.from_address(id(frame) + INNER).value
        words = array("Q", ctypes.string_at(place, (behind + code.co_stacksize) * WORD))
        found.variables.update(words[at] for at, _ in OWN)
        found.variables.update(words[HEAD:behind])
        found.room.update(words[behind:])
        frame = frame.f_back
    return found
