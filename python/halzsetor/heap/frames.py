"""What running frames hold, by the words of their locals: nothing tells the collector of these, so they look held from
outside. CPython 3.12.

The frames are found here; their words are read in the process that takes the heap, at the moment at which it is taken.
A frame whose code is another by then is left out.
"""
import os
import sys
from _thread import get_ident
from array import array
from types import CodeType, FrameType
from typing import NamedTuple

from .whole import MEMORY, WORD

# where a frame object has the frame that runs
INNER = 3 * WORD
# the words of a frame: its code, its function, its locals and its frame object; behind the ninth its own variables
CODE, OWN, HEAD = 0, ((2, "the function"), (5, "the locals"), (6, "the frame object")), 9


class Frame(NamedTuple):
    """A frame that runs: what is said of it, its code's address, and the names of its variables."""

    label: str
    code: int
    variables: tuple[str, ...]
    place: tuple[int, int]
    # the functions of this package ask, and hold nothing for themselves
    is_ours: bool
    # whether it is the one that asks
    is_asker: bool

    def holds(self, words: array) -> list[tuple[str, int]]:
        """What it holds by its words, each with a name for the reference."""
        if not words or words[CODE] != self.code:
            return []
        named = [(name, words[place]) for place, name in OWN]
        named += [(f"local '{name}'", word) for name, word in zip(self.variables, words[HEAD:])]
        return [(name, word) for name, word in named if word]


def running() -> list[Frame]:
    """The frames of all threads."""
    if not os.path.exists(MEMORY):
        return []
    found: list[Frame] = []
    for thread, top in sys._current_frames().items():
        frame: FrameType | None = top
        may_ask = thread == get_ident()
        while frame is not None:
            one = frame_of(frame, may_ask)
            found.append(one)
            may_ask = may_ask and not one.is_asker
            frame = frame.f_back
    return found


def frame_of(frame: FrameType, may_ask: bool) -> Frame:
    """What is known of a frame; the first that is none of ours asks."""
    code = frame.f_code
    names = variables_of(code)
    inner = int.from_bytes(read(id(frame) + INNER, WORD), sys.byteorder)
    file = os.path.basename(code.co_filename)
    label = f"{code.co_qualname}, line {frame.f_lineno} of {file}"
    is_ours = frame.f_globals.get("__package__") == __package__
    return Frame(label, id(code), names, (inner, (HEAD + len(names)) * WORD), is_ours, may_ask and not is_ours)


def variables_of(code: CodeType) -> tuple[str, ...]:
    """The names of the variables of a frame, in their order."""
    cells = tuple(name for name in code.co_cellvars if name not in code.co_varnames)
    return (*code.co_varnames, *cells, *code.co_freevars)


def read(place: int, length: int) -> bytes:
    """Bytes of the memory of this process; none where there is none."""
    memory = os.open(MEMORY, os.O_RDONLY)
    try:
        return os.pread(memory, length, place)
    except OSError:
        return b""
    finally:
        os.close(memory)
