"""Writes the heap of this process to a file that gcheap reads, and what is known of its members to one beside it."""
import os
import signal
from itertools import count
from types import FrameType
from typing import Iterator

from ..recorder.files import BESIDE
from .child import Failed, in_child
from .frames import Frame
from .heap import Heap
from .labels import node
from .scan import scan
from .whole import Whole


def write(out: str) -> int:
    """Writes the heap to OUT and the names of its members to OUT.objects; says how many there are."""

    def work(whole: Whole, frames: list[Frame]) -> int:
        if not whole.is_closed():
            raise Failed("the heap could not be taken: references were not followed to their end")
        heap = Heap(whole, frames)
        heap.untold = scan(heap)
        with open(out, "w", encoding="ascii", newline="\n") as file:
            file.writelines(heap.text())
        with open(out + BESIDE, "w", encoding="ascii", newline="\n") as file:
            file.writelines(names(heap))
        return heap.size + len(heap.frames)

    return in_child(work)


def names(heap: Heap) -> Iterator[str]:
    """For each member its position and its name."""
    for position in range(heap.size):
        yield f"{position} {printable(node(heap.object(position)))}\n"
    for position, (frame, _) in enumerate(heap.frames, heap.size):
        yield f"{position} frame of {printable(frame.label)}\n"


def printable(text: str) -> str:
    """A text in one line of ASCII."""
    return text.encode("unicode_escape", "backslashreplace").decode("ascii")


def on_signal(number: int = getattr(signal, "SIGUSR1", 0), out: str = "gcheap") -> None:
    """Has the heap written to `OUT.PROCESS.1`, `OUT.PROCESS.2` and so on at each such signal."""
    folder, numbers = os.getcwd(), count(1)

    def handle(_: int, frame: FrameType | None) -> None:
        write(os.path.join(folder, f"{out}.{os.getpid()}.{next(numbers)}"))

    signal.signal(number, handle)
