"""Texts of runs as trees: lines, frames and collections.

A frame is a block from `enter` to `leave`, a collection one from `gc start` to `gc stop`.
"""
from dataclasses import dataclass, field
from typing import Iterable, NamedTuple, Sequence

UNSEEN = ("free", "cleared", "alive", "count")
# lines that a collection prints on objects, by their second words
DEBUG_LINES = ("collectable", "uncollectable", "saved")


class Line(NamedTuple):
    """A line that both show, with its place in its text."""

    place: int
    words: tuple[str, ...]


@dataclass
class Block:
    """A frame or a collection; the tail is missing where the run ended inside."""

    head: Line
    body: list["Line | Block"] = field(default_factory=list)
    tail: Line | None = None

    @property
    def place(self) -> int:
        """Where it begins."""
        return self.head.place

    @property
    def last(self) -> int:
        """Where it ends, as far as it goes."""
        if self.tail is not None:
            return self.tail.place
        return last_place(self.body[-1]) if self.body else self.head.place

    @property
    def words(self) -> tuple[str, ...]:
        """The words of its first line."""
        return self.head.words

    @property
    def is_collection(self) -> bool:
        """Whether it is a collection."""
        return self.words[0] == "gc"

    @property
    def is_free_to_move(self) -> bool:
        """Whether a death or a collection starts such a frame, and no command."""
        return self.words[0] == "enter" and self.words[1] != "call"


Item = Line | Block


def is_debug_line(words: Sequence[str]) -> bool:
    """Whether the words are those of a line that tells that an object is garbage or saved."""
    return words[0] == "gc" and words[1] in DEBUG_LINES


def last_place(item: Item) -> int:
    """Where an item ends."""
    return item.last if isinstance(item, Block) else item.place


def seen(lines: Iterable[str]) -> list[Line]:
    """The lines of a text that CPython shows too, each with what of it CPython shows."""
    found = []
    for place, text in enumerate(lines):
        words = tuple(text.split(" "))
        if words[0] == "gens":
            words = words[:4]
        if words[0] not in UNSEEN:
            found.append(Line(place, words))
    return found


def tree(lines: Iterable[Line]) -> list[Item]:
    """The lines as a tree."""
    top: list[Item] = []
    open_blocks: list[Block] = []
    for line in lines:
        body = open_blocks[-1].body if open_blocks else top
        if line.words[0] == "enter" or line.words[:2] == ("gc", "start"):
            block = Block(line)
            body.append(block)
            open_blocks.append(block)
        elif open_blocks and ends(open_blocks[-1], line):
            open_blocks.pop().tail = line
        else:
            body.append(line)
    return top


def ends(block: Block, line: Line) -> bool:
    """Whether a line ends a block."""
    return line.words[:2] == ("gc", "stop") if block.is_collection else line.words == ("leave",)
