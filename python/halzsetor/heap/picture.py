"""The picture of a path: its objects with what else holds each, and by how many references that no traverse tells."""
from typing import Callable, Mapping, NamedTuple

from ..dot import Picture, times
from .scan import IMMORTAL

# so many other holders of an object are drawn
MOST_HOLDERS = 4
FOUND = {"fillcolor": "lightyellow"}
UNTOLD = {"style": "dashed"}
# asks gcheap questions, and has the lines of each answer
Ask = Callable[[list[str]], list[list[str]]]


class Held(NamedTuple):
    """An object of a path: the members that refer to it, how often, and its holds from elsewhere."""

    position: int
    referrers: dict[int, int]
    outside: int
    # the members with an untold word that names it
    untold: list[int]

    def counted(self) -> str:
        """Its in-degree as a sum."""
        if self.outside > IMMORTAL // 2:
            return "lives for ever"
        told = sum(self.referrers.values())
        total = f"{told + self.outside} reference{'s' * (told + self.outside != 1)}"
        return f"{total} = {told} + {self.outside} untold" if self.outside else total


class Names(NamedTuple):
    """What members and references are called."""

    node: Callable[[int], str]
    edge: Callable[[int, int], str]


def path_of(lines: list[str]) -> list[int]:
    """The members of a path, as an answer to `why` has it; none where there is none."""
    return [] if lines == ["none"] else [int(line.split()[1]) for line in lines]


def picture_of(question: str, ask: Ask, untold: Mapping[int, list[int]], names: Names) -> str:
    """The picture of the answer to a question `why`; nothing where there is no path."""
    path = path_of(ask([question])[0])
    answers = ask([f"referrers {position}" for position in path]) if path else []
    held = [held_of(position, lines, untold) for position, lines in zip(path, answers)]
    return Drawing(question, held, names).text() if held else ""


def held_of(position: int, lines: list[str], untold: Mapping[int, list[int]]) -> Held:
    """An object of the path, by the answer to `referrers`."""
    rows = [tuple(map(int, line.split()[1:])) for line in lines]
    words = [holder for holder, targets in untold.items() for target in targets if target == position]
    return Held(position, dict(rows[:-1]), rows[-1][0], words)


class Drawing:
    """Draws a path."""

    def __init__(self, title: str, path: list[Held], names: Names) -> None:
        self.picture = Picture(title)
        self.path = path
        self.names = names
        self.drawn = {held.position for held in path}

    def text(self) -> str:
        """The picture as DOT."""
        for before, held in zip([None, *self.path], self.path):
            how = FOUND if held is self.path[-1] else {}
            self.picture.box(held.position, f"{self.names.node(held.position)}\n{held.counted()}", penwidth="2", **how)
            self.holders(held, None if before is None else before.position)
        return self.picture.text()

    def holders(self, held: Held, before: int | None) -> None:
        """The holders of an object: that of the path, others that are members, and what is not told."""
        others = [holder for holder in held.referrers if holder != before]
        if before is not None:
            self.reference(before, held, penwidth="2")
        for holder in others[:MOST_HOLDERS]:
            self.reference(holder, held)
        if len(others) > MOST_HOLDERS:
            self.note(f"more of {held.position}", f"{len(others) - MOST_HOLDERS} more", held)
        for holder in held.untold:
            self.box(holder)
            self.picture.arrow(holder, held.position, label="untold", **UNTOLD)
        left = held.outside - len(held.untold)
        if left > 0 and held.outside <= IMMORTAL // 2:
            self.note(f"outside {held.position}", "elsewhere", held, label=times(left), **UNTOLD)

    def reference(self, holder: int, held: Held, **how: str) -> None:
        """The references of a member, with the name of the first."""
        self.box(holder)
        number = held.referrers[holder]
        name = self.names.edge(holder, held.position).strip()
        self.picture.arrow(holder, held.position, label=f"{name} {times(number)}".strip(), **how)

    def box(self, position: int) -> None:
        """The box of a member, once."""
        if position not in self.drawn:
            self.drawn.add(position)
            self.picture.box(position, self.names.node(position), color="gray")

    def note(self, key: str, text: str, held: Held, **how: str) -> None:
        """A text with an arrow to an object."""
        self.picture.box(key, text, shape="plaintext", style="", fontcolor="gray30")
        self.picture.arrow(key, held.position, **how)
