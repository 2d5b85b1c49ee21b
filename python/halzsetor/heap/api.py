"""What a program asks of its own heap. Each question takes the heap anew, in a child that is forked off."""
from collections import Counter

from ..programs import find
from .asking import ask
from .child import Failed, in_child
from .frames import Frame
from .heap import IMMORTAL, Heap
from .labels import Link, edge, node, shortened, type_name
from .picture import Names, picture_of
from .scan import scan
from .whole import Whole


class Answer(str):
    """An answer in words; it is false where there is nothing to tell."""

    is_something: bool

    def __new__(cls, text: str, is_something: bool = True) -> "Answer":
        made = super().__new__(cls, text)
        made.is_something = is_something
        return made

    def __bool__(self) -> bool:
        return self.is_something

    def __repr__(self) -> str:
        return str(self)


def why(asked: object, *but: object, gcheap: str | None = None) -> Answer:
    """A shortest path of holders that keeps an object alive, by none of the objects `but`.

    That the function that asks holds the object itself is left out.
    """
    address, without = id(asked), list(map(id, but))
    del asked, but
    return answered(Question("why", [address], without), gcheap)


def picture(asked: object, *but: object, gcheap: str | None = None) -> Answer:
    """The picture of that path, with what else holds each object of it, in the language DOT."""
    address, without = id(asked), list(map(id, but))
    del asked, but
    return answered(Picture("why", [address], without), gcheap)


def drop(*given: object, gcheap: str | None = None) -> Answer:
    """What would go if every reference to these objects were given up: by count alone, and by a collection."""
    addresses = list(map(id, given))
    del given
    return answered(Question("drop", addresses), gcheap)


def referrers(asked: object, gcheap: str | None = None) -> Answer:
    """The objects that refer to one, and how often it is held from elsewhere."""
    address = id(asked)
    del asked
    return answered(Question("referrers", [address]), gcheap)


def hidden(gcheap: str | None = None) -> Answer:
    """The types whose objects are held from outside of all that is known, by how many holds."""
    return answered(Question("hidden"), gcheap)


def lost(gcheap: str | None = None) -> Answer:
    """The garbage, and which of it no collection will take."""
    return answered(Question("lost"), gcheap)


def untold(gcheap: str | None = None) -> Answer:
    """What is kept alive by references that a `tp_traverse` does not tell, by words that look like them."""
    return answered(Question("untold"), gcheap)


def answered(question: "Question", gcheap: str | None) -> Answer:
    """Has the heap taken and asked."""
    program = find("gcheap", gcheap)
    text, is_something = in_child(lambda whole, frames: question.answer(program, whole, frames))
    return Answer(text, is_something)


class Question:
    """A question about objects, by their addresses."""

    def __init__(self, word: str, asked: list[int] | None = None, but: list[int] | None = None) -> None:
        self.word = word
        self.asked = asked or []
        self.but = but or []

    def answer(self, program: str, whole: Whole, frames: list[Frame]) -> tuple[str, bool]:
        """The answer in words, and whether there is something to tell."""
        heap = self.heap(whole, frames, self.word in ("hidden", "untold"))
        (lines,) = ask(program, heap.text(), [self.line(heap)])
        return getattr(Telling(heap), self.word)(lines)

    def heap(self, whole: Whole, frames: list[Frame], with_untold: bool) -> Heap:
        """The heap that is asked."""
        if not whole.is_closed():
            raise Failed("the heap could not be taken: references were not followed to their end")
        heap = Heap(whole, frames, self.asked)
        if with_untold:
            heap.untold = scan(heap)
        return heap

    def line(self, heap: Heap) -> str:
        """The question as gcheap reads it."""
        words = [self.word, *map(str, map(heap.position_of, self.asked))]
        return " ".join(words + ["but", *map(str, map(heap.position_of, self.but))] * bool(self.but))


class Picture(Question):
    """A question whose answer is drawn."""

    def answer(self, program: str, whole: Whole, frames: list[Frame]) -> tuple[str, bool]:
        """The picture of the answer, and whether there is one."""
        heap = self.heap(whole, frames, True)
        telling = Telling(heap)

        def asked(questions: list[str]) -> list[list[str]]:
            return ask(program, heap.text(), questions)

        text = picture_of(self.line(heap), asked, heap.untold, Names(telling.name, telling.edge))
        return text, bool(text)


class Telling:
    """Says answers in words."""

    def __init__(self, heap: Heap) -> None:
        self.heap = heap

    def name(self, position: int) -> str:
        """What a member is called."""
        if position >= self.heap.size:
            return f"frame of {self.heap.frames[position - self.heap.size][0].label}"
        return node(self.heap.object(position))

    def edge(self, holder: int, held: int) -> str:
        """How a member is reached from another."""
        if holder >= self.heap.size:
            address = self.heap.address(held)
            _, holds = self.heap.frames[holder - self.heap.size]
            return " " + next(name for name, word in holds if word == address)
        return edge(self.heap.object(holder), self.heap.object(held))

    def why(self, lines: list[str]) -> tuple[str, bool]:
        """The path."""
        if lines == ["none"]:
            return "no path of holders leads to it\n", False
        first, times = map(int, lines[0].split()[1:])
        path = [first, *(int(line.split()[1]) for line in lines[1:])]
        links = [Link(self.edge(a, b), self.name(b)) for a, b in zip(path, path[1:])]
        # each link stands behind its holder
        holders = [None if a >= self.heap.size else self.heap.object(a) for a in path]
        held = "runs" if first >= self.heap.size else f"held from outside {times_text(times)}"
        text = f"{self.name(first)} ({held})\n"
        for link in shortened(links, holders[1:]):
            text += f"  {link.edge.strip():<24} -> {link.node}\n"
        return text, True

    def drop(self, lines: list[str]) -> tuple[str, bool]:
        """What would go."""
        gone = [line.split() for line in lines if line.startswith("gone ")]
        objects, size, counted, counted_size = lines[-1].split()[1:]
        by_count = [int(words[1]) for words in gone if words[2] == "1"]
        later = [int(words[1]) for words in gone if words[2] == "0"]
        text = f"{objects} objects, {size} bytes would go; {counted} of them, {counted_size} bytes, by count alone\n"
        text += self.kinds("by count", by_count) + self.kinds("by a collection", later)
        return text, bool(gone)

    def kinds(self, heading: str, positions: list[int], most: int = 10) -> str:
        """How many of each type there are."""
        kinds = Counter(type_name(type(self.heap.object(position))) for position in positions)
        return "".join(f"  {heading}: {times} {kind}\n" for kind, times in kinds.most_common(most))

    def referrers(self, lines: list[str]) -> tuple[str, bool]:
        """Who refers to it."""
        text = ""
        for line in lines[:-1]:
            position, times = map(int, line.split()[1:])
            text += f"  {self.name(position)}, {times_text(times)}\n"
        return f"{text}  from outside {times_text(int(lines[-1].split()[1]))}\n", True

    def hidden(self, lines: list[str]) -> tuple[str, bool]:
        """Which types' objects are held from outside."""
        objects: Counter[str] = Counter()
        holds: Counter[str] = Counter()
        for line in lines:
            position, times, left = map(int, line.split()[1:])
            if position < self.heap.size and not is_for_ever(times):
                kind = type_name(type(self.heap.object(position)))
                objects[kind] += 1
                holds[kind] += left
        text = ""
        for kind, times in objects.most_common(20):
            text += f"  {times} {kind} held from outside, by {holds[kind]} references that nothing explains\n"
        return text, bool(objects)

    def lost(self, lines: list[str]) -> tuple[str, bool]:
        """The garbage."""
        rows = [line.split() for line in lines]
        taken = [int(words[1]) for words in rows if words[2] == "0"]
        left = [int(words[1]) for words in rows if words[2] == "1"]
        return self.kinds("a collection takes", taken) + self.kinds("no collection takes", left), bool(rows)

    def untold(self, lines: list[str]) -> tuple[str, bool]:
        """What untold words keep alive."""
        return self.kinds("kept by untold references", [int(line.split()[1]) for line in lines]), bool(lines)


def is_for_ever(times: int) -> bool:
    """Whether so many holds are those of an object that never dies."""
    return times > IMMORTAL // 2


def times_text(times: int) -> str:
    """How often."""
    return "for ever" if is_for_ever(times) else "once" if times == 1 else f"{times} times"
