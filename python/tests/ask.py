"""A plain judge of questions about a heap, written from their definitions: nothing of it is shared with the recorder.

It answers as gcheap does, and can stand for it; where gcheap has been built, that has to give the same answer:

    python3.12 -m tests.ask < HEAP
"""
import contextlib
import io
import re
import subprocess
import sys
from collections import Counter, deque
from functools import cached_property
from typing import Iterable, Iterator

from .recording import GCHEAP

NUMBER = re.compile(r"0|[1-9][0-9]*")


class BadLine(Exception):
    """The first line that is not in the grammar."""


class Graph:
    """Members by their places: in-degrees, sizes, marks, references, and untold words."""

    def __init__(self) -> None:
        self.degree: list[int] = []
        self.size: list[int] = []
        self.tracked: list[bool] = []
        self.legacy: list[bool] = []
        self.rows: list[list[int]] = []
        self.untold: list[list[int]] = []

    def occurrences(self, rows: Iterable[list[int]], among: Iterable[int] | None = None) -> Counter[int]:
        """How often each member stands in the rows; of these members alone, if they are given."""
        chosen = rows if among is None else (self.rows[member] for member in among)
        return Counter(target for row in chosen for target in row)

    def reached(self, starts: Iterable[int], rows: list[list[int]], without: set[int]) -> dict[int, int | None]:
        """What paths that avoid some members lead to from the starts, each with the one before it on a shortest."""
        before: dict[int, int | None] = {start: None for start in starts if start not in without}
        waiting = deque(before)
        while waiting:
            member = waiting.popleft()
            for target in rows[member]:
                if target not in before and target not in without:
                    before[target] = member
                    waiting.append(target)
        return before

    @cached_property
    def held_now(self) -> list[int]:
        """The members that are held from outside."""
        return self.held(self.rows)

    @cached_property
    def alive(self) -> set[int]:
        """The members that a path from a held one leads to."""
        return set(self.reached(self.held_now, self.rows, set()))

    def held(self, rows: list[list[int]]) -> list[int]:
        """The members whose in-degree is above their occurrences."""
        times = self.occurrences(rows)
        return [member for member in range(len(rows)) if self.degree[member] > times[member]]

    def lost(self, rows: list[list[int]]) -> list[int]:
        """The members that no path from a held one leads to."""
        reached = self.reached(self.held(rows), rows, set())
        return [member for member in range(len(rows)) if member not in reached]

    def dies_by_count(self, given: set[int]) -> set[int]:
        """What dies by count alone when every reference to these is given up."""
        left = list(self.degree)
        gone = set(given)
        waiting = deque(given)
        while waiting:
            for target in self.rows[waiting.popleft()]:
                left[target] -= 1
                if left[target] == 0 and target not in gone:
                    gone.add(target)
                    waiting.append(target)
        return gone

    def let_go(self, given: set[int]) -> set[int]:
        """What is reached now, and not by paths that avoid these."""
        return self.alive - self.reached(self.held_now, self.rows, given).keys()

    def stuck(self) -> set[int]:
        """What is lost and left by the next full collection."""
        tracked = [member for member in range(len(self.rows)) if self.tracked[member]]
        others = set(range(len(self.rows))) - set(tracked)
        times = self.occurrences(self.rows, tracked)
        held = [member for member in tracked if self.degree[member] > times[member]]
        unreachable = set(tracked) - self.reached(held, self.rows, others).keys()
        legacy = [member for member in unreachable if self.legacy[member]]
        outside = set(range(len(self.rows))) - unreachable
        condemned = unreachable - self.reached(legacy, self.rows, outside).keys()
        return set(self.lost(self.rows)) - self.dies_by_count(condemned)

    def fault(self, with_untold: bool) -> tuple[int, int] | None:
        """The least code of the first member with a fault, and the member."""
        size = len(self.rows)
        told = self.occurrences(self.rows)
        all_words = told + self.occurrences(self.untold)
        for member in range(size):
            if any(target >= size for target in self.rows[member] + self.untold[member]):
                return 2, member
            if self.degree[member] < told[member]:
                return 3, member
            if with_untold and self.degree[member] < all_words[member]:
                return 4, member
        return None


def numbers(words: list[str]) -> list[int]:
    """The numbers that words spell."""
    if not all(map(NUMBER.fullmatch, words)) or any(int(word) >= 2**64 for word in words):
        raise BadLine
    return list(map(int, words))


def read_line(graph: Graph, words: list[str]) -> None:
    """A line of the heap."""
    if words[0] == "m" and len(words) >= 5:
        degree, size, tracked, legacy, *row = numbers(words[1:])
        if size >= 2**36 or tracked > 1 or legacy > 1:
            raise BadLine
        graph.degree.append(degree)
        graph.size.append(size)
        graph.tracked.append(tracked == 1)
        graph.legacy.append(legacy == 1)
        graph.rows.append(row)
        graph.untold.append([])
    elif words[0] == "u" and len(words) > 1 and graph.rows and not graph.untold[-1]:
        graph.untold[-1] = numbers(words[1:])
    else:
        raise BadLine


def read(lines: list[str]) -> tuple[Graph, list[list[str]]]:
    """The heap and the questions."""
    graph = Graph()
    questions: list[list[str]] = []
    is_over = False
    for position, line in enumerate(lines, 1):
        words = line.split(" ")
        try:
            if position == 1:
                if line != "heap":
                    raise BadLine
            elif is_over:
                check(words, len(graph.rows))
                questions.append(words)
            elif line == "end":
                is_over = True
            else:
                read_line(graph, words)
        except BadLine:
            raise BadLine(position) from None
    if not is_over:
        raise BadLine(len(lines) + 1)
    return graph, questions


def check(words: list[str], size: int) -> None:
    """Refuses a question that is none, or about a place that is no member."""
    word, rest = words[0], words[1:]
    but: list[str] = []
    if word == "why" and "but" in rest:
        at = rest.index("but")
        rest, but = rest[:at], rest[at + 1 :]
        if not but or rest[0] in but:
            raise BadLine
    fits = {"why": len(rest) == 1, "referrers": len(rest) == 1, "drop": len(rest) >= 1}
    if not fits.get(word, word in ("hidden", "lost", "untold") and not rest):
        raise BadLine
    if any(place >= size for place in numbers(rest + but)):
        raise BadLine


def answer(graph: Graph, words: list[str]) -> Iterator[str]:
    """The lines of an answer, its question and `done` left out."""
    if words[0] == "why":
        yield from why(graph, int(words[1]), set(map(int, words[3:])))
    elif words[0] == "referrers":
        yield from referrers(graph, int(words[1]))
    elif words[0] == "hidden":
        yield from hidden(graph)
    elif words[0] == "lost":
        stuck = graph.stuck()
        yield from (f"lost {member} {member in stuck:d}" for member in graph.lost(graph.rows))
    elif words[0] == "drop":
        yield from drop(graph, set(map(int, words[1:])))
    else:
        rows = [row + more for row, more in zip(graph.rows, graph.untold)]
        known = set(graph.lost(graph.rows))
        yield from (f"kept {member}" for member in graph.lost(rows) if member not in known)


def why(graph: Graph, asked: int, without: set[int]) -> Iterator[str]:
    """A shortest path."""
    before = graph.reached(graph.held(graph.rows), graph.rows, without)
    if asked not in before:
        yield "none"
        return
    path: list[int] = []
    member: int | None = asked
    while member is not None:
        path.append(member)
        member = before[member]
    first = path.pop()
    yield f"held {first} {graph.degree[first] - graph.occurrences(graph.rows)[first]}"
    yield from (f"via {member}" for member in reversed(path))


def referrers(graph: Graph, asked: int) -> Iterator[str]:
    """Who refers to a member."""
    for member, row in enumerate(graph.rows):
        if asked in row:
            yield f"referrer {member} {row.count(asked)}"
    yield f"outside {graph.degree[asked] - graph.occurrences(graph.rows)[asked]}"


def hidden(graph: Graph) -> Iterator[str]:
    """Who is held from outside."""
    told, more = graph.occurrences(graph.rows), graph.occurrences(graph.untold)
    for member, degree in enumerate(graph.degree):
        outside = degree - told[member]
        if outside > 0:
            yield f"hidden {member} {outside} {max(0, outside - more[member])}"


def drop(graph: Graph, given: set[int]) -> Iterator[str]:
    """What would go."""
    by_count = graph.dies_by_count(given)
    gone = sorted(by_count | graph.let_go(given))
    yield from (f"gone {member} {member in by_count:d}" for member in gone)
    sizes = [sum(graph.size[member] for member in some) for some in (gone, by_count)]
    yield f"total {len(gone)} {sizes[0]} {len(by_count)} {sizes[1]}"


def main(text: str) -> int:
    """Answers all questions; the status."""
    try:
        if not text.endswith("\n"):
            raise BadLine(text.count("\n") + 1)
        graph, questions = read(text[:-1].split("\n"))
    except BadLine as bad:
        print(f"bad line {bad}")
        return 1
    fault = graph.fault(any(words == ["untold"] for words in questions))
    if fault is not None:
        print("fault {} {}".format(*fault))
        return 1
    for words in questions:
        print("\n".join([" ".join(words), *answer(graph, words), "done"]))
    return 0


def without_choice(answers: str) -> list[str]:
    """The lines of answers; of a path only how long it is, since there may be several shortest ones."""
    lines: list[str] = []
    is_path = False
    for line in answers.splitlines():
        is_path = line.startswith("why ") or (is_path and line != "done")
        lines.append(line.split()[0] if is_path and line.startswith(("held ", "via ")) else line)
    return lines


def compared(text: str) -> int:
    """Answers all questions, and has gcheap answer them too, if it has been built; the status."""
    with contextlib.redirect_stdout(io.StringIO()) as answers:
        status = main(text)
    sys.stdout.write(answers.getvalue())
    if GCHEAP.exists():
        done = subprocess.run([GCHEAP], input=text, capture_output=True, text=True)
        if (done.returncode, without_choice(done.stdout)) != (status, without_choice(answers.getvalue())):
            print(f"gcheap has another answer, with the status {done.returncode}", file=sys.stderr)
            return 9
    return status


if __name__ == "__main__":
    sys.exit(compared(sys.stdin.read()))
