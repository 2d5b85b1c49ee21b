"""A plain judge of records, written from the definition of what is right: nothing of it is shared with the recorder.

It answers as gccheck does: `yes N`, or `no G C` with the position of the first graph that has a fault, and its code.

    python3.12 -m tests.judge FILE..
"""
import re
import sys
from collections import Counter
from itertools import chain
from pathlib import Path
from typing import NamedTuple

NUMBER = re.compile(r"0|[1-9][0-9]*")
LARGEST = 2**64 - 1


class Unreadable(Exception):
    """The text is no text of records."""


class Graph(NamedTuple):
    """A graph as its lines tell it: serials, in-degrees and marks of the members, and the references of each."""

    is_first: bool
    members: list[tuple[int, int, bool]]
    references: list[list[int]]
    lost: list[int]
    legacy: list[int]


class Lines:
    """The lines of a text, one after the other."""

    def __init__(self, text: str) -> None:
        if not text.endswith("\n"):
            raise Unreadable
        self.lines = text[:-1].split("\n")
        self.at = 0

    def takes(self, line: str) -> bool:
        """Goes past the next line if it is this one."""
        found = self.at < len(self.lines) and self.lines[self.at] == line
        self.at += found
        return found

    def must(self, line: str) -> None:
        """Goes past this line."""
        if not self.takes(line):
            raise Unreadable

    def numbers(self, word: str, how_many: int) -> list[int] | None:
        """The numbers of the next line, if this word begins it."""
        words = self.lines[self.at].split(" ") if self.at < len(self.lines) else []
        if not words or words[0] != word:
            return None
        if len(words) != how_many + 1 or not all(map(NUMBER.fullmatch, words[1:])):
            raise Unreadable
        numbers = [int(number) for number in words[1:]]
        if max(numbers) > LARGEST:
            raise Unreadable
        self.at += 1
        return numbers

    def all_numbers(self, word: str) -> list[int]:
        """The numbers of the lines that begin with the word, one each."""
        found: list[int] = []
        while (numbers := self.numbers(word, 1)) is not None:
            found += numbers
        return found


def graph(lines: Lines, is_first: bool) -> Graph:
    """A graph, with the legacy set of a first one."""
    members: list[tuple[int, int, bool]] = []
    references: list[list[int]] = []
    while (numbers := lines.numbers("m", 3)) is not None:
        serial, degree, mark = numbers
        if mark > 1:
            raise Unreadable
        members.append((serial, degree, mark == 1))
        references.append(lines.all_numbers("r"))
    lost = lines.all_numbers("lost")
    return Graph(is_first, members, references, lost, lines.all_numbers("legacy") if is_first else [])


def records(text: str) -> list[list[Graph]]:
    """The graphs of each record."""
    lines = Lines(text)
    found: list[list[Graph]] = []
    while (generation := lines.numbers("record", 1)) is not None:
        if generation[0] > 2:
            raise Unreadable
        lines.must("graph 1")
        found.append([graph(lines, True)])
        if not lines.takes("cut"):
            lines.must("graph 2")
            found[-1].append(graph(lines, False))
            lines.must("stop")
    lines.must("end")
    if lines.at < len(lines.lines):
        raise Unreadable
    return found


def led_to(starts: set[int], within: set[int], references: dict[int, list[int]]) -> set[int]:
    """What paths in a set lead to from these."""
    reached: set[int] = set()
    new = starts & within
    while new:
        reached |= new
        new = (set(chain.from_iterable(references[serial] for serial in new)) & within) - reached
    return reached


def fault(g: Graph) -> int | None:
    """The least code of a fault of a graph."""
    serials = [serial for serial, _, _ in g.members]
    there = set(serials)
    everywhere = list(chain.from_iterable(g.references))
    if any(len(set(some)) < len(some) for some in (serials, g.lost, g.legacy)):
        return 2
    if not there.issuperset(chain(everywhere, g.lost, g.legacy)):
        return 2
    occurrences = Counter(everywhere)
    if any(occurrences[serial] > degree for serial, degree, _ in g.members):
        return 3
    references = dict(zip(serials, g.references))
    held = {serial for serial, degree, _ in g.members if degree > occurrences[serial]}
    lost = there - led_to(held, there, references)
    if set(g.lost) != lost:
        return 4
    marked = {serial for serial, _, mark in g.members if mark}
    if g.is_first and set(g.legacy) != led_to(marked, lost, references):
        return 5
    return None


def verdict(text: str) -> str:
    """The verdict on a text."""
    try:
        found = records(text)
    except Unreadable:
        return "no 0 1"
    for position, g in enumerate(chain.from_iterable(found), 1):
        code = fault(g)
        if code is not None:
            return f"no {position} {code}"
    return f"yes {len(found)}"


if __name__ == "__main__":
    for name in sys.argv[1:]:
        print(name, verdict(Path(name).read_text("ascii")))
