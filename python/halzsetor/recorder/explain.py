"""Says which objects a verdict on records is about."""
import os
import re
from collections import Counter
from itertools import chain, islice
from typing import Iterable, Iterator, NamedTuple

from .files import BESIDE

# the form of a text of records; nothing is tried twice
NUMBER = rb"(?:0|[1-9][0-9]{0,19}+)"
GRAPH = rb"(?:m N N [01]\n(?:r N\n)*+)*+(?:lost N\n)*+"
RECORD = rb"record [012]\ngraph 1\n" + GRAPH + rb"(?:legacy N\n)*+(?:cut\n|graph 2\n" + GRAPH + rb"stop\n)"
FORM = re.compile((rb"(?:" + RECORD + rb")*+end\n").replace(b"N", NUMBER))


class WrongVerdict(Exception):
    """A verdict that is not on this file."""


class Member(NamedTuple):
    """A member of a recorded graph."""

    serial: int
    degree: int
    is_legacy: bool
    referents: list[int]


class Graph:
    """A recorded graph."""

    def __init__(self, generation: int, is_first: bool) -> None:
        self.generation = generation
        self.is_first = is_first
        self.members: list[Member] = []
        self.lost: list[int] = []
        self.legacy: list[int] = []

    def read(self, words: list[str]) -> None:
        """Takes a line of the graph."""
        match words:
            case ["m", serial, degree, legacy]:
                self.members.append(Member(int(serial), int(degree), legacy == "1", []))
            case ["r", referent]:
                self.members[-1].referents.append(int(referent))
            case ["lost", serial]:
                self.lost.append(int(serial))
            case ["legacy", serial]:
                self.legacy.append(int(serial))
            case _:
                raise ValueError(" ".join(words))

    def occurrences(self) -> Counter[int]:
        """How often each serial stands among the references."""
        return Counter(chain.from_iterable(member.referents for member in self.members))

    def paths(self, starts: Iterable[int], within: set[int]) -> dict[int, int | None]:
        """What a path in a set leads to from these, each with the one before it on a shortest path."""
        referents = {member.serial: member.referents for member in self.members}
        before: dict[int, int | None] = {serial: None for serial in starts if serial in within}
        reached = list(before)
        for serial in reached:
            for referent in referents[serial]:
                if referent in within and referent not in before:
                    before[referent] = serial
                    reached.append(referent)
        return before

    def held(self) -> dict[int, int | None]:
        """What a path of members leads to from one that is held from outside, with the one before it."""
        occurrences = self.occurrences()
        starts = (member.serial for member in self.members if member.degree > occurrences[member.serial])
        return self.paths(starts, {member.serial for member in self.members})

    def set_aside(self) -> dict[int, int | None]:
        """What a path of unreachable members leads to from one with a legacy finalizer, with the one before it."""
        unreachable = {member.serial for member in self.members} - self.held().keys()
        return self.paths((member.serial for member in self.members if member.is_legacy), unreachable)


def graphs_of(lines: Iterable[str]) -> Iterator[Graph]:
    """The graphs of records, in order."""
    generation = 0
    graph: Graph | None = None
    for line in lines:
        words = line.split()
        if words[0] in ("record", "graph", "cut", "stop", "end"):
            if graph is not None:
                yield graph
            graph = Graph(generation, words[1] == "1") if words[0] == "graph" else None
            if words[0] == "record":
                generation = int(words[1])
        elif graph is None:
            raise ValueError(line)
        else:
            graph.read(words)


class Explanation:
    """Says which objects of a graph a fault is about."""

    def __init__(self, graph: Graph, names: dict[int, str]) -> None:
        self.graph = graph
        self.names = names

    def name(self, serial: int) -> str:
        """What is known of a member."""
        known = self.names.get(serial)
        return f"serial {serial}" if known is None else f"{known} (serial {serial})"

    def path(self, before: dict[int, int | None], serial: int | None) -> str:
        """The path that leads to a member."""
        names: list[str] = []
        while serial is not None:
            names.append(self.name(serial))
            serial = before[serial]
        return " -> ".join(reversed(names))

    def of(self, code: int) -> tuple[str, Iterator[str]]:
        """A heading for the code of a fault, and a line for each object."""
        faults = {
            2: ("a serial names no member, or stands twice", self.misnamed()),
            3: ("an in-degree is below the references of members", self.too_low()),
            4: ("what was found is not what is unreachable", self.wrongly_found()),
            5: ("what was set aside is not what legacy finalizers reach", self.wrongly_set_aside()),
        }
        return faults[code]

    def code(self) -> int | None:
        """The least code of a fault of the graph; a later one can be asked for where the earlier ones don't hold."""
        codes = (2, 3, 4, 5) if self.graph.is_first else (2, 3, 4)
        return next((code for code in codes if next(self.of(code)[1], None) is not None), None)

    def misnamed(self) -> Iterator[str]:
        """The serials that stand twice or name no member."""
        graph = self.graph
        members = [member.serial for member in graph.members]
        for words, serials in (("member", members), ("lost", graph.lost), ("legacy", graph.legacy)):
            for serial, times in Counter(serials).items():
                if times > 1:
                    yield f"{self.name(serial)} is {words} {times} times"
        there = set(members)
        for words, serials in (("lost", graph.lost), ("legacy", graph.legacy)):
            yield from (f"{words} {serial} names no member" for serial in serials if serial not in there)
        for member in graph.members:
            for referent in member.referents:
                if referent not in there:
                    yield f"{self.name(member.serial)} refers to {referent}, which is no member"

    def too_low(self) -> Iterator[str]:
        """The members with more references than their in-degree says."""
        occurrences = self.graph.occurrences()
        for member in self.graph.members:
            if occurrences[member.serial] > member.degree:
                holders = [other for other in self.graph.members if member.serial in other.referents]
                names = ", ".join(self.name(holder.serial) for holder in holders)
                times = occurrences[member.serial]
                yield f"{self.name(member.serial)}: in-degree {member.degree}, but {times} references, of {names}"

    def wrongly_found(self) -> Iterator[str]:
        """The members that were found and are reachable, or the other way round."""
        held, lost = self.graph.held(), set(self.graph.lost)
        for member in self.graph.members:
            if member.serial in held and member.serial in lost:
                path = self.path(held, member.serial)
                yield f"{self.name(member.serial)} was found, but is held from outside: {path}"
            elif member.serial not in held and member.serial not in lost:
                yield f"{self.name(member.serial)} was not found, but no path from outside leads to it"

    def wrongly_set_aside(self) -> Iterator[str]:
        """The members that were set aside with no reason, or not with one."""
        reached, legacy = self.graph.set_aside(), set(self.graph.legacy)
        for member in self.graph.members:
            if member.serial in reached and member.serial not in legacy:
                path = self.path(reached, member.serial)
                yield f"{self.name(member.serial)} was not set aside, but a legacy finalizer reaches it: {path}"
            elif member.serial not in reached and member.serial in legacy:
                yield f"{self.name(member.serial)} was set aside, but no legacy finalizer reaches it"


def names_in(lines: Iterable[str], position: int) -> dict[int, str]:
    """The types and addresses of the members of a graph."""
    names: dict[int, str] = {}
    is_there = False
    for line in lines:
        first, _, rest = line.rstrip("\n").partition(" ")
        if first == "graph":
            if is_there:
                break
            is_there = int(rest) == position
        elif is_there:
            address, _, name = rest.partition(" ")
            names[int(first)] = f"{name} at {address}"
    return names


def is_text_of_records(text: bytes) -> bool:
    """Whether bytes have the form that docs/RECORDS.md gives."""
    if not FORM.fullmatch(text):
        return False
    return all(int(number) < 2**64 for number in re.findall(rb"[0-9]{20}", text))


class Records:
    """A file of records."""

    def __init__(self, out: str) -> None:
        self.out = out
        with open(out, "rb") as file:
            self.text = file.read()

    def graphs(self) -> Iterator[Graph]:
        """Its graphs, in order."""
        return graphs_of(self.text.decode("ascii").splitlines())

    def graph(self, position: int) -> Graph:
        """The graph at a position."""
        found = next(islice(self.graphs(), position - 1, None), None) if position > 0 else None
        if found is None:
            raise WrongVerdict(f"there is no graph {position} in {self.out}")
        return found

    def must_be_readable(self) -> None:
        """Refuses another text."""
        if not is_text_of_records(self.text):
            raise WrongVerdict(f"{self.out} is no text of records, so the verdict would be `no 0 1`")

    def explain(self, verdict: list[str], most: int = 20) -> str:
        """The text that says which objects a verdict on the file is about; the fault has to be there."""
        words = " ".join(verdict).split()
        numbers = [int(word) for word in words[1:] if word.isdecimal()]
        if words[:1] == ["yes"] and len(words) == len(numbers) + 1 == 2:
            return self.explain_yes(numbers[0])
        if words[:1] != ["no"] or len(words) != len(numbers) + 1 or len(words) != 3:
            raise WrongVerdict(f"no verdict: {' '.join(words)}")
        position, code = numbers
        if (position, code) == (0, 1):
            return self.explain_unreadable()
        self.must_be_readable()
        return self.explain_no(position, code, most)

    def explain_yes(self, records: int) -> str:
        """That all is right."""
        self.must_be_readable()
        found = self.text.count(b"record ")
        if found != records:
            raise WrongVerdict(f"the verdict is on another number of records: {self.out} has {found}")
        for position, graph in enumerate(self.graphs(), 1):
            code = Explanation(graph, {}).code()
            if code is not None:
                raise WrongVerdict(f"graph {position} of {self.out} has a fault of code {code}")
        return "every recorded collection is right\n"

    def explain_unreadable(self) -> str:
        """That the file is no text of records."""
        if is_text_of_records(self.text):
            raise WrongVerdict(f"{self.out} is a text of records: the verdict is on another file")
        return "the file is no text of records: it may have been cut short or changed\n"

    def explain_no(self, position: int, code: int, most: int) -> str:
        """The objects that a fault is about, at most so many."""
        graph = self.graph(position)
        explanation = Explanation(graph, self.names(position))
        found = explanation.code()
        if found != code:
            has = "no fault" if found is None else f"a fault of code {found}"
            raise WrongVerdict(f"graph {position} of {self.out} has {has}, and the verdict says {code}")
        heading, objects = explanation.of(code)
        lines = [f"graph {position}, a collection of generation {graph.generation}: {heading}\n"]
        lines += [f"  {line}\n" for line in islice(objects, most)]
        left = sum(1 for _ in objects)
        return "".join(lines + [f"  and {left} more\n"] * (left > 0))

    def names(self, position: int) -> dict[int, str]:
        """What is known of the members of a graph."""
        if not os.path.exists(self.out + BESIDE):
            return {}
        with open(self.out + BESIDE, encoding="ascii") as file:
            return names_in(file, position)
