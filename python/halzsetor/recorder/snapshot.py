"""The graph that a collection is about to see, taken by one call."""
import ctypes
import gc
import operator
import sys
from array import array
from functools import partial
from itertools import chain, repeat, starmap
from typing import Callable, Iterable, Iterator

# a member's count has two references of the recorder: of its list, and of the iterator that hands it on
OWN_REFERENCES = 2
# where a type has its `tp_del`, which makes a legacy finalizer: after the head of the object, 44 words on
LEGACY_SLOT = object.__basicsize__ + ctypes.sizeof(ctypes.c_ssize_t) + 44 * ctypes.sizeof(ctypes.c_void_p)


class Snapshot:
    """The graph that a collection is about to see, once `take` was called; any arguments of it are as good as others.

    After the call nothing of the program is held any more.
    """

    def __init__(self, generation: int) -> None:
        self.addresses = array("Q")
        # for each member the address of its type; and for each type its address, its name and its `tp_del`
        self.types = array("Q")
        self.kinds: list[int] = []
        self.names: list[str] = []
        self.legacy: list[int] = []
        # for each member the address of a mark, and then those of its referents
        self.referents = array("Q")
        self.counts = array("Q")
        mark = object()
        self.mark = id(mark)
        # iterators and what they are over, which would be alive by `objects` alone once these are at their end
        self.lists = map(gc.get_objects, range(generation + 1))
        self.kept: list[object] = []
        self.left = iter(self.steps([], (mark,)))
        self.take = in_one_call(self.left)

    def steps(self, objects: list[object], marker: tuple[object, ...]) -> tuple[Callable[[], None], ...]:
        """The steps in turn. Each is a call in C; iterators over the lists see what earlier steps put there.

        Some of the calls are told to hooks of `sys.addaudithook`, which the program may have: none from the visit to
        the members on, whose hook runs before it. What is made meanwhile is no member: where nothing holds it, the
        collector tells of it, and there is no record; else it is held, and what it refers to looks held from outside.
        """
        kinds: dict[int, type] = {}
        visited = self.visit(objects, marker)
        slots = map(ctypes.c_size_t.from_address, map(operator.add, self.kinds, repeat(LEGACY_SLOT)))
        return (
            partial(objects.extend, without([objects, marker, *self.kept], chain.from_iterable(self.lists))),
            partial(self.addresses.extend, map(id, objects)),
            partial(self.types.extend, map(id, map(type, objects))),
            partial(kinds.update, zip(self.types, map(type, objects))),
            partial(self.kinds.extend, kinds),
            partial(self.names.extend, map(type.__repr__, map(kinds.get, self.kinds))),
            kinds.clear,
            partial(self.legacy.extend, map(operator.attrgetter("value"), slots)),
            partial(self.referents.extend, map(id, visited)),
            partial(self.counts.extend, map(sys.getrefcount, objects)),
            objects.clear,
        )

    def visit(self, objects: list[object], marker: tuple[object, ...]) -> Iterator[object]:
        """For each object the contents of the marker, and its referents: all by one call of `gc.get_referents`."""
        asked = map(instead_of_asyncio().get, map(id, objects), objects)
        pairs = zip(repeat(marker), asked)
        arguments = (chain.from_iterable(pairs),)
        calls = starmap(gc.get_referents, arguments)
        self.kept += [pairs, arguments, calls]
        return chain.from_iterable(calls)

    def is_taken(self) -> bool:
        """Whether all steps were made; where one failed, the last, which lets go of the objects, is made now."""
        left = list(self.left)
        if left:
            left[-1]()
        return not left

    def serials(self) -> dict[int, int]:
        """The serial of each member, by its address."""
        return {address: serial for serial, address in enumerate(self.addresses)}

    def size(self) -> int:
        """How many bytes the lines of the graph take, summed without building them."""
        widths = list(map(len, map(str, range(len(self.addresses)))))
        members = sum(widths) + sum(len(str(count - OWN_REFERENCES)) for count in self.counts)
        references = dict(zip(self.addresses, map(len("r \n").__add__, widths)))
        return members + len("m   0\n") * len(widths) + sum(map(references.get, self.referents, repeat(0)))

    def graph(self) -> "Told":
        """The lines of the graph, with the serials of its members."""
        told = Told()
        marks = dict(zip(self.kinds, map(bool, self.legacy)))
        names = dict(zip(self.kinds, map(printable, self.names)))
        told.serials = serials = self.serials()
        serial = -1
        for referent in self.referents:
            if referent == self.mark:
                serial += 1
                kind = self.types[serial]
                told.lines.append(f"m {serial} {self.counts[serial] - OWN_REFERENCES} {marks[kind]:d}\n")
                told.rows.append(f"{serial} {self.addresses[serial]:#x} {names[kind]}\n")
            elif referent in serials:
                told.lines.append(f"r {serials[referent]}\n")
        return told


class Told:
    """What is written of a graph.

    Strings and numbers alone: many tuples, lists or dictionaries would make the next collection come sooner, since
    CPython counts them as made and not as gone.
    """

    def __init__(self) -> None:
        self.lines: list[str] = []
        # on each member its serial, its address and its type
        self.rows: list[str] = []
        # for each address
        self.serials: dict[int, int] = {}


def without(left_out: list[object], objects: Iterator[object]) -> Iterator[object]:
    """All but these."""
    for one in left_out:
        objects = filter(partial(operator.is_not, one), objects)
    return objects


def instead_of_asyncio() -> dict[int, tuple[object, ...]]:
    """What is asked for its referents in place of the module `_asyncio`, whose own would do harm.

    It visits the iterators on its free list, which are dead. `gc.get_referents` makes such a one live, and its second
    death leaves the free list without an end: the next full collection does not come back.
    """
    module = sys.modules.get("_asyncio")
    return {} if module is None else {id(module): (vars(module),)}


def in_one_call(steps: Iterable[Callable[[], None]]) -> Callable[..., object]:
    """A callable in C that makes the calls in turn, once, whatever its arguments are.

    `any` asks for one answer after the other, and none is true; `max` with `any` as its key does that first of all.
    """
    return partial(max, map(operator.call, steps), key=any)


def printable(name: str) -> str:
    """The name of a type, in one line of ASCII."""
    return name.removeprefix("<class '").removesuffix("'>").encode("unicode_escape", "backslashreplace").decode("ascii")
