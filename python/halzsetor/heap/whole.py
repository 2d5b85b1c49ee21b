"""The heap of this process, taken by one call in C in a child that is forked off, so that this process hardly waits.

No bytecode runs between the fork and the last of the steps: no other thread, no signal handler and no hook of the
program comes between, but for hooks of `sys.addaudithook`, which CPython tells of `gc.get_objects` and
`gc.get_referents`. Members are what the collector tracks and what a path of references leads to from there. The objects
of this module are left out. Where there is no fork, the steps are made here.
"""
import ctypes
import gc
import operator
import os
import sys
import types
from array import array
from collections import deque
from functools import partial
from itertools import chain, compress, repeat, starmap
from typing import Callable, Iterator

from ..recorder.snapshot import instead_of_asyncio

# how often references are followed from what is not tracked; such chains are short
ROUNDS = 40
# of each member: that of the list, and that of the iterator that hands it on
OWN_REFERENCES = 2
HAVE_GC, HAS_PREHEADER = 1 << 14, (1 << 3) | (1 << 4)
MEMORY = "/proc/self/mem"
WORD = ctypes.sizeof(ctypes.c_void_p)
# what the steps are made of
MAKERS = (partial, map, zip, chain, starmap, compress, repeat, list, tuple, dict, set, deque, array, bytearray)
ITERATORS = map(type, (iter(()), iter([]), iter({}), iter(set()), {}.values(), iter({}.values())))
PARTS = frozenset((*MAKERS, *ITERATORS))


def of_library(name: str, answer: type, *arguments: type) -> Callable[..., int]:
    """A function of the C library. It keeps the interpreter's lock while it runs, and tells no hook of the program.

    What gives the lock up, as `os.open` does, may wait for a thread that wanted it; in a child there is none.
    """
    function = ctypes.PyDLL(None)[name]
    function.restype, function.argtypes = answer, arguments
    return function


if os.path.exists(MEMORY):
    OPEN = of_library("open", ctypes.c_int, ctypes.c_char_p, ctypes.c_int)
    PREAD = of_library("pread", ctypes.c_ssize_t, ctypes.c_int, ctypes.c_void_p, ctypes.c_size_t, ctypes.c_int64)


class Whole:
    """The heap, once the steps were made: of each member the address, the type, the count, the size and references."""

    def __init__(self, frames: list[tuple[int, int]]) -> None:
        """`frames` has the address and the number of bytes of each running frame that is to be copied."""
        self.addresses = array("Q")
        self.types = array("Q")
        self.counts = array("Q")
        self.sizes = array("Q")
        self.tracked = bytearray()
        # for each member the address of the mark, and then those of its referents
        self.referents = array("Q")
        self.objects: list[object] = []
        self.places = [place for place, _ in frames]
        self.lengths = [length for _, length in frames]
        # where the words of the frames go, and how many bytes of each could be read
        self.frame_words = [array("Q", bytes(length)) for length in self.lengths]
        self.frame_lengths: list[int] = []
        self.memory: list[int] = []
        mark = object()
        self.mark = id(mark)
        self.marker = (mark,)
        self.seen: set[int] = set()
        self.fronts: list[list[object]] = [[] for _ in range(ROUNDS + 1)]
        # the addresses of the objects that are left out
        self.own: set[int] = set()
        self.calls = list(self.steps())

    def steps(self) -> Iterator[Callable[[], object]]:
        """The steps in turn. Each is a call in C, whose answer is false."""
        listed: list[object] = []
        is_own = map(self.own.__contains__, map(id, listed))
        if self.places:
            # this opens the memory of the process that makes the step
            yield partial(self.memory.extend, map(OPEN, [MEMORY.encode()], [os.O_RDONLY]))
            memory = chain.from_iterable(repeat(self.memory))
            targets = [words.buffer_info()[0] for words in self.frame_words]
            yield partial(self.frame_lengths.extend, map(PREAD, memory, targets, self.lengths, self.places))
        yield partial(listed.extend, chain.from_iterable(map(gc.get_objects, range(3))))
        yield partial(self.fronts[0].extend, compress(listed, map(operator.not_, is_own)))
        yield listed.clear
        yield partial(self.seen.update, map(id, self.fronts[0]))
        yield partial(self.seen.update, self.own)
        yield partial(self.seen.add, self.mark)
        for place in range(ROUNDS):
            yield from self.round(self.fronts[place], self.fronts[place + 1])
        yield partial(self.addresses.extend, map(id, self.objects))
        yield partial(self.types.extend, map(id, map(type, self.objects)))
        sizes = map(sizes_of_types().get, map(id, map(type, self.objects)), repeat(object.__sizeof__))
        yield partial(self.sizes.extend, map(operator.call, sizes, self.objects))
        yield partial(self.counts.extend, map(sys.getrefcount, self.objects))
        yield partial(self.tracked.extend, map(gc.is_tracked, self.objects))

    def round(self, front: list[object], after: list[object]) -> Iterator[Callable[[], object]]:
        """Follows the references of some members, all by one call; what is new is the next front."""
        got: list[object] = []
        fresh: dict[int, object] = {}
        asked = map(instead_of_asyncio().get, map(id, front), front)
        arguments = (chain.from_iterable(zip(repeat(self.marker), asked)),)
        # twice the same, and no `zip`, since that holds its last items on
        fresh_ones, ones_of_fresh = (
            compress(got, map(operator.not_, map(self.seen.__contains__, map(id, got)))) for _ in range(2)
        )
        yield partial(self.objects.extend, front)
        yield partial(got.extend, chain.from_iterable(starmap(gc.get_referents, arguments)))
        yield partial(self.referents.extend, map(id, got))
        yield partial(deque(maxlen=0).extend, map(fresh.setdefault, map(id, fresh_ones), ones_of_fresh))
        yield partial(after.extend, fresh.values())
        yield partial(self.seen.update, fresh)
        yield fresh.clear
        yield got.clear
        yield front.clear

    def words_of_frames(self) -> list[array]:
        """The words of each frame; none where they could not be read."""
        pairs = zip(self.frame_words, self.lengths, self.frame_lengths)
        return [words if length == read else array("Q") for words, length, read in pairs]

    def is_closed(self) -> bool:
        """Whether all references were followed to their end."""
        return len(self.counts) == len(self.objects) and not self.fronts[-1]

    def leave_out(self, *further: object) -> None:
        """Leaves out what the steps are made of, and further objects with their parts.

        This is before any step is made, since iterators let go of their parts at their end.
        """
        # the dictionary of a module that is asked in its place
        of_others = {id(()), *(id(asked) for (asked,) in instead_of_asyncio().values())}
        self.own |= {id(self.own), id(self.objects)}
        left: list[object] = [self, vars(self), self.calls, *further]
        while left:
            one = left.pop()
            if id(one) not in self.own and id(one) not in of_others:
                self.own.add(id(one))
                left += filter(is_part, gc.get_referents(one))


def is_part(one: object) -> bool:
    """Whether an object that a step refers to is a part of it."""
    if type(one) is types.BuiltinMethodType:
        return type(one.__self__) in PARTS
    return type(one) in PARTS


def sizes_of_types() -> dict[int, Callable[[object], int]]:
    """How the size of an object is asked, by the address of its type, where that is a call in C of its own."""
    found: dict[int, Callable[[object], int]] = {}
    known = {object: None}
    left = [object]
    for kind in left:
        method = next((vars(base)["__sizeof__"] for base in kind.__mro__ if "__sizeof__" in vars(base)), None)
        if isinstance(method, types.MethodDescriptorType):
            found[id(kind)] = method
        fresh = [other for other in type.__subclasses__(kind) if other not in known]
        known |= dict.fromkeys(fresh)
        left += fresh
    return found


def head_size(kind: type) -> int:
    """How many bytes stand before an object of a type."""
    flags = kind.__flags__
    return (2 * WORD if flags & HAVE_GC else 0) + (2 * WORD if flags & HAS_PREHEADER else 0)
