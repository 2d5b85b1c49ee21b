"""Writes a record of each collection."""
import _thread
import gc
import os
import sys
from collections import Counter
from typing import Callable, Iterable, TextIO

from .output import END, LIMIT, Output
from .snapshot import OWN_REFERENCES, Snapshot, Told
from .stand import Stand

TELLING = gc.DEBUG_COLLECTABLE | gc.DEBUG_UNCOLLECTABLE
# how deep the recorder's own calls go, with some to spare
DEPTH = 30

TOO_LARGE = "larger than what is left of the size limit"
TOO_DEEP = "the calls were too near to the recursion limit"
OVERLAPPED = "another collection began before it had ended"
WITHIN = "it began before another had ended"
NOT_TAKEN = "the graph could not be taken"
DIED = "an object died while the graph was taken, where an audit hook lets other code run"
FLAGS_SET = "the program set the debug flags meanwhile"
NOT_LAST = "a callback of the program ran after the graph was taken"
NOT_TOLD = "not all uncollectable objects were told"
NOT_SEEN = "the collector told of an object that is not in the graph"


class Recorder:
    """Writes a record of each collection of this interpreter while the `with` statement runs.

    `file` is a text file. `objects` gets the types and addresses of the members, by which `--explain` names them.
    Recorded are collections of these generations, at most so many; a record that would make the file larger than
    `limit` is left out whole, unless `more` gives further files. `recorded` and `left_out` say how many there were.
    """

    def __init__(
        self,
        file: TextIO,
        objects: TextIO | None = None,
        *,
        generations: Iterable[int] = (0, 1, 2),
        most: int | None = None,
        limit: int = LIMIT,
        more: Callable[[], tuple[TextIO, TextIO | None]] | None = None,
    ) -> None:
        if sys.implementation.name != "cpython" or sys.version_info[:2] != (3, 12):
            raise RuntimeError("CPython 3.12 is needed")
        self.generations = frozenset(generations)
        self.most = most
        self.limit = limit
        self.more = more
        self.output = Output(file, objects, limit)
        self.recorded = 0
        self.left_out: Counter[str] = Counter()
        self.process = os.getpid()
        self.first_callback: Callable[..., None] | None = None
        # the collection that is recorded now, and the threads of those that have begun since
        self.collection: Collection | None = None
        self.within: list[int] = []

    def __enter__(self) -> "Recorder":
        self.first_callback = self.called
        gc.callbacks.insert(0, self.first_callback)
        return self

    def __exit__(self, *raised: object) -> None:
        take_out(gc.callbacks, self.first_callback)
        self.first_callback = None
        self.give_back()
        if self.process == os.getpid():
            self.output.close()

    def called(self, phase: str, info: dict[str, int]) -> None:
        """The first callback of each collection."""
        try:
            if phase == "start":
                self.begin(info["generation"])
            else:
                self.stop(info["uncollectable"])
        except BaseException as fault:
            self.failed(fault)

    def begin(self, generation: int) -> None:
        """A collection begins. CPython may begin one that was due while another, of any thread, is under way."""
        collection = Collection(generation) if self.is_wanted(generation) else None
        # no other thread can run between the question and its consequence
        if self.collection is None and collection is not None:
            self.collection = collection
            if has_room(DEPTH):
                collection.enter()
            else:
                self.collection = None
                self.left_out[TOO_DEEP] += 1
        elif self.collection is not None:
            self.collection.is_overlapped = True
            self.within.append(_thread.get_ident())
            if collection is not None:
                self.left_out[WITHIN] += 1

    def stop(self, uncollectable: int) -> None:
        """A collection has ended: of those of this thread, the one that began last."""
        thread, collection = _thread.get_ident(), self.collection
        if thread in self.within:
            self.within.remove(thread)
        elif collection is not None and collection.thread == thread:
            self.give_back()
            self.record(collection, uncollectable)

    def is_wanted(self, generation: int) -> bool:
        """Whether a collection of the generation is to be recorded here: not in a process that was forked off."""
        return (
            generation in self.generations
            and (self.most is None or self.recorded < self.most)
            and self.process == os.getpid()
        )

    def give_back(self) -> None:
        """Leaves the collection that is recorded now, if one is."""
        collection, self.collection = self.collection, None
        if collection is not None:
            collection.leave()

    def failed(self, fault: BaseException) -> None:
        """Nothing of ours reaches the program; its own interrupt comes later."""
        self.left_out[f"{type(fault).__name__} in the recorder"] += 1
        try:
            self.give_back()
        except BaseException:
            pass
        if isinstance(fault, KeyboardInterrupt):
            _thread.interrupt_main()

    def record(self, collection: "Collection", uncollectable: int) -> None:
        """Writes the record of a collection that has ended."""
        if self.process != os.getpid():
            return
        fault = collection.fault(uncollectable) or self.write(collection)
        if fault is None:
            self.recorded += 1
        else:
            self.left_out[fault] += 1

    def write(self, collection: "Collection") -> str | None:
        """Writes a record; answers what keeps it from that. The text is built only where there is room for it."""
        size = collection.size()
        if not self.output.has_room(size):
            if self.more is None or size + len(END) > self.limit:
                return TOO_LARGE
            self.output.close()
            self.output = Output(*self.more(), self.limit)
        told = collection.told()
        self.output.add("".join(told.lines), told.rows)
        return None


class Collection:
    """A collection under way: made in the first callback of its start, left in the first of its stop."""

    def __init__(self, generation: int) -> None:
        self.generation = generation
        self.thread = _thread.get_ident()
        self.snapshot = Snapshot(generation)
        self.flags = self.flags_meanwhile = 0
        self.stand: Stand | None = None
        self.is_taken = self.is_last = True
        self.flags_set = self.is_overlapped = False

    def enter(self) -> None:
        """Has the graph taken once all callbacks were called, and what is found told."""
        self.flags = gc.get_debug()
        self.flags_meanwhile = self.flags | TELLING
        self.stand = Stand(sys.stderr, self.flags)
        gc.callbacks.append(self.snapshot.take)
        gc.set_debug(self.flags_meanwhile)
        sys.stderr = self.stand

    def leave(self) -> None:
        """Gives the flags and `sys.stderr` back, where the program did not set its own."""
        if self.stand is None:
            return
        try:
            self.flags_set = gc.get_debug() != self.flags_meanwhile
            if not self.flags_set:
                gc.set_debug(self.flags)
            self.is_last = bool(gc.callbacks) and gc.callbacks[-1] is self.snapshot.take
            take_out(gc.callbacks, self.snapshot.take)
            self.is_taken = self.snapshot.is_taken()
        finally:
            self.stand.leave()

    def fault(self, uncollectable: int) -> str | None:
        """Why it can't be told what the collector saw and found."""
        if self.is_overlapped:
            return OVERLAPPED
        if not self.is_taken:
            return NOT_TAKEN
        # held by the recorder alone
        if OWN_REFERENCES in self.snapshot.counts:
            return DIED
        if self.flags_set:
            return FLAGS_SET
        if not self.is_last:
            return NOT_LAST
        if len(self.stand.uncollectable) != uncollectable:
            return NOT_TOLD
        if not set(self.snapshot.addresses).issuperset(self.stand.found):
            return NOT_SEEN
        return None

    def size(self) -> int:
        """How many bytes its record takes."""
        widths = {address: len(str(serial)) for address, serial in self.snapshot.serials().items()}
        lost = sum(len("lost \n") + widths[address] for address in self.stand.found)
        legacy = sum(len("legacy \n") + widths[address] for address in self.stand.uncollectable)
        return len("record 0\ngraph 1\ncut\n") + self.snapshot.size() + lost + legacy

    def told(self) -> Told:
        """What is written of it."""
        told = self.snapshot.graph()
        told.lines.insert(0, f"record {self.generation}\ngraph 1\n")
        told.lines += [f"lost {told.serials[address]}\n" for address in self.stand.found]
        told.lines += [f"legacy {told.serials[address]}\n" for address in self.stand.uncollectable]
        told.lines.append("cut\n")
        return told


def has_room(frames: int) -> bool:
    """Whether so many calls can be made within one another."""
    try:
        return frames == 0 or has_room(frames - 1)
    except RecursionError:
        return False


def take_out(callbacks: list[object], callback: object) -> None:
    """Takes a callback out of the list, if it is there; no other is compared or moved before an earlier place."""
    for place in range(len(callbacks) - 1, -1, -1):
        if callbacks[place] is callback:
            del callbacks[place]
            return
