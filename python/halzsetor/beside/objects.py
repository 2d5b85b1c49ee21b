"""The real objects that stand for those of a script, and how one is told again without being held.

Lists, tuples and dictionaries are the exact built-in types: CPython treats subclasses differently, as it never untracks
them. Instances belong to ordinary classes, and keep their attributes as any instance does. A weak reference is one of a
subclass, since CPython hands out the same plain one again where there is no callback.

An object is known by its address, which is its own as long as it lives; nothing is stored in it and no reference to it
is kept. An address is used again when its object is gone. That does no harm where a script leads to an object, since
the last to be made at its address is that object. Where the collector's lists are gone through, CPython's own tuples
may lie at an old address: see `Registry.forget_tuples_of_a_call`.
"""
import gc
import weakref
from typing import Callable

from .reader import ClassDefinition, Procedure

try:
    from _testcapi import with_tp_del
except ImportError:
    with_tp_del = None

GARBAGE_SERIAL = 1
MOST_ATTRIBUTES = 30
ATTRIBUTE_PREFIX = "a_"


class Unsupported(Exception):
    """A script that this CPython can't carry out as it is meant."""


class WeakReference(weakref.ref):
    """A weak reference of its own, with or without a callback."""

    __slots__ = ()


class Function:
    """A function of a procedure, which holds its cells as a closure does."""

    __slots__ = ("procedure", "size", "c0", "c1", "c2", "c3", "c4", "c5", "c6", "c7", "__weakref__")

    # how a callback's frame is run: set once, before a script starts
    run_callback: Callable[[WeakReference, "Function"], None]

    def __call__(self, reference: WeakReference) -> None:
        Function.run_callback(reference, self)


def new_function(procedure: Procedure, cells: list[object]) -> Function:
    """A function with its cells. The list of cells is empty afterwards, so that it holds none of them."""
    function = Function()
    function.procedure = procedure
    function.size = len(cells)
    while cells:
        setattr(function, f"c{len(cells) - 1}", cells.pop())
    return function


def new_class(definition: ClassDefinition, run_finalizer: Callable[[str, object, Procedure], None]) -> type:
    """A class with the finalizers of its definition."""
    namespace: dict[str, object] = {}
    if definition.finalizer is not None:
        namespace["__del__"] = finalizer_of("del", definition.finalizer, run_finalizer)
    if definition.legacy is None:
        return type(definition.name, (), namespace)
    if with_tp_del is None:
        raise Unsupported(
            f"class {definition.name} has a legacy finalizer, and this Python has no module _testcapi to make one"
        )
    namespace["__tp_del__"] = finalizer_of("legacy", definition.legacy, run_finalizer)
    return with_tp_del(type(definition.name, (), namespace))


def finalizer_of(
    sort: str, procedure: Procedure, run_finalizer: Callable[[str, object, Procedure], None]
) -> Callable[[object], None]:
    """The method that CPython calls to finalize an instance."""

    def finalize(self: object) -> None:
        run_finalizer(sort, self, procedure)

    return finalize


class Registry:
    """The serials of objects, by their addresses."""

    def __init__(self) -> None:
        self.serials: dict[int, int] = {id(gc.garbage): GARBAGE_SERIAL}
        self.types: list[type] = [object, list]
        self.has_tuples = False

    def add(self, made: object) -> int:
        """The serial of a new object."""
        serial = len(self.types)
        self.serials[id(made)] = serial
        self.types.append(type(made))
        self.has_tuples = self.has_tuples or type(made) is tuple
        return serial

    def serial(self, known: object) -> int:
        """The serial of a living object of the script."""
        return self.serials[id(known)]

    def is_of_script(self, found: object) -> bool:
        """Whether an object from the collector's lists is one of the script's.

        Types of the reader's own that it makes while a script runs are none of the script's, so that an old address is
        no danger; the reader makes no lists and dictionaries that stay, and CPython's tuples are forgotten in time.
        """
        serial = self.serials.get(id(found), GARBAGE_SERIAL)
        return serial != GARBAGE_SERIAL and self.types[serial] is type(found)

    def is_known(self, found: object) -> bool:
        """Whether an object is one of the script's, or the garbage list."""
        return found is gc.garbage or self.is_of_script(found)

    def size(self, generation: int) -> int:
        """How many of the script's objects stand in a generation."""
        size = 0
        for found in gc.get_objects(generation):
            size += self.is_of_script(found)
        return size

    def left(self) -> int:
        """How many of the script's objects live, when nothing else is to come: also what is frozen or not tracked."""
        gc.unfreeze()
        found = {id(one): one for one in gc.get_objects() + gc.garbage if self.is_of_script(one)}
        left = list(found.values())
        while left:
            for one in gc.get_referents(left.pop()):
                if id(one) not in found and self.is_of_script(one):
                    found[id(one)] = one
                    left.append(one)
        return len(found)

    def forget_tuples_of_a_call(self, names: dict[str, object]) -> None:
        """Forgets what was at the addresses of the tuples that CPython has made to call a callback.

        The arguments are the last object that was tracked. Where an object dies that has several weak references,
        CPython makes a tuple of these and their callbacks just before; nothing leads to it. Its members are not looked
        at: some may be missing, which Python can't read.
        """
        if not self.has_tuples:
            return
        recent = gc.get_objects(0)[-2:]
        self.serials.pop(id(recent.pop()), None)
        for found in recent:
            if type(found) is tuple and not is_named(found, names) and len(gc.get_referrers(found)) == 1:
                self.serials.pop(id(found), None)


def is_named(found: object, names: dict[str, object]) -> bool:
    """Whether a name is bound to the very object. A generator's cells would be tracked behind the tuples looked for."""
    for value in names.values():
        if value is found:
            return True
    return False


def attribute(name: str) -> str:
    """The name in CPython of a script's attribute: one that means nothing to CPython."""
    return ATTRIBUTE_PREFIX + name
