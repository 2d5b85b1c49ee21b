"""What was there before a test: who of it holds what the test made, with names that a person would write."""
import gc
import types
from array import array
from bisect import bisect_right
from collections import defaultdict
from itertools import chain, compress, count, repeat
from typing import Container

from ..heap.labels import Link, edge, module_name, module_of_globals, node, shortened, type_name
from ..recorder.snapshot import instead_of_asyncio

# so many objects at most stand in a way
MOST_LINKS = 8


class Before:
    """Objects that were there before."""

    def __init__(self, objects: list[object]) -> None:
        self.objects = objects
        self.addresses = frozenset(map(id, objects))

    def holders(self, addresses: Container[int]) -> dict[int, list[object]]:
        """For each of these addresses those that refer to the object there, as often as they do: by one look at all."""
        mark = object()
        asked = map(instead_of_asyncio().get, map(id, self.objects), self.objects)
        got = gc.get_referents(*chain.from_iterable(zip(repeat((mark,)), asked)))
        words = array("Q", map(id, got))
        del got
        starts = list(compress(count(), map(id(mark).__eq__, words)))
        found: dict[int, list[object]] = defaultdict(list)
        for at in compress(count(), map(addresses.__contains__, words)):
            found[words[at]].append(self.objects[bisect_right(starts, at) - 1])
        return found

    def referrers(self, *held: object) -> list[object]:
        """Those that refer to any of these."""
        return [one for one in gc.get_referrers(*held) if id(one) in self.addresses]

    def way(self, holder: object, held: object) -> str:
        """How a person reaches an object by way of a holder: from a module, a class or a function, if that can be."""
        path = [held, holder]
        while not is_named(path[-1]) and len(path) < MOST_LINKS and (further := self.named_referrer(path)) is not None:
            path.append(further)
        path.reverse()
        links = [Link(edge(one, other), node(other)) for one, other in zip(path, path[1:])]
        return name_of(path[0]) + "".join(link.edge for link in shortened(links, path[1:]))

    def named_referrer(self, path: list[object]) -> object | None:
        """What refers to the last of a path and is not in it: one that has a name, if there is one."""
        one = path[-1]
        if type(one) is dict and (module := module_of_globals(one)) is not None:
            return module
        found = [other for other in self.referrers(one) if not any(other is passed for passed in path)]
        return next((other for other in found if is_named(other) or is_globals(other)), found[0] if found else None)


def is_named(one: object) -> bool:
    """Whether a person knows an object by its name."""
    return isinstance(one, (type, types.ModuleType, types.FunctionType))


def is_globals(one: object) -> bool:
    """Whether an object is the globals of a module."""
    return type(one) is dict and module_of_globals(one) is not None


def name_of(one: object) -> str:
    """The name of what a way begins with."""
    if isinstance(one, types.ModuleType):
        return module_name(one)
    return type_name(one) if isinstance(one, type) else node(one)
