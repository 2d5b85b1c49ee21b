"""The graph of what was made while a test ran, and what each of its heads alone keeps alive."""
import gc
import sys
from collections import Counter
from itertools import chain
from typing import Iterable

from ..recorder.snapshot import OWN_REFERENCES, instead_of_asyncio

# no head leads to an object, or several do
NONE, SEVERAL = -1, -2


class Made:
    """Objects by their positions. A head is one that is held from outside of them."""

    def __init__(self, objects: list[object]) -> None:
        self.objects = objects
        counts = [count - OWN_REFERENCES for count in map(sys.getrefcount, objects)]
        self.positions = {address: position for position, address in enumerate(map(id, objects))}
        self.rows = list(map(self.row, objects))
        known = Counter(chain.from_iterable(self.rows))
        # how often each is held from outside
        self.outside = [count - known[position] for position, count in enumerate(counts)]
        self.heads = [position for position, times in enumerate(self.outside) if times > 0]

    def row(self, one: object) -> list[int]:
        """The positions of what an object refers to."""
        referents = map(id, gc.get_referents(instead_of_asyncio().get(id(one), one)))
        return [self.positions[address] for address in referents if address in self.positions]

    def reached(self, heads: Iterable[int]) -> set[int]:
        """What these lead to."""
        found = set(heads)
        left = list(found)
        while left:
            fresh = set(self.rows[left.pop()]) - found
            found |= fresh
            left += fresh
        return found

    def let_go(self) -> Counter[int]:
        """For each head how many objects no other head leads to: they go when its holds from outside are given up."""
        heads = [NONE] * len(self.objects)
        left = [(head, head) for head in self.heads]
        while left:
            position, head = left.pop()
            if heads[position] not in (head, SEVERAL):
                heads[position] = head if heads[position] == NONE else SEVERAL
                left += [(target, heads[position]) for target in self.rows[position]]
        return Counter(heads)
