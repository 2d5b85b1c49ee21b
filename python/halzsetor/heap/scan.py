"""Words in the bodies of objects that are the address of a member and were not told by a `tp_traverse`.

Such a word is a guess, since a type may borrow. So it is written only where, for its type and its place in the body,
each object that is named so has outside holds, and where these cover all such words.
"""
import os
import types
from array import array
from collections import Counter, defaultdict
from typing import Iterator, NamedTuple

from .heap import IMMORTAL, Heap
from .whole import MEMORY, WORD

HEAP_TYPE = 1 << 9
# the body of a type that is no heap type, before what others may follow
STATIC_TYPE = 408
HEAD = 2 * WORD
# they have no references in their bodies
PLAIN = frozenset((int, bool, str, bytes, float, complex))


class Word(NamedTuple):
    """An untold word: the position of its holder, its type and its place there, and the address that it names."""

    holder: int
    kind: int
    place: int
    address: int


def scan(heap: Heap) -> dict[int, list[int]]:
    """For each member its untold words, as positions."""
    if not os.path.exists(MEMORY):
        return {}
    words = list(found_in(heap))
    while True:
        good = good_places(heap, words)
        words = [word for word in words if (word.kind, word.place) in good]
        too_many = uncovered(heap, words)
        if not too_many:
            break
        bad = {(word.kind, word.place) for word in words if word.address in too_many}
        words = [word for word in words if (word.kind, word.place) not in bad]
    found: dict[int, list[int]] = defaultdict(list)
    for word in words:
        found[word.holder].append(heap.positions[word.address])
    return dict(found)


def found_in(heap: Heap) -> Iterator[Word]:
    """All words that name a member and are not told."""
    memory = os.open(MEMORY, os.O_RDONLY)
    try:
        for position in range(heap.size):
            one = heap.object(position)
            length = body_length(one)
            if length > HEAD:
                try:
                    body = os.pread(memory, length - HEAD, id(one) + HEAD)
                except OSError:
                    continue
                yield from untold_in(heap, position, array("Q", body[: len(body) // WORD * WORD]))
    finally:
        os.close(memory)


def untold_in(heap: Heap, position: int, body: array) -> Iterator[Word]:
    """The untold words of a body."""
    hits = [(at, word) for at, word in enumerate(body) if word in heap.positions]
    if not hits:
        return
    told = Counter(heap.referents(position))
    kind = type(heap.object(position))
    own = heap.address(position)
    for at, word in hits:
        place = HEAD + WORD * at
        if told[word] > 0:
            told[word] -= 1
        elif word != own and place != kind.__weakrefoffset__:
            yield Word(position, id(kind), place, word)


def body_length(one: object) -> int:
    """How many bytes of an object may be read."""
    kind = type(one)
    if kind in PLAIN or kind is types.FrameType:
        return 0
    length = kind.__basicsize__
    if issubclass(kind, type) and not one.__flags__ & HEAP_TYPE:
        length = min(length, STATIC_TYPE)
    elif kind is tuple:
        length += len(one) * WORD
    return length


def good_places(heap: Heap, words: list[Word]) -> set[tuple[int, int]]:
    """The places of types where each object that is named has outside holds."""
    places = {(word.kind, word.place) for word in words}
    return places - {(word.kind, word.place) for word in words if not 0 < heap.outside(word.address) < IMMORTAL // 2}


def uncovered(heap: Heap, words: list[Word]) -> set[int]:
    """The objects that more words name than outside holds cover."""
    times = Counter(word.address for word in words)
    return {address for address, number in times.items() if number > heap.outside(address)}
