"""A heap by positions, and as the text that gcheap reads."""
import ctypes
from array import array
from collections import Counter
from itertools import repeat
from typing import Iterable, Iterator

from ..recorder.snapshot import LEGACY_SLOT
from .child import Failed
from .frames import Frame
from .whole import OWN_REFERENCES, Whole, head_size

# the count of an object that never dies
IMMORTAL = 0xFFFF_FFFF


class Heap:
    """Members by their positions, behind these the frames that run."""

    def __init__(self, whole: Whole, frames: list[Frame], asked: Iterable[int] = ()) -> None:
        """`asked` has the addresses of what is asked about: that the frame that asks holds these is left out."""
        self.whole = whole
        self.asked = frozenset(asked)
        self.given_up: Counter[int] = Counter()
        self.starts = [at for at, referent in enumerate(whole.referents) if referent == whole.mark]
        self.starts.append(len(whole.referents))
        self.positions = {address: position for position, address in enumerate(whole.addresses)}
        self.occurrences = Counter(whole.referents)
        self.frames = list(self.frames_that_hold(frames))
        # how many members there are, frames aside
        self.size = len(whole.addresses)
        # untold words by position: what they are the addresses of
        self.untold: dict[int, list[int]] = {}

    def referents(self, position: int) -> array:
        """The addresses of what a member refers to; some may be none of members."""
        return self.whole.referents[self.starts[position] + 1 : self.starts[position + 1]]

    def object(self, position: int) -> object:
        """The member itself."""
        return self.whole.objects[position]

    def degree(self, position: int) -> int:
        """How many references there are to a member; what asks holds none."""
        count = self.whole.counts[position]
        return count if count >= IMMORTAL else count - OWN_REFERENCES - self.given_up[self.address(position)]

    def outside(self, address: int) -> int:
        """How many references to a member are known of no member."""
        return self.degree(self.positions[address]) - self.occurrences[address]

    def frames_that_hold(self, frames: list[Frame]) -> Iterator[tuple[Frame, list[tuple[str, int]]]]:
        """What each frame holds, as far as the outside holds of each object cover that."""
        for frame, words in zip(frames, self.whole.words_of_frames()):
            covered: list[tuple[str, int]] = []
            for name, address in () if frame.is_ours else frame.holds(words):
                if address in self.positions and self.outside(address) > 0:
                    is_asked = frame.is_asker and address in self.asked
                    (self.given_up if is_asked else self.occurrences)[address] += 1
                    covered += [] if is_asked else [(name, address)]
            yield frame, covered

    def text(self) -> Iterator[str]:
        """The lines of the heap."""
        yield "heap\n"
        known = {address: f" {position}" for address, position in self.positions.items()}
        legacy = self.legacy_types()
        heads = {id(kind): head_size(kind) for kind in set(map(type, self.whole.objects))}
        whole = self.whole
        for position, kind in enumerate(whole.types):
            size = whole.sizes[position] + heads.get(kind, 0)
            row = "".join(map(known.get, self.referents(position), repeat("")))
            yield f"m {self.degree(position)} {size} {whole.tracked[position]:d} {legacy[kind]:d}{row}\n"
            if position in self.untold:
                yield "u" + "".join(f" {target}" for target in self.untold[position]) + "\n"
        for frame, held in self.frames:
            # the thread holds it
            yield f"m 1 {frame.place[1]} 0 0" + "".join(known[address] for _, address in held) + "\n"
        yield "end\n"

    def legacy_types(self) -> dict[int, bool]:
        """Whether a type has a legacy finalizer, by its address."""
        return {kind: bool(ctypes.c_size_t.from_address(kind + LEGACY_SLOT).value) for kind in set(self.whole.types)}

    def address(self, position: int) -> int:
        """The address of a member."""
        return self.whole.addresses[position]

    def position_of(self, address: int) -> int:
        """The position of an object that is asked about."""
        if address not in self.positions:
            raise Failed("the collector tracks no object that leads to what is asked about")
        return self.positions[address]
