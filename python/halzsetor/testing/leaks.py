"""What a test leaves behind: the objects that were made while it ran and are alive at its end."""
import gc
from typing import NamedTuple

from ..heap.labels import node
from ..heap.scan import IMMORTAL
from .graph import Made
from .holders import Before
from .kinds import COUNTED, MODULES, ORDER, TEST, kind_by_holder, kind_of
from .stack import running

# further collections for what finalizers made
ROUNDS = 3
MOST_HEADS = 5
MOST_HOLDERS = 3


class Head(NamedTuple):
    """An object that is held from outside of what a test made."""

    name: str
    # how many objects go when these holds are given up
    lets_go: int
    # ways to it by what was there before
    ways: list[str]
    # how often it is held by nothing that is known
    elsewhere: int

    def text(self) -> str:
        """A line on it."""
        held = [f"held by {way}" for way in self.ways[:MOST_HOLDERS]]
        held += [f"and {len(self.ways) - MOST_HOLDERS} more"] * (len(self.ways) > MOST_HOLDERS)
        if self.elsewhere > 0:
            held.append(f"held from elsewhere {times_text(self.elsewhere)}")
        return f"{self.lets_go} go with {self.name}: {', '.join(held)}"


class Left(NamedTuple):
    """What a test leaves behind."""

    name: str
    # how many objects are counted, with the heads that lead to them
    number: int
    heads: list[Head]
    # how many are not, by what keeps them
    uncounted: dict[str, int]
    # why nothing can be told
    unknown: str | None = None

    def lines(self) -> list[str]:
        """What is said of it."""
        if self.unknown is not None:
            return [f"{self.name}: {self.unknown}"]
        lines = [f"{self.name} leaves {self.number} object{'s' * (self.number != 1)}"]
        lines += [f"  {head.text()}" for head in self.heads[:MOST_HEADS]]
        if len(self.heads) > MOST_HEADS:
            lines.append(f"  and {len(self.heads) - MOST_HEADS} more are held")
        return lines + [f"  not counted: {uncounted_text(self.uncounted)}"] * bool(self.uncounted)


def uncounted_text(uncounted: dict[str, int]) -> str:
    """How much is not counted."""
    return ", ".join(f"{number} of {kind}" for kind, number in uncounted.items())


def times_text(times: int) -> str:
    """How often."""
    return "for ever" if times > IMMORTAL // 2 else "once" if times == 1 else f"{times} times"


class Watch:
    """Watches one test after the other. What was there before is frozen while a test runs."""

    def __init__(self, counts_all: bool = False) -> None:
        self.counts_all = counts_all
        # what is there before each test: it is seen again only where the test gave up what was frozen
        self.sign: list[object] = []
        # addresses of what belongs to the watch
        self.own = {id(self), id(vars(self)), id(self.sign)}

    def begin(self) -> None:
        """A test begins."""
        gc.collect()
        gc.freeze()

    def end(self, name: str, test: object) -> Left:
        """A test has ended."""
        rounds = 0
        while gc.collect() and rounds < ROUNDS:
            rounds += 1
        objects = gc.get_objects()
        if any(one is self.sign for one in objects):
            return Left(name, 0, [], {}, "nothing is known, since it called gc.unfreeze()")
        return Ended(Made(objects), test, self).left(name)

    def close(self) -> None:
        """No test is to come."""
        gc.unfreeze()


class Ended:
    """A test that has ended."""

    def __init__(self, made: Made, test: object, watch: Watch) -> None:
        self.made = made
        self.test = test
        self.watch = watch
        # what is held by the watch itself at this moment
        self.own = watch.own | {id(self), id(vars(self)), id(made), id(vars(made)), id(made.objects)}
        self.running = running()
        self.kinds: dict[int, str] = {}
        # who held a head before, and what these belong to
        self.holders: dict[int, list[tuple[object, str]]] = {}

    def left(self, name: str) -> Left:
        """What it leaves."""
        self.kinds = {head: self.kind(head) for head in self.made.heads}
        counted = [head for head, kind in self.kinds.items() if kind == COUNTED]
        if not counted:
            return Left(name, 0, [], self.numbers())
        gc.unfreeze()
        try:
            return self.left_by(name, counted)
        finally:
            self.holders.clear()
            gc.freeze()

    def left_by(self, name: str, heads: list[int]) -> Left:
        """What it leaves, where it has heads that may be counted."""
        own = self.own | self.made.positions.keys()
        before = Before([one for one in gc.get_objects() if id(one) not in own])
        addresses = {id(self.made.objects[head]): head for head in heads}
        found = before.holders(addresses)
        for address, head in addresses.items():
            self.holders[head] = [(holder, self.kind_by_holder(holder, before)) for holder in found[address]]
            self.kinds[head] = self.kind_by_holders(head)
        numbers = self.numbers()
        return Left(name, numbers.pop(COUNTED, 0), self.heads(before), numbers)

    def elsewhere(self, head: int) -> int:
        """How often a head is held by nothing that is known."""
        known = len(self.holders.get(head, [])) + self.running.holds(self.made.objects[head])
        return self.made.outside[head] - known

    def kind(self, head: int) -> str:
        """What keeps a head, as far as it tells itself, or the frames of the runner."""
        if self.elsewhere(head) <= 0:
            return TEST
        return COUNTED if self.watch.counts_all else kind_of(self.made.objects[head], self.test)

    def kind_by_holder(self, holder: object, before: Before) -> str:
        """What keeps a head, by one that held it before."""
        return COUNTED if self.watch.counts_all else kind_by_holder(holder, self.test, before)

    def kind_by_holders(self, head: int) -> str:
        """What keeps a head, by all that hold it."""
        kinds = {kind for _, kind in self.holders[head]}
        if self.elsewhere(head) > 0 or COUNTED in kinds:
            return COUNTED
        return min(kinds, key=ORDER.index)

    def numbers(self) -> dict[str, int]:
        """How many objects there are of each kind."""
        seen: set[int] = set()
        numbers: dict[str, int] = {}
        for kind in ORDER:
            reached = self.made.reached(head for head, found in self.kinds.items() if found == kind) - seen
            if reached:
                numbers[kind] = len(reached)
            seen |= reached
        lost = len(self.made.objects) - len(seen)
        return numbers | ({"garbage that no collection takes": lost} if lost else {})

    def heads(self, before: Before) -> list[Head]:
        """The heads that are counted: first those with which most goes. What modules lead to is none of them."""
        lets_go = self.made.let_go()
        modules = self.made.reached(head for head, kind in self.kinds.items() if kind == MODULES)
        counted = [head for head, kind in self.kinds.items() if kind == COUNTED and head not in modules]
        counted.sort(key=lambda head: -lets_go[head])
        return [self.head(head, lets_go[head], before, place < MOST_HEADS) for place, head in enumerate(counted)]

    def head(self, head: int, lets_go: int, before: Before, is_told: bool) -> Head:
        """What is told of a head; of one that is not told the ways are left out."""
        one = self.made.objects[head]
        holders = [holder for holder, kind in self.holders[head] if is_told and kind == COUNTED]
        ways = dict.fromkeys(before.way(holder, one) for holder in holders)
        return Head(node(one), lets_go, list(ways), self.elsewhere(head))
