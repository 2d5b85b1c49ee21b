"""Sets CPython's lines beside the text of `gcrun`.

Two texts agree where the lines that both show are the same. Where they are not, each difference has to be one of the
points of `points.py`, and to have the form that this point can give it:

- an order is another one only among frames that one command brings about with no line of a command between, and these
  frames are the same; objects that they make may then have other serials, the same way throughout. In a collection an
  instance was given attributes out of their order before; elsewhere an object is gone behind the frames whose contents
  they may be about, or a function between two callbacks;
- a line that differs is an answer about an object of which the run notes that the point bears on it;
- lines on saved objects differ only in a collection in which a frame set the debug flags;
- an answer that lists objects has the same in another order; holders that CPython lacks may be frozen or untracked;
- from the shutdown on all lines but those of collections, and the number of what is left, come in another order;
- a frame that CPython has alone is that of a callback of a weak reference which was made in the same collection.

What follows from a point later on, as another value under a name, is explained by nothing.
"""
from collections import Counter
from typing import Iterator, NamedTuple

from .points import (
    ATTRIBUTES,
    CALLBACKS,
    CONTENTS,
    FINALIZED,
    FLAGS,
    GARBAGE,
    HELD,
    HOLDERS,
    LATE,
    LISTED,
    SHUTDOWN,
)
from .texts import UNSEEN, Block, Item, Line, is_debug_line, last_place, seen, tree

FIRST_SERIAL = 2


class Collections(NamedTuple):
    """The same collection in both texts."""

    ours: Block
    theirs: Block


class Differs(Exception):
    """A difference that is none of the points."""

    def __init__(self, ours: Item | None, theirs: Item | None) -> None:
        super().__init__()
        self.ours = ours
        self.theirs = theirs


class Evidence:
    """What the run in CPython notes beside its lines, by the lines' places."""

    def __init__(self) -> None:
        # where a command begins
        self.starts: set[int] = set()
        # the points that bear on a line
        self.notes: dict[int, str] = {}
        # the serials of dictionaries, instances and functions that have held two objects at a time
        self.wide: set[str] = set()
        # where a command sets the debug flags while a collection is under way
        self.debugged: list[int] = []
        # whether an instance was given attributes in another order than its class
        self.is_askew = False
        # where the shutdown begins
        self.shutdown: int | None = None


class Comparison:
    """A text of `gcrun` beside one of CPython's."""

    def __init__(self, ours: list[str], theirs: list[str], evidence: Evidence) -> None:
        self.text = ours
        self.ours = tree(seen(ours))
        self.theirs = tree(seen(theirs))
        self.evidence = evidence
        self.points: set[str] = set()
        # the serial in our text of each object of CPython's
        self.renamed: dict[str, str] = {}
        self.kinds: dict[str, str] = {}

    def run(self) -> set[str]:
        """The points in which the two differ; raises `Differs` where that is not all."""
        self.number()
        self.match(self.ours, self.theirs, None)
        return self.points

    def number(self) -> None:
        """Takes the kinds of the objects; their serials have to rise by one."""
        for line in seen(self.text):
            if line.words[0] == "made":
                expected = f"#{len(self.kinds) + FIRST_SERIAL}"
                if line.words[-1] != expected:
                    raise Differs(line, None)
                self.kinds[expected] = line.words[1]

    # items in turn

    def match(self, ours: list[Item], theirs: list[Item], collection: Collections | None) -> None:
        """Matches the items of a block, or of the whole texts."""
        mine = their = 0
        while mine < len(ours) or their < len(theirs):
            length = self.moving(theirs, their)
            if self.is_of_shutdown(item_at(theirs, their)):
                self.match_shutdown(ours[mine:], theirs[their:])
                return
            if is_listed(item_at(ours, mine)) and is_listed(item_at(theirs, their)):
                mine, their = self.match_listed(ours, mine, theirs, their)
            elif length:
                frames = theirs[their : their + length]
                mine += self.match_frames(ours[mine : mine + length], frames, collection)
                their += length
            else:
                self.match_item(item_at(ours, mine), item_at(theirs, their))
                mine, their = mine + 1, their + 1

    def moving(self, items: list[Item], first: int) -> int:
        """How many frames one command has brought about from here on, with no line between."""
        place = first
        while place < len(items) and isinstance(items[place], Block) and items[place].is_free_to_move:
            if place > first and self.is_start_between(items[place - 1], items[place]):
                break
            place += 1
        return place - first

    def is_start_between(self, before: Item, after: Item) -> bool:
        """Whether a command begins between two items of CPython's text."""
        return any(place in self.evidence.starts for place in range(last_place(before) + 1, after.place + 1))

    def match_item(self, ours: Item | None, theirs: Item | None) -> None:
        """Matches two items that are to be the same."""
        if isinstance(ours, Line) and isinstance(theirs, Line):
            self.match_line(ours, theirs)
        elif isinstance(ours, Block) and isinstance(theirs, Block) and self.is_same(ours.head, theirs.head):
            if ours.is_collection:
                self.match_collection(ours, theirs)
            else:
                self.match(ours.body, theirs.body, None)
            if ours.tail is not None or theirs.tail is not None:
                self.match_item(ours.tail, theirs.tail)
        else:
            raise Differs(ours, theirs)

    # lines

    def ours_for(self, words: tuple[str, ...]) -> tuple[str, ...]:
        """The words of a line of CPython's with the serials of our text."""
        return tuple(self.renamed.get(word, word) for word in words)

    def is_same(self, ours: Line, theirs: Line) -> bool:
        """Whether two lines are the same but for the serials that objects have."""
        return ours.words == self.ours_for(theirs.words)

    def match_line(self, ours: Line, theirs: Line) -> None:
        """Matches two lines."""
        if ours.words[0] == "made" and ours.words[:2] == theirs.words[:2]:
            self.renamed[theirs.words[2]] = ours.words[2]
        elif not self.is_same(ours, theirs):
            self.match_answer(ours, theirs)

    def match_answer(self, ours: Line, theirs: Line) -> None:
        """Matches two answers that differ."""
        note = self.evidence.notes.get(theirs.place)
        pair = (" ".join(ours.words), " ".join(theirs.words))
        explained = (
            (note == FINALIZED and pair == ("finalized yes", "finalized no"))
            or (note == GARBAGE and pair == ("tracked no", "tracked yes"))
            or (note == HELD and abs(int(ours.words[1]) - int(theirs.words[1])) == 1)
        )
        if not explained:
            raise Differs(ours, theirs)
        self.points.add(note)

    def match_listed(self, ours: list[Item], mine: int, theirs: list[Item], their: int) -> tuple[int, int]:
        """Matches the lists of objects that begin here, in any order; answers where they end."""
        last, other_last = end_of_list(ours, mine), end_of_list(theirs, their)
        listed = [item.words for item in ours[mine:last]]
        found = [self.ours_for(item.words) for item in theirs[their:other_last]]
        missing = Counter(listed) - Counter(found)
        is_frozen = self.evidence.notes.get(theirs[other_last].place) == HOLDERS
        is_whole = ours[last].words[1] == str(len(listed)) and not Counter(found) - Counter(listed)
        if not is_whole or not all(self.is_unseen(words, is_frozen) for words in missing):
            raise Differs(ours[mine], theirs[their])
        if missing:
            self.points.add(HOLDERS)
        elif listed != found:
            self.points.add(LISTED)
        return last + 1, other_last + 1

    def is_unseen(self, words: tuple[str, ...], is_frozen: bool) -> bool:
        """Whether CPython may not find a holder: where objects are frozen it may be one, and else not be tracked."""
        return words[0] == "referrer" and (is_frozen or self.kinds.get(words[1]) in ("tuple", "dict"))

    def is_of_shutdown(self, item: Item | None) -> bool:
        """Whether an item of CPython's is of the shutdown."""
        return self.evidence.shutdown is not None and item is not None and item.place >= self.evidence.shutdown

    def match_shutdown(self, ours: list[Item], theirs: list[Item]) -> None:
        """Matches the lines from the shutdown on: but for collections and what is left, the same in another order."""
        mine, their = list(lines_in(ours)), [self.ours_for(words) for words in lines_in(theirs)]
        if mine != their:
            if sorted(filter(is_no_number, mine)) != sorted(filter(is_no_number, their)):
                raise Differs(item_at(ours, 0), item_at(theirs, 0))
            self.points.add(SHUTDOWN)

    def match_collection(self, ours: Block, theirs: Block) -> None:
        """Matches what happens in a collection: in one order, but for two points."""
        bodies = ours.body, theirs.body
        is_debugged = any(theirs.place < place <= theirs.last for place in self.evidence.debugged)
        if is_debugged or self.evidence.is_askew:
            self.match_debug_lines(ours, theirs, is_debugged)
            bodies = without_debug_lines(ours.body), without_debug_lines(theirs.body)
        self.match(*bodies, Collections(ours, theirs))

    def match_debug_lines(self, ours: Block, theirs: Block, is_debugged: bool) -> None:
        """Matches a collection's lines on objects that are garbage or saved, apart from all else."""
        mine = [item.words for item in ours.body if is_debug_line(item.words)]
        their = [self.ours_for(item.words) for item in theirs.body if is_debug_line(item.words)]
        if sorted(mine) == sorted(their):
            if mine != their:
                self.explain_collection(ours)
        elif is_debugged:
            self.points.add(FLAGS)
        else:
            raise Differs(ours, theirs)

    # frames that a death or a collection brings about

    def match_frames(self, ours: list[Item], theirs: list[Item], collection: Collections | None) -> int:
        """Matches frames in any order; says how many of ours these are."""
        left = [item for item in ours if isinstance(item, Block) and item.is_free_to_move]
        waiting = list(theirs)
        pairs: list[tuple[Block, Block]] = []
        while waiting:
            found = self.first_pair(left, waiting)
            if found is not None:
                left.remove(found[0])
                waiting.remove(found[1])
                pairs.append(found)
                self.match_item(*found)
            else:
                waiting.remove(self.late_frame(left, waiting, collection))
                self.points.add(LATE)
        in_order = sorted(pairs, key=lambda pair: pair[1].place)
        if in_order != sorted(pairs, key=lambda pair: pair[0].place):
            self.explain_order(in_order, collection)
        return len(pairs)

    def first_pair(self, ours: list[Block], theirs: list[Block]) -> tuple[Block, Block] | None:
        """The first of CPython's frames that one of ours is about too."""
        for their in theirs:
            for mine in ours:
                if self.is_same(mine.head, their.head):
                    return mine, their
        return None

    def late_frame(self, ours: list[Block], theirs: list[Block], collection: Collections | None) -> Block:
        """A frame of the callback of a weak reference that a finalizer made in this very collection.

        It has to lose its referent there in our text, which has no frame for it.
        """
        if collection is not None:
            made = words_of(collection.theirs.body)
            cleared = self.text[collection.ours.place : collection.ours.last]
            for frame in theirs:
                _, sort, serial = self.ours_for(frame.words)
                is_new = ("made", "weakref", frame.words[2]) in made
                if sort == "callback" and is_new and f"cleared {serial}" in cleared:
                    return frame
        raise Differs(item_at(ours, 0), theirs[0])

    def explain_order(self, pairs: list[tuple[Block, Block]], collection: Collections | None) -> None:
        """Says which points an order belongs to. The pairs are in CPython's order."""
        if collection is not None:
            self.explain_collection(collection.ours)
            return
        theirs = [mine for mine, _ in pairs]
        moved = moved_frames(theirs)
        callbacks = [frame for frame in theirs if frame.words[1] == "callback"]
        is_past_callback = any(frame in callbacks for frame in moved)
        if is_past_callback and "function" in map(self.kinds.get, self.freed(callbacks[0].place, callbacks[-1].place)):
            self.points.add(CALLBACKS)
            theirs = [frame for frame in theirs if frame not in callbacks]
            moved = moved_frames(theirs)
        if moved:
            self.explain_contents(moved, theirs)

    def explain_collection(self, ours: Block) -> None:
        """Wants an instance that was given attributes out of order: a collection keeps to CPython's order but for that."""
        if not self.evidence.is_askew:
            raise Differs(ours, None)
        self.points.add(ATTRIBUTES)

    def explain_contents(self, moved: list[Block], frames: list[Block]) -> None:
        """Wants an object whose contents may have brought about the frames that moved.

        It has held two objects, is gone after these frames, and is none of those that they are about.
        """
        last = max(frame.last for frame in frames)
        while last + 1 < len(self.text) and self.text[last + 1].split(" ")[0] in UNSEEN:
            last += 1
        wide = {self.renamed.get(serial, serial) for serial in self.evidence.wide}
        about = {frame.words[2] for frame in moved}
        if not (wide - about).intersection(self.freed(moved[-1].last, last)):
            raise Differs(moved[0], None)
        self.points.add(CONTENTS)

    def freed(self, first: int, last: int) -> list[str]:
        """The objects that are gone in a part of our text."""
        return [line.split(" ")[1] for line in self.text[first : last + 1] if line.startswith("free ")]


def moved_frames(theirs: list[Block]) -> list[Block]:
    """Our frames from the first to the last that stands elsewhere in CPython's order, in our order."""
    ours = sorted(theirs, key=lambda frame: frame.place)
    places = [place for place, frame in enumerate(ours) if frame is not theirs[place]]
    return ours[places[0] : places[-1] + 1] if places else []


def item_at(items: list, place: int) -> Item | None:
    """The item at a place, or none behind the last."""
    return items[place] if place < len(items) else None


def is_listed(item: Item | None) -> bool:
    """Whether an item is of a list of objects."""
    return item is not None and item.words[0] in ("referent", "referrer", "listed")


def end_of_list(items: list[Item], place: int) -> int:
    """Where a list of objects ends that has begun here or before."""
    while is_listed(item_at(items, place)) and items[place].words[0] != "listed":
        place += 1
    if not is_listed(item_at(items, place)):
        raise Differs(item_at(items, place), None)
    return place


def is_no_number(words: tuple[str, ...]) -> bool:
    """Whether a line is none of a collection's own, and not the number of what is left."""
    return words[0] not in ("gc", "left")


def lines_in(items: list[Item]) -> Iterator[tuple[str, ...]]:
    """The words of all lines of the items, in order."""
    for item in items:
        yield item.words
        if isinstance(item, Block):
            yield from lines_in(item.body)
            if item.tail is not None:
                yield item.tail.words


def without_debug_lines(items: list[Item]) -> list[Item]:
    """The items of a collection that are in order."""
    return [item for item in items if not is_debug_line(item.words)]


def words_of(items: list[Item]) -> set[tuple[str, ...]]:
    """The words of all lines of the items."""
    return set(lines_in(items))
