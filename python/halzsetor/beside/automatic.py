"""The collections that start by themselves.

`gcrun` looks for one before each command; CPython does so between bytecodes, and counts the objects of its own. So
CPython's are off in a comparison, and those that the text shows are started where it shows them: the lines that both
show tell the place. That one is due there is checked by the counts, which the text's own lines give.
"""
from typing import Sequence

from .reader import Command
from .texts import is_debug_line, seen

USUAL_THRESHOLDS = (700, 10, 10)


def has_its_place(words: Sequence[str]) -> bool:
    """Whether the words are those of a line that comes in both texts, or in neither: CPython may lack a `referrer`."""
    return not is_debug_line(words) and words[0] != "referrer"


class Automatic:
    """Says before each command which collection starts by itself."""

    def __init__(self, text: list[str]) -> None:
        self.text = text
        self.lines = [line for line in seen(text) if has_its_place(line.words)]
        self.thresholds = list(USUAL_THRESHOLDS)
        self.enabled = True
        self.counts = [0, 0, 0]
        self.counted = 0
        self.read = self.reached = 0
        self.used = False
        # whether the text goes on where a collection was due
        self.is_missed = False

    def reach(self, written: list[str]) -> int:
        """How many of the lines that have their place in both are written."""
        self.reached += sum(has_its_place(line.split(" ")) for line in written[self.read :])
        self.read = len(written)
        return self.reached

    def due(self, written: list[str], command: Command | None) -> int | None:
        """The generation of the collection that starts by itself behind these lines and before a command."""
        lines = self.reach(written)
        self.count_up_to(self.place(lines))
        line = self.lines[lines] if lines < len(self.lines) else None
        if line is None or line.words[:2] != ("gc", "start") or self.is_asked_for(lines, command):
            # at least so many objects are counted: others may be gone only later
            self.is_missed = self.is_missed or self.is_due()
            return None
        generation = int(line.words[2])
        if not self.is_due() or generation not in self.generations():
            return None
        self.used = True
        return generation

    def place(self, lines: int) -> int:
        """Where the text has got after so many lines that both show."""
        return self.lines[lines].place if lines < len(self.lines) else len(self.text)

    def is_asked_for(self, lines: int, command: Command | None) -> bool:
        """Whether a collection is the command's own: then its answer follows."""
        if command is None or command.form != "collect":
            return False
        for place in range(lines, len(self.lines) - 1):
            if self.lines[place].words[:2] == ("gc", "stop"):
                return self.lines[place + 1].words[0] == "collected"
        return True

    def is_due(self) -> bool:
        """Whether a collection is due by the counts."""
        return self.enabled and 0 < self.thresholds[0] < self.counts[0]

    def generations(self) -> tuple[int, ...]:
        """The generations that may be taken: whether a full one is passed over for want of new objects is left open."""
        above = [place for place in range(3) if self.counts[place] > self.thresholds[place]]
        return tuple(above[-2:]) if above[-1] == 2 else (above[-1],)

    def count_up_to(self, place: int) -> None:
        """Counts the lines of the text before a place."""
        for line in self.text[self.counted : place]:
            words = line.split(" ")
            if words[0] == "made":
                self.counts[0] += 1
            elif words[0] == "free":
                self.counts[0] = max(0, self.counts[0] - 1)
            elif words[:2] == ["gc", "start"]:
                self.start(int(words[2]))
        self.counted = max(self.counted, place)

    def start(self, generation: int) -> None:
        """Counts a collection that starts."""
        self.counts[: generation + 1] = [0] * (generation + 1)
        if generation < 2:
            self.counts[generation + 1] += 1

    def done(self, written: list[str], command: Command) -> None:
        """Takes notice of a command that begins behind these lines."""
        if command.form in ("enable", "disable"):
            self.enabled = command.form == "enable"
        elif command.form == "threshold":
            self.thresholds[: len(command.parts)] = command.parts
        elif command.form == "freeze":
            self.count_up_to(self.place(self.reach(written)))
            self.counts[:] = (0, 0, 0)
