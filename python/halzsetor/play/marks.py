"""Marks: a `print` of a string before each command, by which it is known what caused a line of a text.

A `print` of a string makes no object and takes no memory, so the text is the same but for the marks. Behind a command
that binds a name to what it reads, its value is asked for too: outside procedures alone, where a refusal ends nothing.
"""
from typing import NamedTuple

from ..beside.reader import DECLARATIONS, EXTENDED, lines_of

# commands whose value can't be told from the script
READERS = ("item", "get", "attr", "deref", "wget")
# in the place of the number of a line: behind the last one
END = 0


class Step:
    """A command that was begun."""

    def __init__(self, line: int | None, frames: int) -> None:
        # its line in the script; none for what comes before the first mark
        self.line = line
        # how many frames it stands in
        self.frames = frames
        self.is_refused = False
        # the value that its name has afterwards, where it was asked for
        self.answer: str | None = None


class Row(NamedTuple):
    """A line of a text, or none where a step begins, with the number of frames and collections that it stands in."""

    step: Step
    text: str | None
    depth: int


def words_of(line: bytes) -> list[str]:
    """The words of a line."""
    return [word for word in line.decode("latin-1").split(" ") if word]


def is_command(words: list[str]) -> bool:
    """Whether the words are those of a command, and of no declaration, comment or empty line."""
    if not words or words[0][0] == "#":
        return False
    return words[0] not in DECLARATIONS or words[1:2] == ["="]


def reads(words: list[str]) -> bool:
    """Whether the words bind a name to what is read."""
    is_binding = len(words) > 2 and words[1] == "=" and words[2] in READERS
    return is_binding and len(words) - 3 >= EXTENDED.bindings[words[2]].fewest


class Marked:
    """A script that gets marks."""

    def __init__(self, script: bytes) -> None:
        self.lines = lines_of(script)
        # no string of the script begins so
        self.sign = "@"
        while b"'" + self.sign.encode() in script:
            self.sign += "@"

    def script(self) -> bytes:
        """The script with its marks."""
        marked: list[bytes] = []
        is_inside = False
        for place, line in enumerate(self.lines, 1):
            words = words_of(line)
            if is_command(words):
                marked.append(self.mark(str(place)))
            marked.append(line)
            if not is_inside and reads(words):
                marked += [self.mark("?"), f"print {words[0]}".encode()]
            is_inside = words[:1] == ["def"] or (is_inside and words[:1] != ["end"])
        return b"".join(line + b"\n" for line in [*marked, self.mark(str(END))])

    def mark(self, text: str) -> bytes:
        """A mark."""
        return f"print '{self.sign}{text}".encode()

    def rows(self, text: list[str]) -> list[Row]:
        """A text with marks."""
        parser = Parser(f"value '{self.sign}")
        for line in text:
            parser.take(line)
        return parser.rows

    def strip(self, text: list[str]) -> list[str]:
        """The text without marks."""
        return [row.text for row in self.rows(text) if row.text is not None]


class Parser:
    """Reads a text with marks."""

    def __init__(self, mark: str) -> None:
        self.mark = mark
        self.rows: list[Row] = []
        # for the script and each frame the step that is under way, and whether the answer to a question comes next
        self.steps = [Step(None, 0)]
        self.asked = [False]
        # the frames and collections that are open
        self.blocks: list[str] = []

    def take(self, line: str) -> None:
        """Takes the next line."""
        words = line.split(" ")
        if line.startswith(self.mark):
            self.begin(line.removeprefix(self.mark))
        elif self.asked[-1] and self.blocks[-1:] != ["gc"] and words[0] in ("value", "refused"):
            self.asked[-1] = False
            self.steps[-1].answer = line.removeprefix("value ") if words[0] == "value" else None
        else:
            self.add(line, words)

    def begin(self, mark: str) -> None:
        """Takes a mark."""
        self.asked[-1] = mark == "?"
        if mark != "?":
            self.steps[-1] = Step(int(mark), len(self.steps) - 1)
            self.rows.append(Row(self.steps[-1], None, len(self.blocks)))

    def add(self, line: str, words: list[str]) -> None:
        """Takes a line that a command caused."""
        if words == ["leave"] or words[:2] == ["gc", "stop"]:
            self.close()
        step = self.steps[-1]
        step.is_refused = step.is_refused or (words[0] == "refused" and len(self.steps) - 1 == step.frames)
        self.rows.append(Row(step, line, len(self.blocks)))
        if words[0] == "enter" or words[:2] == ["gc", "start"]:
            self.blocks.append(words[0])
            if words[0] == "enter":
                self.steps.append(step)
                self.asked.append(False)

    def close(self) -> None:
        """A frame or a collection ends."""
        if self.blocks and self.blocks.pop() == "enter":
            self.steps.pop()
            self.asked.pop()
