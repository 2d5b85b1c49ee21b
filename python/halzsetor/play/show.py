"""The columns: the lines of a script as they are carried out, what gcrun prints, and what CPython shows."""
from difflib import SequenceMatcher
from typing import Iterable, Iterator, NamedTuple

from ..beside.texts import seen
from .marks import END, Row
from .names import Names

# what stands in the first column behind the last line
THE_END = "(end of the script)"
WIDEST = 60
DIM, RED, YELLOW, PLAIN = "\x1b[2m", "\x1b[31m", "\x1b[33m", "\x1b[0m"


class Cells(NamedTuple):
    """What stands beside each other."""

    # the number of a line of the script; none where the row goes on with what one caused
    line: int | None = None
    source: str = ""
    # a line of the text, indented by the frames and collections that it stands in, and what is said beside it
    text: str = ""
    note: str = ""
    # the same of CPython, and whether it is another than gcrun's
    other: str = ""
    differs: bool = False
    # whether a command of the script begins here, and none of a frame
    is_stop: bool = False


def indented(row: Row) -> str:
    """The text of a row."""
    return "" if row.text is None else "  " * row.depth + row.text


class Columns:
    """Makes the rows of a run."""

    def __init__(self, lines: list[bytes], names: Names) -> None:
        self.lines = [line.decode("latin-1") for line in lines]
        self.names = names
        # how many lines of the script have been shown outside frames
        self.shown = 0

    def cells(self, ours: list[Row], theirs: list[Row] | None) -> Iterator[Cells]:
        """The rows; with CPython's lines, if there are any."""
        parts = [(part, None) for part in segments(ours)] if theirs is None else side_by_side(ours, theirs)
        for part, other in parts:
            yield from self.part(part, other)

    def part(self, ours: list[Row], theirs: list[Row] | None) -> Iterator[Cells]:
        """What lies between two marks."""
        head = ours[0] if ours else theirs[0]
        *before, first = self.begin(head, bool(ours))
        yield from before
        texts = [row for row in ours if row.text is not None]
        if theirs is None:
            pairs = [(row, None, False) for row in texts]
        else:
            pairs = list(matched(texts, [row for row in theirs if row.text is not None]))
        # the end of a frame is not what its last command caused
        if not pairs or (head.text is None and (pairs[0][0] or pairs[0][1]).depth < head.depth):
            pairs.insert(0, (None, None, False))
        for mine, their, differs in pairs:
            text, note = ("", "") if mine is None else (indented(mine), self.names.note(mine))
            yield first._replace(text=text, note=note, other="" if their is None else indented(their), differs=differs)
            first = Cells()

    def begin(self, row: Row, is_ours: bool) -> list[Cells]:
        """The cells of a command that begins, behind those of the lines before it that are no commands."""
        if row.text is not None or row.step.line is None:
            return [Cells()]
        if is_ours:
            self.names.begin(row)
        line = row.step.line
        if row.step.frames:
            return [Cells(line, "  " * row.step.frames + self.lines[line - 1].strip())]
        last = len(self.lines) if line == END else line - 1
        before = [Cells(place, self.lines[place - 1]) for place in range(self.shown + 1, last + 1)]
        self.shown = len(self.lines) if line == END else line
        here = Cells(None, THE_END) if line == END else Cells(line, self.lines[line - 1], is_stop=True)
        return [*before, here]


def segments(rows: Iterable[Row]) -> list[list[Row]]:
    """The rows from each mark to the next."""
    found: list[list[Row]] = []
    for row in rows:
        if row.text is None or not found:
            found.append([])
        found[-1].append(row)
    return found


def key(part: list[Row]) -> tuple[int | None, int]:
    """By what a part is found in another text."""
    return part[0].step.line, part[0].step.frames


def side_by_side(ours: list[Row], theirs: list[Row]) -> Iterator[tuple[list[Row], list[Row]]]:
    """The parts of two texts; where one has a part alone, the other has none there."""
    mine, their = segments(ours), segments(theirs)
    matcher = SequenceMatcher(None, list(map(key, mine)), list(map(key, their)), False)
    for kind, first, last, other_first, other_last in matcher.get_opcodes():
        if kind == "equal":
            yield from zip(mine[first:last], their[other_first:other_last])
        else:
            yield from ((part, []) for part in mine[first:last])
            yield from (([], part) for part in their[other_first:other_last])


def words(row: Row) -> tuple[str, ...] | None:
    """What CPython shows of a line, if it shows it."""
    found = seen([row.text])
    return found[0].words if found else None


def matched(ours: list[Row], theirs: list[Row]) -> Iterator[tuple[Row | None, Row | None, bool]]:
    """The lines of a part side by side, with whether they differ."""
    mine = [row for row in ours if words(row) is not None]
    matcher = SequenceMatcher(None, list(map(words, mine)), list(map(words, theirs)), False)
    partner: dict[int, Row] = {}
    alone: dict[int, list[Row]] = {}
    for kind, first, last, other_first, other_last in matcher.get_opcodes():
        if kind == "equal":
            partner |= {id(row): other for row, other in zip(mine[first:last], theirs[other_first:other_last])}
        else:
            before = id(mine[first]) if first < len(mine) else 0
            alone.setdefault(before, []).extend(theirs[other_first:other_last])
    for row in ours:
        yield from ((None, other, True) for other in alone.get(id(row), []))
        other = partner.get(id(row))
        yield row, other, other is None and words(row) is not None
    yield from ((None, other, True) for other in alone.get(0, []))


class Screen:
    """Lays rows out in columns, for a terminal or a pipe."""

    def __init__(self, is_coloured: bool, rows: list[Cells], with_other: bool) -> None:
        self.is_coloured = is_coloured
        self.with_other = with_other
        self.number = len(str(max((cells.line or 0 for cells in rows), default=0)))
        # a comment has nothing beside it
        sources = [len(cells.source) for cells in rows if cells.text or cells.other]
        self.source = min(WIDEST, max(sources, default=0))
        self.text = max((len(beside(cells)) for cells in rows), default=0)

    def line(self, cells: Cells) -> str:
        """A row as a line."""
        number = "" if cells.line is None else str(cells.line)
        left = self.paint(f"{number:>{self.number}}", DIM) + "  " + f"{cells.source:<{self.source}}"
        note = f"  {self.paint(cells.note, DIM)}" if cells.note else ""
        text = cells.text
        if cells.text.strip().startswith("refused "):
            text = self.paint(text, RED)
        right = text + note
        if self.with_other:
            right += " " * (self.text - len(beside(cells)))
            right += self.paint(f"  {'!' if cells.differs else ' '} {cells.other}", YELLOW if cells.differs else "")
        return f"{left}  {right}".rstrip()

    def paint(self, text: str, colour: str) -> str:
        """A text in a colour, where there are colours."""
        return f"{colour}{text}{PLAIN}" if self.is_coloured and colour and text else text


def beside(cells: Cells) -> str:
    """A line of the text with what is said beside it."""
    return f"{cells.text}  {cells.note}" if cells.note else cells.text


def plain(cells: Cells, with_other: bool) -> str:
    """A row as a line for other programs: its cells with tabs between them."""
    parts = ["" if cells.line is None else str(cells.line), cells.source, cells.text, cells.note]
    return "\t".join(parts + [cells.other] * with_other)
