"""Where records are written."""
from typing import Iterable, TextIO

# what gccheck reads at most
LIMIT = 67_108_864
END = "end\n"


class Output:
    """A file of records, and one that tells the types and addresses of their objects. Both are whole at any time."""

    def __init__(self, file: TextIO, objects: TextIO | None, limit: int) -> None:
        self.file = file
        self.objects = objects
        self.limit = limit
        self.graphs = 0
        self.size = 0
        # where the end of the records stands, if one can come back to it
        self.end_at = file.tell() if file.seekable() else None
        self.put(END)

    def put(self, text: str) -> None:
        """Writes the text at the end of the records."""
        if self.end_at is not None:
            self.file.seek(self.end_at)
        elif text == END:
            return
        self.file.write(text)
        self.file.flush()

    def has_room(self, size: int) -> bool:
        """Whether a record of so many bytes can be added within the limit."""
        return self.size + size + len(END) <= self.limit

    def add(self, record: str, rows: Iterable[str]) -> None:
        """Adds a record of one graph, and rows on its objects."""
        try:
            self.put(record if self.end_at is None else record + END)
        except BaseException:
            self.take_back()
            raise
        self.size += len(record)
        self.graphs += 1
        if self.end_at is not None:
            self.end_at += len(record)
        if self.objects is not None:
            self.objects.write(f"graph {self.graphs}\n" + "".join(rows))
            self.objects.flush()

    def take_back(self) -> None:
        """Takes out what a failed write may have left."""
        if self.end_at is not None:
            self.file.seek(self.end_at)
            self.file.truncate()
            self.put(END)

    def close(self) -> None:
        """Ends the records."""
        if self.end_at is None:
            self.file.write(END)
            self.file.flush()
