"""What stands for `sys.stderr` while a collection runs."""
import gc
import re
import sys
from functools import partial
from typing import Callable

FOUND = re.compile(r"gc: (un)?collectable <.* 0x([0-9a-f]+)>\n", re.DOTALL)


class Stand:
    """Stands for `sys.stderr` while a collection runs, and keeps what is written to it.

    `write` is a function in C, so that the collector's own lines let no code run. Any other use passes on first what
    was kept.
    """

    def __init__(self, inner: object, flags: int) -> None:
        self.inner = inner
        # which lines of the collector the program itself asked for
        self.flags = flags
        # the addresses of what was found, and of those the uncollectable ones
        self.found: list[int] = []
        self.uncollectable: list[int] = []
        self.kept: list[str] = []
        self.write: Callable[[str], object] = self.kept.append

    def __getattr__(self, name: str) -> object:
        self.pass_on()
        return getattr(self.inner, name)

    def pass_on(self) -> None:
        """Takes the lines of the collector out of what was kept, and gives the rest to the program's own."""
        texts = self.kept[:]
        # what is written meanwhile stands behind these
        del self.kept[: len(texts)]
        for text in texts:
            line = FOUND.fullmatch(text) if isinstance(text, str) else None
            if line is None or self.is_wanted(line):
                write_to(self.inner, text)

    def is_wanted(self, line: re.Match[str]) -> bool:
        """Takes notice of a line of the collector; answers whether the program asked for it too."""
        address = int(line[2], 16)
        self.found.append(address)
        if line[1] is None:
            return bool(self.flags & gc.DEBUG_COLLECTABLE)
        self.uncollectable.append(address)
        return bool(self.flags & gc.DEBUG_UNCOLLECTABLE)

    def leave(self) -> None:
        """Passes on the rest; what is written from now on goes there at once."""
        if sys.stderr is self:
            sys.stderr = self.inner
        self.pass_on()
        self.write = partial(write_to, self.inner)


def write_to(file: object, text: str) -> None:
    """Writes to the program's `sys.stderr`; it may be None, closed, or of the program's making and fail."""
    if file is not None:
        try:
            file.write(text)
        except Exception:
            pass
