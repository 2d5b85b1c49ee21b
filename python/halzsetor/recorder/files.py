"""The files that records go to, in which nothing but records is overwritten."""
import os
import re
from itertools import count, takewhile
from typing import TextIO

# how the name of the file goes on that tells of the objects
BESIDE = ".objects"
# what may be overwritten: records, and what tells of their objects
RECORDS = re.compile(rb"(?:(?:(?:record|graph|m|r|lost|legacy)(?: [0-9]+)+|cut|stop)\n)*end\n")
OBJECTS = re.compile(rb"(?:(?:graph [0-9]+|[0-9]+ 0x[0-9a-f]+ [^\n]*)\n)*")


class Refused(Exception):
    """What is asked for can't be done, and nothing was written."""


def may_overwrite(name: str, content: re.Pattern[bytes]) -> None:
    """Refuses to write to a file that holds anything else."""
    if name.endswith(".py"):
        raise Refused(f"{name} is the name of a program: give another file after -o")
    # a pipe or a device holds nothing
    if os.path.isdir(name):
        raise Refused(f"{name} is a folder")
    if os.path.isfile(name):
        with open(name, "rb") as file:
            held = file.read()
        if held and not content.fullmatch(held):
            raise Refused(f"{name} holds something else than gcrecord writes: remove it, or give another file after -o")


class Files:
    """Opens the files that records go to: OUT, then OUT.2, OUT.3 and so on, each with its objects beside it."""

    def __init__(self, out: str, objects: bool) -> None:
        # the program may go to another folder
        self.out = os.path.abspath(out)
        self.objects = objects
        self.numbers = count(1)
        self.opened: list[TextIO] = []
        # the names of the files of records
        self.written: list[str] = []

    def name(self, number: int) -> str:
        """The name of a file of records."""
        return self.out if number == 1 else f"{self.out}.{number}"

    def there(self, more: bool) -> list[str]:
        """The names of OUT, and of what an earlier run may have left behind it."""
        further = takewhile(os.path.exists, map(self.name, count(2))) if more else ()
        return [self.out, *further]

    def check(self, more: bool) -> None:
        """Sees to it that nothing but records is overwritten or taken away."""
        for name in self.there(more):
            may_overwrite(name, RECORDS)
            may_overwrite(name + BESIDE, OBJECTS)

    def take_away(self, more: bool) -> None:
        """Takes away what an earlier run left, which would look like a part of this one."""
        first, *further = self.there(more)
        stale = further + [name + BESIDE for name in further] + [first + BESIDE] * (not self.objects)
        for name in filter(os.path.isfile, stale):
            os.remove(name)

    def open(self) -> tuple[TextIO, TextIO | None]:
        """The next file, and the one for its objects; those before are closed."""
        self.close()
        out = self.name(next(self.numbers))
        self.written.append(out)
        names = [out, out + BESIDE] if self.objects else [out]
        self.opened = [open(name, "w", encoding="ascii", newline="\n") for name in names]
        return self.opened[0], self.opened[1] if self.objects else None

    def close(self) -> None:
        """Closes what is open."""
        for file in self.opened:
            file.close()
