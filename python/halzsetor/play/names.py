"""Which names hold an object, as far as the script and its text tell.

A name that a command in a procedure binds to what it reads is not known afterwards, until it is bound anew.
"""
import re

from ..beside.reader import EXTENDED, Command, Script, Sort
from .marks import READERS, Row, Step

SERIAL = re.compile(r"#([0-9]+)")
GARBAGE = 1


class Names:
    """The names that are bound, and what lives."""

    def __init__(self, script: Script) -> None:
        bodies = [script.commands, *(procedure.body for procedure in script.procedures.values())]
        self.commands: dict[int, Command] = {command.line: command for body in bodies for command in body}
        self.bound: dict[str, int] = {}
        # the name that an object had last, for one that no name holds any more
        self.last: dict[int, str] = {}
        self.living: set[int] = set()
        # for each frame what `self` and `ref` stand for
        self.subjects: list[tuple[str, int]] = []
        # the steps that have yet to make the object that they bind, with their depth
        self.makers: dict[Step, int] = {}

    def begin(self, row: Row) -> None:
        """A step begins: what it binds without making it is bound from now on."""
        step = row.step
        command = self.commands.get(step.line)
        if command is None or step.is_refused:
            return
        if command.form in EXTENDED.bindings and command.form not in READERS:
            self.makers = {maker: depth for maker, depth in self.makers.items() if depth < row.depth}
            self.makers[step] = row.depth
        if command.form == "del":
            self.bound.pop(command.parts[0], None)
        elif command.form == "bind":
            self.bind(command.parts[0], self.serial_of(command))
        elif command.form in READERS:
            self.bind(command.parts[0], serial_in(step.answer))

    def serial_of(self, command: Command) -> int | None:
        """The object that a `bind` gives to its name, where it is known."""
        (operand,) = command.operands
        if operand.sort is Sort.NAME:
            return self.bound.get(operand.value)
        if operand.sort is Sort.GARBAGE:
            return GARBAGE
        if operand.sort in (Sort.SELF, Sort.REF) and self.subjects:
            return self.subjects[-1][1]
        return None

    def bind(self, name: str, serial: int | None) -> None:
        """Binds a name; to none where it isn't known to be an object."""
        self.bound.pop(name, None)
        if serial is not None:
            self.bound[name] = serial
            self.last[serial] = name

    def of(self, serial: int) -> list[str]:
        """The names that hold an object."""
        return [name for name, held in self.bound.items() if held == serial]

    def note(self, row: Row) -> str:
        """What is said beside a line of the text."""
        words = row.text.split(" ")
        if words[0] == "made":
            return self.made(row, int(words[2][1:]))
        if words[0] == "left":
            return self.left()
        found = SERIAL.search(row.text)
        is_text = words[0] == "value" and words[1][:1] != "#"
        serial = None if found is None or is_text else int(found[1])
        said = "" if serial is None else self.said(serial, "name " if words[0] == "held" else "")
        if words[0] == "free":
            self.living.discard(serial)
        elif words[0] == "enter":
            # a call's frame has neither `self` nor `ref`
            self.subjects.append((words[1], 0 if words[1] == "call" else serial))
        elif words[0] == "leave" and self.subjects:
            self.subjects.pop()
        return said

    def made(self, row: Row, serial: int) -> str:
        """An object was made; the step's own is the first that it makes at its own depth."""
        self.living.add(serial)
        if self.makers.get(row.step) != row.depth:
            return ""
        del self.makers[row.step]
        name = self.commands[row.step.line].parts[0]
        self.bind(name, serial)
        return f"= {name}"

    def said(self, serial: int, kind: str) -> str:
        """The names of an object."""
        names = self.of(serial)
        if self.subjects and self.subjects[-1][1] == serial:
            names.insert(0, "ref" if self.subjects[-1][0] == "callback" else "self")
        if names:
            return f"({kind}{', '.join(names)})"
        return f"(was {self.last[serial]})" if serial in self.last else ""

    def left(self) -> str:
        """Who is left at the end."""
        objects = [f"#{serial} {self.said(serial, '')}".rstrip() for serial in sorted(self.living)]
        return ", ".join(objects)


def serial_in(answer: str | None) -> int | None:
    """The object that an answer names."""
    return int(answer[1:]) if answer is not None and answer.startswith("#") else None
