"""Reads the script language of `docs/SCRIPT.md`, and with `extended` also weak value maps and exit finalizers.

A script is read whole before anything is run, so that reading leaves no trace in what the run shows. What is wrong with
a line is said in words too; a reading goes on behind a bad line, so that all of them can be told.
"""
import re
from dataclasses import dataclass, field
from enum import Enum
from typing import Callable, Iterable, NamedTuple

from . import mistakes

LONGEST_LINE = 1024
MOST_WORDS = 64
MOST_LINES = 400_000
MOST_BUDGET = 100_000
MOST_THRESHOLD = 2**31 - 1
LONGEST_SCRIPT = 2**24
USUAL_BUDGET = 10_000

RESERVED = frozenset(
    """none self ref garbage c0 c1 c2 c3 c4 c5 c6 c7 list tuple dict new func item get attr deref del append setitem
    delitem put drop setattr delattr call quit collect enable disable threshold debug freeze unfreeze print refs
    tracked finalized count gens budget class def end""".split()
)
FLAGS = {"stats": 1, "collectable": 2, "uncollectable": 4, "saveall": 32, "leak": 38}
IDENTIFIER = re.compile(r"[A-Za-z_][A-Za-z0-9_]{0,31}\Z")
NUMBER = re.compile(r"-?[0-9]{1,19}\Z")
COUNT = re.compile(r"[0-9]{1,10}\Z")
LOCAL = re.compile(r"c[0-7]\Z")


class Mistake(NamedTuple):
    """A bad line of a script, with its code and what is wrong in words; a warning has no code."""

    line: int
    code: int | None
    says: str


class BadScript(Exception):
    """The first bad line of a script, with its code, and all bad lines."""

    def __init__(self, found: list[Mistake]) -> None:
        super().__init__(f"bad script {found[0].line} {found[0].code}")
        self.line = found[0].line
        self.code = found[0].code
        self.mistakes = found


class TooLarge(Exception):
    """A script of too many bytes."""

    def __init__(self) -> None:
        super().__init__("too large")


class _Fault(Exception):
    """What is wrong with one line."""

    def __init__(self, code: int, says: str) -> None:
        super().__init__(code)
        self.code = code
        self.says = says


class Sort(Enum):
    """Where the value of an operand stands."""

    ATOM = "atom"
    NAME = "name"
    SELF = "self"
    REF = "ref"
    CELL = "cell"
    GARBAGE = "garbage"


class Operand(NamedTuple):
    """A word that stands for a value: an atom, the text of a name, or the number of a cell."""

    sort: Sort
    value: None | int | str


NO_VALUE = Operand(Sort.ATOM, None)


class Command(NamedTuple):
    """A command by the name of its form, with what its words say and the operands among these."""

    form: str
    parts: tuple
    operands: tuple[Operand, ...]
    line: int = 0


@dataclass
class Procedure:
    """A procedure with its commands."""

    name: str
    body: list[Command] = field(default_factory=list)


@dataclass
class ClassDefinition:
    """A class with its finalizers, where it has them."""

    name: str
    finalizer: Procedure | None
    legacy: Procedure | None


@dataclass
class Script:
    """What a script says."""

    budget: int = USUAL_BUDGET
    # the lines of the declarations `profile` and `shutdown`
    profile: int | None = None
    shutdown: int | None = None
    commands: list[Command] = field(default_factory=list)
    procedures: dict[str, Procedure] = field(default_factory=dict)
    classes: dict[str, ClassDefinition] = field(default_factory=dict)


def identifier(word: str) -> str:
    """The word, where it is an identifier."""
    if not IDENTIFIER.match(word):
        raise _Fault(4, mistakes.no_identifier(word))
    return word


def variable(word: str) -> str:
    """The word, where it is a variable."""
    if word in RESERVED:
        raise _Fault(4, mistakes.reserved(word))
    return identifier(word)


def number(word: str) -> int:
    """The whole number of 64 bits that the word spells."""
    if not NUMBER.match(word) or not -(2**63) <= int(word) < 2**63:
        raise _Fault(4, mistakes.no_number(word))
    return int(word)


def count(limit: int, least: int = 0) -> Callable[[str], int]:
    """The counts up to a limit."""

    def read(word: str) -> int:
        if not COUNT.match(word) or not least <= int(word) <= limit:
            raise _Fault(4, mistakes.no_count(word, least, limit))
        return int(word)

    return read


def flag(word: str) -> int:
    """The bits of a debug flag."""
    if word not in FLAGS:
        raise _Fault(4, mistakes.no_flag(word, FLAGS))
    return FLAGS[word]


def operand(word: str) -> Operand:
    """The value that the word stands for."""
    if word == "none":
        return Operand(Sort.ATOM, None)
    if word in ("self", "ref", "garbage"):
        return Operand(Sort(word), None)
    if word[0] == "'":
        return Operand(Sort.ATOM, word[1:])
    if LOCAL.match(word):
        return Operand(Sort.CELL, int(word[1]))
    if word[0] == "-" or word[0].isdigit():
        return Operand(Sort.ATOM, number(word))
    if word in RESERVED:
        raise _Fault(4, mistakes.reserved_value(word, BINDINGS))
    if not IDENTIFIER.match(word):
        raise _Fault(4, mistakes.no_value(word))
    return Operand(Sort.NAME, word)


class Form(NamedTuple):
    """The least and the greatest number of words behind the key, and how each is read, the last one again and again."""

    fewest: int
    most: int
    places: tuple[Callable, ...] = ()


BINDINGS = {
    "list": Form(0, 61, (operand,)),
    "tuple": Form(1, 61, (operand,)),
    "dict": Form(0, 0),
    "new": Form(1, 1, (identifier,)),
    "func": Form(1, 9, (identifier, operand)),
    "ref": Form(1, 2, (operand,)),
    "item": Form(2, 2, (operand, number)),
    "get": Form(2, 2, (operand,)),
    "attr": Form(2, 2, (operand, identifier)),
    "deref": Form(1, 1, (operand,)),
}
OPENERS = {
    "del": Form(1, 1, (variable,)),
    "append": Form(2, 2, (operand,)),
    "setitem": Form(3, 3, (operand, number, operand)),
    "delitem": Form(2, 2, (operand, number)),
    "put": Form(3, 3, (operand,)),
    "drop": Form(2, 2, (operand,)),
    "setattr": Form(3, 3, (operand, identifier, operand)),
    "delattr": Form(2, 2, (operand, identifier)),
    "call": Form(1, 1, (operand,)),
    "quit": Form(1, 1, (operand,)),
    "collect": Form(0, 1, (number,)),
    "enable": Form(0, 0),
    "disable": Form(0, 0),
    "threshold": Form(1, 3, (count(MOST_THRESHOLD),)),
    "debug": Form(0, 5, (flag,)),
    "freeze": Form(0, 0),
    "unfreeze": Form(0, 0),
    "print": Form(1, 1, (operand,)),
    "refs": Form(1, 1, (operand,)),
    "tracked": Form(1, 1, (operand,)),
    "finalized": Form(1, 1, (operand,)),
    "referents": Form(1, 1, (operand,)),
    "referrers": Form(1, 1, (operand,)),
    "why": Form(1, 1, (variable,)),
    "count": Form(0, 0),
    "gens": Form(0, 0),
    "profile": Form(1, 1, (count(2, 1),)),
    "shutdown": Form(0, 0),
    "budget": Form(1, 1, (count(MOST_BUDGET),)),
    "class": Form(1, 3, (identifier, str)),
    "def": Form(1, 1, (identifier,)),
    "end": Form(0, 0),
}
DECLARATIONS = frozenset(("profile", "shutdown", "budget", "class", "def", "end"))
# what `gcrun expand` writes out
EXTENDED_BINDINGS = {"wmap": Form(0, 0), "wget": Form(2, 2, (operand,))}
EXTENDED_OPENERS = {
    "wset": Form(3, 3, (operand,)),
    "wdrop": Form(2, 2, (operand,)),
    "finalize": Form(2, 2, (operand,)),
}
KEPT = "wv_"


def read_places(key: str, form: Form, words: list[str]) -> tuple:
    """What the words behind a key say."""
    if not form.fewest <= len(words) <= form.most:
        raise _Fault(3, mistakes.wrong_number(key, words, form.fewest, form.most))
    last = len(form.places) - 1
    return tuple(form.places[min(place, last)](word) for place, word in enumerate(words))


class Language(NamedTuple):
    """The forms of lines: those that bind a name, and the others."""

    bindings: dict[str, Form]
    openers: dict[str, Form]

    def line(self, words: list[str]) -> Command:
        """A line's command or declaration, with names that need not be known."""
        if len(words) > 1 and words[1] == "=":
            return self.binding(words[0], words[2:])
        if words[0] not in self.openers:
            extended = (EXTENDED_BINDINGS | EXTENDED_OPENERS).keys()
            raise _Fault(2, mistakes.no_form(words, self.openers, self.bindings, extended))
        return command(words[0], read_places(words[0], self.openers[words[0]], words[1:]))

    def binding(self, name: str, words: list[str]) -> Command:
        """The command that binds a name."""
        if not words:
            raise _Fault(3, f"`{name} =` binds nothing: {mistakes.USAGE['bind']}")
        key = words[0]
        if key not in self.bindings or words == ["ref"]:
            value = read_places("bind", Form(1, 1, (str,)), words)[0]
            return command("bind", (variable(name), operand(value)))
        return command(key, (variable(name),) + read_places(key, self.bindings[key], words[1:]))


BASE = Language(BINDINGS, OPENERS)
EXTENDED = Language(BINDINGS | EXTENDED_BINDINGS, OPENERS | EXTENDED_OPENERS)


def command(form: str, parts: tuple) -> Command:
    """A command, with its parts put together as its form wants them."""
    operands = tuple(part for part in parts if isinstance(part, Operand))
    if form in ("list", "tuple"):
        parts = (parts[0], operands)
    elif form == "func":
        parts = (*parts[:2], operands)
    elif form == "ref":
        parts = (*parts, NO_VALUE)[:3]
    elif form == "collect":
        parts = (*parts, 2)[:1]
    return Command(form, parts, operands)


def finalizers(words: tuple[str, ...]) -> dict[str, str]:
    """The procedures that the words `del=p` and `legacy=q` of a class name."""
    found: dict[str, str] = {}
    for word in words:
        key, equals, name = word.partition("=")
        if key not in ("del", "legacy") or not equals or not name:
            raise _Fault(4, mistakes.no_finalizer(word))
        if key in found:
            raise _Fault(4, f"`{word}`: a class has one {key} at most")
        found[key] = identifier(name)
    return found


class Reader:
    """Reads a script line by line, and knows what earlier lines define."""

    def __init__(self, language: Language = BASE) -> None:
        self.language = language
        self.script = Script()
        self.mistakes: list[Mistake] = []
        self.has_budget = False
        # whether there was a line with words
        self.has_begun = False
        self.open: Procedure | None = None
        # where procedures and classes are defined, later lines too
        self.lines: dict[tuple[str, str], int] = {}
        self.position = 0

    def find_definitions(self, lines: list[bytes]) -> None:
        """Finds the line of each definition, for what is said of a name that is not known yet."""
        for position, line in enumerate(lines, 1):
            words = line.split(maxsplit=2)
            if len(words) > 1 and words[0] in (b"def", b"class"):
                kind = "procedure" if words[0] == b"def" else "class"
                self.lines.setdefault((kind, words[1].decode("latin-1")), position)

    def line(self, position: int, text: bytes) -> None:
        """Reads a line, and notes what is wrong with it."""
        self.position = position
        words = [word for word in text.decode("latin-1").split(" ") if word]
        try:
            self.must_fit(text, words)
            if words and words[0][0] != "#":
                self.take(self.language.line(words)._replace(line=position))
        except _Fault as fault:
            self.mistakes.append(Mistake(position, fault.code, fault.says))
            self.guess_what_was_meant(words)
        self.has_begun = self.has_begun or bool(words and words[0][0] != "#")

    def must_fit(self, text: bytes, words: list[str]) -> None:
        """Refuses a line with other bytes, or with too many."""
        if any(byte < 32 or byte > 126 for byte in text):
            raise _Fault(1, mistakes.foreign_byte(text, self.position))
        if len(text) > LONGEST_LINE:
            raise _Fault(5, f"the line has more than {LONGEST_LINE} bytes")
        if len(words) > MOST_WORDS:
            raise _Fault(5, f"the line has more than {MOST_WORDS} words")
        if self.position == MOST_LINES + 1:
            raise _Fault(5, f"the script has more than {MOST_LINES} lines")
        if self.language is EXTENDED and words and words[0][0] != "#":
            kept = next((word for word in words if word.startswith(KEPT)), None)
            if kept is not None:
                raise _Fault(4, f"`{kept}`: names that begin with `{KEPT}` are kept for the expansion")

    def guess_what_was_meant(self, words: list[str]) -> None:
        """Takes a bad line for the definition that it was to be, so that later lines are not blamed for it."""
        match [word for word in words if word.isprintable()]:
            case ["def", *names] if self.open is None:
                name = names[0] if names else ""
                self.open = self.script.procedures.setdefault(name, Procedure(name))
            case ["class", name, *_]:
                self.script.classes.setdefault(name, ClassDefinition(name, None, None))

    def take(self, command: Command) -> None:
        """Takes a line's command or declaration."""
        if command.form == "class":
            found = finalizers(command.parts[1:])
            self.outside("class")
            self.define_class(command.parts[0], found)
        elif command.form in DECLARATIONS:
            getattr(self, "take_" + command.form)(*command.parts)
        else:
            self.take_command(command)

    def outside(self, word: str) -> None:
        """Refuses a declaration inside a procedure."""
        if self.open is not None:
            raise _Fault(7, f"`{word}` stands inside the procedure `{self.open.name}`: `end` closes that first")

    def procedure(self, name: str) -> Procedure:
        """The procedure of a name that is defined already."""
        if name not in self.script.procedures:
            raise _Fault(6, self.unknown("procedure", name, self.script.procedures))
        return self.script.procedures[name]

    def unknown(self, kind: str, name: str, known: dict[str, object]) -> str:
        """What is said of a name that is not defined yet."""
        opened = None if self.open is None else self.open.name
        return mistakes.unknown(kind, name, known, self.lines.get((kind, name)), opened)

    def second(self, kind: str, name: str) -> _Fault:
        """What is said of a second definition."""
        first = self.lines.get((kind, name))
        return _Fault(8, f"a second {kind} `{name}`: line {first} defines it already")

    def define_class(self, name: str, found: dict[str, str]) -> None:
        """Takes a class."""
        if name in self.script.classes:
            raise self.second("class", name)
        procedures = {key: self.procedure(text) for key, text in found.items()}
        definition = ClassDefinition(name, procedures.get("del"), procedures.get("legacy"))
        self.script.classes[name] = definition

    def take_profile(self, profile: int) -> None:
        """Takes the line of the profile."""
        if self.has_begun:
            raise _Fault(7, "`profile` is the first line of a script, comments aside")
        self.script.profile = self.position

    def take_shutdown(self) -> None:
        """Takes the line of the shutdown."""
        self.outside("shutdown")
        if self.script.shutdown is not None:
            raise _Fault(8, f"a second `shutdown`: line {self.script.shutdown} has it already")
        self.script.shutdown = self.position

    def take_budget(self, budget: int) -> None:
        """Takes the line of the budget."""
        self.outside("budget")
        if self.has_budget:
            raise _Fault(8, "a second `budget`: a script has one at most")
        self.has_budget = True
        self.script.budget = budget

    def take_def(self, name: str) -> None:
        """Opens a procedure."""
        self.outside("def")
        if name in self.script.procedures:
            raise self.second("procedure", name)
        self.open = self.script.procedures[name] = Procedure(name)

    def take_end(self) -> None:
        """Closes a procedure."""
        if self.open is None:
            raise _Fault(7, "`end` stands outside a procedure: no `def` is open here")
        self.open = None

    def take_command(self, command: Command) -> None:
        """Takes a command of the script or of the open procedure."""
        if command.form == "new":
            if command.parts[1] not in self.script.classes:
                raise _Fault(6, self.unknown("class", command.parts[1], self.script.classes))
        elif command.form == "func":
            name, procedure, cells = command.parts
            command = command._replace(parts=(name, self.procedure(procedure), cells))
        elif command.form == "finalize" and self.open is not None:
            raise _Fault(7, f"`finalize` stands inside the procedure `{self.open.name}`: it is for the script alone")
        body = self.script.commands if self.open is None else self.open.body
        body.append(command)

    def end(self, lines: int) -> None:
        """Notes a procedure that is open at the end."""
        if self.open is not None:
            line = self.lines.get(("procedure", self.open.name))
            says = f"the procedure `{self.open.name}` of line {line} has no `end`"
            self.mistakes.append(Mistake(lines + 1, 7, says))


def lines_of(text: bytes) -> list[bytes]:
    """The lines of a script."""
    if len(text) > LONGEST_SCRIPT:
        raise TooLarge()
    lines = text.split(b"\n")
    if not lines[-1]:
        lines.pop()
    return lines


def read(text: bytes, language: Language = BASE) -> Script:
    """The script that the bytes spell."""
    lines = lines_of(text)
    reader = Reader(language)
    reader.find_definitions(lines)
    for position, line in enumerate(lines, 1):
        reader.line(position, line)
    reader.end(len(lines))
    if reader.mistakes:
        raise BadScript(reader.mistakes)
    return reader.script


def is_extended(text: bytes) -> bool:
    """Whether a script has weak value maps or exit finalizers."""
    lines = [line.split() for line in text.split(b"\n")]
    bound = {words[0] for words in lines if words[1:2] == [b"="]}
    openers = {word.encode() for word in EXTENDED_OPENERS}
    for words in lines:
        if words[1:2] == [b"="]:
            reads = words[2:3] == [b"wget"] and len(words) > 3
            makes = words[2:] == [b"wmap"] and b"wmap" not in bound
            if reads or makes:
                return True
        elif words and words[0] in openers:
            return True
    return False


def told(found: Iterable[Mistake]) -> str:
    """Mistakes and warnings, a line each."""
    lines = []
    for mistake in found:
        lines.append(f"line {mistake.line}: {'warning: ' if mistake.code is None else ''}{mistake.says}\n")
    return "".join(lines)


def warnings(script: Script) -> list[Mistake]:
    """What is surely wrong in a good script: names that no line binds, locals outside procedures, closing quotes."""
    bodies = [(True, script.commands)] + [(False, procedure.body) for procedure in script.procedures.values()]
    bound = {name for _, body in bodies for command in body for name in names_bound_by(command)}
    found: list[Mistake] = []
    for is_top, body in bodies:
        for command in body:
            for says in warnings_of(command, bound, is_top):
                found.append(Mistake(command.line, None, says))
    return sorted(found)


def names_bound_by(command: Command) -> tuple[str, ...]:
    """The name that a command binds, if it binds one."""
    is_binding = command.form == "bind" or command.form in EXTENDED.bindings
    return command.parts[:1] if is_binding else ()


def warnings_of(command: Command, bound: set[str], is_top: bool) -> list[str]:
    """What is surely wrong in a command."""
    said: list[str] = []
    names = [operand.value for operand in command.operands if operand.sort is Sort.NAME]
    if command.form in ("del", "why"):
        names.append(command.parts[0])
    said += [mistakes.unbound(name, bound) for name in dict.fromkeys(names) if name not in bound]
    for operand in command.operands:
        if is_top and operand.sort in (Sort.SELF, Sort.REF, Sort.CELL):
            word = f"c{operand.value}" if operand.sort is Sort.CELL else operand.sort.value
            said.append(f"`{word}` stands for nothing outside a procedure, so the command is refused")
        elif isinstance(operand.value, str) and operand.sort is Sort.ATOM and operand.value[-1:] in ("'", '"'):
            said.append(f"`'{operand.value}`: the closing quote belongs to the text, since a string has none")
    return said
