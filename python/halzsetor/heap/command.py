"""The command line of gcheap.

    gcheap -o OUT PROGRAM ARGS..     runs a program, and writes its heap to OUT when it ends
    gcheap -o OUT -m MODULE ARGS..   the same for a module
    gcheap --ask OUT QUESTION..      asks the heap in OUT, and names the objects of the answers
    gcheap --ask OUT --dot 'why N'   draws the answer, in the language DOT
"""
import argparse
import atexit
import importlib.util
import os
import signal
import sys
import types
from importlib.machinery import ModuleSpec
from typing import NoReturn

from ..programs import NotFound, find
from ..recorder.command import Program
from ..recorder.files import BESIDE, Refused
from ..recorder.stand import write_to
from .asking import ask
from .child import Failed
from .picture import Names, picture_of
from .record import on_signal, write

# the words of an answer that are followed by a member
MEMBERS = ("held", "via", "referrer", "hidden", "lost", "gone", "kept")


def arguments_of(words: list[str]) -> argparse.Namespace:
    """What the words after the program's name ask for."""
    parser = argparse.ArgumentParser(
        prog="gcheap",
        usage="%(prog)s [options] -o OUT PROGRAM ARGS..\n"
        "       %(prog)s [options] -o OUT -m MODULE ARGS..\n"
        "       %(prog)s [--gcheap FILE] --ask OUT [--dot] QUESTION..",
        description="Takes the heap of a program, and asks it why objects are alive.",
        allow_abbrev=False,
    )
    parser.add_argument("-o", dest="out", metavar="OUT", help="the file that the heap is written to")
    parser.add_argument("-m", dest="is_module", action="store_true", help="the program is the module of that name")
    parser.add_argument("--at-exit", action="store_true", help="write the heap at the end: usual without a signal")
    parser.add_argument("--on-signal", metavar="NAME", type=signal_of, help="write it to OUT.PROCESS.N at each signal")
    parser.add_argument("--ask", metavar="OUT", help="ask the heap in OUT")
    parser.add_argument("--dot", action="store_true", help="with --ask: draw the answer to one `why`, for graphviz")
    parser.add_argument("--gcheap", metavar="FILE", help="with --ask: the built gcheap")
    parser.add_argument("words", metavar="PROGRAM ARGS..", nargs=argparse.REMAINDER, help="the program, or questions")
    given = parser.parse_args(words)
    if given.ask is not None and given.out is not None:
        parser.error("--ask takes no -o")
    if given.dot and (given.ask is None or len(given.words) != 1 or not given.words[0].startswith("why ")):
        parser.error("--dot is for --ask with one question `why N`")
    if not given.words:
        parser.error("a program is missing" if given.ask is None else "a question is missing, as `lost` or `why 17`")
    if given.ask is None and given.out is None:
        parser.error("-o OUT is missing, the file to write")
    return given


def signal_of(name: str) -> int:
    """The number of a signal."""
    found = getattr(signal, f"SIG{name.upper().removeprefix('SIG')}", None)
    if not isinstance(found, signal.Signals):
        raise argparse.ArgumentTypeError(f"there is no signal {name}")
    return found


class Main(Program):
    """A program that is `__main__` until the interpreter ends, so that its globals are there at the end."""

    def run(self) -> None:
        """Runs it."""
        main = types.ModuleType("__main__")
        spec = module_spec(self.words[0]) if self.is_module else None
        if spec is None:
            main.__file__ = self.words[0]
            with open(self.words[0], "rb") as file:
                code = compile(file.read(), self.words[0], "exec")
        else:
            main.__file__ = sys.argv[0] = spec.origin
            main.__spec__, main.__package__, main.__loader__ = spec, spec.parent, spec.loader
            code = spec.loader.get_code(spec.name)
        sys.modules["__main__"] = main
        exec(code, vars(main))


def module_spec(name: str) -> ModuleSpec:
    """Where a module is; of a package that in it which is run."""
    spec = importlib.util.find_spec(name)
    if spec.submodule_search_locations is not None:
        spec = importlib.util.find_spec(name + ".__main__")
    if spec is None:
        raise Refused(f"{name} is a package without a module __main__")
    return spec


def may_write(out: str) -> None:
    """Refuses to overwrite anything but a heap."""
    if out.endswith(".py"):
        raise Refused(f"{out} is the name of a program: give another file after -o")
    for name, begins in ((out, b"heap\n"), (out + BESIDE, b"0 ")):
        if os.path.isdir(name):
            raise Refused(f"{name} is a folder")
        if os.path.isfile(name):
            with open(name, "rb") as file:
                if file.read(len(begins)) not in (b"", begins):
                    raise Refused(f"{name} holds something else than a heap: remove it, or give another file after -o")
        elif not os.path.isdir(os.path.dirname(name) or "."):
            raise Refused(f"there is no folder {os.path.dirname(name)}")


def at_exit(out: str, process: int) -> None:
    """Writes the heap, and says so."""
    if os.getpid() != process:
        return
    try:
        number = write(out)
    except (Failed, OSError) as fault:
        write_to(sys.__stderr__, f"gcheap: {fault}\n")
    else:
        write_to(sys.__stderr__, f"gcheap: {number} members in {out}\n")


def run(given: argparse.Namespace) -> None:
    """Runs the program; it ends as it does without."""
    program = Main(given.words, given.is_module)
    out = os.path.abspath(given.out)
    try:
        program.enter()
        program.check()
        may_write(out)
    except (Refused, OSError) as fault:
        leave(str(fault))
    if given.on_signal is not None:
        on_signal(given.on_signal, out)
    if given.on_signal is None or given.at_exit:
        atexit.register(at_exit, out, os.getpid())
    program.run()


class Stored:
    """A heap in a file."""

    def __init__(self, name: str, program: str) -> None:
        self.name = name
        self.program = program

    def names(self) -> dict[str, str]:
        """The names of members, where they are known."""
        if not os.path.exists(self.name + BESIDE):
            return {}
        with open(self.name + BESIDE, encoding="ascii") as file:
            return dict(line.rstrip("\n").split(" ", 1) for line in file)

    def ask(self, questions: list[str]) -> list[list[str]]:
        """The lines of each answer."""
        with open(self.name, encoding="ascii") as heap:
            return ask(self.program, heap, questions)

    def untold(self) -> dict[int, list[int]]:
        """For each member its untold words, as positions."""
        found: dict[int, list[int]] = {}
        position = -1
        with open(self.name, encoding="ascii") as heap:
            for line in heap:
                position += line.startswith("m ")
                if line.startswith("u "):
                    found[position] = list(map(int, line.split()[1:]))
        return found


def asked(given: argparse.Namespace) -> None:
    """Asks a heap in a file, and prints the answers with names."""
    stored = Stored(given.ask, find("gcheap", given.gcheap))
    names = stored.names()
    if given.dot:
        called = Names(lambda position: names.get(str(position), f"member {position}"), lambda holder, held: "")
        picture = picture_of(given.words[0], stored.ask, stored.untold(), called)
        sys.stdout.write(picture)
        write_to(sys.__stderr__, "" if picture else "gcheap: no path of holders leads to it\n")
        return
    for question, lines in zip(given.words, stored.ask(given.words)):
        print(question)
        for line in lines:
            word, _, rest = line.partition(" ")
            name = names.get(rest.partition(" ")[0], "") if word in MEMBERS else ""
            print(f"  {line}  {name}".rstrip())


def leave(message: str) -> NoReturn:
    """Ends the program where it can't do what it was asked for."""
    write_to(sys.__stderr__, f"gcheap: {message}\n")
    sys.exit(2)


def main(words: list[str]) -> int:
    """Runs the command line."""
    given = arguments_of(words)
    if given.ask is None:
        run(given)
        return 0
    try:
        asked(given)
    except (Failed, NotFound, OSError, ValueError) as fault:
        leave(str(fault))
    return 0
