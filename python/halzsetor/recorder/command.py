"""The command line of gcrecord.

    gcrecord -o OUT PROGRAM ARGS..     runs a program, and writes the records of its collections to OUT
    gcrecord -o OUT -m MODULE ARGS..   the same for a module
    gcrecord --judge PROGRAM ARGS..    has gccheck judge them too, and says which objects a fault is about
    gcrecord --explain OUT VERDICT     says which objects a verdict `no G C` on OUT is about
    gcrecord --dot OUT G               draws the graph G of OUT, in the language DOT
"""
import argparse
import importlib.util
import os
import runpy
import shutil
import sys
import tempfile
from typing import Iterable, NoReturn

from ..programs import NotFound, find
from .explain import Records, WrongVerdict
from .files import Files, Refused
from .output import LIMIT
from .picture import picture_of
from .recorder import Recorder
from .stand import write_to
from .verdict import RIGHT, verdict_on


def at_least_one(word: str) -> int:
    """The number that a word spells, where it is at least 1."""
    number = int(word)
    if number < 1:
        raise argparse.ArgumentTypeError(f"{number} is less than 1")
    return number


def parser_of_words() -> argparse.ArgumentParser:
    """Reads the words after the program's name."""
    parser = argparse.ArgumentParser(
        prog="gcrecord",
        usage="%(prog)s [options] -o OUT PROGRAM ARGS..\n"
        "       %(prog)s [options] -o OUT -m MODULE ARGS..\n"
        "       %(prog)s [options] --judge PROGRAM ARGS..\n"
        "       %(prog)s --explain OUT VERDICT\n"
        "       %(prog)s --dot OUT GRAPH",
        description="Records the collections of a program for gccheck.",
        allow_abbrev=False,
    )
    parser.add_argument("-o", dest="out", metavar="OUT", help="the file that the records are written to")
    parser.add_argument("-m", dest="is_module", action="store_true", help="the program is the module of that name")
    parser.add_argument("--judge", action="store_true", help="have gccheck judge the records, and explain a fault")
    parser.add_argument("--gccheck", metavar="FILE", help="with --judge: the built gccheck")
    parser.add_argument("--explain", metavar="OUT", help="say which objects the verdict on the records in OUT is about")
    parser.add_argument("--dot", metavar="OUT", help="draw a graph of the records in OUT: DOT for graphviz")
    parser.add_argument("--generation", action="append", type=int, choices=(0, 1, 2), help="only collections of it")
    parser.add_argument("--most", type=at_least_one, metavar="N", help="record at most N collections")
    parser.add_argument(
        "--limit", type=at_least_one, default=LIMIT, metavar="BYTES", help="keep OUT within so many bytes"
    )
    parser.add_argument("--more-files", action="store_true", help="go on in OUT.2, OUT.3, .. where OUT is full")
    parser.add_argument("--no-objects", action="store_true", help="do not write OUT.objects, which --explain reads")
    parser.add_argument(
        "words", metavar="PROGRAM ARGS..", nargs=argparse.REMAINDER, help="the program with its words, or a verdict"
    )
    return parser


def arguments_of(words: list[str]) -> argparse.Namespace:
    """What the words after the program's name ask for; wrong ones end the program, with nothing written."""
    parser = parser_of_words()
    given = parser.parse_args(words)
    if given.limit > LIMIT:
        parser.error(f"the limit is at most {LIMIT}, which is all that gccheck reads")
    if given.explain is not None or given.dot is not None:
        must_only_read(parser, given)
    elif not given.words:
        parser.error("a program is missing")
    elif given.out is None and not given.judge:
        parser.error("-o OUT is missing, the file to write")
    return given


def must_only_read(parser: argparse.ArgumentParser, given: argparse.Namespace) -> None:
    """Refuses words that don't go with a question about records that are there."""
    option, other = ("--explain", "--dot") if given.dot is None else ("--dot", "--explain")
    if given.out is not None or given.is_module or given.judge or (given.explain and given.dot):
        parser.error(f"{option} takes none of -o, -m, --judge and {other}")
    if given.dot is None and not given.words:
        parser.error("a verdict is missing: yes N, or no G C")
    if given.dot is not None and (len(given.words) != 1 or not given.words[0].isdecimal()):
        parser.error("the number of one graph is wanted, counted from 1 over all records")


class Program:
    """A program to be run as CPython runs it, or with `-m` a module."""

    def __init__(self, words: list[str], is_module: bool) -> None:
        self.words = words
        self.is_module = is_module

    def enter(self) -> None:
        """Sets `sys.argv`, and the first folder that is searched for modules as CPython does: with -P or -I none."""
        sys.argv = self.words
        if not sys.flags.safe_path:
            name = self.words[0]
            sys.path[0] = os.getcwd() if self.is_module else os.path.dirname(os.path.abspath(name))

    def check(self) -> None:
        """Refuses a program that is not there."""
        name = self.words[0]
        if self.is_module:
            try:
                is_there = importlib.util.find_spec(name) is not None
            except (ImportError, ValueError):
                is_there = False
            if not is_there:
                raise Refused(f"there is no module {name}")
        elif not os.path.exists(name):
            raise Refused(f"there is no program {name}")
        elif not os.access(name, os.R_OK):
            raise Refused(f"the program {name} can't be read")

    def run(self) -> None:
        """Runs it."""
        if self.is_module:
            runpy.run_module(self.words[0], run_name="__main__", alter_sys=True)
        else:
            runpy.run_path(self.words[0], run_name="__main__")


class Judge:
    """Has gccheck judge files of records, which stand in a folder of their own where no other was asked for."""

    def __init__(self, gccheck: str | None, out: str | None) -> None:
        self.program = find("gccheck", gccheck)
        self.folder = tempfile.mkdtemp(prefix="gcrecord-") if out is None else None
        self.out = os.path.join(self.folder, "records") if out is None else out

    def are_right(self, names: Iterable[str]) -> bool:
        """Whether all records are right; this is said on standard error, as standard output is the program's."""
        verdicts = {name: verdict_on(name, self.program) for name in names}
        wrong = {name: verdict for name, verdict in verdicts.items() if not verdict.startswith(RIGHT)}
        for name, verdict in wrong.items():
            write_to(sys.__stderr__, f"gcrecord: {name}: {verdict}: {Records(name).explain([verdict])}")
        if not wrong:
            number = sum(int(verdict.split()[1]) for verdict in verdicts.values())
            write_to(sys.__stderr__, f"gcrecord: {number} collections recorded, each of them right\n")
        if not wrong and self.folder is not None:
            shutil.rmtree(self.folder, ignore_errors=True)
        return not wrong


def record(given: argparse.Namespace) -> NoReturn:
    """Runs the program, and ends as it does; but with status 1 where it ends well and a record is wrong."""
    program = Program(given.words, given.is_module)
    try:
        program.enter()
        program.check()
        judge = Judge(given.gccheck, given.out) if given.judge else None
        files = Files(given.out if judge is None else judge.out, not given.no_objects)
        files.check(given.more_files)
        first = files.open()
        files.take_away(given.more_files)
    except (Refused, NotFound, OSError) as fault:
        leave(str(fault))
    recorder = Recorder(
        *first,
        generations=given.generation or (0, 1, 2),
        most=given.most,
        limit=given.limit,
        more=files.open if given.more_files else None,
    )
    ended: SystemExit | None = None
    are_right = True
    try:
        with recorder:
            program.run()
    except SystemExit as fault:
        ended = fault
    finally:
        files.close()
        # a process that was forked off ends here too
        if recorder.process == os.getpid():
            are_right = tell(recorder, files, judge)
    if ended is not None and ended.code not in (None, 0):
        raise ended
    sys.exit(0 if are_right else 1)


def tell(recorder: Recorder, files: Files, judge: Judge | None) -> bool:
    """Says what was left out, and what the judge says; whether that is a yes, or there is none."""
    for why, times in recorder.left_out.items():
        write_to(sys.__stderr__, f"gcrecord: left out {times}: {why}\n")
    try:
        return judge is None or judge.are_right(files.written)
    except (Refused, WrongVerdict, OSError) as fault:
        write_to(sys.__stderr__, f"gcrecord: {fault}\n")
        return False


def leave(message: str) -> NoReturn:
    """Ends the program where it can't do what it was asked for."""
    write_to(sys.__stderr__, f"gcrecord: {message}\n")
    sys.exit(2)


def main(words: list[str]) -> NoReturn:
    """Runs the command line."""
    given = arguments_of(words)
    if given.explain is None and given.dot is None:
        record(given)
    try:
        if given.dot is None:
            sys.stdout.write(Records(given.explain).explain(given.words))
        else:
            sys.stdout.write(picture_of(Records(given.dot), int(given.words[0])))
    except (OSError, WrongVerdict) as fault:
        leave(str(fault))
    sys.exit(0)
