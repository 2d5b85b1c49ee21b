"""The command line of gcplay.

The status is that of gcrun: 0 where the script has run to its end, 6 where its budget was spent; 1 for a bad script;
and 2 where nothing can be played.
"""
import argparse
import json
import os
import subprocess
import sys
import tempfile
from pathlib import Path
from typing import NamedTuple

from ..beside.main import first_of_ours
from ..beside.reader import BASE, EXTENDED, MOST_LINES, BadScript, Script, TooLarge, is_extended, read, told, warnings
from ..programs import NotFound, find
from .marks import Marked, Row
from .names import Names
from .show import Cells, Columns, Screen, plain

BAD = 1
CANNOT = 2
# statuses of gcrun at which a text was written
RUN = (0, 6)
# where the package is
PYTHON = Path(__file__).resolve().parent.parent.parent
# how many seconds CPython may take
LONGEST = 600


class Failed(Exception):
    """Nothing can be played."""


def arguments_of(words: list[str]) -> argparse.Namespace:
    """What the words after the program's name ask for."""
    parser = argparse.ArgumentParser(
        prog="gcplay",
        description="Shows a script beside what it prints: what each line caused, and which names hold the objects.",
        allow_abbrev=False,
    )
    parser.add_argument("script", metavar="FILE", type=Path, help="the script, also one with weak value maps")
    parser.add_argument("--cpython", action="store_true", help="what CPython itself does, in a third column")
    parser.add_argument("--step", action="store_true", help="wait for a key before each command of the script")
    parser.add_argument("--plain", action="store_true", help="for pipes: no colours, and tabs between the columns")
    parser.add_argument("--budget", metavar="N", help="at most N frames start")
    parser.add_argument("--gcrun", metavar="PROGRAM", help="the built gcrun")
    return parser.parse_args(words)


class Gcrun:
    """The built program."""

    def __init__(self, program: str, budget: str | None) -> None:
        self.program = program
        self.budget = budget

    def expand(self, script: bytes) -> bytes:
        """An extended script in the base language."""
        return self.output(["expand"], script, (0,))[1]

    def run(self, script: bytes) -> tuple[int, list[str]]:
        """The status and the text of a run."""
        words = ["run"] if self.budget is None else ["run", "--budget", self.budget]
        status, text = self.output(words, script, RUN)
        return status, text.decode("latin-1").splitlines()

    def output(self, words: list[str], script: bytes, wanted: tuple[int, ...]) -> tuple[int, bytes]:
        """What it writes."""
        try:
            done = subprocess.run([self.program, *words], input=script, capture_output=True)
        except OSError as fault:
            raise Failed(f"{self.program} can't be run: {fault.strerror}") from None
        if done.returncode not in wanted:
            said = done.stdout.decode("latin-1")[:100].strip()
            raise Failed(f"`{self.program} {' '.join(words)}` ended with status {done.returncode}: {said}")
        return done.returncode, done.stdout


class Beside(NamedTuple):
    """What CPython does with a script that has marks: its lines, and in what the two differ, and why."""

    lines: list[str]
    answers: list[str]


def cpython(script: bytes, text: list[str]) -> Beside:
    """Has CPython carry a script out in a process of its own, beside gcrun's text."""
    with tempfile.TemporaryDirectory() as folder:
        Path(folder, "script").write_bytes(script)
        Path(folder, "text").write_text("".join(line + "\n" for line in text), "latin-1")
        front = f"import sys; sys.path.insert(0, {str(PYTHON)!r}); from halzsetor.gcscript import main; main()"
        words = [sys.executable, "-S", "-c", front, f"{folder}/script", "--json", "--compare", f"{folder}/text"]
        done = subprocess.run(words, capture_output=True, text=True, timeout=LONGEST)
    try:
        found = json.loads(done.stdout)
    except ValueError:
        raise Failed(f"CPython can't carry it out: {done.stderr.strip()}") from None
    points = [f"differs in {point}" for point in found["points"]]
    if found["difference"] is not None:
        points = [f"differs, and in none of the points of docs/RULES.md: {found['difference']}"]
    return Beside(found["lines"], points or ["agrees with CPython"])


def script_of(text: bytes) -> Script:
    """The script; where it is bad, what is wrong with it is said, and the program ends."""
    try:
        return read(text, EXTENDED if is_extended(text) else BASE)
    except (BadScript, TooLarge) as fault:
        sys.stderr.write(told(fault.mistakes) if isinstance(fault, BadScript) else f"gcplay: {fault}\n")
        sys.exit(BAD)


def wait() -> None:
    """Waits for a key."""
    try:
        import termios
        import tty
    except ImportError:
        sys.stdin.readline()
        return
    if not sys.stdin.isatty():
        sys.stdin.readline()
        return
    kept = termios.tcgetattr(sys.stdin)
    try:
        tty.setcbreak(sys.stdin)
        os.read(sys.stdin.fileno(), 1)
    finally:
        termios.tcsetattr(sys.stdin, termios.TCSADRAIN, kept)


def show(rows: list[Cells], given: argparse.Namespace) -> None:
    """Writes the rows."""
    is_coloured = sys.stdout.isatty() and not given.plain and "NO_COLOR" not in os.environ
    screen = Screen(is_coloured, rows, given.cpython)
    for cells in rows:
        if given.step and cells.is_stop:
            sys.stdout.flush()
            wait()
        print(plain(cells, given.cpython) if given.plain else screen.line(cells))


def play(given: argparse.Namespace) -> int:
    """Plays the script; answers the status."""
    text = given.script.read_bytes()
    script = script_of(text)
    sys.stderr.write(told(warnings(script)))
    ours_alone = first_of_ours(script) if given.cpython else None
    if ours_alone is not None:
        raise Failed(f"{ours_alone}; play it without --cpython")
    gcrun = Gcrun(find("gcrun", given.gcrun), given.budget)
    marked = Marked(text)
    with_marks = marked.script()
    if with_marks.count(b"\n") > MOST_LINES:
        raise Failed(f"the script with a mark before each command has more than {MOST_LINES} lines")
    if is_extended(text):
        with_marks = gcrun.expand(with_marks)
    status, lines = gcrun.run(with_marks)
    theirs: list[Row] | None = None
    answers: list[str] = []
    if given.cpython:
        beside = cpython(with_marks, lines)
        theirs, answers = marked.rows(beside.lines), beside.answers
    show(list(Columns(marked.lines, Names(script)).cells(marked.rows(lines), theirs)), given)
    for line in answers:
        print(line)
    return status


def main(words: list[str]) -> int:
    """Runs the command line."""
    given = arguments_of(words)
    try:
        return play(given)
    except BrokenPipeError:
        # whoever reads has seen enough
        os.dup2(os.open(os.devnull, os.O_WRONLY), sys.stdout.fileno())
        return 0
    except (Failed, NotFound) as fault:
        return cannot(str(fault))
    except OSError as fault:
        return cannot(f"{fault.filename or given.script}: {fault.strerror}")
    except KeyboardInterrupt:
        return cannot("interrupted")


def cannot(says: str) -> int:
    """Says why nothing is played."""
    sys.stderr.write(f"gcplay: {says}\n")
    return CANNOT
