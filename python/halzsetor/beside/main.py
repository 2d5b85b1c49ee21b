"""The command line.

The status is 0 where the script has run, and in a comparison where the texts agree or differ in named points alone; 1
for a bad script, and where the texts differ otherwise; 2 where nothing can be said.
"""
import argparse
import gc
import json
import os
import sys
from pathlib import Path
from typing import NoReturn

from .automatic import Automatic
from .compare import Comparison, Differs
from .objects import Unsupported
from .points import AUTOMATIC
from .reader import BadScript, Script, TooLarge, read, told, warnings
from .run import Machine
from .texts import Item

AGREES = 0
DIFFERS = 1
CANNOT_SAY = 2
DEEPEST = 1_000_000
# lines that are gcrun's alone, and why
OURS = {
    "profile": "its collector has one rule for weak references",
    "why": "it has no such question",
}


def arguments_of(words: list[str]) -> argparse.Namespace:
    """The words after the program's name."""
    parser = argparse.ArgumentParser(prog="gcscript", description="Runs a script of gcrun on real objects.")
    parser.add_argument("script", metavar="SCRIPT", type=Path, help="the script")
    parser.add_argument("--automatic", action="store_true", help="let CPython start collections by itself")
    parser.add_argument("--compare", metavar="TEXT", type=Path, help="a text of gcrun to set beside CPython's lines")
    parser.add_argument("--json", action="store_true", help="with --compare: the lines and the answer, as JSON")
    given = parser.parse_args(words)
    if given.json and given.compare is None:
        parser.error("--json is for --compare")
    return given


def leave(status: int, message: str = "") -> NoReturn:
    """Ends the program at once, so that CPython's own end finalizes nothing."""
    sys.stdout.flush()
    if message:
        sys.__stderr__.write(f"gcscript: {message}\n")
    sys.__stderr__.flush()
    os._exit(status)


def show(lines: list[str]) -> None:
    """Prints lines."""
    sys.stdout.write("".join(line + "\n" for line in lines))


def first_line(item: Item | None) -> str:
    """What a message says of an item of a text."""
    return "nothing more" if item is None else f"`{' '.join(item.words)}`"


def answer(text: list[str], machine: Machine, schedule: Automatic | None) -> tuple[list[str], str | None]:
    """The points in which CPython's lines differ from the text, and what else does."""
    comparison = Comparison(text, machine.lines, machine.evidence)
    try:
        points = comparison.run()
    except Differs as difference:
        return [], f"gcrun has {first_line(difference.ours)}, CPython {first_line(difference.theirs)}"
    if schedule is not None and schedule.is_missed:
        return [], "a collection is due where gcrun goes on"
    if schedule is not None and schedule.used:
        points.add(AUTOMATIC)
    return sorted(points), None


def compare(text: list[str], machine: Machine, schedule: Automatic | None, as_json: bool) -> NoReturn:
    """Sets CPython's lines beside the text, and ends."""
    points, difference = answer(text, machine, schedule)
    if as_json:
        show([json.dumps({"lines": machine.lines, "points": points, "difference": difference})])
        leave(AGREES if difference is None else DIFFERS)
    if difference is not None:
        show(machine.lines)
        leave(DIFFERS, difference)
    show([f"differs in {point}" for point in points] or ["agrees"])
    leave(AGREES)


def run(script: Script, text: list[str] | None, automatic: bool, as_json: bool) -> NoReturn:
    """Runs a script, and ends."""
    schedule = None if text is None or automatic else Automatic(text)

    def ended(lines: list[str]) -> NoReturn:
        gc.disable()
        if text is not None:
            compare(text, machine, schedule, as_json)
        show(lines)
        leave(AGREES)

    machine = Machine(script, ended, schedule, automatic)
    sys.setrecursionlimit(DEEPEST)
    sys.unraisablehook = lambda raised: leave(CANNOT_SAY, f"{raised.exc_type.__name__}: {raised.exc_value}")
    try:
        machine.run()
    except (Unsupported, RecursionError) as fault:
        leave(CANNOT_SAY, str(fault))


def refuse(fault: BadScript | TooLarge, text: list[str] | None) -> NoReturn:
    """Says what is wrong with a script, and ends. Nothing of it is run; with a text to compare that is said too."""
    sys.stderr.write(told(fault.mistakes) if isinstance(fault, BadScript) else "")
    if text is None:
        show([str(fault)])
        leave(DIFFERS)
    if text == [str(fault)]:
        show(["agrees: the script is bad, and nothing was run"])
        leave(AGREES)
    show([str(fault)])
    leave(DIFFERS, f"the script is bad here, and gcrun has `{text[0] if text else ''}`: nothing was run")


def first_of_ours(script: Script) -> str | None:
    """Why a script can't be carried out, where it has a line that is gcrun's alone."""
    bodies = [script.commands, *(procedure.body for procedure in script.procedures.values())]
    found = {command.line: command.form for body in bodies for command in body if command.form in OURS}
    if script.profile is not None:
        found[script.profile] = "profile"
    if not found:
        return None
    line = min(found)
    return f"line {line}: `{found[line]}` can't be carried out by CPython: {OURS[found[line]]}"


def main(words: list[str]) -> int:
    """Runs the program; the answer is its status where it has not ended before."""
    given = arguments_of(words)
    if sys.implementation.name != "cpython" or sys.version_info[:2] != (3, 12):
        leave(CANNOT_SAY, "CPython 3.12 is needed")
    gc.disable()
    try:
        text = given.compare.read_text("ascii", "replace").splitlines() if given.compare else None
        script = read(given.script.read_bytes())
    except OSError as fault:
        leave(CANNOT_SAY, str(fault))
    except (BadScript, TooLarge) as fault:
        refuse(fault, text)
    sys.stderr.write(told(warnings(script)))
    ours = first_of_ours(script)
    if ours is not None:
        leave(CANNOT_SAY, ours)
    run(script, text, given.automatic, given.json)
