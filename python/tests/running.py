"""Runs the program in a process of its own for each script, as its runs change the state of the collector."""
import json
import os
import subprocess
import sys
import tempfile
from concurrent.futures import ThreadPoolExecutor
from pathlib import Path
from typing import Iterable, Iterator, NamedTuple

from halzsetor.beside.main import OURS

from .groups import Groups

HERE = Path(__file__).resolve().parent
PROGRAM = ("-m", "halzsetor.gcscript")
EXAMPLES = HERE.parent.parent / "examples"
OTHERWISE = EXAMPLES / "otherwise"
PLAIN = EXAMPLES / "plain"
TEXTS = HERE / "texts.jsonl"
GROUPS = HERE / "groups.jsonl"
CONSEQUENCES = HERE / "consequences.json"
POINTS = HERE / "points.json"
BOTH_BAD = "agrees: the script is bad, and nothing was run"
# how many seconds a run may take
LONGEST = 600
PROCESSES = min(4, os.cpu_count() or 1)


class Case(NamedTuple):
    """A script with gcrun's text of it."""

    name: str
    script: str
    text: str


class Outcome(NamedTuple):
    """How the program ended."""

    status: int
    output: str
    message: str

    @property
    def points(self) -> list[str] | None:
        """The first words of the points that a comparison named, none where the texts agree; or no such answer."""
        lines = self.output.splitlines()
        if self.status == 0 and lines in (["agrees"], [BOTH_BAD]):
            return []
        if self.status != 0 or not all(line.startswith("differs in ") for line in lines):
            return None
        return [line.split()[2].rstrip(":") for line in lines]

    @property
    def difference(self) -> str:
        """What a comparison says where the texts differ otherwise."""
        return self.message.splitlines()[-1].removeprefix("gcscript: ") if self.status == 1 else ""


def folder_cases(folder: Path) -> list[Case]:
    """The scripts of a folder with their texts, but for those that are run by other words than `run`."""
    scripts = [script for script in sorted(folder.glob("*.script")) if not script.with_suffix(".args").exists()]
    return [Case(script.stem, script.read_text(), script.with_suffix(".expected").read_text()) for script in scripts]


def first_words(script: str) -> set[str]:
    """The words that begin the lines of a script."""
    return {line.split()[0] for line in script.splitlines() if line.split()}


def example_cases() -> list[Case]:
    """The scripts of the folders of `examples`, but for those with rules and commands of ours alone."""
    folders = sorted({script.parent for script in EXAMPLES.glob("*/*.script")} - {OTHERWISE})
    cases = [case for folder in folders for case in folder_cases(folder)]
    return [case for case in cases if OURS.keys().isdisjoint(first_words(case.script))]


def stored_cases() -> list[Case]:
    """The generated scripts with their texts."""
    rows = [json.loads(line) for line in TEXTS.read_text().splitlines()]
    return [Case(f"seed {row['seed']}", row["script"], row["text"]) for row in rows]


def stored_groups() -> list[Case]:
    """The generated scripts about groups, made again by their seeds, with their texts."""
    rows = [json.loads(line) for line in GROUPS.read_text().splitlines()]
    return [Case(f"group {row['seed']}", Groups(row["seed"]).script(), row["text"]) for row in rows]


def stored_consequences() -> dict[str, list[str]]:
    """The point that a script's difference follows from, and the difference: no form of a point has room for it."""
    return json.loads(CONSEQUENCES.read_text())


def stored_points() -> dict[str, list[str]]:
    """The points in which a script differs, by its name; those that agree are left out."""
    return json.loads(POINTS.read_text())


def words_for(folder: str, script: str, text: str | None) -> list[str]:
    """The words that run a script, and compare it with a text where there is one; they are put into files."""
    script_file, text_file = Path(folder, "script"), Path(folder, "text")
    script_file.write_text(script)
    if text is None:
        return [str(script_file)]
    text_file.write_text(text)
    return [str(script_file), "--compare", str(text_file)]


def run(script: str, *options: str, text: str | None = None, python: tuple[str, ...] = ("-S", *PROGRAM)) -> Outcome:
    """Runs a script, and compares it with a text where there is one."""
    with tempfile.TemporaryDirectory() as folder:
        words = [sys.executable, *python, *words_for(folder, script, text), *options]
        done = subprocess.run(words, capture_output=True, text=True, cwd=HERE.parent, timeout=LONGEST)
    return Outcome(done.returncode, done.stdout, done.stderr)


def run_some(runs: list[tuple[str, str | None]]) -> list[Outcome]:
    """Runs each script, and compares it with its text if it has one, one after the other."""
    with tempfile.TemporaryDirectory() as name:
        words = []
        for place, (script, text) in enumerate(runs):
            folder = Path(name, str(place))
            folder.mkdir()
            words.append(words_for(str(folder), script, text))
        done = subprocess.run(
            [sys.executable, "-S", "-m", "tests.forking"],
            input="".join(json.dumps(line) + "\n" for line in words),
            stdout=subprocess.PIPE,
            text=True,
            check=True,
            cwd=HERE.parent,
            timeout=LONGEST + len(runs),
        )
    return [Outcome(*json.loads(line)) for line in done.stdout.splitlines()]


def run_all(runs: list[tuple[str, str | None]]) -> list[Outcome]:
    """Runs each script, and compares it with its text if it has one."""
    shares = [runs[first::PROCESSES] for first in range(PROCESSES)]
    with ThreadPoolExecutor(PROCESSES) as pool:
        outcomes = list(pool.map(run_some, shares))
    return [outcomes[place % PROCESSES][place // PROCESSES] for place in range(len(runs))]


def compare_all(cases: Iterable[Case]) -> Iterator[tuple[Case, Outcome]]:
    """Compares each script with its text."""
    cases = list(cases)
    yield from zip(cases, run_all([(case.script, case.text) for case in cases]))
