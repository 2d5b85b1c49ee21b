"""Records a program in a process of its own, and asks for the verdict."""
import importlib.util
import os
import shlex
import subprocess
import sys
import tempfile
import textwrap
from pathlib import Path
from typing import Iterable, NamedTuple

from . import judge

HERE = Path(__file__).resolve().parent
# where the package is
PYTHON = HERE.parent
JUDGED = PYTHON.parent / "examples" / "judged"
# how many seconds a program may take: a starved machine is slow
LONGEST = 600
# where Debian has its Python's packages
DEBIAN = Path("/usr/lib/python3/dist-packages")
GCCHECK, GCHEAP = (PYTHON.parent / "crates" / name / "out" / name for name in ("gccheck", "gcheap"))


class Recorded(NamedTuple):
    """How a recorded program ended, and what was written."""

    status: int
    output: str
    message: str
    records: list[str]
    objects: str

    @property
    def text(self) -> str:
        """The records, where they are in one file."""
        (text,) = self.records
        return text

    @property
    def verdict(self) -> str:
        """The verdict on them."""
        return verdict(self.text)

    @property
    def all_right(self) -> str:
        """The verdict where each record is right."""
        return f"yes {len(self.graphs)}"

    @property
    def graphs(self) -> list[judge.Graph]:
        """The first graph of each record."""
        return [graphs[0] for graphs in judge.records(self.text)]


def verdict(text: str) -> str:
    """The verdict of the plain judge; where gccheck has been built, it must say the same."""
    answer = judge.verdict(text)
    if GCCHECK.exists():
        done = subprocess.run([GCCHECK], input=text, capture_output=True, text=True, timeout=LONGEST)
        if done.stdout != answer + "\n":
            raise AssertionError(f"gccheck says {done.stdout.strip()}, the plain judge {answer}")
    return answer


def folder_of_pytest() -> Path | None:
    """Where pytest is: that of this Python, or Debian's."""
    found = importlib.util.find_spec("pytest")
    if found is not None:
        return Path(found.origin).parent.parent
    return DEBIAN if (DEBIAN / "pytest").is_dir() else None


def stand_in(folder: Path, name: str, *words: str) -> Path:
    """A program that stands for a built one: a Python that finds the package and the tests, with these words."""
    program = folder / name
    front = " ".join(map(shlex.quote, [sys.executable, *words]))
    program.write_text(f'#!/bin/sh\nPYTHONPATH={shlex.quote(str(PYTHON))} exec {front} "$@"\n')
    program.chmod(0o755)
    return program


def stand_in_gccheck(folder: Path) -> Path:
    """The plain judge in the place of gccheck."""
    judging = "import sys; from tests.judge import verdict; print(verdict(sys.stdin.read()))"
    return stand_in(folder, "gccheck", "-c", judging)


def run_python(
    *words: object,
    folder: Path | None = None,
    python: str = sys.executable,
    paths: Iterable[object] = (),
    **variables: str,
) -> subprocess.CompletedProcess[str]:
    """Runs a Python that finds the package, and what is in these folders."""
    return subprocess.run(
        [python, *map(str, words)],
        capture_output=True,
        text=True,
        cwd=folder,
        timeout=LONGEST,
        env=os.environ | {"PYTHONPATH": os.pathsep.join(map(str, [PYTHON, *paths]))} | variables,
    )


def run(*words: object, folder: Path | None = None) -> subprocess.CompletedProcess[str]:
    """Runs the recorder with these words."""
    return run_python("-m", "halzsetor.gcrecord", *words, folder=folder)


def record(program: str | list[object], *options: object, folder: Path | None = None) -> Recorded:
    """Records a program, given as its text or as the words that start it."""
    with tempfile.TemporaryDirectory() as name:
        out = Path(name, "out")
        words = program if isinstance(program, list) else [Path(name, "program.py")]
        if isinstance(program, str):
            Path(name, "program.py").write_text(textwrap.dedent(program))
        done = run(*options, "-o", out, *words, folder=folder)
        files = [out] if out.exists() else []
        while (further := Path(f"{out}.{len(files) + 1}")).exists():
            files.append(further)
        objects = Path(f"{out}.objects")
        told = objects.read_text("ascii") if objects.exists() else ""
        texts = [file.read_text("ascii") for file in files]
    return Recorded(done.returncode, done.stdout, done.stderr, texts, told)


def explained(text: str, *verdict_words: str, objects: str = "") -> str:
    """What the recorder says of a verdict on a text."""
    with tempfile.TemporaryDirectory() as name:
        Path(name, "out").write_text(text)
        if objects:
            Path(name, "out.objects").write_text(objects)
        done = run("--explain", Path(name, "out"), *verdict_words)
    return done.stdout + done.stderr
