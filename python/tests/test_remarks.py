"""What the built programs say on standard error, and that standard output and the status stay as they are without it."""
import os
import subprocess
import unittest
from typing import NamedTuple

from halzsetor import programs


class Case(NamedTuple):
    """A call of a program: what it reads, and what it answers."""

    words: tuple[str, ...]
    given: bytes
    status: int
    output: str
    remark: str


RUN = ("run",)
GCRUN = [
    Case(RUN, b"a = list\nlist = list\n", 1, "bad script 2 4\n", "line 2: list = list\na word has not the form"),
    Case(RUN, b"a = list\r\n", 1, "bad script 1 1\n", "line 1: a = list?\na byte that is no printable ASCII"),
    Case(RUN, b"def p\n", 1, "bad script 2 7\n", "line 2: \na command in the wrong place, or a procedure without"),
    Case(RUN, b"del\n", 1, "bad script 1 3\n", "line 1: del\nthe number of words"),
    Case(RUN, b"", 0, "end\n", ""),
    Case((), b"", 2, "bad words\n", "usage: gcrun run"),
    Case(("walk",), b"", 2, "bad words\n", "usage: gcrun run"),
]
GCCHECK = [
    Case((), b"end\n", 0, "yes 0\n", ""),
    Case((), b"rubbish\n", 1, "no 0 1\n", "the input is not the text of some records"),
    Case((), b"record 2\ngraph 1\nm 2 0 0\nr 2\ncut\nend\n", 1, "no 1 3\n", "an in-degree is below"),
    Case(("word",), b"", 2, "bad words\n", "usage: gccheck"),
]
GCHEAP = [
    Case((), b"heap\nend\n", 0, "", ""),
    Case((), b"heap\nm 1 2 3\nend\n", 1, "bad line 2\n", "line 2: m 1 2 3"),
    Case((), b"heap\nm 0 8 1 0 0\nend\n", 1, "fault 3 0\n", "the member's in-degree is below its occurrences"),
    Case(("word",), b"", 2, "bad words\n", "usage: gcheap"),
]


class Remarks(unittest.TestCase):
    """Standard error is for a person; where all is well nothing stands there."""

    def check(self, name: str, cases: list[Case]) -> None:
        try:
            program = programs.find(name)
        except programs.NotFound as missing:
            self.skipTest(str(missing))
        for case in cases:
            with self.subTest(words=case.words, given=case.given):
                ran = subprocess.run([program, *case.words], input=case.given, capture_output=True, timeout=60)
                self.assertEqual((ran.returncode, ran.stdout.decode()), (case.status, case.output))
                said = ran.stderr.decode()
                self.assertTrue(said.startswith(case.remark) if case.remark else not said, said)

    def test_gcrun(self):
        self.check("gcrun", GCRUN)

    def test_gccheck(self):
        self.check("gccheck", GCCHECK)

    def test_gcheap(self):
        self.check("gcheap", GCHEAP)

    def test_a_closed_standard_error_changes_nothing(self):
        try:
            program = programs.find("gcrun")
        except programs.NotFound as missing:
            self.skipTest(str(missing))
        closed = os.open(os.devnull, os.O_RDONLY)
        try:
            ran = subprocess.run([program, "run"], input=b"del\n", stdout=subprocess.PIPE, stderr=closed, timeout=60)
        finally:
            os.close(closed)
        self.assertEqual((ran.returncode, ran.stdout), (1, b"bad script 1 3\n"))


if __name__ == "__main__":
    unittest.main()
