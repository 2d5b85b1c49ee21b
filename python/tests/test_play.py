"""gcplay: marks change nothing, each line is beside the command that caused it, and the command line."""
import os
import subprocess
import sys
import tempfile
import unittest
from concurrent.futures import ThreadPoolExecutor
from pathlib import Path

from halzsetor.beside.reader import EXTENDED, is_extended, read
from halzsetor.play.marks import Marked
from halzsetor.play.names import Names
from halzsetor.play.show import Columns, Screen
from halzsetor.programs import NotFound, find

from .generator import Generator
from .recording import LONGEST, PYTHON, run_python, stand_in
from .running import EXAMPLES, OTHERWISE, PROCESSES, example_cases, folder_cases, run_all

GENERATED = 500

# a script, its text with marks, and the columns, each written by hand from docs/SCRIPT.md
FINALIZER = """\
def d
  x = deref w
  print x
end
class C del=d
a = new C
setattr a me a
w = ref a
del a
collect
"""
FINALIZER_MARKED = """\
def d
print '@2
  x = deref w
print '@3
  print x
end
class C del=d
print '@6
a = new C
print '@7
setattr a me a
print '@8
w = ref a
print '@9
del a
print '@10
collect
print '@0
"""
FINALIZER_TEXT = """\
value '@6
made instance #2
value '@7
value '@8
made weakref #3
value '@9
value '@10
gc start 2
cleared #3
enter del #2
value '@2
value '@3
value none
leave
free #2
gc stop 2 1 0
collected 1
value '@0
end
"""
FINALIZER_COLUMNS = """\
 1  def d
 2    x = deref w
 3    print x
 4  end
 5  class C del=d
 6  a = new C            made instance #2  = a
 7  setattr a me a
 8  w = ref a            made weakref #3  = w
 9  del a
10  collect              gc start 2
                           cleared #3  (w)
                           enter del #2  (was a)
 2    x = deref w
 3    print x                value none
                           leave
                           free #2  (was a)
                         gc stop 2 1 0
                         collected 1
    (end of the script)  end
"""
# names that are bound to what is read, that are left, and that hold; the answers of `why`
HELD = """\
shutdown
a = list
b = list a
c = item b 0
del a
del b
q = list c
del c
x = item q 0
why x
x = item q 5
"""
HELD_TEXT = """\
value '@2
made list #2
value '@3
made list #3
value '@4
value '@?
value #2
value '@5
value '@6
free #3
value '@7
made list #4
value '@8
value '@9
value '@?
value #2
value '@10
held #4
via #2
value '@11
refused 3
value '@?
value #2
value '@0
left 1
end
"""
HELD_COLUMNS = """\
 1  shutdown
 2  a = list             made list #2  = a
 3  b = list a           made list #3  = b
 4  c = item b 0
 5  del a
 6  del b                free #3  (was b)
 7  q = list c           made list #4  = q
 8  del c
 9  x = item q 0
10  why x                held #4  (name q)
                         via #2  (x)
11  x = item q 5         refused 3
    (end of the script)  left 1  #2 (x), #4 (q)
                         end
"""


def gcrun() -> str | None:
    """The built program, if there is one."""
    try:
        return find("gcrun")
    except NotFound:
        return None


def columns(script: str, text: str, theirs: str | None = None) -> str:
    """The columns of a script and its text with marks."""
    marked = Marked(script.encode())
    others = None if theirs is None else marked.rows(theirs.splitlines())
    rows = list(Columns(marked.lines, Names(read(script.encode()))).cells(marked.rows(text.splitlines()), others))
    screen = Screen(False, rows, theirs is not None)
    return "".join(screen.line(cells) + "\n" for cells in rows)


def generated() -> list[str]:
    """Generated scripts."""
    return [Generator(seed).script() for seed in range(GENERATED)]


class Marks(unittest.TestCase):
    """Scripts with marks."""

    def test_marks_stand_before_commands(self) -> None:
        self.assertEqual(FINALIZER_MARKED, Marked(FINALIZER.encode()).script().decode())

    def test_values_are_asked_for_outside_procedures(self) -> None:
        marked = Marked(b"# x = item\nx = item y 0\nx = item\ndef p\nx = attr y n\nend\nx = deref y").script().decode()
        self.assertEqual(
            "# x = item\nprint '@2\nx = item y 0\nprint '@?\nprint x\nprint '@3\nx = item\ndef p\nprint '@5\n"
            "x = attr y n\nend\nprint '@7\nx = deref y\nprint '@?\nprint x\nprint '@0\n",
            marked,
        )

    def test_a_sign_that_no_string_has(self) -> None:
        self.assertEqual("print '@@@1\nprint '@@x\nprint '@@@0\n", Marked(b"print '@@x").script().decode())

    def test_marks_are_stripped(self) -> None:
        kept = [line for line in FINALIZER_TEXT.splitlines() if not line.startswith("value '@")]
        self.assertEqual(kept, Marked(FINALIZER.encode()).strip(FINALIZER_TEXT.splitlines()))

    def test_a_collection_before_an_answer(self) -> None:
        marked = Marked(b"x = item y 0")
        text = "value '@1;value '@?;gc start 0;enter del #4;value 7;leave;gc stop 0 1 0;value #2;value '@0;end"
        rows = marked.rows(text.split(";"))
        self.assertEqual("#2", rows[0].step.answer)
        kept = "gc start 0;enter del #4;value 7;leave;gc stop 0 1 0;end"
        self.assertEqual(kept.split(";"), marked.strip(text.split(";")))


class Unchanged(unittest.TestCase):
    """The text without its marks is the text of the script without marks."""

    def test_of_cpython(self) -> None:
        scripts = [case.script for case in example_cases() + folder_cases(OTHERWISE)] + generated()
        marked = [Marked(script.encode()) for script in scripts]
        without = run_all([(script, None) for script in scripts])
        outcomes = run_all([(one.script().decode(), None) for one in marked])
        run = 0
        for script, one, outcome, other in zip(scripts, marked, outcomes, without):
            if other.status == 0:
                self.assertEqual(other.output.splitlines(), one.strip(outcome.output.splitlines()), script)
                run += 1
        self.assertGreater(run, GENERATED * 9 / 10)

    def test_of_gcrun(self) -> None:
        program = gcrun()
        if program is None:
            self.skipTest("gcrun is not built (cd crates/gcrun && rt run -- run < ../../examples/objects/first.script)")
        folders = sorted({script.parent for script in EXAMPLES.glob("*/*.script")})
        scripts = [case.script for folder in folders for case in folder_cases(folder)] + generated()
        scripts += [script.read_text() for script in sorted((EXAMPLES / "weak-maps").glob("*.script"))]
        with ThreadPoolExecutor(PROCESSES) as pool:
            pairs = list(pool.map(lambda script: self.both(program, script), scripts))
        for script, (without, stripped) in zip(scripts, pairs):
            self.assertEqual(without, stripped, script)

    def both(self, program: str, script: str) -> tuple[list[str], list[str]]:
        """The text of gcrun, and that with marks when they are stripped; nothing of a bad script."""
        marked = Marked(script.encode())
        scripts = [script, marked.script().decode()]
        if is_extended(script.encode()):
            scripts = [self.output(program, "expand", one) for one in scripts]
        without, text = (self.output(program, "run", one) for one in scripts)
        return ([], []) if without.startswith("bad script") else (without.splitlines(), marked.strip(text.splitlines()))

    def output(self, program: str, word: str, script: str) -> str:
        """What the program writes."""
        return subprocess.run([program, word], input=script, capture_output=True, text=True, timeout=LONGEST).stdout


class Shown(unittest.TestCase):
    """The columns."""

    def test_lines_are_beside_what_caused_them(self) -> None:
        self.assertEqual(FINALIZER_COLUMNS, columns(FINALIZER, FINALIZER_TEXT))

    def test_names_that_hold(self) -> None:
        self.assertEqual(HELD_COLUMNS, columns(HELD, HELD_TEXT))

    def test_what_cpython_does_otherwise(self) -> None:
        ours = "value '@1;made list #2;value '@2;free #2;value '@3;refs 2;value '@0;end".replace(";", "\n")
        theirs = ours.replace("free #2\n", "").replace("refs 2", "refs 1\nvalue 3")
        self.assertEqual(
            "1  a = list             made list #2  = a    made list #2\n"
            "2  del a                free #2  (was a)\n"
            "3  refs b                                  ! refs 1\n"
            "                                           ! value 3\n"
            "                        refs 2             !\n"
            "   (end of the script)  end                  end\n",
            columns("a = list\ndel a\nrefs b\n", ours, theirs),
        )


class Commands(unittest.TestCase):
    """The command line, with CPython in the place of gcrun."""

    def setUp(self) -> None:
        folder = tempfile.TemporaryDirectory()
        self.addCleanup(folder.cleanup)
        self.folder = Path(folder.name)
        self.program = str(stand_in(self.folder, "gcrun", "-S", "-m", "tests.stand_in"))

    def play(self, script: str, *words: str, program: str | None = None) -> tuple[int, str, str]:
        """Plays a script: the status, the output and the message."""
        (self.folder / "script").write_text(script)
        words = ("--gcrun", program or self.program, *words)
        done = run_python("-m", "halzsetor.gcplay", *words, self.folder / "script")
        return done.returncode, done.stdout, done.stderr

    def test_a_script(self) -> None:
        output = "1  a = list             made list #2  = a\n2  print a              value #2  (a)\n"
        output += "   (end of the script)  end\n"
        self.assertEqual((0, output, ""), self.play("a = list\nprint a\n"))

    def test_plain(self) -> None:
        output = "1\ta = list\tmade list #2\t= a\n\t(end of the script)\tend\t\n"
        self.assertEqual((0, output, ""), self.play("a = list\n", "--plain"))

    def test_beside_cpython(self) -> None:
        status, output, message = self.play("a = list\n", "--cpython")
        self.assertEqual((0, "agrees with CPython", ""), (status, output.splitlines()[-1], message))
        self.assertEqual("1  a = list             made list #2  = a    made list #2", output.splitlines()[0])

    def test_a_point_is_named(self) -> None:
        (case,) = [case for case in folder_cases(OTHERWISE) if case.name == "finalized"]
        program = gcrun()
        if program is None:
            self.skipTest("gcrun is not built")
        status, output, _ = self.play(case.script, "--cpython", program=program)
        self.assertEqual((0, "differs in finalized: "), (status, output.splitlines()[-1][:22]))

    def test_what_cpython_cannot_do(self) -> None:
        status, output, message = self.play("profile 2\na = list\n", "--cpython")
        self.assertEqual((2, ""), (status, output))
        said = "^gcplay: line 1: `profile` can't be carried out by CPython: .*; play it without --cpython"
        self.assertRegex(message, said)

    def test_a_bad_script(self) -> None:
        said = "line 1: `list` is a word of the language, not a name: take another, as `list_`\n"
        said += "line 2: `prnt` is no command: did you mean `print`?\n"
        self.assertEqual((1, "", said), self.play("list = list\nprnt a\n"))

    def test_a_warning(self) -> None:
        status, output, message = self.play("print a\n")
        self.assertEqual((0, "line 1: warning: no line binds `a`, so the command is refused\n"), (status, message))
        self.assertIn("refused 1", output)

    def test_a_step_waits(self) -> None:
        (self.folder / "script").write_text("a = list\ndel a\n")
        words = [sys.executable, "-m", "halzsetor.gcplay", "--step", "--gcrun", self.program, "script"]
        environment = os.environ | {"PYTHONPATH": str(PYTHON)}
        pipes = {"stdin": subprocess.PIPE, "stdout": subprocess.PIPE, "text": True}
        with subprocess.Popen(words, cwd=self.folder, env=environment, **pipes) as player:
            player.stdin.write("\n")
            player.stdin.flush()
            self.assertEqual("1  a = list             made list #2  = a\n", player.stdout.readline())
            self.assertIsNone(player.poll())
            self.assertIn("del a", player.communicate("\n", timeout=LONGEST)[0])

    def test_what_a_user_can_do_wrong(self) -> None:
        missing = str(self.folder / "missing")
        said = f"gcplay: --gcrun names {missing}, which is no program\n"
        self.assertEqual((2, "", said), self.play("", program=missing))
        done = run_python("-m", "halzsetor.gcplay", "--gcrun", self.program, missing)
        self.assertEqual((2, f"gcplay: {missing}: No such file or directory\n"), (done.returncode, done.stderr))
        status, _, message = self.play("m = wmap\n")
        self.assertEqual((2, True), (status, message.endswith("expand` ended with status 2: bad words\n")), message)

    def test_a_reader_that_has_seen_enough(self) -> None:
        script = self.folder / "script"
        script.write_text("a = list\n" * 3000)
        words = f"{sys.executable} -m halzsetor.gcplay --gcrun {self.program} {script} | head -1"
        environment = os.environ | {"PYTHONPATH": str(PYTHON)}
        done = subprocess.run(words, shell=True, capture_output=True, text=True, env=environment, timeout=LONGEST)
        self.assertEqual("", done.stderr)


class Extended(unittest.TestCase):
    """Scripts with weak value maps."""

    def test_names_of_maps(self) -> None:
        names = Names(read(b"m = wmap\nx = wget m 1", EXTENDED))
        self.assertEqual({1, 2}, set(names.commands))


if __name__ == "__main__":
    unittest.main()
