"""What the program prints without a text of gcrun, and what it says where it can't do a script."""
import tempfile
import textwrap
import unittest
from pathlib import Path

from .recording import run_python
from .running import run

WITHOUT_TESTCAPI = "import sys; sys.modules['_testcapi'] = None; from halzsetor.gcscript import main; main()"


class Lines(unittest.TestCase):
    """The lines of a run."""

    def lines(self, script: str, *options: str) -> list[str]:
        """The lines of a script that can be run."""
        outcome = run(script.replace("; ", "\n"), *options)
        self.assertEqual((0, ""), (outcome.status, outcome.message))
        return outcome.output.splitlines()

    def test_lines_have_the_form_of_gcrun(self) -> None:
        script = "a = list; append a a; refs a; tracked a; finalized a; print a; gens; del a; collect"
        answers = "made list #2; refs 2; tracked yes; finalized no; value #2; gens 1 0 0"
        collection = "gc start 2; gc stop 2 1 0; collected 1; end"
        self.assertEqual(f"{answers}; {collection}".split("; "), self.lines(script))

    def test_looking_holds_nothing(self) -> None:
        script = "class C; a = new C; b = a; w = ref a; refs a; l = list a; refs a; del b; del l; refs a; refs garbage"
        answers = [line for line in self.lines(script) if line.startswith("refs ")]
        self.assertEqual(["refs 2", "refs 3", "refs 1", "refs 1"], answers)

    def test_a_replaced_value_dies_once_all_is_done(self) -> None:
        script = "def d; print x; refs x; end; class C del=d; x = new C; y = list; x = y"
        self.assertIn("value #3; refs 2", "; ".join(self.lines(script)))

    def test_sizes_count_no_tuples_of_cpython(self) -> None:
        script = (
            "def cb; gens; end; class C; f = func cb; t = tuple f; del t; t = tuple f f f f; del t; a = new C; "
            "u = ref a f; v = ref a f; del a"
        )
        self.assertEqual(["gens 3 0 0", "gens 3 0 0"], [line for line in self.lines(script) if line[:4] == "gens"])

    def test_automatic_collections_are_off_unless_asked_for(self) -> None:
        script = "threshold 2; " + "a = list; " * 20 + "print 1"
        self.assertFalse([line for line in self.lines(script) if line[:2] == "gc"])
        self.assertTrue([line for line in self.lines(script, "--automatic") if line[:2] == "gc"])

    def test_debug_lines_are_told(self) -> None:
        script = "def p; end; class C legacy=p; a = new C; setattr a me a; del a; debug leak; collect"
        lines = self.lines(script)
        self.assertIn("gc uncollectable #2", lines)
        self.assertIn("gc saved #2", lines)

    def test_a_bad_script_is_not_run(self) -> None:
        outcome = run("a = list\nlist = list\n")
        self.assertEqual((1, "bad script 2 4\n"), (outcome.status, outcome.output))

    def test_deep_calls_go_on(self) -> None:
        script = "budget 9000; def p; call f; end; f = func p; call f"
        self.assertEqual("budget spent", self.lines(script)[-1])

    def test_too_many_attributes_are_refused(self) -> None:
        script = "class C\na = new C\n" + "".join(f"setattr a n{number} 1\n" for number in range(31))
        self.assertEqual(2, run(script).status)

    def test_a_missing_module_is_told(self) -> None:
        script = "def p\nend\nclass C legacy=p\n"
        outcome = run(script, python=("-c", WITHOUT_TESTCAPI))
        self.assertEqual(2, outcome.status)
        self.assertIn("_testcapi", outcome.message)


class Listed(unittest.TestCase):
    """What an object holds, and who holds it."""

    def check(self, script: str, *wanted: str) -> None:
        """Wants these lines that list objects, or refuse to."""
        outcome = run(script.replace("; ", "\n"))
        self.assertEqual((0, ""), (outcome.status, outcome.message))
        words = ("referent", "referrer", "listed", "refused")
        self.assertEqual(list(wanted), [line for line in outcome.output.splitlines() if line.startswith(words)])

    def test_objects_of_the_script_alone(self) -> None:
        script = "class C; a = new C; setattr a me a; d = dict; put d 'k a; l = list a 1; "
        self.check(script + "referents a", "referent #2", "listed 1")
        self.check(script + "referrers a", "referrer #2", "referrer #3", "referrer #4", "listed 3")
        self.check(script + "referents d", "referent #2", "listed 1")

    def test_the_garbage_list(self) -> None:
        said = ("listed 0", "referrer #2", "listed 1", "referent #1", "listed 1")
        self.check("l = list garbage; referents garbage; referrers garbage; referents l", *said)

    def test_what_is_refused(self) -> None:
        asks = "def p; referrers l; print 'unseen; end; class C del=p; l = list; a = new C; setattr a me a; del a; "
        self.check(asks + "referents 1; referrers 'x; collect", "refused 2", "refused 2", "refused 13")


class Shutdown(unittest.TestCase):
    """The end of a script that has a shutdown."""

    SCRIPT = """
        shutdown
        def d
          print self
        end
        class C del=d
        a = new C
        b = new C
        c = new C
        setattr c me c
        a = new C
        del b
        b = new C
    """
    PROGRAM = """
        import os
        class C:
            number = 1
            def __init__(self):
                C.number += 1
                self.serial = C.number
            def __del__(self):
                os.write(1, f"value #{self.serial}\\n".encode())
        a = C()
        b = C()
        c = C()
        c.me = c
        a = C()
        del b
        b = C()
    """

    def test_finalizers_come_as_at_the_end_of_an_interpreter(self) -> None:
        with tempfile.TemporaryDirectory() as folder:
            program = Path(folder, "program.py")
            program.write_text(textwrap.dedent(self.PROGRAM))
            wanted = run_python(program).stdout
        outcome = run(textwrap.dedent(self.SCRIPT).lstrip())
        values = [line for line in outcome.output.splitlines(True) if line.startswith("value ")]
        self.assertEqual(wanted, "".join(values))
        self.assertEqual(["left 0", "end"], outcome.output.splitlines()[-2:])

    def test_what_is_left(self) -> None:
        frozen = "shutdown; x = list; t = tuple x; append x t; freeze"
        legacy = "shutdown; def d; end; class C legacy=d; a = new C; setattr a me a; t = tuple 1; setattr a t t"
        for script in (frozen, legacy):
            self.assertIn("left 2\n", run(script.replace("; ", "\n")).output)

    def test_frames_that_run_when_the_names_are_gone(self) -> None:
        script = "shutdown; def d; y = self; print x; end; class C legacy=d; a = new C; "
        script += "l = list a; append l l; x = 1; del a"
        outcome = run(script.replace("; ", "\n"))
        self.assertEqual(0, outcome.status, outcome.message)
        self.assertRegex(outcome.output, r"enter legacy #2\nrefused 1\nleave\ngc stop 2 1 0\nleft 1\nend\n$")

    def test_flags_at_the_end(self) -> None:
        outcome = run("shutdown\ndebug saveall\n")
        self.assertEqual((2, "", True), (outcome.status, outcome.output, "ends with debug flags" in outcome.message))
