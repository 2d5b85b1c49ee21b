"""Tests that judge: what a test leaves behind, and wrong collections, for unittest and for pytest."""
import random
import re
import shutil
import sys
import tempfile
import textwrap
import unittest
from pathlib import Path

from halzsetor.testing.graph import Made

from .recording import JUDGED, folder_of_pytest, run_python, stand_in_gccheck

sys.path.insert(0, str(JUDGED))
from build import build  # noqa: E402

GRAPHS = 200
LEAKING = """
    import abc, ctypes, re, unittest
    hold, kept, cache = ctypes.pythonapi.Py_IncRef, [], {0: []}
    class Thing: pass
    class Tests(unittest.TestCase):
        def test_a_clean(self): self.mine = [Thing()]
        def test_b_module(self):
            import another
        def test_c_leaks(self):
            self.mine = Thing()
            kept.append(self.mine)
            cache["k"] = {"a": [Thing(), Thing()]}
        def test_d_caches(self):
            self.assertNotIsInstance(1, Abstract)
            re.compile("a pattern of this test")
        def test_e_class(self):
            global Made
            class Made(Thing): pass
        def test_f_elsewhere(self):
            hold(ctypes.py_object(Thing()))
        def test_g_unfreezes(self):
            import gc
            gc.unfreeze()
            kept.append(Thing())
    class Abstract(abc.ABC): pass
"""
LEFT = """\
leaking.Tests.test_c_leaks leaves 5 objects
  4 go with dict of 1: held by leaking.cache['k']
  1 go with leaking.Thing: held by leaking.kept[0]
  not counted: N of the test itself
leaking.Tests.test_e_class leaves N objects
  N go with class leaking.Made: held by leaking.Made
  not counted: N of lists of subclasses, N of the test itself
leaking.Tests.test_f_elsewhere leaves 1 object
  1 go with leaking.Thing: held from elsewhere once
  not counted: N of the test itself
leaking.Tests.test_g_unfreezes: nothing is known, since it called gc.unfreeze()
4 of 7 tests leave something behind
"""
# begins a file of tests of a type that is wrong, and of one that is not
WRONG = """
    import gc, unittest
    import borrowing
    from halzsetor import gctest
    def share(boxes):
        label = []
        kept = [borrowing.Box([], label) for _ in range(boxes)]
        gc.collect(0)
    class Tests({}unittest.TestCase):
        def test_one(self): share(1)
        @unittest.skip("not now")
        def test_skipped(self): pass
        def test_two(self): share(2)
"""
COMPLAINT = r"a collection was wrong: no \d+ 3: graph \d+, a collection of generation 0: an in-degree is below the ref"


class Graphs(unittest.TestCase):
    """The graph of what was made."""

    def test_a_head_and_what_goes_with_it(self) -> None:
        pick = random.Random(1)
        for _ in range(GRAPHS):
            nodes: list[list[object]] = [[] for _ in range(pick.randrange(1, 12))]
            for _ in range(pick.randrange(2 * len(nodes))):
                pick.choice(nodes).append(pick.choice(nodes))
            kept = pick.sample(nodes, pick.randrange(1, len(nodes) + 1))
            wanted = sorted(place for place, node in enumerate(nodes) if any(node is one for one in kept))
            # the loop above holds the last of them
            node = None
            made = Made(nodes)
            heads = [head for head in made.heads if made.outside[head] > 0]
            self.assertEqual(wanted, heads)
            let_go = made.let_go()
            for head in heads:
                others = made.reached(other for other in heads if other != head)
                self.assertEqual(len(made.reached([head]) - others), let_go[head])


class Running(unittest.TestCase):
    """Files of tests that are run in processes of their own."""

    def setUp(self) -> None:
        folder = tempfile.TemporaryDirectory()
        self.addCleanup(folder.cleanup)
        self.folder = Path(folder.name)

    def write(self, name: str, text: str) -> None:
        """Writes a file of tests, or a module."""
        (self.folder / name).write_text(textwrap.dedent(text))

    def gctest(self, *words: object) -> tuple[int, str]:
        """Runs gctest: the status, and what it tells behind the tests, addresses left out."""
        done = run_python("-m", "halzsetor.gctest", *words, folder=self.folder)
        self.assertEqual("", done.stdout)
        self.assertNotIn("in the recorder", done.stderr)
        return done.returncode, re.sub(" at 0x[0-9a-f]+", "", done.stderr)

    def pytest(self, *words: object) -> tuple[int, str]:
        """The same for pytest."""
        folder = folder_of_pytest()
        if folder is None:
            self.skipTest("pytest is not there (apt-get install python3-pytest)")
        options = ("-p", "halzsetor.testing.plugin", "-p", "no:cacheprovider", "-q")
        done = run_python("-m", "pytest", *options, *words, folder=self.folder, paths=[folder])
        self.assertEqual("", done.stderr)
        return done.returncode, re.sub(" at 0x[0-9a-f]+", "", done.stdout)


def part(told: str, heading: str) -> str:
    """The lines of a part of what gctest tells."""
    lines = [line.removeprefix(f"{heading}: ") for line in told.splitlines() if line.startswith(f"{heading}: ")]
    return "".join(f"{line}\n" for line in lines)


class Leaks(Running):
    """What tests leave behind."""

    def setUp(self) -> None:
        super().setUp()
        self.write("leaking.py", LEAKING)
        self.write("another.py", "class Of:\n    def work(self): pass\nheld = [Of()]\n")

    def test_what_is_left_is_told(self) -> None:
        status, told = self.gctest("--gc-leaks", "leaking")
        *lines, last = part(told, "gc-leaks").splitlines(True)
        self.assertEqual(0, status, told)
        numbers = r"(?<=leaves )\d+(?= objects\n$)|^  \d+(?= go with class)|\d+(?= of (?:the|lists))"
        said = "".join(re.sub(numbers, lambda found: "  N" if found[0][0] == " " else "N", line) for line in lines)
        self.assertEqual(LEFT.replace("leaves 5", "leaves N"), said)
        self.assertRegex(last, r"^not counted in all: .*\d+ of new modules.*")
        for kind in ("the test itself", "lists of subclasses", "caches of abc", "1 of caches of re"):
            self.assertIn(kind, last)

    def test_the_runner_of_a_program(self) -> None:
        front = "import unittest, leaking as tests; from halzsetor import gctest as gc; "
        front += "unittest.main(tests, testRunner=gc.Runner)"
        done = run_python("-c", front, "Tests.test_c_leaks", folder=self.folder)
        self.assertEqual(0, done.returncode)
        self.assertIn("gc-leaks: leaking.Tests.test_c_leaks leaves 5 objects\n", done.stderr)
        self.assertNotIn("gc-judge", done.stderr)

    def test_a_mock_is_counted(self) -> None:
        self.write(
            "mocking.py",
            """
            import unittest, unittest.mock
            kept = []
            class Tests(unittest.TestCase):
                def test_a(self): unittest.mock.Mock()
                def test_b(self): kept.append(unittest.mock.Mock(spec=int))
                def test_c(self): kept.append(iter([self]))
            """,
        )
        said = part(self.gctest("--gc-leaks", "mocking")[1], "gc-leaks")
        self.assertNotIn("test_a leaves", said)
        self.assertRegex(said, r"\n  \d+ go with unittest.mock.Mock: held by mocking.kept\[0\]\n")
        self.assertIn("\n  2 go with list_iterator: held by mocking.kept[1]\n", said)

    def test_all_is_told_where_it_is_asked_for(self) -> None:
        status, told = self.gctest("--gc-leaks-all", "leaking.Tests.test_b_module", "leaking.Tests.test_d_caches")
        said = part(told, "gc-leaks")
        self.assertEqual(0, status)
        self.assertRegex(said, r"leaking.Tests.test_b_module leaves \d+ objects\n")
        self.assertIn(" go with module another: held by sys.modules['another']", said)
        self.assertIn(" go with re.Pattern: held by re._cache", said)
        for kind in ("new modules", "lists of subclasses", "caches of"):
            self.assertNotIn(kind, said)

    def test_a_mixin(self) -> None:
        text = LEAKING.replace("class Tests(", "from halzsetor import gctest\n    class Tests(gctest.LeavesNothing, ")
        self.write("leaking.py", text)
        done = run_python("-m", "unittest", "leaking", folder=self.folder)
        failed = ["test_c_leaks", "test_e_class", "test_f_elsewhere", "test_g_unfreezes"]
        self.assertEqual(failed, re.findall(r"^FAIL: (\w+)", done.stderr, re.MULTILINE), done.stderr)
        self.assertIn("AssertionError: leaking.Tests.test_f_elsewhere leaves 1 object\n", done.stderr)

    def test_a_fixture_of_pytest_is_not_counted(self) -> None:
        self.write(
            "test_leaking.py",
            """
            import pytest
            kept = []
            class Thing: pass
            @pytest.fixture(scope="module")
            def shared(): return [Thing()]
            @pytest.fixture
            def thing(shared): return Thing()
            def test_clean(shared, thing): pass
            def test_fails(thing): assert thing is None
            def test_leaks(thing): kept.append(thing)
            """,
        )
        status, told = self.pytest("--gc-leaks", "test_leaking.py")
        self.assertEqual(1, status, told)
        self.assertIn("test_leaking.py::test_leaks leaves 1 object\n", told)
        self.assertIn("\n  1 go with test_leaking.Thing: held by test_leaking.kept[0]\n", told)
        self.assertNotIn("test_clean leaves", told)
        self.assertRegex(told, r"\nnot counted in all: .*\d+ of the test itself")


@unittest.skipUnless(shutil.which("cc"), "no C compiler")
class Judged(Running):
    """Tests whose collections are judged."""

    def setUp(self) -> None:
        super().setUp()
        build(self.folder)
        self.gccheck = stand_in_gccheck(self.folder)
        self.write("wrong.py", WRONG.format(""))

    def test_a_wrong_collection_fails_its_test(self) -> None:
        status, told = self.gctest("--gc-judge", "--gc-leaks", "--gccheck", self.gccheck, "wrong")
        self.assertEqual(1, status)
        self.assertRegex(told, rf"\nFAIL: test_two \(wrong\.Tests\.test_two\)\n-+\nAssertionError: {COMPLAINT}")
        self.assertIn("\nRan 2 tests", told.replace("Ran 3", "Ran 2"))
        self.assertIn("FAILED (failures=1, skipped=1)\n", told)
        self.assertRegex(part(told, "gc-judge"), r"^\d+ collections judged, wrong ones in 1 tests\n$")

    def test_a_gccheck_that_fails(self) -> None:
        self.gccheck.write_text("#!/bin/sh\nexit 3\n")
        status, told = self.gctest("--gc-judge", "--gccheck", self.gccheck, "wrong.Tests.test_one")
        self.assertEqual((1, True), (status, "AssertionError: the collections could not be judged: " in told))

    def test_tests_that_are_right(self) -> None:
        status, told = self.gctest("--gc-judge", "--gccheck", self.gccheck, "wrong.Tests.test_one")
        self.assertEqual(0, status)
        self.assertRegex(part(told, "gc-judge"), r"^\d+ collections judged, each of them right\n$")

    def test_a_mixin(self) -> None:
        self.write("wrong.py", WRONG.format("gctest.Judged, "))
        done = run_python("-m", "unittest", "wrong", folder=self.folder, GCCHECK=str(self.gccheck))
        self.assertRegex(done.stderr, rf"\nFAIL: test_two (?s:.)*\nAssertionError: {COMPLAINT}")
        self.assertIn("FAILED (failures=1, skipped=1)\n", done.stderr)

    def test_pytest(self) -> None:
        status, told = self.pytest("--gc-judge", "--gccheck", self.gccheck, "wrong.py")
        self.assertEqual(1, status, told)
        self.assertRegex(told, rf"ERROR at teardown of Tests\.test_two _+\n{COMPLAINT}")
        self.assertRegex(told, r"\n\d+ collections judged, wrong ones in 1 tests\n")
        self.assertRegex(told, r"\n2 passed, 1 skipped, .*1 error in ")


class Words(Running):
    """What a user can do wrong."""

    def test_words_that_are_wrong(self) -> None:
        for words, said in (
            ([], "nothing is asked of the tests"),
            (["missing"], "nothing is asked of the tests"),
            (["--gc-judge", "--gccheck", "missing", "unittest.mock"], "--gccheck names missing, which is no program"),
        ):
            status, told = self.gctest(*words)
            self.assertEqual((2, True), (status, said in told), told)
            self.assertNotIn("Traceback", told)

    def test_pytest_without_gccheck(self) -> None:
        status, told = self.pytest("--help")
        self.assertEqual((0, True), (status, "--gc-leaks-all" in told))
        folder = folder_of_pytest()
        options = ("-m", "pytest", "-p", "halzsetor.testing.plugin", "--gc-judge", "--gccheck", "missing")
        done = run_python(*options, folder=self.folder, paths=[folder])
        self.assertEqual((4, "ERROR: --gccheck names missing, which is no program\n\n"), (done.returncode, done.stderr))


if __name__ == "__main__":
    unittest.main()
