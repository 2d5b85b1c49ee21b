"""The recorder: what it sees of a collection, what the program notices of it, and its command line."""
import gc
import io
import re
import shutil
import subprocess
import sys
import tempfile
import unittest
from pathlib import Path

from halzsetor.recorder import Recorder
from halzsetor.recorder.explain import is_text_of_records
from halzsetor.recorder.recorder import Collection
from halzsetor.recorder.snapshot import OWN_REFERENCES, Snapshot

from .recording import GCCHECK, JUDGED, PYTHON, explained, record, run, run_python, stand_in_gccheck, verdict
from .test_judge import VERDICTS

sys.path.insert(0, str(JUDGED))
from build import build  # noqa: E402

# garbage
OWN_LIST = "l = []; l.append(l); del l"
# begins a program so that the next young collection has nothing of the start
QUIET = "import gc, io, os, sys\ngc.disable()\ngc.collect()\n"


def runs(python: str) -> bool:
    """Whether there is another Python of this name."""
    return shutil.which(python) is not None and subprocess.run([python, "-c", ""], capture_output=True).returncode == 0


class Seen(unittest.TestCase):
    """Graphs and sets of known objects."""

    def test_a_list_that_holds_itself(self) -> None:
        recorded = record(QUIET + OWN_LIST + "; gc.collect(0)")
        graph = recorded.graphs[-1]
        self.assertEqual(recorded.all_right, recorded.verdict)
        (lost,) = graph.lost
        self.assertEqual(((lost, 1, False), [lost]), (graph.members[lost], graph.references[lost]))

    def test_in_degrees_and_repeated_references(self) -> None:
        program = "class C: pass\na = C(); b = a; l = [a, a, a]; print(hex(id(a)), hex(id(l))); gc.collect(0)"
        recorded = record(QUIET + program)
        rows = recorded.objects.rpartition("graph ")[2].splitlines()[1:]
        members = {row.split()[1]: int(row.split()[0]) for row in rows}
        instance, holder = (members[address] for address in recorded.output.split())
        graph = recorded.graphs[-1]
        self.assertEqual(recorded.all_right, recorded.verdict)
        self.assertEqual((instance, 5, False), graph.members[instance])
        self.assertEqual((holder, 1, False), graph.members[holder])
        self.assertEqual([instance] * 3, graph.references[holder])

    def test_legacy_finalizers(self) -> None:
        program = """
            @_testcapi.with_tp_del
            class Legacy:
                def __tp_del__(self): pass
            a = Legacy(); a.me = a; a.l = [[]]; b = Legacy()
            c = []; c.append(c)
            del a, c
            gc.collect(0)
        """
        recorded = record(f"import _testcapi\n{QUIET}" + "\n".join(line[12:] for line in program.splitlines()))
        graph = recorded.graphs[-1]
        self.assertEqual(recorded.all_right, recorded.verdict)
        self.assertEqual(2, sum(mark for _, _, mark in graph.members))
        self.assertEqual((4, 3), (len(graph.lost), len(graph.legacy)))

    def test_names_of_types_may_be_odd(self) -> None:
        recorded = record(QUIET + "a = type('a b\\n> 0x1>\\u20ac', (), {})(); a.me = a; del a; gc.collect(0)")
        self.assertEqual(recorded.all_right, recorded.verdict)
        self.assertIn(" __main__.a b\\n> 0x1>\\u20ac\n", recorded.objects)
        self.assertGreater(len(recorded.graphs[-1].lost), 1)

    def test_what_a_callback_of_the_program_did_before(self) -> None:
        program = "l = []; l.append(l); gc.callbacks.append(lambda p, i: globals().pop('l', None)); gc.collect(0)"
        recorded = record(QUIET + program)
        self.assertEqual((recorded.all_right, 1), (recorded.verdict, len(recorded.graphs[-1].lost)))

    def test_other_threads(self) -> None:
        self.runs_beside("")

    def test_other_threads_where_calls_are_told_to_a_hook(self) -> None:
        self.runs_beside("sys.addaudithook(lambda name, arguments: None)")

    def runs_beside(self, first: str) -> None:
        """Collects while other threads change the graph."""
        recorded = record(
            f"""
            import gc, sys, threading
            {first}
            sys.setswitchinterval(1e-5)
            def change(shared=[]):
                while not done:
                    shared[:] = [[shared], [shared]]
                    cycle = []; cycle.append([cycle])
            done = False
            threads = [threading.Thread(target=change) for _ in range(4)]
            for thread in threads: thread.start()
            for _ in range(15): gc.collect()
            done = True
            for thread in threads: thread.join()
            """
        )
        self.assertGreater(len(recorded.graphs), 0)
        self.assertEqual(recorded.all_right, recorded.verdict)

    def test_a_collection_within_another(self) -> None:
        program = """
class C:
    def __del__(self):
        self.sets = [{number} for number in range(50)]
for _ in range(20):
    c = C(); c.me = c; del c
    gc.set_threshold(5); gc.enable()
    x = [{1}, {2}, {3}, {4}, {5}, {6}, {7}, {8}, gc.collect()]
    gc.set_threshold(700); gc.disable()
"""
        recorded = record(QUIET + program)
        self.assertEqual(recorded.all_right, recorded.verdict)
        self.assertIn("gcrecord: left out 20: another collection began before it had ended\n", recorded.message)

    def test_what_is_listed_last_is_not_held(self) -> None:
        self.addCleanup(gc.enable)
        gc.disable()
        kind = type("C", (), {})
        gc.collect()
        last = kind()
        # to the end of the oldest generation
        gc.collect(1)
        snapshot = Snapshot(2)
        before = sys.getrefcount(kind), sys.getrefcount(last)
        snapshot.take("", "")
        self.assertEqual(id(last), snapshot.addresses[-1])
        self.assertEqual(before, (sys.getrefcount(kind), sys.getrefcount(last)))
        counts = dict(zip(snapshot.addresses, snapshot.counts))
        # as many as the argument of `getrefcount` and the recorder's own two
        self.assertEqual(before, (counts[id(kind)] - OWN_REFERENCES + 1, counts[id(last)] - OWN_REFERENCES + 1))

    def test_the_free_list_of_asyncio(self) -> None:
        program = "import asyncio, gc\nasync def run(): await asyncio.gather(*map(asyncio.sleep, [0] * 3))\n"
        recorded = record(program + "for _ in range(3): asyncio.run(run()); gc.collect()")
        self.assertEqual((0, recorded.all_right), (recorded.status, recorded.verdict))


class Noticed(unittest.TestCase):
    """What the program notices, and that the recorder's faults are its own."""

    def outcome(self, program: str, *options: object) -> str:
        """What the program writes, and the verdict on its records."""
        recorded = record(QUIET + program, *options)
        self.assertEqual(recorded.all_right, recorded.verdict)
        return recorded.output + recorded.message

    def test_flags_and_callbacks_are_given_back(self) -> None:
        program = "gc.collect(); print(gc.get_debug(), len(gc.callbacks), sys.stderr is sys.__stderr__)"
        self.assertEqual("0 1 True\n", self.outcome(program))

    def test_a_replaced_stderr_gets_the_programs_own_lines(self) -> None:
        program = """
class C:
    def __del__(self): sys.stderr.write('gone'); sys.stderr.flush(); sys.stderr.write('.')
sys.stderr = io.StringIO()
c = C(); c.me = c; del c
gc.collect()
print(sys.stderr.getvalue())
"""
        self.assertEqual("gone.\n", self.outcome(program))

    def test_no_stderr(self) -> None:
        self.assertEqual("None\n", self.outcome(f"sys.stderr = None; {OWN_LIST}; gc.collect(); print(sys.stderr)"))

    def test_lines_that_the_program_asked_for(self) -> None:
        self.assertIn("gc: collectable <list 0x", self.outcome(f"gc.set_debug(2); {OWN_LIST}; gc.collect()"))
        self.assertEqual("", self.outcome(f"gc.set_debug(4); {OWN_LIST}; gc.collect()"))

    def test_the_next_collection_comes_no_sooner(self) -> None:
        self.assertLess(int(self.outcome("gc.collect(); print(gc.get_count()[0])")), 10)

    def test_flags_that_a_finalizer_sets(self) -> None:
        program = "class C:\n  def __del__(self): gc.set_debug(1)\nc = C(); c.me = c; del c; gc.collect()"
        outcome = self.outcome(program + "; print(gc.get_debug())")
        self.assertTrue(outcome.startswith("1\n"), outcome)
        self.assertIn("gcrecord: left out 1: the program set the debug flags meanwhile", outcome)

    def test_a_callback_that_another_adds(self) -> None:
        program = "gc.callbacks.append(lambda p, i: gc.callbacks.append(lambda p, i: None)); gc.collect()"
        self.assertIn("left out 1: a callback of the program ran after", self.outcome(program))

    def test_deep_calls(self) -> None:
        program = "gc.set_threshold(1); gc.enable(); sys.unraisablehook = print\n"
        calls = "def f(n): l = [n]; l.append(l); return f(n + 1)\n"
        program = QUIET + program + calls + "try: f(0)\nexcept RecursionError: print('deep')"
        recorded = record(program, "--generation", 0)
        self.assertEqual(("deep", 0), (recorded.output.splitlines()[-1], recorded.status))
        self.assertEqual(recorded.all_right, recorded.verdict)

    def test_forks(self) -> None:
        program = """
gc.collect(); gc.collect()
child = os.fork()
gc.collect()
if child: print(os.waitstatus_to_exitcode(os.waitpid(child, 0)[1]))
else: sys.exit(3)
"""
        recorded = record(QUIET + program)
        self.assertEqual(("3\n", recorded.all_right), (recorded.output, recorded.verdict))
        self.assertEqual(4, len([line for line in recorded.text.splitlines() if line == "record 2"]))

    def test_a_program_that_is_cut_off_leaves_a_whole_file(self) -> None:
        recorded = record(QUIET + "os._exit(4)")
        self.assertEqual((4, recorded.all_right), (recorded.status, recorded.verdict))
        self.assertIn("record 2\n", recorded.text)

    def test_a_file_that_fails(self) -> None:
        program = """
from halzsetor.recorder import Recorder
class Full(io.StringIO):
    def write(self, text):
        if len(text) > 10:
            super().write(text[:9])
            raise OSError
        return super().write(text)
file = Full()
with Recorder(file) as recorder:
    gc.collect()
print(recorder.recorded, dict(recorder.left_out), repr(file.getvalue()))
"""
        recorded = record(QUIET + program, "--most", 1)
        self.assertEqual("0 {'OSError in the recorder': 1} 'end\\n'\n", recorded.output)


class Lines(unittest.TestCase):
    """The command line, and the context manager."""

    def test_a_program_runs_as_without(self) -> None:
        program = "print(__name__, sys.argv[0] == __file__, sys.path[0] == os.path.dirname(__file__)); sys.exit(7)"
        recorded = record(QUIET + program)
        self.assertEqual(("__main__ True True\n", 7), (recorded.output, recorded.status))
        recorded = record(QUIET + "1 / 0")
        self.assertEqual((1, recorded.all_right), (recorded.status, recorded.verdict))
        self.assertIn("ZeroDivisionError", recorded.message)

    def test_a_module(self) -> None:
        recorded = record(["-m", "unittest", "-h"])
        self.assertEqual(0, recorded.status)
        self.assertIn("usage", recorded.output)

    def test_words_of_the_program(self) -> None:
        recorded = record(["-m", "platform", "--most", "terse"])
        self.assertEqual(("", 0), (recorded.message, recorded.status))

    def test_generations_and_how_many(self) -> None:
        program = QUIET + "for g in 0, 1, 2, 1, 0: gc.collect(g)"
        both = ("--generation", 1, "--generation", 2)
        # (before the program's first line CPython may start collections by itself)
        self.assertEqual([2, 1, 2, 1], self.generations(program, *both)[-4:])
        self.assertEqual(3, len(self.generations(program, *both, "--most", 3)))
        self.assertEqual([2, 2], self.generations(program, "--generation", 2))

    def generations(self, program: str, *options: object) -> list[int]:
        """The generations of the collections that were recorded."""
        lines = record(program, *options).text.splitlines()
        return [int(line.split()[1]) for line in lines if line.startswith("record")]

    def test_a_record_that_has_no_room_is_left_out_whole(self) -> None:
        recorded = record(QUIET + "l = [[] for _ in range(1000)]; gc.collect(0); gc.collect(0)", "--limit", 10_000)
        self.assertEqual(recorded.all_right, recorded.verdict)
        self.assertLessEqual(len(recorded.text), 10_000)
        self.assertRegex(recorded.message, r"^gcrecord: left out \d+: larger than what is left of the size limit\n$")

    def test_more_files(self) -> None:
        program = "for _ in range(4): l = [[] for _ in range(1000)]; gc.collect(0)"
        recorded = record(QUIET + program, "--limit", 30_000, "--more-files")
        self.assertGreater(len(recorded.records), 1)
        self.assertGreaterEqual(sum(int(verdict(text).removeprefix("yes ")) for text in recorded.records), 4)
        self.assertTrue(all(len(text) <= 30_000 for text in recorded.records))

    def test_words_that_are_wrong(self) -> None:
        for words, said in (
            ([], "a program is missing"),
            (["prog.py", "--flag"], "-o OUT is missing"),
            (["-o", "out"], "a program is missing"),
            (["-o", "out", "-m"], "a program is missing"),
            (["--limit", 67_108_865, "-o", "out", "p"], "the limit is at most 67108864"),
            (["--most", -1, "-o", "out", "p"], "argument --most: -1 is less than 1"),
            (["--most", "few", "-o", "out", "p"], "argument --most: invalid at_least_one value: 'few'"),
            (["--mo", 1, "-o", "out", "p"], "unrecognized arguments: --mo"),
            (["--explain", "out"], "a verdict is missing"),
            (["--explain", "out", "-o", "out", "no"], "--explain takes none of -o, -m, --judge and --dot"),
            (["--judge"], "a program is missing"),
        ):
            with tempfile.TemporaryDirectory() as folder:
                done = run(*words, folder=Path(folder))
                self.assertEqual([], list(Path(folder).iterdir()))
            self.assertEqual((2, True), (done.returncode, said in done.stderr), (words, done.stderr))
            self.assertNotIn("Traceback", done.stderr)
        self.assertIn("no verdict", explained("end\n", "maybe"))
        self.assertIn("there is no graph 3", explained("end\n", "no", "3", "4"))

    def test_the_context_manager(self) -> None:
        file, before = io.StringIO(), (list(gc.callbacks), gc.get_debug(), sys.stderr)
        with Recorder(file, generations=[0], most=1) as recorder:
            gc.collect(0)
            gc.collect(0)
        self.assertEqual((1, {}), (recorder.recorded, recorder.left_out))
        self.assertEqual("yes 1", verdict(file.getvalue()))
        self.assertEqual(before, (list(gc.callbacks), gc.get_debug(), sys.stderr))


class Kept(unittest.TestCase):
    """What is in the files of the user, and which are opened."""

    PROGRAM = "import gc; gc.collect(0)"

    def setUp(self) -> None:
        folder = tempfile.TemporaryDirectory()
        self.addCleanup(folder.cleanup)
        self.folder = Path(folder.name)
        self.write("prog.py", self.PROGRAM)

    def write(self, name: str, text: str) -> None:
        """Writes a file of the user's."""
        (self.folder / name).write_text(text)

    def refuse(self, said: str, *words: object) -> None:
        """Wants a message, status 2, and all files as they were."""
        before = {path.name: path.read_bytes() for path in self.folder.iterdir() if path.is_file()}
        done = run(*words, folder=self.folder)
        self.assertEqual((2, f"gcrecord: {said}\n"), (done.returncode, done.stderr))
        self.assertEqual(before, {path.name: path.read_bytes() for path in self.folder.iterdir() if path.is_file()})

    def test_a_program_is_not_overwritten(self) -> None:
        name = self.folder.resolve() / "prog.py"
        self.refuse(f"{name} is the name of a program: give another file after -o", "-o", "prog.py", "prog.py")

    def test_only_records_are_overwritten(self) -> None:
        self.write("notes", "record 2\nof my own\nend\n")
        says = " holds something else than gcrecord writes: remove it, or give another file after -o"
        self.refuse(f"{self.folder.resolve() / 'notes'}{says}", "-o", "notes", "prog.py")
        for name, text in (("out.objects", "notes"), ("out.2", "notes"), ("out.2.objects", "graph one\n")):
            self.write("out.2", "end\n")
            self.write(name, text)
            self.refuse(f"{self.folder.resolve() / name}{says}", "--more-files", "-o", "out", "prog.py")
            (self.folder / name).unlink()

    def test_records_are_overwritten(self) -> None:
        for _ in range(2):
            self.assertEqual("", run("-o", "out", "prog.py", folder=self.folder).stderr)
        self.assertRegex(verdict((self.folder / "out").read_text()), r"^yes \d+$")

    def test_what_an_earlier_run_left_is_taken_away(self) -> None:
        # what there is before the program is collected first, and does not fit
        program = "import gc; gc.collect()\nfor _ in range(4): l = [[] for _ in range(1000)]; gc.collect(0)\n"
        self.write("prog.py", program)
        run("--limit", 30_000, "--more-files", "-o", "out", "prog.py", folder=self.folder)
        self.assertTrue((self.folder / "out.2.objects").exists())
        run("--most", 1, "--more-files", "-o", "out", "prog.py", folder=self.folder)
        self.assertEqual({"prog.py", "out", "out.objects"}, {path.name for path in self.folder.iterdir()})
        run("--no-objects", "-o", "out", "prog.py", folder=self.folder)
        self.assertEqual({"prog.py", "out"}, {path.name for path in self.folder.iterdir()})

    def test_a_program_that_is_not_there(self) -> None:
        self.refuse("there is no program missing.py", "-o", "out", "missing.py")
        self.refuse("there is no module missing.module", "-o", "out", "-m", "missing.module")

    def test_a_file_that_cannot_be_written(self) -> None:
        name = self.folder.resolve() / "missing" / "out"
        self.refuse(f"[Errno 2] No such file or directory: '{name}'", "-o", "missing/out", "prog.py")
        (self.folder / "out").mkdir()
        self.refuse(f"{self.folder.resolve() / 'out'} is a folder", "-o", "out", "prog.py")

    def run_front(self, before: str) -> subprocess.CompletedProcess[str]:
        """Records the program by a program of the test's, which begins with these lines."""
        lines = ["import sys", before, "from halzsetor.gcrecord import main"]
        self.write("front.py", "\n".join([*lines, "sys.argv = ['gcrecord', '-o', 'out', 'prog.py']", "main()"]))
        return run_python("front.py", folder=self.folder)

    def test_another_python(self) -> None:
        done = self.run_front("sys.version_info = (3, 10)")
        said = "gcrecord: CPython 3.12 is needed, and this is cpython 3.10\n"
        self.assertEqual((2, said), (done.returncode, done.stderr))
        self.assertFalse((self.folder / "out").exists())

    def test_older_and_newer_pythons(self) -> None:
        others = [f"python3.{minor}" for minor in (7, 8, 9, 10, 11, 13, 14)]
        for python in filter(runs, others):
            done = run_python("-m", "halzsetor.gcrecord", "-o", "out", "prog.py", folder=self.folder, python=python)
            said = f"gcrecord: CPython 3.12 is needed, and this is c{python.replace('3.', ' 3.')}\n"
            self.assertEqual((2, said), (done.returncode, done.stderr))

    def test_lines_end_alike_on_every_system(self) -> None:
        # as on Windows, where a text file has two bytes at the end of each line if `open` is not told otherwise
        before = """import builtins, io
def open_as_windows(name, mode="r", newline=None, **words):
    return io.open(name, mode, newline="\\r\\n" if newline is None and "b" not in mode else newline, **words)
builtins.open = open_as_windows
"""
        done = self.run_front(before)
        self.assertEqual((0, ""), (done.returncode, done.stderr))
        for name in ("out", "out.objects"):
            content = (self.folder / name).read_bytes()
            self.assertEqual((True, False), (b"\n" in content, b"\r" in content))

    def test_the_folders_that_are_searched(self) -> None:
        self.write("prog.py", "import sys; print(sys.path)")
        # -I ignores PYTHONPATH, so the folder of the package is put behind the others
        front = f"import sys; sys.path.append({str(PYTHON)!r}); from halzsetor.gcrecord import main; main()"
        for flags in ([], ["-P"], ["-I"]):
            without = run_python(*flags, "prog.py", folder=self.folder)
            recorded = run_python(*flags, "-c", front, "-o", "out", "prog.py", folder=self.folder)
            said = without.stdout.removesuffix("]\n") + f", {str(PYTHON)!r}]\n"
            self.assertEqual((said, ""), (recorded.stdout, recorded.stderr), flags)

    def test_a_stderr_that_is_closed(self) -> None:
        self.write("prog.py", "import gc, sys\ngc.callbacks.append(lambda *w: gc.set_debug(1)); gc.collect(0)\n")
        for closing in ("sys.__stderr__.close()", "sys.__stderr__ = sys.stderr = None"):
            self.write("closing.py", (self.folder / "prog.py").read_text() + f"gc.set_debug(0); {closing}; sys.exit(7)")
            done = run("-o", "out", "closing.py", folder=self.folder)
            self.assertEqual((7, ""), (done.returncode, done.stdout), done.stderr)

    def test_a_large_record_is_not_built(self) -> None:
        graph, Snapshot.graph = Snapshot.graph, None
        try:
            with Recorder(io.StringIO(), generations=[0], limit=50) as recorder:
                gc.collect(0)
        finally:
            Snapshot.graph = graph
        self.assertEqual({"larger than what is left of the size limit": 1}, recorder.left_out)

    def test_sizes_are_those_of_the_texts(self) -> None:
        class Both(Recorder):
            """Compares the size of each record with its text."""

            def write(self, collection: Collection) -> str | None:
                sizes.append((collection.size(), len("".join(collection.told().lines))))
                return None

        sizes: list[tuple[int, int]] = []
        with Both(io.StringIO()):
            for generation in (0, 2, 1):
                cycle: list[object] = [1]
                cycle.append(cycle)
                del cycle
                gc.collect(generation)
        self.assertEqual(3, len(sizes))
        for size, length in sizes:
            self.assertEqual(length, size)


class Explained(unittest.TestCase):
    """What is said of a verdict."""

    GRAPH = (
        "record 1; graph 1; m 1 1 0; r 2; m 2 2 0; m 3 1 1; r 4; m 4 1 0; r 3; r 2; "
        "lost 3; lost 4; legacy 3; legacy 4; cut; end"
    )

    def said(self, code: int, *change: str) -> list[str]:
        """The lines on a fault that the change makes, without the heading."""
        text = self.GRAPH.replace(*change).replace("; ", "\n") + "\n"
        self.assertEqual(f"no 1 {code}", verdict(text))
        return explained(text, f"no 1 {code}", objects="graph 1\n1 0xa C\n2 0xb list\n").splitlines()[1:]

    def test_each_code(self) -> None:
        self.assertEqual(["  serial 4 refers to 5, which is no member"], self.said(2, "r 3", "r 5"))
        self.assertEqual(
            ["  list at 0xb (serial 2): in-degree 1, but 2 references, of C at 0xa (serial 1), serial 4"],
            self.said(3, "m 2 2", "m 2 1"),
        )
        self.assertEqual(
            [
                "  list at 0xb (serial 2) was found, but is held from outside: "
                "C at 0xa (serial 1) -> list at 0xb (serial 2)"
            ],
            self.said(4, "lost 3", "lost 2; lost 3"),
        )
        said = self.said(4, "lost 3; ", "")
        self.assertEqual(["  serial 3 was not found, but no path from outside leads to it"], said)
        self.assertEqual(
            ["  serial 4 was not set aside, but a legacy finalizer reaches it: serial 3 -> serial 4"],
            self.said(5, "legacy 4; ", ""),
        )

    def test_verdicts_without_a_graph(self) -> None:
        self.assertIn("every recorded collection is right", explained("end\n", "yes 0"))
        self.assertIn("no text of records", explained("", "no", "0", "1"))

    def test_a_verdict_on_another_file(self) -> None:
        text = self.GRAPH.replace("; ", "\n") + "\n"
        wrong = text.replace("lost 3\n", "")
        for records, verdict_words, said in (
            (text, "no 1 4", "graph 1 of {} has no fault, and the verdict says 4"),
            (wrong, "no 1 3", "graph 1 of {} has a fault of code 4, and the verdict says 3"),
            (wrong, "no 1 7", "graph 1 of {} has a fault of code 4, and the verdict says 7"),
            (text, "no 0 4", "there is no graph 0 in {}"),
            (text, "no 2 4", "there is no graph 2 in {}"),
            (text, "no 0 1", "{} is a text of records: the verdict is on another file"),
            (text, "yes 2", "the verdict is on another number of records: {} has 1"),
            (wrong, "yes 1", "graph 1 of {} has a fault of code 4"),
            ("notes\n", "yes 1", "{} is no text of records, so the verdict would be `no 0 1`"),
            ("notes\n", "no 1 4", "{} is no text of records, so the verdict would be `no 0 1`"),
            (text, "maybe", "no verdict: maybe"),
            (text, "no 1", "no verdict: no 1"),
            (text, "yes one", "no verdict: yes one"),
        ):
            message = explained(records, verdict_words)
            self.assertRegex(message, "^gcrecord: " + re.escape(said).replace(r"\{\}", ".*") + "\n$")

    def test_what_is_a_text_of_records(self) -> None:
        for text, wanted in VERDICTS:
            lines = (text.replace("; ", "\n") + "\n").encode()
            self.assertEqual(wanted != "no 0 1", is_text_of_records(lines), text)


class Judged(unittest.TestCase):
    """`--judge`, by a stand-in for gccheck and by gccheck itself."""

    def setUp(self) -> None:
        folder = tempfile.TemporaryDirectory()
        self.addCleanup(folder.cleanup)
        self.folder = Path(folder.name)
        program = stand_in_gccheck(self.folder)
        self.programs = [program, GCCHECK] if GCCHECK.exists() else [program]

    def judge(self, gccheck: Path, *words: object) -> tuple[int, str, str]:
        """Records and judges: the status, the output and the message."""
        done = run("--judge", "--gccheck", gccheck, *words, folder=self.folder)
        return done.returncode, done.stdout, done.stderr

    def test_a_program_that_is_right(self) -> None:
        (self.folder / "prog.py").write_text(f"{QUIET}{OWN_LIST}; gc.collect(0); print(1)\n")
        for gccheck in self.programs:
            status, output, message = self.judge(gccheck, "prog.py")
            self.assertEqual((0, "1\n"), (status, output))
            self.assertRegex(message, r"^gcrecord: \d+ collections recorded, each of them right\n$")

    def test_the_status_is_the_programs_own(self) -> None:
        for end, wanted in (("sys.exit(7)", 7), ("sys.exit()", 0), ("1 / 0", 1), ("sys.exit('bye')", 1)):
            (self.folder / "prog.py").write_text(f"{QUIET}{end}\n")
            status, _, message = self.judge(self.programs[0], "prog.py")
            self.assertEqual((wanted, True), (status, "each of them right" in message), message)

    @unittest.skipUnless(shutil.which("cc"), "no C compiler")
    def test_a_program_that_is_wrong(self) -> None:
        build(self.folder)
        shutil.copy(JUDGED / "two_boxes.py", self.folder)
        for gccheck in self.programs:
            status, _, message = self.judge(gccheck, "-o", "out", "two_boxes.py")
            self.assertEqual(1, status)
            self.assertRegex(message, r"^gcrecord: .*/out: no \d+ 3: graph \d+, a collection of generation \d: an in-d")
            self.assertRegex(message, r"\n  list at 0x\w+ \(serial \d+\): in-degree 1, but 2 references, of borrowing")

    def test_no_gccheck(self) -> None:
        (self.folder / "prog.py").write_text("print(1)\n")
        said = "gcrecord: --gccheck names missing, which is no program\n"
        self.assertEqual((2, "", said), self.judge(Path("missing"), "prog.py"))


class Examples(unittest.TestCase):
    """The examples of `judged`."""

    def test_a_program_that_is_right(self) -> None:
        recorded = record([JUDGED / "cycles.py"])
        self.assertEqual(("", recorded.all_right), (recorded.message, recorded.verdict))
        self.assertGreater(sum(len(graph.lost) for graph in recorded.graphs), 1000)

    @unittest.skipUnless(shutil.which("cc"), "no C compiler")
    def test_boxes_that_visit_what_they_borrow(self) -> None:
        with tempfile.TemporaryDirectory() as name:
            build(Path(name))
            shutil.copy(JUDGED / "two_boxes.py", name)
            two = record([Path(name, "two_boxes.py")])
            one = record([Path(name, "two_boxes.py"), 1])
        self.assertEqual(f"no {len(two.graphs)} 3", two.verdict)
        said = explained(two.text, two.verdict, objects=two.objects)
        self.assertRegex(said, r"\n  list at 0x\w+ \(serial \d+\): in-degree 1, but 2 references, of borrowing.Box at ")
        self.assertEqual(one.all_right, one.verdict)

    def test_the_stored_records(self) -> None:
        text = (JUDGED / "collections.records").read_text("ascii")
        self.assertLessEqual(len(text), 200_000)
        self.assertEqual((JUDGED / "collections.expected").read_text("ascii"), verdict(text) + "\n")


if __name__ == "__main__":
    unittest.main()
