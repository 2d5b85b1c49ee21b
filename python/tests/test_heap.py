"""gcheap: what is recorded of a heap, and the answers in words; the plain judge stands for the built program."""
import contextlib
import importlib.util
import io
import shutil
import subprocess
import sysconfig
import tempfile
import textwrap
import unittest
from concurrent.futures import ThreadPoolExecutor
from pathlib import Path

from . import ask
from .recording import GCHEAP, run_python, stand_in

EXT = Path(__file__).resolve().parent / "ext"
# begins a program that asks
IMPORTS = "import functools, gc, sys\nfrom halzsetor import gcheap\nclass Thing: pass\n"


class Judge(unittest.TestCase):
    """The plain judge, on a graph that was drawn by hand."""

    # 0 is held from outside and refers to 1 and 2; 1 refers to 3, and 2 to 3 and 4; 5 and 6 refer to each other, and
    # 5 to 7, which is not tracked; 8 holds itself by an untold word
    HEAP = """
        heap
        m 1 10 1 0 1 2
        m 1 20 1 0 3
        m 1 30 1 0 3 4
        m 2 40 1 0
        m 1 50 1 0
        m 1 60 1 0 6 7
        m 1 70 1 0 5
        m 1 80 0 0
        m 1 90 1 0
        u 8
        end
    """

    def answers(self, *questions: str) -> dict[str, list[str]]:
        """The answer to each question."""
        lines = textwrap.dedent(self.HEAP).strip().splitlines()
        graph, words = ask.read([*lines, *questions])
        self.assertIsNone(graph.fault(True))
        return {" ".join(question): list(ask.answer(graph, question)) for question in words}

    WANTED = {
        "why 4": ["held 0 1", "via 2", "via 4"],
        "why 3 but 1": ["held 0 1", "via 2", "via 3"],
        "why 3 but 1 2": ["none"],
        "why 6": ["none"],
        "referrers 3": ["referrer 1 1", "referrer 2 1", "outside 0"],
        "hidden": ["hidden 0 1 1", "hidden 8 1 0"],
        "lost": ["lost 5 0", "lost 6 0", "lost 7 0"],
        "drop 2": ["gone 2 1", "gone 4 1", "total 2 80 2 80"],
        "drop 1 2": ["gone 1 1", "gone 2 1", "gone 3 1", "gone 4 1", "total 4 140 4 140"],
        "untold": ["kept 8"],
    }
    # texts with their first bad line
    BAD = (
        ("end", 1),
        ("heap\nm 1 1 1\nend", 2),
        ("heap\nm 01 1 1 0\nend", 2),
        ("heap\nu 0\nend", 2),
        ("heap\nm 1 1 1 0", 3),
        ("heap\nm 1 1 1 0\nend\nwhy 1", 4),
        ("heap\nm 1 1 1 0\nend\nwhy 0 but 0", 4),
        ("heap\nm 1 1 1 0\nend\nwhat", 4),
    )

    def test_each_question(self) -> None:
        self.assertEqual(self.WANTED, self.answers(*self.WANTED))

    def test_lines_that_are_bad(self) -> None:
        for text, line in self.BAD:
            with self.assertRaises(ask.BadLine) as raised:
                ask.read(text.split("\n"))
            self.assertEqual((line,), raised.exception.args, text)

    def test_gcheap_says_the_same(self) -> None:
        if not GCHEAP.exists():
            how = "cd crates/gcheap && rt run < /dev/null"
            self.skipTest(f"gcheap is not built ({how}): the plain judge alone answers in these tests")
        asked = "\n".join([textwrap.dedent(self.HEAP).strip(), *self.WANTED])
        for text in (asked, *(text for text, _ in self.BAD)):
            with contextlib.redirect_stdout(io.StringIO()) as answers:
                status = ask.main(text + "\n")
            done = subprocess.run([GCHEAP], input=text + "\n", capture_output=True, text=True)
            self.assertEqual((status, answers.getvalue()), (done.returncode, done.stdout), text)


class Heaps(unittest.TestCase):
    """Programs that ask of their own heaps, in processes of their own."""

    def setUp(self) -> None:
        folder = tempfile.TemporaryDirectory()
        self.addCleanup(folder.cleanup)
        self.folder = Path(folder.name)
        self.program = stand_in(self.folder, "gcheap", "-m", "tests.ask")

    def run_program(self, text: str, *words: object, flags: tuple[str, ...] = ()) -> subprocess.CompletedProcess[str]:
        """Runs a program, by gcheap if words for that are given."""
        (self.folder / "prog.py").write_text(IMPORTS + textwrap.dedent(text).replace("GCHEAP", repr(str(self.program))))
        front = ("-m", "halzsetor.gcheap", *words) if words else ()
        return run_python(*flags, *front, "prog.py", folder=self.folder)

    def output(self, text: str, *flags: str) -> str:
        """What a program writes that asks; addresses are left out."""
        done = self.run_program(text, flags=flags)
        self.assertEqual((0, ""), (done.returncode, done.stderr))
        return "".join(f"{line.partition(' at 0x')[0]}\n" for line in done.stdout.splitlines())

    def test_a_path_of_attributes_keys_and_items(self) -> None:
        said = self.output(
            """
            class Holder: pass
            app = Holder()
            app.cache = {"k": [1, 2, 3, Thing()]}
            print(gcheap.why(app.cache["k"][3], gcheap=GCHEAP))
            """
        )
        self.assertEqual(
            "module __main__ (held from outside once)\n"
            "  .app                     -> __main__.Holder\n"
            "  .cache                   -> dict of 1\n"
            "  ['k']                    -> list of 4\n"
            "  [3]                      -> __main__.Thing\n\n",
            said,
        )

    def test_variables_of_closures_and_of_frames(self) -> None:
        said = self.output(
            """
            def outer():
                kept = Thing()
                return lambda: kept
            f = outer()
            print(gcheap.why(f(), gcheap=GCHEAP))
            def g():
                a = Thing()
                return ask(a)
            def ask(x):
                return gcheap.why(x, gcheap=GCHEAP)
            print(g())
            """
        )
        self.assertIn("  .f                       -> function outer.<locals>.<lambda>\n  cell 'kept' ", said)
        # that `ask` holds it by `x` is left out
        self.assertIn("frame of g, line 12 of prog.py (runs)\n  local 'a'                -> __main__.Thing\n", said)

    def test_the_cache_of_a_servers_handler(self) -> None:
        said = self.output(
            """
            import ctypes, http.server, threading, urllib.request
            class Handler(http.server.BaseHTTPRequestHandler):
                @functools.lru_cache
                def page(self, path): return path.encode()
                def log_message(self, *words): pass
                def do_GET(self):
                    self.send_response(200); self.end_headers(); self.wfile.write(self.page(self.path))
            server = http.server.HTTPServer(("127.0.0.1", 0), Handler)
            thread = threading.Thread(target=server.serve_forever); thread.start()
            urllib.request.urlopen(f"http://127.0.0.1:{server.server_port}/").read()
            server.shutdown(); thread.join(); server.server_close(); gc.collect()
            (address,) = [id(one) for one in gc.get_objects() if type(one) is Handler]
            print(gcheap.why(ctypes.cast(address, ctypes.py_object).value, gcheap=GCHEAP))
            """
        )
        self.assertIn("-> lru_cache of Handler.page\n", said)
        self.assertRegex(said, r"-> __main__.Handler\n\n$")

    def test_no_path_and_objects_left_out(self) -> None:
        said = self.output(
            """
            a = Thing(); b = [a]; c = [b]
            print(bool(gcheap.why(a, gcheap=GCHEAP)), bool(gcheap.why(a, vars(sys.modules["__main__"]), gcheap=GCHEAP)))
            """
        )
        self.assertEqual("True False\n", said)

    def test_other_threads_go_on(self) -> None:
        said = self.output(
            """
            import threading
            def work():
                mine = Thing()
                begun.set()
                while not done: sum(range(100))
            done, begun = False, threading.Event()
            thread = threading.Thread(target=work); thread.start(); begun.wait()
            (mine,) = [one for one in gc.get_objects() if type(one) is Thing]
            answer = gcheap.why(mine, vars(sys.modules["__main__"]), gcheap=GCHEAP)
            done = True; thread.join()
            print(answer)
            """
        )
        self.assertRegex(said, r"^frame of work, line \d+ of prog.py \(runs\)\n  local 'mine' +-> __main__.Thing\n")

    def test_what_would_go_is_what_goes(self) -> None:
        said = self.output(
            """
            import random, weakref
            from halzsetor.heap.asking import ask
            from halzsetor.heap.child import in_child
            from halzsetor.heap.heap import Heap
            class Node(list):
                __slots__ = ("__weakref__",)
                __hash__ = object.__hash__
            def graph(seed):
                pick = random.Random(seed)
                nodes = [Node() for _ in range(pick.randrange(3, 40))]
                edges = pick.randrange(len(nodes), 3 * len(nodes))
                for _ in range(edges): pick.choice(nodes).append(pick.choice(nodes))
                roots.append(Node([pick.choice(nodes) for _ in range(3)]))
                nodes.append(roots[-1])
                watched.append([weakref.ref(node) for node in nodes])
            def drops(whole, frames):
                heap = Heap(whole, frames)
                asked = [f"drop {heap.position_of(address)}" for address in addresses]
                return [count_of(lines) for lines in ask(GCHEAP, heap.text(), asked)]
            def count_of(lines):
                marks = [line.split()[2] for line in lines if line.startswith("gone ")]
                return [marks.count("1"), len(marks)]
            def gone(refs): return sum(ref() is None for ref in refs)
            gc.disable()
            roots, watched = [], []
            for seed in range(400): graph(seed)
            gc.collect()
            addresses = list(map(id, roots))
            before, said, done = list(map(gone, watched)), in_child(drops), []
            for place, refs in enumerate(watched):
                roots[place] = None
                done.append([gone(refs) - before[place]])
            gc.collect()
            for place, refs in enumerate(watched): done[place].append(gone(refs) - before[place])
            print(said == done, len(done), sum(later > first for first, later in done) > 100)
            """,
            "-S",
        )
        self.assertEqual("True 400 True\n", said)

    def test_a_system_without_fork(self) -> None:
        said = self.output("import os; del os.fork\nkept = [Thing()]\nprint(gcheap.why(kept[0], gcheap=GCHEAP))")
        self.assertIn("  .kept                    -> list of 1\n  [0]                      -> __main__.Thing\n", said)

    def test_threads_signals_and_forks_meanwhile(self) -> None:
        said = self.output(
            """
            import os, signal, threading
            class Handled: pass
            handled = []
            signal.signal(signal.SIGALRM, lambda number, frame: handled.append(Handled()))
            def fork():
                while not done:
                    child = os.fork()
                    if child == 0: os._exit(0)
                    os.waitpid(child, 0)
            def change():
                while not done: shared[:] = [[shared], {1: shared}]
            done, shared, kept = False, [], [Thing()]
            threads = [threading.Thread(target=work) for work in (fork, change)]
            for thread in threads: thread.start()
            signal.setitimer(signal.ITIMER_REAL, 0.002, 0.002)
            answers = {str(gcheap.why(kept[0], gcheap=GCHEAP)).count("[0] ") for _ in range(2)}
            signal.setitimer(signal.ITIMER_REAL, 0)
            done = True
            for thread in threads: thread.join()
            print(answers, len(handled) > 0, gc.isenabled())
            """,
            *("-W", "ignore::DeprecationWarning"),
        )
        self.assertEqual("{1} True True\n", said)

    def test_a_million_objects(self) -> None:
        # the program itself goes on while the child takes the heap
        said = self.output(
            """
            import threading, time
            from halzsetor.heap.child import in_child
            gc.disable()
            kept = [[] for _ in range(1_000_000)]
            longest, done = 0, False
            def look():
                global longest
                last = time.perf_counter()
                while not done:
                    time.sleep(0.001)
                    last, before = time.perf_counter(), last
                    longest = max(longest, last - before)
            thread = threading.Thread(target=look); thread.start()
            begun = time.perf_counter()
            number, is_closed = in_child(lambda whole, frames: [len(whole.objects), whole.is_closed()])
            done, taken = True, time.perf_counter() - begun
            thread.join()
            print(number > 1_000_000, is_closed, longest < taken / 2)
            """,
            "-S",
        )
        self.assertEqual("True True True\n", said)

    def test_no_count_is_too_low_behind_tests_of_cpython(self) -> None:
        names = "test_gc test_weakref test_finalization test_asyncio.test_futures test_asyncio.test_queues".split()
        if importlib.util.find_spec("test.test_gc") is None:
            self.skipTest("this Python has no tests of its own")
        with ThreadPoolExecutor(4) as pool:
            for name, said in zip(names, pool.map(self.said_behind, names)):
                self.assertTrue(said.endswith("True\n"), f"{name}: {said}")

    def said_behind(self, name: str) -> str:
        """What a program writes that runs tests of CPython and then asks of its heap."""
        folder = self.folder / name
        folder.mkdir()
        text = f"""
            import io, unittest
            suite = unittest.defaultTestLoader.loadTestsFromName("test.{name}")
            unittest.TextTestRunner(stream=io.StringIO()).run(suite)
            print(gcheap.lost(gcheap={str(self.program)!r}) is not None)
            """
        (folder / "prog.py").write_text(IMPORTS + textwrap.dedent(text))
        return run_python("prog.py", folder=folder).stdout

    def test_no_count_is_too_low(self) -> None:
        # of many modules: the judge would say `fault`
        modules = "asyncio, sqlite3, xml.dom.minidom, decimal, logging, json, email, http.server, csv, ssl, ctypes"
        said = self.output(f"import {modules}\nprint(gcheap.lost(gcheap=GCHEAP) is not None)")
        self.assertEqual("True\n", said)

    def test_what_was_made_since(self) -> None:
        said = self.output(
            """
            kept = []
            with gcheap.since() as made:
                kept.append(Thing()); Thing()
            print([type(one).__name__ for one in made.objects if type(one) is Thing])
            """
        )
        self.assertEqual("['Thing']\n", said)

    @unittest.skipUnless(shutil.which("cc"), "no C compiler")
    def test_planted_faults(self) -> None:
        module = self.folder / f"faulty{sysconfig.get_config_var('EXT_SUFFIX')}"
        include = sysconfig.get_paths()["include"]
        subprocess.run(["cc", "-shared", "-fPIC", "-O1", f"-I{include}", EXT / "faulty.c", "-o", module], check=True)
        said = self.output(
            """
            import faulty
            class A: pass
            class B: pass
            class C: pass
            class E: pass
            for _ in range(40): a = A(); a.h = faulty.Hider([], a)
            for _ in range(30): b = B(); b.l = faulty.Loose(b, None)
            for _ in range(20): c = C(); c.p = faulty.Plain(c, None)
            for _ in range(5): faulty.leak(E())
            del a, b, c
            gc.collect()
            print(gcheap.untold(gcheap=GCHEAP))
            print(gcheap.lost(gcheap=GCHEAP))
            print(gcheap.hidden(gcheap=GCHEAP))
            """
        )
        # 40 cycles through a reference that `tp_traverse` hides, 20 through a type that the collector does not know
        for line in ("40 __main__.A", "40 faulty.Hider", "20 __main__.C", "20 faulty.Plain"):
            self.assertIn(f"  kept by untold references: {line}\n", said)
        # 30 cycles through an object that is never tracked: garbage that no collection takes
        for line in ("30 __main__.B", "30 faulty.Loose"):
            self.assertIn(f"  no collection takes: {line}\n", said)
        self.assertIn("  5 __main__.E held from outside, by 5 references that nothing explains\n", said)

    def test_leaks_of_cpython(self) -> None:
        said = self.output(
            """
            import sqlite3, cProfile, time, ctypes
            class Function:
                def __init__(self): self.db = sqlite3.connect(":memory:"); self.db.create_function("f", 1, self.f)
                def f(self, x): return x
            class Collation:
                def __init__(self): self.db = sqlite3.connect(":memory:"); self.db.create_collation("f", self.f)
                def f(self, x, y): return 0
            class Trace:
                def __init__(self): self.db = sqlite3.connect(":memory:"); self.db.set_trace_callback(self.f)
                def f(self, x): return x
            class Timer:
                def __init__(self): self.p = cProfile.Profile(self.t)
                def t(self): return time.perf_counter()
            Function(); Collation(); Trace(); Timer()
            gc.collect()
            for kind in Function, Collation, Trace, Timer:
                left = [one for one in gc.get_objects() if type(one) is kind]
                print(kind.__name__, len(left))
                if left:
                    address = id(left.pop())
                    print(gcheap.why(ctypes.cast(address, ctypes.py_object).value, gcheap=GCHEAP))
            print(gcheap.untold(gcheap=GCHEAP))
            """
        )
        self.assertIn("Function 1\nmethod Function.f (held from outside once)\n  .__self__ ", said)
        self.assertIn("Collation 1\nmethod Collation.f (held from outside once)\n  .__self__ ", said)
        # the callback of a trace is told
        self.assertIn("Trace 0\n", said)
        self.assertIn("Timer 1\nmethod Timer.t (held from outside once)\n  .__self__ ", said)
        self.assertIn("  kept by untold references: 1 __main__.Timer\n", said)

    def test_a_program_whose_heap_is_written(self) -> None:
        done = self.run_program("kept = Thing()\nprint(sys.argv, __name__)\nsys.exit(7)", "-o", "out")
        self.assertEqual((7, "['prog.py'] __main__\n"), (done.returncode, done.stdout))
        self.assertRegex(done.stderr, r"^gcheap: \d+ members in .*/out\n$")
        names = (self.folder / "out.objects").read_text().splitlines()
        (position,) = [line.split()[0] for line in names if " __main__.Thing at " in line]
        words = ("--gcheap", self.program, "--ask", "out", f"why {position}", f"referrers {position}")
        asked = run_python("-m", "halzsetor.gcheap", *words, folder=self.folder)
        self.assertRegex(asked.stdout, rf"^why {position}\n  held (.*\n)*  via {position}  __main__.Thing at 0x\w+\n")
        self.assertRegex(asked.stdout, r"\n  referrer \d+ 1  globals of __main__\n  outside 0\n$")

    def test_a_heap_at_a_signal(self) -> None:
        program = "import os, signal\nos.kill(os.getpid(), signal.SIGUSR1); print(os.getpid())"
        done = self.run_program(program, "-o", "out", "--on-signal", "USR1")
        self.assertEqual((0, ""), (done.returncode, done.stderr))
        self.assertTrue((self.folder / f"out.{done.stdout.strip()}.1").read_text().startswith("heap\nm "))

    def test_what_a_user_can_do_wrong(self) -> None:
        for words, said in (
            ([], "a program is missing"),
            (["prog.py"], "-o OUT is missing"),
            (["-o", "prog.py", "prog.py"], "is the name of a program"),
            (["-o", "out", "missing.py"], "there is no program missing.py"),
            (["-o", "missing/out", "prog.py"], "there is no folder"),
            (["--gcheap", "missing", "--ask", "out", "lost"], "--gcheap names missing, which is no program"),
            (["-o", "out", "--on-signal", "NONE", "prog.py"], "there is no signal NONE"),
        ):
            (self.folder / "prog.py").write_text("print(1)\n")
            done = run_python("-m", "halzsetor.gcheap", *words, folder=self.folder)
            self.assertEqual((2, True), (done.returncode, said in done.stderr), (words, done.stderr))
            self.assertNotIn("Traceback", done.stderr)
        (self.folder / "out").write_text("notes\n")
        done = run_python("-m", "halzsetor.gcheap", "-o", "out", "prog.py", folder=self.folder)
        self.assertIn("holds something else than a heap", done.stderr)


if __name__ == "__main__":
    unittest.main()
