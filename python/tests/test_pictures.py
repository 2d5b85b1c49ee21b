"""Pictures: what is drawn of a path and of a recorded graph, and that graphviz reads it."""
import re
import shutil
import subprocess
import tempfile
import textwrap
import unittest
from pathlib import Path

from halzsetor.dot import Picture

from .recording import LONGEST, run, run_python, stand_in

# 1 is held from outside and refers to 2; 3 and 4 refer to each other, and 4 to 2; 5 has a legacy finalizer and holds 6
RECORDS = """\
record 0
graph 1
m 1 1 0
r 2
m 2 2 0
m 3 1 0
r 4
m 4 1 0
r 3
r 2
m 5 1 1
r 5
r 6
r 6
m 6 2 0
lost 3
lost 4
lost 5
lost 6
legacy 5
legacy 6
cut
end
"""
OBJECTS = 'graph 1\n1 0xa app."C\n2 0xb list\n'
BOXES = """\
  "1" [label="app.\\"C\\n1 = 0 + 1 from outside\\nsurvives"]
  "2" [label="list\\nsurvives"]
  "3" [label="serial 3\\nlost", fillcolor="gray85"]
  "4" [label="serial 4\\nlost", fillcolor="gray85"]
  "5" [label="serial 5\\nset aside", fillcolor="lightsalmon"]
  "6" [label="serial 6\\nset aside", fillcolor="lightsalmon"]
  "1" -> "2" [label=""]
  "3" -> "4" [label=""]
  "4" -> "3" [label=""]
  "4" -> "2" [label=""]
  "5" -> "5" [label=""]
  "5" -> "6" [label="2 times"]
"""
# 0 refers to 1, and 1 to 2 twice; 3 to 7 refer to 0, and 8 has an untold word for it
HEAP = """\
heap
m 10 10 1 0 1
m 1 20 1 0 2 2
m 2 30 1 0
m 1 10 1 0 0
m 1 10 1 0 0
m 1 10 1 0 0
m 1 10 1 0 0
m 1 10 1 0 0
m 1 10 1 0
u 0
end
"""
PATH = """\
  "0" [label="globals of app\\n10 references = 5 + 5 untold", penwidth="2"]
  "3" [label="member 3", color="gray"]
  "3" -> "0" [label=""]
  "4" [label="member 4", color="gray"]
  "4" -> "0" [label=""]
  "5" [label="member 5", color="gray"]
  "5" -> "0" [label=""]
  "6" [label="member 6", color="gray"]
  "6" -> "0" [label=""]
  "more of 0" [label="1 more", shape="plaintext", style="", fontcolor="gray30"]
  "more of 0" -> "0" []
  "8" [label="member 8", color="gray"]
  "8" -> "0" [label="untold", style="dashed"]
  "outside 0" [label="elsewhere", shape="plaintext", style="", fontcolor="gray30"]
  "outside 0" -> "0" [label="4 times", style="dashed"]
  "1" [label="member 1\\n1 reference", penwidth="2"]
  "0" -> "1" [label="", penwidth="2"]
  "2" [label="app.Thing\\n2 references", penwidth="2", fillcolor="lightyellow"]
  "1" -> "2" [label="2 times", penwidth="2"]
"""


class Pictures(unittest.TestCase):
    """What is drawn; each picture is read by graphviz too, if that is there."""

    def setUp(self) -> None:
        folder = tempfile.TemporaryDirectory()
        self.addCleanup(folder.cleanup)
        self.folder = Path(folder.name)
        self.gcheap = stand_in(self.folder, "gcheap", "-m", "tests.ask")

    def write(self, name: str, text: str) -> None:
        """Writes a file."""
        (self.folder / name).write_text(text)

    def drawn(self, picture: str) -> str:
        """The boxes and arrows of a picture."""
        first, *rest = picture.splitlines(True)
        self.assertRegex(first, r'^digraph ".*" \{\n$')
        self.assertEqual("}\n", rest.pop())
        if shutil.which("dot"):
            done = subprocess.run(["dot", "-Tsvg"], input=picture, capture_output=True, text=True, timeout=LONGEST)
            self.assertEqual((0, ""), (done.returncode, done.stderr))
            self.assertIn("</svg>", done.stdout)
        return "".join(rest[2:])

    def test_graphviz_is_there(self) -> None:
        if not shutil.which("dot"):
            self.skipTest("graphviz is not there (apt-get install graphviz): no picture is drawn here")

    def test_texts_are_quoted(self) -> None:
        picture = Picture('a "title"')
        picture.box('k"', 'back\\slash "quote"\nnext {|} <b>')
        self.assertEqual(
            '  "k\\"" [label="back\\\\slash \\"quote\\"\\nnext {|} <b>"]\n', self.drawn(picture.text())
        )

    def test_a_recorded_graph(self) -> None:
        self.write("out", RECORDS)
        self.write("out.objects", OBJECTS)
        done = run("--dot", "out", 1, folder=self.folder)
        self.assertEqual((0, ""), (done.returncode, done.stderr))
        self.assertEqual(BOXES, self.drawn(done.stdout))

    def test_what_is_wrong_is_marked(self) -> None:
        self.write("out", RECORDS.replace("lost 3\n", "lost 2\n"))
        picture = self.drawn(run("--dot", "out", 1, folder=self.folder).stdout)
        marked = re.findall(r'"(\d+)" \[.*color="red"', picture)
        self.assertEqual(["2", "3"], marked)

    def test_of_a_large_graph_what_was_found_is_drawn(self) -> None:
        members = "".join(f"m {serial} 1 0\nr {serial + 1}\n" for serial in range(10, 1000)) + "m 1000 2 0\n"
        self.write("out", RECORDS.replace("lost 3\n", members + "lost 3\n", 1))
        picture = self.drawn(run("--dot", "out", 1, folder=self.folder).stdout)
        self.assertEqual({"2", "3", "4", "5", "6", "more"}, set(re.findall(r'^  "(\w+)" \[', picture, re.MULTILINE)))
        self.assertIn('"more" [label="992 more survive"', picture)

    def test_words_that_are_wrong(self) -> None:
        self.write("out", RECORDS)
        self.write("notes", "notes\n")
        for words, said in (
            (["--dot", "out"], "the number of one graph is wanted"),
            (["--dot", "out", "one"], "the number of one graph is wanted"),
            (["--dot", "out", 2], "there is no graph 2 in out"),
            (["--dot", "notes", 1], "notes is no text of records"),
            (["--dot", "missing", 1], "No such file or directory: 'missing'"),
            (["--dot", "out", "--judge", 1], "--dot takes none of -o, -m, --judge and --explain"),
        ):
            done = run(*words, folder=self.folder)
            self.assertEqual((2, True), (done.returncode, said in done.stderr), done.stderr)
            self.assertNotIn("Traceback", done.stderr)

    def ask(self, *words: str) -> subprocess.CompletedProcess[str]:
        """Asks gcheap about the heap."""
        self.write("out", HEAP)
        self.write("out.objects", "0 globals of app\n2 app.Thing\n")
        front = ("-m", "halzsetor.gcheap", "--gcheap", self.gcheap, "--ask", "out")
        return run_python(*front, *words, folder=self.folder)

    def test_a_path(self) -> None:
        done = self.ask("--dot", "why 2")
        self.assertEqual((0, ""), (done.returncode, done.stderr))
        self.assertEqual(PATH, self.drawn(done.stdout))

    def test_no_path(self) -> None:
        done = self.ask("--dot", "why 1 but 0")
        said = (0, "", "gcheap: no path of holders leads to it\n")
        self.assertEqual(said, (done.returncode, done.stdout, done.stderr))
        for words in (["--dot", "lost"], ["--dot", "why 1", "why 2"], ["--dot"]):
            done = self.ask(*words)
            self.assertEqual((2, True), (done.returncode, "--dot is for --ask with one question" in done.stderr))

    def test_a_path_of_a_living_heap(self) -> None:
        program = """
            from halzsetor import gcheap
            class Thing: pass
            class App: pass
            app = App(); app.pages = {"start": Thing()}
            print(gcheap.picture(app.pages["start"], gcheap=GCHEAP))
        """
        self.write("prog.py", textwrap.dedent(program).replace("GCHEAP", repr(str(self.gcheap))))
        done = run_python("prog.py", folder=self.folder)
        self.assertEqual((0, ""), (done.returncode, done.stderr))
        picture = self.drawn(done.stdout.removesuffix("\n"))
        self.assertRegex(picture, r'\[label="__main__.Thing at 0x\w+\\n1 reference", penwidth="2", fillcolor')
        self.assertRegex(picture, r"\[label=\"\['start'\]\", penwidth=\"2\"\]")


if __name__ == "__main__":
    unittest.main()
