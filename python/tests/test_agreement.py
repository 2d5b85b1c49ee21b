"""Scripts beside the texts of gcrun: the examples, those for the named points, and generated ones."""
import unittest

from halzsetor.beside import points, reader
from halzsetor.beside.main import OURS

from .generator import Generator
from .recording import run_python
from .running import (
    EXAMPLES,
    OTHERWISE,
    PLAIN,
    Case,
    compare_all,
    example_cases,
    folder_cases,
    run,
    stored_cases,
    stored_consequences,
    stored_groups,
    stored_points,
)

NAMES = {value.partition(":")[0] for name, value in vars(points).items() if name.isupper()}
FORMS = set(reader.BINDINGS) | set(reader.OPENERS) - OURS.keys() - {"shutdown"}


def finalizers_together(text: str) -> int:
    """The most finalizers that one collection runs."""
    return max(part.partition("\ngc stop")[0].count("\nenter del ") for part in text.split("gc start "))


class Stored(unittest.TestCase):
    """Cases that agree, or differ in just the points that are stored."""

    def check(self, cases: list[Case]) -> None:
        """Compares each."""
        points, consequences = stored_points(), stored_consequences()
        for case, outcome in compare_all(cases):
            with self.subTest(case.name):
                if case.name in consequences:
                    self.assertEqual(consequences[case.name][1], outcome.difference)
                else:
                    self.assertEqual(points.get(case.name, []), outcome.points, outcome.output + outcome.message)


class Examples(Stored):
    """The scripts of the folders of `examples`, but for those with rules and commands of ours alone."""

    def test_all_agree(self) -> None:
        cases = example_cases()
        self.assertGreaterEqual(len(cases), 30)
        self.check(cases)


class Otherwise(unittest.TestCase):
    """The examples that CPython does otherwise: each differs in the point of its name and in no other."""

    def test_each_is_named(self) -> None:
        for case, outcome in compare_all(folder_cases(OTHERWISE)):
            with self.subTest(case.name):
                self.assertEqual((0, [case.name.partition("-")[0]]), (outcome.status, outcome.points), outcome.message)

    def test_each_point_has_a_script(self) -> None:
        self.assertEqual(NAMES, {case.name.partition("-")[0] for case in folder_cases(OTHERWISE)})

    def test_plain_programs(self) -> None:
        for case in folder_cases(PLAIN):
            with self.subTest(case.name):
                stored = (PLAIN / f"{case.name}.cpython.txt").read_text()
                self.assertEqual(stored, run_python(PLAIN / f"{case.name}.py").stdout)

    def test_each_row_of_the_rules_has_a_script(self) -> None:
        rules = (EXAMPLES.parent / "docs" / "RULES.md").read_text()
        for folder, before in ((OTHERWISE, ""), (PLAIN, "plain/")):
            for case in folder_cases(folder):
                self.assertIn(f"| `{before}{case.name}` |", rules)

    def test_each_has_the_text_of_cpython(self) -> None:
        for case in folder_cases(OTHERWISE):
            # by itself CPython starts collections only where it is let
            options = ["--automatic"] if case.name == "automatic" else []
            with self.subTest(case.name):
                stored = (OTHERWISE / f"{case.name}.cpython.txt").read_text()
                self.assertEqual(stored, run(case.script, *options).output)


class Generated(Stored):
    """The scripts of the generator."""

    def test_texts_are_of_these_scripts(self) -> None:
        cases = stored_cases()
        self.assertGreaterEqual(len(cases), 300)
        for seed, case in enumerate(cases):
            self.assertEqual((f"seed {seed}", Generator(seed).script()), (case.name, case.script))

    def test_all_commands_come(self) -> None:
        words = [line.split() for case in stored_cases() for line in case.script.splitlines()]
        forms = {line[2] if line[1:2] == ["="] else line[0] for line in words if line}
        self.assertEqual(FORMS, forms & FORMS)

    def test_all_agree(self) -> None:
        self.check(stored_cases())

    def test_stored_points_are_of_cases(self) -> None:
        known = {case.name for case in example_cases() + stored_cases() + stored_groups()}
        for name, points in stored_points().items():
            self.assertIn(name, known)
            self.assertEqual((True, []), (points != [], [point for point in points if point not in NAMES]), name)
        for name, (point, difference) in stored_consequences().items():
            self.assertIn(name, known)
            self.assertEqual((True, True), (point in NAMES, difference != ""), name)


class GeneratedGroups(Stored):
    """The scripts about groups of objects that collections find together."""

    def test_there_are_many(self) -> None:
        cases = stored_groups()
        self.assertEqual([f"group {seed}" for seed in range(2000)], [case.name for case in cases])
        texts = [case.text for case in cases]
        self.assertGreater(sum("\nalive " in text for text in texts), 500)
        self.assertGreater(sum("\nenter callback " in text for text in texts), 500)
        self.assertGreater(sum(finalizers_together(text) > 2 for text in texts), 500)

    def test_all_agree(self) -> None:
        self.check(stored_groups())
