"""The package: it installs without a network, and finds the programs that were built."""
import os
import shutil
import subprocess
import tempfile
import unittest
import venv
from pathlib import Path
from unittest import mock

import test

from halzsetor import programs

from .recording import JUDGED, LONGEST, PYTHON, folder_of_pytest, run_python, verdict

# CPython 3.12 has these among its tests
WHEELS = [str(wheel) for name in ("setuptools", "wheel") for wheel in Path(test.__file__).parent.glob(f"{name}-*.whl")]
COMMANDS = ("gcheap", "gcplay", "gcrecord", "gcscript", "gctest")
# pip never asks a server
ALONE = ("-m", "pip", "install", "--quiet", "--no-index", "--disable-pip-version-check")


class Installed(unittest.TestCase):
    """The package in a fresh virtual environment."""

    @classmethod
    def setUpClass(cls) -> None:
        if len(WHEELS) < 2:
            raise unittest.SkipTest("this Python has no setuptools among its tests")
        folder = tempfile.TemporaryDirectory()
        cls.addClassCleanup(folder.cleanup)
        cls.folder = Path(folder.name)
        venv.create(cls.folder / "venv", with_pip=True)
        cls.bin = cls.folder / "venv" / ("Scripts" if os.name == "nt" else "bin")
        # a build leaves files beside the sources
        ignored = shutil.ignore_patterns("__pycache__", "tests", "build", "*.egg-info")
        shutil.copytree(PYTHON, cls.folder / "sources", ignore=ignored)
        cls.run_there("python", *ALONE, *WHEELS)
        cls.run_there("python", *ALONE, "--no-build-isolation", str(cls.folder / "sources"))
        shutil.rmtree(cls.folder / "sources")

    @classmethod
    def run_there(cls, command: str, *words: object) -> str:
        """What a command of the environment writes."""
        done = subprocess.run(
            [cls.bin / command, *map(str, words)], capture_output=True, text=True, cwd=cls.folder, timeout=LONGEST
        )
        if done.returncode != 0:
            raise AssertionError(f"{command} {words} ended with {done.returncode}: {done.stdout}{done.stderr}")
        return done.stdout

    def test_each_command_is_there(self) -> None:
        for command in COMMANDS:
            help_text = self.run_there(command, "--help")
            self.assertTrue(help_text.startswith(f"usage: {command} "), help_text)
            self.assertEqual(help_text, self.run_there("python", "-m", f"halzsetor.{command}", "--help"))

    def test_a_program_is_recorded(self) -> None:
        self.run_there("gcrecord", "-o", "cycles.out", JUDGED / "cycles.py", 2)
        self.assertRegex(verdict((self.folder / "cycles.out").read_text()), r"^yes \d+$")

    def test_pytest_has_the_plugin(self) -> None:
        folder = folder_of_pytest()
        if folder is None:
            self.skipTest("pytest is not there (apt-get install python3-pytest)")
        with mock.patch.dict(os.environ, {"PYTHONPATH": str(folder)}):
            self.assertIn("--gc-leaks-all", self.run_there("python", "-m", "pytest", "--help"))

    def test_a_script_is_run(self) -> None:
        (self.folder / "first.script").write_text("a = list\ndel a\n")
        self.assertEqual("made list #2\nend\n", self.run_there("gcscript", "first.script"))


class Programs(unittest.TestCase):
    """Where a built program is looked for."""

    def setUp(self) -> None:
        folder = tempfile.TemporaryDirectory()
        self.addCleanup(folder.cleanup)
        self.folder = Path(folder.name)
        patches = (mock.patch.dict(os.environ, {"PATH": ""}), mock.patch.object(programs, "CHECKOUT", self.folder))
        for patch in patches:
            patch.start()
            self.addCleanup(patch.stop)
        for name in ("GCRUN", "GCHEAP"):
            os.environ.pop(name, None)

    def program(self, *parts: str) -> str:
        """A program that stands there."""
        path = self.folder.joinpath(*parts)
        path.parent.mkdir(parents=True, exist_ok=True)
        path.write_text("#!/bin/sh\n")
        path.chmod(0o755)
        return str(path)

    def test_the_order(self) -> None:
        with self.assertRaises(programs.NotFound) as raised:
            programs.find("gcrun")
        self.assertEqual(
            "gcrun is not found. In a checkout of Halzsetor `cd crates/gcrun && rt run -- run < "
            "../../examples/objects/first.script` builds it;\n"
            "  then --gcrun FILE, the environment variable GCRUN or PATH says where it is",
            str(raised.exception),
        )
        built = self.program("crates", "gcrun", "out", "gcrun")
        self.assertEqual(built, programs.find("gcrun"))
        on_path = self.program("path", "gcrun")
        os.environ["PATH"] = str(self.folder / "path")
        self.assertEqual(on_path, programs.find("gcrun"))
        in_environment = os.environ["GCRUN"] = self.program("another")
        self.assertEqual(in_environment, programs.find("gcrun"))
        given = self.program("third")
        self.assertEqual(given, programs.find("gcrun", given))

    def test_a_command_of_the_package_is_no_program(self) -> None:
        built = self.program("crates", "gcheap", "out", "gcheap")
        command = Path(self.program("path", "gcheap"))
        command.write_text("#!/usr/bin/python3.12\nfrom halzsetor.gcheap import main\n")
        os.environ["PATH"] = str(self.folder / "path")
        self.assertEqual(built, programs.find("gcheap"))

    def test_a_name_that_is_wrong(self) -> None:
        missing = str(self.folder / "missing")
        self.program("crates", "gcrun", "out", "gcrun")
        with self.assertRaisesRegex(programs.NotFound, f"^--gcrun names {missing}, which is no program$"):
            programs.find("gcrun", missing)
        os.environ["GCRUN"] = missing
        with self.assertRaisesRegex(programs.NotFound, f"^GCRUN names {missing}, which is no program$"):
            programs.find("gcrun")

    def test_each_can_be_built(self) -> None:
        crates = PYTHON.parent / "crates"
        for name, how in programs.BUILDING.items():
            self.assertTrue(how.startswith(f"cd crates/{name} && rt run"))
            self.assertTrue((crates / name / "src").is_dir())


class Fronts(unittest.TestCase):
    """Words that are wrong."""

    def test_no_traceback(self) -> None:
        for line in ("gcscript", "gcscript --automatc x", "gcscript missing.script", "gcrecord", "gcplay", "gctest"):
            command, *words = line.split()
            done = run_python("-m", f"halzsetor.{command}", *words)
            self.assertEqual((2, False), (done.returncode, "Traceback" in done.stderr), done.stderr)


if __name__ == "__main__":
    unittest.main()
