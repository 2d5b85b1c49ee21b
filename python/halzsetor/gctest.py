"""The command `gctest`, and what test cases take from here: see README.md.

    from halzsetor import gctest
    class Tests(gctest.Judged, unittest.TestCase): ..
    unittest.main(testRunner=gctest.Runner)
"""
import sys

from .front import run

if sys.implementation.name == "cpython" and sys.version_info[:2] == (3, 12):
    from .testing.runner import Judged, LeavesNothing, Runner
    from .testing.trials import Asked


def main():
    """Runs it."""
    run("gctest", ".testing.command")


if __name__ == "__main__":
    main()
