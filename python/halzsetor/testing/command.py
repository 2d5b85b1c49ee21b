"""The command line of gctest: the words of unittest, and --gc-judge and --gc-leaks before them.

The status is that of unittest: 1 where a test failed, as one does that had a wrong collection.
"""
import argparse
import sys
import unittest

from ..programs import NotFound
from .runner import Runner
from .trials import Asked, add_options, asked_by


def arguments_of(words: list[str]) -> tuple[Asked, list[str]]:
    """What is asked of the tests, and the words for unittest."""
    parser = argparse.ArgumentParser(
        prog="gctest",
        usage="%(prog)s [--gc-judge] [--gc-leaks] [--gc-leaks-all] [--gccheck FILE] UNITTEST'S WORDS..",
        description="Runs tests as `python -m unittest` does, and judges and watches each.",
        allow_abbrev=False,
    )
    add_options(parser.add_argument)
    given, rest = parser.parse_known_args(words)
    asked = asked_by(given)
    if not asked.judge and not asked.watches:
        parser.error("nothing is asked of the tests: give --gc-judge, --gc-leaks or both")
    return asked, rest


def main(words: list[str]) -> int:
    """Runs the command line."""
    asked, rest = arguments_of(words)
    runner = type("Runner", (Runner,), {"asked": asked})
    if not sys.flags.safe_path:
        # as `python -m unittest` has it
        sys.path[0] = ""
    try:
        unittest.main(module=None, argv=["gctest", *rest], testRunner=runner)
    except NotFound as fault:
        sys.stderr.write(f"gctest: {fault}\n")
    return 2
