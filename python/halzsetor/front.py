"""How each command begins: with a word on the Python that runs it, since the rest is for CPython 3.12 alone.

This module is read by older Pythons too.
"""
import importlib
import sys


def run(command, module):
    """Runs the command line of a module, and ends the program with its status."""
    if sys.implementation.name != "cpython" or sys.version_info[:2] != (3, 12):
        sys.stderr.write("%s: CPython 3.12 is needed, and this is %s\n" % (command, python()))
        sys.exit(2)
    sys.exit(importlib.import_module(module, __package__).main(sys.argv[1:]))


def python():
    """The name and the version of the Python that runs this."""
    return "%s %d.%d" % (sys.implementation.name, sys.version_info[0], sys.version_info[1])
