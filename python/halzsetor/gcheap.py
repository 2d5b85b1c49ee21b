"""The command `gcheap`, and what a program asks of its own heap: see README.md.

    from halzsetor import gcheap
    print(gcheap.why(thing))
"""
import sys

from .front import run

if sys.implementation.name == "cpython" and sys.version_info[:2] == (3, 12):
    from .heap.api import Answer, drop, hidden, lost, picture, referrers, untold, why
    from .heap.made import since
    from .heap.record import on_signal


def main():
    """Runs it."""
    run("gcheap", ".heap.command")


if __name__ == "__main__":
    main()
