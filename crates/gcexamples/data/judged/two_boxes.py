"""Two boxes of the wrong type of `borrowing.c` share a label: its in-degree is below the references that are visited.

With `1` as its word the program makes one box alone, and nothing is seen: the one reference that the box visits and
does not own is as many as the one that the program has.
"""
import gc
import sys

import borrowing


def main(boxes: int) -> None:
    """Makes boxes with one label, and collects."""
    gc.collect()
    label: list[object] = []
    kept = [borrowing.Box([], label) for _ in range(boxes)]
    gc.collect(0)
    print(f"{len(kept)} boxes with the label {label}")


if __name__ == "__main__":
    main(int(sys.argv[1]) if len(sys.argv) > 1 else 2)
