"""Writes `collections.records`, real collections of this CPython, and `collections.expected`, the verdict on them.

The recorder is used from within the program here.
"""
import sys
from pathlib import Path

HERE = Path(__file__).resolve().parent
# the folder stands in crates/gcexamples/data, and `examples` is a link to that
sys.path.insert(0, str(HERE.parents[3] / "python"))

import cycles  # noqa: E402
from halzsetor.recorder import Recorder  # noqa: E402

ROUNDS = 18

if __name__ == "__main__":
    with open(HERE / "collections.records", "w", encoding="ascii") as file:
        with Recorder(file) as recorder:
            cycles.main(ROUNDS)
    (HERE / "collections.expected").write_text(f"yes {recorder.recorded}\n")
