"""Stands for gcrun where that is not built: `run` has the script carried out by CPython, which shows fewer lines.

    python3.12 -S -m tests.stand_in run < SCRIPT
"""
import sys
import tempfile

from halzsetor.beside.main import main

if __name__ == "__main__":
    if sys.argv[1:2] != ["run"]:
        print("bad words")
        sys.exit(2)
    with tempfile.NamedTemporaryFile() as script:
        script.write(sys.stdin.buffer.read())
        script.flush()
        sys.exit(main([script.name]))
