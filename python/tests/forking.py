"""Runs many command lines of gcscript, each in a process forked off from one that has imported the program.

    python3.12 -S -m tests.forking

Standard input has a line of JSON for each: its words. Standard output has one for each: status, output and message.
"""
import json
import os
import signal
import sys
import tempfile
from typing import BinaryIO, NoReturn

from halzsetor.beside.main import main

# how many seconds one may take
LONGEST = 600


def child(words: list[str], files: list[BinaryIO]) -> NoReturn:
    """Runs a command line, with its output and its message in these files."""
    signal.alarm(LONGEST)
    for descriptor, file in enumerate(files, 1):
        os.dup2(file.fileno(), descriptor)
    status = main(words)
    sys.stdout.flush()
    os._exit(status)


def outcome(words: list[str]) -> tuple[int, str, str]:
    """The status, which is below 0 where a signal has ended it, the output and the message of a command line."""
    with tempfile.TemporaryFile() as output, tempfile.TemporaryFile() as message:
        number = os.fork()
        if number == 0:
            try:
                child(words, [output, message])
            finally:
                os._exit(70)
        status = os.waitstatus_to_exitcode(os.waitpid(number, 0)[1])
        for file in (output, message):
            file.seek(0)
        return status, output.read().decode(), message.read().decode()


if __name__ == "__main__":
    for line in sys.stdin:
        print(json.dumps(outcome(json.loads(line))), flush=True)
