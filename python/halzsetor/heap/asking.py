"""Asks the built gcheap: the heap and the questions go to its standard input, and its answers come back."""
import subprocess
import tempfile
from typing import Iterable

from .child import Failed

FAULTS = {
    2: "a reference names no member",
    3: "a count is below the references that are known",
    4: "a count is below the references that are known and the untold words",
}
STATUSES = {
    2: "bad words",
    3: "its input failed",
    4: "its output failed",
    5: "out of memory",
    7: "the heap is too large",
}


def ask(program: str, heap: Iterable[str], questions: list[str]) -> list[list[str]]:
    """For each question the lines of its answer."""
    with tempfile.TemporaryFile("w+", encoding="ascii", newline="\n") as file:
        file.writelines(heap)
        file.writelines(question + "\n" for question in questions)
        file.seek(0)
        done = subprocess.run([program], stdin=file, capture_output=True, text=True)
    if done.returncode != 0:
        raise Failed(f"{program}: {reason(done)}")
    return answers(done.stdout.splitlines(), questions)


def reason(done: subprocess.CompletedProcess[str]) -> str:
    """Why there is no answer."""
    words = done.stdout.split()
    if done.returncode == 1 and words[:1] == ["fault"]:
        return f"{FAULTS.get(int(words[1]), 'a fault')} (member {words[2]})"
    return STATUSES.get(done.returncode, done.stdout.strip() or f"it ended with status {done.returncode}")


def answers(lines: list[str], questions: list[str]) -> list[list[str]]:
    """The lines of each answer; each begins with its question and ends with `done`."""
    found: list[list[str]] = []
    for question in questions:
        if not lines or lines[0] != question or "done" not in lines:
            raise Failed(f"the answers are not those to the questions: `{question}` has none")
        end = lines.index("done")
        found.append(lines[1:end])
        lines = lines[end + 1 :]
    return found
