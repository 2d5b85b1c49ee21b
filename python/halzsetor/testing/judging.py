"""Has gccheck judge the collections of each test."""
import gc
import os
import tempfile
from collections import Counter
from typing import TextIO

from ..programs import NotFound, find
from ..recorder import Recorder
from ..recorder.explain import Records
from ..recorder.files import BESIDE, Refused
from ..recorder.verdict import RIGHT, verdict_on


class Judging:
    """Judges the collections of one test after the other, each also by one of generation 1 at its end."""

    def __init__(self, gccheck: str | None = None) -> None:
        self.gccheck = gccheck
        self.folder = tempfile.TemporaryDirectory(prefix="gc-judge-")
        self.out = os.path.join(self.folder.name, "records")
        self.recorder: Recorder | None = None
        self.files: list[TextIO] = []
        # how many collections were judged, how many tests had a wrong one, and why collections were left out
        self.judged = self.wrong = 0
        self.left_out: Counter[str] = Counter()

    def begin(self) -> None:
        """A test begins."""
        self.files += [open(name, "w", encoding="ascii", newline="\n") for name in (self.out, self.out + BESIDE)]
        self.recorder = Recorder(*self.files)
        self.recorder.__enter__()

    def end(self) -> str | None:
        """A test has ended; answers what is wrong with a collection of it."""
        if self.recorder is None:
            return None
        gc.collect(1)
        recorded = self.stop()
        if recorded == 0:
            return None
        self.judged += recorded
        try:
            verdict = verdict_on(self.out, find("gccheck", self.gccheck))
        except (Refused, NotFound) as fault:
            return f"the collections could not be judged: {fault}"
        if verdict.startswith(RIGHT):
            return None
        self.wrong += 1
        return f"a collection was wrong: {verdict}: {Records(self.out).explain([verdict]).rstrip()}"

    def stop(self) -> int:
        """Records no more; answers how many collections were recorded."""
        recorder, self.recorder = self.recorder, None
        if recorder is None:
            return 0
        recorder.__exit__()
        while self.files:
            self.files.pop().close()
        self.left_out += recorder.left_out
        # a process that a test forked off ends it too
        return recorder.recorded if recorder.process == os.getpid() else 0

    def forget(self) -> None:
        """Begins to count anew."""
        self.judged = self.wrong = 0
        self.left_out.clear()

    def lines(self) -> list[str]:
        """What is said of all tests."""
        verdict = f"wrong ones in {self.wrong} tests" if self.wrong else "each of them right"
        lines = [f"{self.judged} collections judged, {verdict}"]
        return lines + [f"left out {times}: {why}" for why, times in self.left_out.items()]

    def close(self) -> None:
        """No test is to come."""
        self.stop()
        self.folder.cleanup()
