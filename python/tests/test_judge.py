"""The plain judge on small records, each verdict by hand."""
import subprocess
import unittest

from .recording import GCCHECK, verdict

# a list that held itself and was thrown away, as the collector finds it and as it is left after the finalizers
OWN_LIST = "record 2; graph 1; m 2 1 0; r 2; lost 2; graph 2; m 2 1 0; r 2; lost 2; stop; end"
# an instance with a legacy finalizer that held itself
LEGACY = "record 2; graph 1; m 2 1 1; r 2; lost 2; legacy 2; graph 2; stop; end"
# 1 is held from outside and refers to 2, which refers to 3; 4 and 5 refer to each other, and 5 to 3
HELD = (
    "record 0; graph 1; m 1 1 0; r 2; m 2 1 0; r 3; m 3 2 0; m 4 1 0; r 5; m 5 1 0; r 4; r 3; "
    "lost 5; lost 4; cut; end"
)

VERDICTS = [
    ("end", "yes 0"),
    (OWN_LIST, "yes 1"),
    (LEGACY, "yes 1"),
    (HELD, "yes 1"),
    (OWN_LIST.replace("lost 2; graph 2", "graph 2"), "no 1 4"),
    (OWN_LIST.replace("lost 2; stop", "stop"), "no 2 4"),
    (OWN_LIST.replace("; end", ""), "no 0 1"),
    (OWN_LIST.replace("r 2", "r 3", 1), "no 1 2"),
    (OWN_LIST.replace("m 2 1 0; r 2", "m 2 0 0; r 2", 1), "no 1 3"),
    (LEGACY.replace("legacy 2; ", ""), "no 1 5"),
    (LEGACY.replace("r 2; ", ""), "no 1 4"),
    (LEGACY.replace("legacy 2", "legacy 2; legacy 2"), "no 1 2"),
    (HELD.replace("lost 5; lost 4", "lost 5; lost 4; lost 3"), "no 1 4"),
    (HELD.replace("m 4 1 0", "m 4 1 1"), "no 1 5"),
    (HELD.replace("m 4 1 0", "m 4 1 1").replace("cut", "legacy 4; legacy 5; cut"), "yes 1"),
    (HELD.replace("m 3 2 0", "m 3 1 0"), "no 1 3"),
    (HELD.replace("m 3 2 0", "m 03 2 0"), "no 0 1"),
    (HELD.replace("record 0", "record 3"), "no 0 1"),
    (HELD.replace("m 3 2 0", "m 3 2 2"), "no 0 1"),
    (HELD.replace("m 3 2 0", f"m 3 {2**64} 0"), "no 0 1"),
    (HELD.replace("end", "end; end"), "no 0 1"),
]


class Verdicts(unittest.TestCase):
    """Verdicts on texts, their lines set apart by semicolons."""

    def test_each_verdict(self) -> None:
        for text, wanted in VERDICTS:
            with self.subTest(text):
                self.assertEqual(wanted, verdict(text.replace("; ", "\n") + "\n"))

    def test_no_line_feed_at_the_end(self) -> None:
        self.assertEqual("no 0 1", verdict("end"))

    def test_gccheck_says_the_same(self) -> None:
        if not GCCHECK.exists():
            self.skipTest("gccheck is not built (cd crates/gccheck && rt run): it judges no record here")
        # `verdict` asks it too, here and for each record of the other tests
        for text, wanted in VERDICTS:
            done = subprocess.run([GCCHECK], input=text.replace("; ", "\n") + "\n", capture_output=True, text=True)
            self.assertEqual(wanted + "\n", done.stdout, text)
