"""gcheap on heaps drawn at random, and on texts that are hostile: it has to answer as the plain judge does (tests/ask.py)."""
import contextlib
import io
import random
import subprocess
import unittest
from concurrent.futures import ThreadPoolExecutor
from typing import Iterable

from halzsetor import programs
from tests import ask

MOST = 268_435_456
SMALL = b"heap\nm 1 8 1 0 0\nu 0\nend\nwhy 0\n"
GRAPHS = 2_000


def judged(text: bytes) -> tuple[int, list[str]]:
    """What the plain judge answers."""
    with contextlib.redirect_stdout(io.StringIO()) as answers:
        status = ask.main(text.decode("latin-1"))
    return status, ask.without_choice(answers.getvalue())


def drawn(seed: int) -> bytes:
    """A heap of up to eight members with questions of all kinds."""
    choice = random.Random(seed)
    size = choice.randint(1, 8)
    rows = [choice.choices(range(size), k=choice.randint(0, 3)) for _ in range(size)]
    words = [choice.choices(range(size), k=choice.randint(0, 2)) if choice.random() < 0.3 else [] for _ in range(size)]
    lines = ["heap"]
    for member in range(size):
        known = sum(row.count(member) for row in rows)
        degree = known + choice.choice((0, 0, 0, 1, 2))
        first = [degree, choice.randint(0, 99), int(choice.random() < 0.8), int(choice.random() < 0.1)]
        lines.append(" ".join(map(str, ["m", *first, *rows[member]])))
        if words[member]:
            lines.append(" ".join(map(str, ["u", *words[member]])))
    lines.append("end")
    some = sorted(choice.sample(range(size), choice.randint(1, min(2, size))))
    asked = choice.randrange(size)
    without = [other for other in some if other != asked]
    lines += [f"why {asked}", f"referrers {asked}", "hidden", "lost", " ".join(["drop", *map(str, some)])]
    if without:
        lines.append(" ".join([f"why {asked} but", *map(str, without)]))
    if choice.random() < 0.5:
        lines.append("untold")
    return "\n".join(lines).encode() + b"\n"


class Hostile(unittest.TestCase):
    """The built program alone; without it the tests are skipped."""

    def setUp(self) -> None:
        try:
            self.program = programs.find("gcheap")
        except programs.NotFound as missing:
            self.skipTest(str(missing))

    def answer(self, text: bytes) -> tuple[int, str]:
        ran = subprocess.run([self.program], input=text, capture_output=True, timeout=100)
        return ran.returncode, ran.stdout.decode("latin-1")

    def check(self, texts: Iterable[bytes]) -> None:
        """Each text is answered as the judge answers it."""
        texts = list(texts)
        with ThreadPoolExecutor(4) as pool:
            for text, (status, output) in zip(texts, pool.map(self.answer, texts)):
                self.assertEqual(judged(text), (status, ask.without_choice(output)), text)

    def test_heaps_at_random(self) -> None:
        self.check(map(drawn, range(GRAPHS)))

    def test_each_byte_in_each_place(self) -> None:
        self.check(SMALL[:at] + bytes([byte]) + SMALL[at + 1 :] for at in range(len(SMALL)) for byte in range(128))

    def test_a_byte_that_is_no_ascii(self) -> None:
        self.check(SMALL[:at] + bytes([byte]) + SMALL[at + 1 :] for at in range(len(SMALL)) for byte in (128, 195, 255))

    def test_numbers_at_their_limits(self) -> None:
        self.check(
            f"heap\nm {degree} {size} 1 0\nend\nhidden\ndrop 0\n".encode()
            for degree in (0, 2**64 - 1, 2**64, 10**30)
            for size in (0, 2**36 - 1, 2**36, 2**64)
        )

    def test_places_one_too_far(self) -> None:
        for text in (b"why 1", b"referrers 1", b"drop 0 1", b"why 0 but 1", b"why 18446744073709551615"):
            self.assertEqual((1, "bad line 4\n"), self.answer(b"heap\nm 0 8 1 0\nend\n" + text + b"\n"))
        self.assertEqual((1, "fault 2 0\n"), self.answer(b"heap\nm 0 8 1 0 1\nend\n"))

    def test_as_many_blanks_as_it_reads(self) -> None:
        self.assertEqual((1, "bad line 1\n"), self.answer(b" " * MOST))
        self.assertEqual((7, "too large\n"), self.answer(b" " * (MOST + 1)))

    def test_a_million_questions(self) -> None:
        number = 1_000_000
        status, output = self.answer(b"heap\nm 1 8 1 0\nend\n" + b"referrers 0\n" * number)
        self.assertEqual(0, status)
        self.assertEqual("referrers 0\noutside 1\ndone\n" * number, output)


if __name__ == "__main__":
    unittest.main()
