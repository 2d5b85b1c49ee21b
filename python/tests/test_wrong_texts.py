"""Texts that are wrong in one line: where no point is in play, no comparison lets them pass."""
import unittest
from random import Random
from typing import Callable

from halzsetor.beside.texts import is_debug_line, seen

from .running import OTHERWISE, Case, compare_all, folder_cases, run, stored_cases

FEWEST = 40


def drop(lines: list[str], place: int) -> list[str]:
    """The text without a line."""
    return lines[:place] + lines[place + 1 :]


def double(lines: list[str], place: int) -> list[str]:
    """The text with a line twice."""
    return lines[: place + 1] + lines[place:]


def swap(lines: list[str], place: int) -> list[str]:
    """The text with a line behind the next one."""
    return lines[:place] + lines[place : place + 2][::-1] + lines[place + 2 :]


def change(lines: list[str], place: int) -> list[str]:
    """The text with another last number in a line."""
    words = lines[place].split(" ")
    numbers = [at for at, word in enumerate(words[:4]) if word.lstrip("#").isdigit()]
    if not numbers:
        return lines
    at = numbers[-1]
    sign = "#" if words[at][0] == "#" else ""
    words[at] = f"{sign}{int(words[at].lstrip('#')) + 1}"
    return lines[:place] + [" ".join(words)] + lines[place + 1 :]


def shown(lines: list[str]) -> list[tuple[str, ...]]:
    """What CPython shows of a text."""
    return [line.words for line in seen(lines)]


def may_move(words: tuple[str, ...]) -> bool:
    """Whether a line is one of those that a point lets come in any order."""
    return is_debug_line(words) or words[0] in ("referent", "referrer")


class WrongTexts(unittest.TestCase):
    """Each way to be wrong in one line."""

    cases: list[Case] = []

    @classmethod
    def setUpClass(cls) -> None:
        agreeing = [case for case, outcome in compare_all(stored_cases()[:100]) if outcome.output == "agrees\n"]
        cls.cases = [case for case in agreeing if len(case.text.splitlines()) > 10][:FEWEST]

    def refuse(self, spoil: Callable[[list[str], int], list[str]]) -> None:
        """Spoils a random line of each text, and wants the status 1."""
        self.assertEqual(FEWEST, len(self.cases))
        random = Random(1)
        wrong = []
        for case in self.cases:
            lines = case.text.splitlines()
            places = [line.place for line in seen(lines) if not may_move(line.words)]
            spoilt = [spoil(lines, place) for place in random.sample(places, len(places))]
            found = next(text for text in spoilt if shown(text) != shown(lines))
            wrong.append(Case(case.name, case.script, "\n".join(found) + "\n"))
        for case, outcome in compare_all(wrong):
            with self.subTest(case.name, text=case.text):
                self.assertEqual(1, outcome.status, outcome.output)

    def test_a_dropped_line(self) -> None:
        self.refuse(drop)

    def test_a_doubled_line(self) -> None:
        self.refuse(double)

    def test_swapped_lines(self) -> None:
        self.refuse(swap)

    def test_a_changed_number(self) -> None:
        self.refuse(change)

    def test_a_text_of_another_script(self) -> None:
        for case, other in zip(self.cases, self.cases[1:]):
            with self.subTest(case.name):
                self.assertEqual(1, run(case.script, text=other.text).status)


class WrongPoints(unittest.TestCase):
    """Differences that look like one of the points and are none."""

    FINALIZER = "def d; print self; end; class C del=d; a = new C; b = new C; "
    MADE = "made instance #2; made instance #3; "
    FRAME = "enter del #{0}; value #{0}; leave; free #{0}; "

    def refuse(self, script: str, text: str) -> None:
        """Wants the status 1."""
        outcome = run(script.replace("; ", "\n") + "\n", text=text.replace("; ", "\n") + "\n")
        self.assertEqual(1, outcome.status, outcome.output)

    def refuse_change(self, name: str, old: str, new: str) -> None:
        """Wants the status 1 where the text of a point's script is changed."""
        (case,) = [case for case in folder_cases(OTHERWISE) if case.name == name]
        self.assertEqual(1, case.text.count(old))
        self.assertEqual(1, run(case.script, text=case.text.replace(old, new)).status)

    def test_the_order_of_a_list(self) -> None:
        script = self.FINALIZER + "l = list a b; del a; del b; del l"
        frames = self.FRAME.format(2) + self.FRAME.format(3)
        self.refuse(script, self.MADE + "made list #4; " + frames + "free #4; end")

    def test_the_order_of_two_commands(self) -> None:
        self.refuse(self.FINALIZER + "del a; del b", self.MADE + self.FRAME.format(3) + self.FRAME.format(2) + "end")

    def test_frames_that_are_not_the_same(self) -> None:
        self.refuse_change("contents-dictionary", "value #2", "value #3")

    def test_an_order_of_lines_within_a_frame(self) -> None:
        self.refuse_change("contents-instance", "made list #5\nvalue #5", "value #5\nmade list #5")

    def test_an_automatic_collection_that_is_missing(self) -> None:
        self.refuse_change("automatic", "gc start 0\nfree #2\ngc stop 0 1 0\n", "")

    def test_an_automatic_collection_that_is_not_due(self) -> None:
        nothing = "gc start 0\ngc stop 0 0 0\n"
        self.refuse_change("automatic", "made list #3\n", "made list #3\n" + nothing)

    def test_an_automatic_collection_of_another_generation(self) -> None:
        self.refuse_change("automatic", "gc start 0\nfree #2\ngc stop 0", "gc start 1\nfree #2\ngc stop 1")

    def test_a_number_of_holders_that_is_too_great(self) -> None:
        self.refuse_change("held", "enter callback #4\nrefs 2", "enter callback #4\nrefs 3")

    def test_a_late_weak_reference_that_keeps_its_referent(self) -> None:
        self.refuse_change("late", "cleared #5\n", "")

    def test_a_holder_that_is_too_many(self) -> None:
        self.refuse_change("listed", "referent #3\n", "referent #3\nreferent #3\n")
        self.refuse_change("listed", "referent #3\n", "")
        self.refuse_change("listed", "listed 2\n", "")
        self.refuse("a = list; b = list a; referrers a", "made list #2; made list #3; referrer #2; listed 1; end")

    def test_a_holder_that_is_seen(self) -> None:
        self.refuse("a = list; b = list a; referrers a", "made list #2; made list #3; listed 0; end")
        self.refuse("a = list; referrers a", "made list #2; referrer #2; listed 1; end")

    def test_a_shutdown_with_other_frames(self) -> None:
        self.refuse_change("shutdown", "enter del #3\nvalue #3\n", "enter del #3\nvalue #2\n")
        self.refuse_change("shutdown", "enter del #3\nvalue #3\nleave\n", "")

    def test_a_saved_object_without_flags(self) -> None:
        self.refuse_change("attributes", "gc stop 2", "gc saved #3\ngc stop 2")

    def test_the_order_of_a_collection(self) -> None:
        script = self.FINALIZER + "setattr a me a; setattr b me b; del a; del b; collect"
        frames = self.FRAME.format(3) + self.FRAME.format(2)
        self.refuse(script, self.MADE + "gc start 2; " + frames + "gc stop 2 2 0; collected 2; end")

    def test_the_order_of_lines_in_a_collection(self) -> None:
        script = "debug collectable; a = list; append a a; b = list; append b b; del a; del b; collect"
        told = "gc collectable #3; gc collectable #2; "
        self.refuse(script, "made list #2; made list #3; gc start 2; " + told + "gc stop 2 2 0; collected 2; end")

    def test_attributes_in_another_order_with_other_frames(self) -> None:
        self.refuse_change("attributes", "enter del #3\nvalue #3\n", "enter del #3\nvalue #4\n")
