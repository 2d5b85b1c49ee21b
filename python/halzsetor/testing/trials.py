"""Both questions about tests, one test after the other: were its collections right, and what does it leave behind?"""
from typing import Any, Callable, NamedTuple

from ..programs import find
from .judging import Judging
from .leaks import Left, Watch, uncounted_text

# the options, with the words that argparse takes, and pytest too
OPTIONS = {
    "--gc-judge": "have gccheck judge the collections of each test, and one at its end",
    "--gc-leaks": "tell which objects each test leaves behind",
    "--gc-leaks-all": "the same, with what is not counted by default, such as new modules",
}


class Asked(NamedTuple):
    """What is asked of tests."""

    judge: bool = False
    leaks: bool = False
    leaks_all: bool = False
    gccheck: str | None = None

    @property
    def watches(self) -> bool:
        """Whether it is asked what tests leave behind."""
        return self.leaks or self.leaks_all


def add_options(add: Callable[..., object]) -> None:
    """Adds the options to a parser, by its method for that."""
    for option, says in OPTIONS.items():
        add(option, action="store_true", help=says)
    add("--gccheck", metavar="FILE", help="with --gc-judge: the built gccheck")


def asked_by(given: Any) -> Asked:
    """What the options ask for."""
    return Asked(given.gc_judge, given.gc_leaks, given.gc_leaks_all, given.gccheck)


class Trials:
    """Tests that are judged and watched."""

    def __init__(self, asked: Asked) -> None:
        self.judging: Judging | None = None
        if asked.judge:
            # it has to be there before a test runs
            self.judging = Judging(find("gccheck", asked.gccheck))
        self.watch = Watch(asked.leaks_all) if asked.watches else None
        self.left: list[Left] = []
        self.rehearse()

    def rehearse(self) -> None:
        """A test of nothing, so that what is made once here is made before the first test."""
        self.begin()
        self.judged()
        self.leaves("", None)
        self.left.clear()
        if self.judging is not None:
            self.judging.forget()

    def begin(self) -> None:
        """A test begins."""
        if self.watch is not None:
            self.watch.begin()
        if self.judging is not None:
            self.judging.begin()

    def judged(self) -> str | None:
        """A test has ended; answers what is wrong with a collection of it."""
        return None if self.judging is None else self.judging.end()

    def leaves(self, name: str, test: object) -> None:
        """Sees what a test leaves behind; this comes after the judge."""
        if self.watch is not None:
            self.left.append(self.watch.end(name, test))

    def close(self) -> dict[str, list[str]]:
        """No test is to come; answers the lines of each part, by its heading."""
        parts: dict[str, list[str]] = {}
        if self.judging is not None:
            parts["gc-judge"] = self.judging.lines()
            self.judging.close()
        if self.watch is not None:
            parts["gc-leaks"] = lines_on(self.left)
            self.watch.close()
        return parts


def lines_on(left: list[Left]) -> list[str]:
    """What is said of all that tests leave behind."""
    told = [one for one in left if one.number or one.unknown is not None]
    lines = [line for one in told for line in one.lines()]
    lines.append(f"{len(told)} of {len(left)} tests leave something behind")
    uncounted: dict[str, int] = {}
    for one in left:
        uncounted |= {kind: uncounted.get(kind, 0) + number for kind, number in one.uncounted.items()}
    return lines + [f"not counted in all: {uncounted_text(uncounted)}"] * bool(uncounted)
