"""The runner for unittest, and mixins for test cases."""
import unittest

from .judging import Judging
from .leaks import Watch
from .trials import Asked, Trials


class Result(unittest.TextTestResult):
    """Judges and watches each test; a wrong collection is a failure of its test."""

    trials: Trials

    def startTest(self, test: unittest.TestCase) -> None:
        """A test begins."""
        super().startTest(test)
        self.trials.begin()

    def stopTest(self, test: unittest.TestCase) -> None:
        """A test has ended."""
        complain(test, self, self.trials.judged())
        super().stopTest(test)
        self.trials.leaves(test.id(), test)


class Runner(unittest.TextTestRunner):
    """A runner whose tests are judged and watched, and that tells at the end what was seen."""

    resultclass = Result
    # what is asked of the tests; a class of one's own may ask for more
    asked = Asked(leaks=True)

    def _makeResult(self) -> Result:
        result = super()._makeResult()
        result.trials = Trials(self.asked)
        return result

    def run(self, test: unittest.TestSuite | unittest.TestCase) -> Result:
        """Runs tests."""
        result = super().run(test)
        for heading, lines in result.trials.close().items():
            for line in lines:
                self.stream.writeln(f"{heading}: {line}")
        return result


class Judged:
    """A mixin for test cases, before `unittest.TestCase`: a test fails where one of its collections was wrong."""

    # the built gccheck, where it is not to be looked for
    gccheck: str | None = None

    def run(self, result: unittest.TestResult | None = None) -> unittest.TestResult | None:
        """Runs the test, and judges it."""
        judging = Judging(self.gccheck)
        judging.begin()
        try:
            result = super().run(result)
            complain(self, result, judging.end())
        finally:
            judging.close()
        return result


class LeavesNothing:
    """A mixin for test cases, before `unittest.TestCase`: a test fails where it leaves objects that are counted."""

    def run(self, result: unittest.TestResult | None = None) -> unittest.TestResult | None:
        """Runs the test, and sees what it leaves."""
        watch = Watch()
        watch.begin()
        try:
            result = super().run(result)
            left = watch.end(self.id(), self)
            complain(self, result, "\n".join(left.lines()) if left.number or left.unknown is not None else None)
        finally:
            watch.close()
        return result


def complain(test: unittest.TestCase, result: unittest.TestResult, complaint: str | None) -> None:
    """Has a test fail that has run, where there is a complaint."""
    if complaint is not None:
        result.addFailure(test, (test.failureException, test.failureException(complaint), None))
