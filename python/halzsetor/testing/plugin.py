"""The plugin for pytest: `--gc-judge` and `--gc-leaks`."""
import pytest

from ..programs import NotFound
from .trials import Trials, add_options, asked_by


def pytest_addoption(parser: pytest.Parser) -> None:
    """Adds the options."""
    add_options(parser.getgroup("gc", "CPython's collector").addoption)


def pytest_configure(config: pytest.Config) -> None:
    """Begins where it is asked for."""
    asked = asked_by(config.option)
    if asked.judge or asked.watches:
        try:
            config.pluginmanager.register(Plugin(Trials(asked)), "gc-trials")
        except NotFound as fault:
            raise pytest.UsageError(str(fault)) from None


class Plugin:
    """Judges and watches each test, with its fixtures."""

    def __init__(self, trials: Trials) -> None:
        self.trials = trials
        self.item: pytest.Item | None = None

    @pytest.hookimpl(tryfirst=True)
    def pytest_runtest_protocol(self, item: pytest.Item) -> None:
        """A test is to come."""
        self.item = item

    @pytest.hookimpl(trylast=True)
    def pytest_runtest_logstart(self) -> None:
        """It begins, with the first of its fixtures."""
        self.trials.begin()

    @pytest.hookimpl(tryfirst=True)
    def pytest_runtest_logfinish(self, nodeid: str) -> None:
        """It has ended, with the last of its reports."""
        self.trials.leaves(nodeid, self.item)

    @pytest.hookimpl(trylast=True)
    def pytest_runtest_teardown(self) -> None:
        """A test was torn down: a wrong collection is an error of its teardown."""
        complaint = self.trials.judged()
        if complaint is not None:
            pytest.fail(complaint, pytrace=False)

    def pytest_terminal_summary(self, terminalreporter: "pytest.TerminalReporter") -> None:
        """Tells what was seen."""
        for heading, lines in self.trials.close().items():
            terminalreporter.section(heading)
            for line in lines:
                terminalreporter.write_line(line)
