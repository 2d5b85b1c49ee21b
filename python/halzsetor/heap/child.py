"""Has something done with the heap in a child that is forked off, and hands its answer to this process."""
import ctypes
import gc
import json
import operator
import os
import traceback
from functools import partial
from typing import Callable, NoReturn

from .frames import Frame, running
from .whole import Whole

# what is done with the heap and the frames that run; the answer is one that JSON can tell
Work = Callable[[Whole, list[Frame]], object]


class Failed(Exception):
    """The heap could not be taken or asked."""


def in_child(work: Work) -> object:
    """The answer of the work; where there is no fork it is done here."""
    frames = running()
    whole = Whole([frame.place for frame in frames])
    enabled = gc.isenabled()
    gc.disable()
    try:
        if not hasattr(os, "fork"):
            whole.leave_out(frames, *frames)
            for call in whole.calls:
                call()
            return work(whole, frames)
        found = forked(whole, work, frames)
    finally:
        if enabled:
            gc.enable()
    if "failed" in found:
        raise Failed(found["failed"])
    return found["answer"]


def forked(whole: Whole, work: Work, frames: list[Frame]) -> dict[str, object]:
    """Forks a child that makes the steps before any bytecode runs in it, and reads what it writes."""
    reading, writing = os.pipe()
    parent, numbers = os.getpid(), []
    fork = ctypes.PyDLL(None).fork
    fork.restype, fork.argtypes = ctypes.c_int, ()
    after_child = ctypes.pythonapi.PyOS_AfterFork_Child
    after_child.restype, after_child.argtypes = None, ()
    # the number of the child is true here, and there it is 0, so that the steps go on
    steps = [partial(numbers.extend, map(operator.call, [fork])), partial(max, numbers), *whole.calls, after_child]
    take = partial(any, map(operator.call, steps))
    whole.leave_out(take, steps, numbers, frames, *frames)
    fault: BaseException | None = None
    ctypes.pythonapi.PyOS_BeforeFork()
    try:
        take()
    except BaseException as raised:
        fault = raised
    if os.getpid() != parent:
        if fault is not None:
            after_child()
        child(writing, lambda: work(whole, frames), fault)
    ctypes.pythonapi.PyOS_AfterFork_Parent()
    os.close(writing)
    return answer_of(numbers[0] if numbers else -1, reading)


def child(writing: int, work: Callable[[], object], fault: BaseException | None) -> NoReturn:
    """Does the work in the child, writes the answer, and ends it: nothing of the program's runs there."""
    status = 1
    try:
        if fault is not None:
            raise fault
        text = json.dumps({"answer": work()})
        status = 0
    except Failed as raised:
        text = json.dumps({"failed": str(raised)})
    except BaseException as raised:
        text = json.dumps({"failed": "".join(traceback.format_exception(raised))})
    finally:
        try:
            with os.fdopen(writing, "w", encoding="ascii") as file:
                file.write(text)
        finally:
            os._exit(status)


def answer_of(number: int, reading: int) -> dict[str, object]:
    """What the child wrote, once it has ended."""
    with os.fdopen(reading, encoding="ascii") as file:
        if number < 0:
            raise Failed("no process could be forked off")
        text = file.read()
    status = os.waitstatus_to_exitcode(os.waitpid(number, 0)[1])
    if not text:
        raise Failed(f"the process that was forked off ended with status {status}")
    return json.loads(text)
