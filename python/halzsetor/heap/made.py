"""What was made in a part of a program and is there still."""
import gc
from types import TracebackType

# so many objects at most are frozen before a program begins
FROZEN_AT_START = 1000


class Made:
    """What is tracked, was made while the `with` statement ran, and is alive at its end: `objects`.

    What was there before is frozen meanwhile. CPython itself freezes some objects at its start; where more are frozen,
    the program did that, and all stay frozen.
    """

    def __init__(self) -> None:
        self.objects: list[object] = []
        self.was_frozen = False

    def __enter__(self) -> "Made":
        self.was_frozen = gc.get_freeze_count() > FROZEN_AT_START
        gc.collect()
        gc.freeze()
        return self

    def __exit__(self, kind: type | None, raised: BaseException | None, traceback: TracebackType | None) -> None:
        gc.collect()
        own = (self.objects, vars(self))
        self.objects += [one for one in gc.get_objects() if not any(one is other for other in own)]
        if not self.was_frozen:
            gc.unfreeze()


def since() -> Made:
    """`with since() as made:` lists in `made.objects` what was made meanwhile and is there still."""
    return Made()
