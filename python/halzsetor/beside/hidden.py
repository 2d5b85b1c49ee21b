"""Takes what the reader itself has out of the collector's lists, so that these have the script's objects alone.

The permanent generation does not serve: a script's `unfreeze` would bring the reader's objects back into generation 2,
and where objects of both stand in one list, those of the script are found, and so ordered, by way of the reader's. CPython
keeps a generation as a ring of links; a link stands in front of its object. What dies leaves its ring by its neighbours
alone, so a ring of our own is as good as CPython's.
"""
import ctypes
import gc


class Link(ctypes.Structure):
    """The head of a ring, and what stands in front of each object in it."""

    _fields_ = [("following", ctypes.c_size_t), ("preceding", ctypes.c_size_t)]


SIZE = ctypes.sizeof(Link)
# what CPython notes of an object in the lowest bits of `preceding`
NOTES = 3

untrack = ctypes.pythonapi.PyObject_GC_UnTrack
untrack.argtypes, untrack.restype = (ctypes.py_object,), None


def follow(address: int, following: int) -> None:
    """Makes one link follow another."""
    Link.from_address(address).following = following
    link = Link.from_address(following)
    link.preceding = address | link.preceding & NOTES


def empty(address: int) -> None:
    """Makes a head the only link of its ring."""
    link = Link.from_address(address)
    link.following = link.preceding = address


class Hidden:
    """What is hidden."""

    def __init__(self) -> None:
        self.ring = Link()
        self.head = ctypes.addressof(self.ring)
        # the head of generation 2
        self.old = 0

    def hide(self) -> None:
        """Hides all that is tracked."""
        gc.freeze()
        gc.unfreeze()
        first = id(gc.get_objects(2)[0]) - SIZE
        self.old = Link.from_address(first).preceding & ~NOTES
        last = Link.from_address(self.old).preceding
        follow(self.head, first)
        follow(last, self.head)
        empty(self.old)

    def show(self) -> None:
        """Puts it at the front of generation 2: it is older than all else."""
        first, last = self.ring.following, self.ring.preceding
        follow(last, Link.from_address(self.old).following)
        follow(self.old, first)
        empty(self.head)
