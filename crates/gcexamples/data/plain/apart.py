"""apart.script as a plain program."""
import sys
import weakref


def told(reference):
    """The callback."""
    # less the argument
    print("refs", sys.getrefcount(w) - 1)


class C:
    """Its instances can have weak references."""


a = C()
w = weakref.ref(a)
v = weakref.ref(a, told)
del a
