"""again.script as a plain program."""
import sys
import weakref


class C:
    """Its instances can have weak references."""


a = C()
v = weakref.ref(a)
w = weakref.ref(a)
# less the argument
print("refs", sys.getrefcount(w) - 1)
