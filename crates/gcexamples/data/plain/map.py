"""map.script as a plain program: the map takes out what is gone, by a callback, and that is counted too."""
import gc
import weakref


class C:
    """Its instances can have weak references."""


m = weakref.WeakValueDictionary()
a = C()
a.me = a
m["k"] = a
gc.collect()
del a
print("collected", gc.collect())
