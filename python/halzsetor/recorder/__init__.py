"""Records the collections of a running CPython 3.12: see docs/RECORDS.md.

In a program: `with halzsetor.recorder.Recorder(file): ..`.

A record has the graph that the collector is about to see (the objects of the generations that are merged, with their
in-degrees and their references to one another) and the set that it found, which its debug flags make it tell. Neither
is to be disturbed by the recorder. So the graph is taken by the last callback of a collection's start, which is one
call of a function in C over iterators in C: no bytecode runs in it, nor between it and the collection, so no other
thread, no signal handler and no code of the program comes between. What is kept of an object is its address.

The collector writes its lines to `sys.stderr`, and not to descriptor 2. So an object of ours stands there while a
collection runs; what else is written to it goes on to the program's own.
"""
from .recorder import Recorder

__all__ = ["Recorder"]
