"""The heap of a running CPython 3.12, taken and asked: why an object is alive, and what would go with it."""
