"""The scripts of `gcrun`, carried out by CPython 3.12 on real objects, and their lines set beside those of `gcrun`."""
