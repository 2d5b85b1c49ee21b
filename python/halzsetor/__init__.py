"""Tools around Halzsetor's programs, for CPython 3.12. README.md has a page on each command."""
