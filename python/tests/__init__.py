"""Tests of the comparison with CPython."""
