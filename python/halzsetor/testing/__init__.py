"""Tests that judge: the collections of each test, and what it leaves behind; for unittest and for pytest."""
