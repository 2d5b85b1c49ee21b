"""Finds the built programs of Halzsetor."""
import os
import shutil
from pathlib import Path

CHECKOUT = Path(__file__).resolve().parent.parent.parent
# how each is built in a checkout
BUILDING = {
    "gcrun": "cd crates/gcrun && rt run -- run < ../../examples/objects/first.script",
    "gccheck": "cd crates/gccheck && rt run < /dev/null",
    "gcheap": "cd crates/gcheap && rt run < /dev/null",
}


class NotFound(Exception):
    """A program is not there."""


def find(name: str, given: str | None = None) -> str:
    """The program's file: by the option, then the environment, then PATH, then the checkout that this file is in."""
    for source, named in ((f"--{name}", given), (name.upper(), os.environ.get(name.upper()))):
        if named:
            return executable(named, source)
    found = on_path(name) or shutil.which(CHECKOUT / "crates" / name / "out" / name)
    if found is None:
        raise NotFound(
            f"{name} is not found. In a checkout of Halzsetor `{BUILDING[name]}` builds it;\n"
            f"  then --{name} FILE, the environment variable {name.upper()} or PATH says where it is"
        )
    return str(found)


def on_path(name: str) -> str | None:
    """The first program of this name on PATH that is no command of this package, which has one of the name `gcheap` too."""
    for folder in os.get_exec_path():
        found = shutil.which(name, path=folder)
        if found and not is_command_of_ours(found):
            return found
    return None


def is_command_of_ours(path: str) -> bool:
    """Whether the file is a script that brings in this package."""
    try:
        with open(path, "rb") as file:
            start = file.read(4096)
    except OSError:
        return False
    return start.startswith(b"#!") and b"halzsetor" in start


def executable(named: str, source: str) -> str:
    """A file that can be run."""
    found = shutil.which(named)
    if found is None:
        raise NotFound(f"{source} names {named}, which is no program")
    return found
