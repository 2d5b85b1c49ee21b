"""Sees what CPython's collector does, and tells it in lines."""
import gc
import sys
from typing import Callable

from .objects import Registry
from .reader import FLAGS

TOLD = ("collectable", "uncollectable")


class Collector:
    """The collector under way."""

    def __init__(self, registry: Registry, emit: Callable[[str], None]) -> None:
        self.registry = registry
        self.emit = emit
        self.flags = 0
        self.is_running = False
        # how many items of the garbage list have been told
        self.saved = 0
        # how many objects of the reader's own are garbage
        self.own = 0

    def watch(self) -> None:
        """Begins to tell what the collector does."""
        gc.callbacks.append(self.see)
        sys.stderr = self

    def see(self, phase: str, info: dict[str, int]) -> None:
        """Tells a collection's start or end: one of `gc.callbacks`."""
        self.is_running = phase == "start"
        generation = info["generation"]
        if self.is_running:
            self.emit(f"gc start {generation}")
            if self.flags & FLAGS["stats"]:
                self.tell_sizes()
            return
        self.tell_saved()
        self.emit(f"gc stop {generation} {info['collected'] - self.own} {info['uncollectable']}")

    def tell_saved(self) -> None:
        """Tells what the garbage list has had since."""
        for position in range(self.saved, len(gc.garbage)):
            self.emit(f"gc saved #{self.registry.serial(gc.garbage[position])}")
        self.saved = len(gc.garbage)

    def tell_sizes(self) -> None:
        """Tells the sizes of the generations."""
        young, middle, old = self.registry.size(0), self.registry.size(1), self.registry.size(2)
        self.emit(f"gens {young} {middle} {old}")

    def set_flags(self, flags: int) -> None:
        """Sets the debug flags."""
        self.flags = flags
        gc.set_debug(flags)

    def write(self, text: str) -> int:
        """Takes what is written to standard error: the collector's lines on an object have its address."""
        word = text.split(" ", 2)[1] if text.startswith("gc: ") else ""
        if word in TOLD:
            if word == "uncollectable":
                # by then the members of the final set are saved
                self.tell_saved()
            address = int(text[text.rindex(" ") + 1 : text.rindex(">")], 16)
            self.emit(f"gc {word} #{self.registry.serials[address]}")
        elif not text.startswith("gc: "):
            sys.__stderr__.write(text)
        return len(text)

    def flush(self) -> None:
        """Nothing is kept back."""
