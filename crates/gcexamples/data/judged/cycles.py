"""A program whose collections are right: cycles of data classes, of syntax trees, of tasks and with legacy finalizers.

It takes the number of rounds. What the program starts with is put into the permanent generation, so that the records of
full collections are small.
"""
import ast
import asyncio
import gc
import sys
import weakref
from dataclasses import dataclass, field


@dataclass(eq=False)
class Person:
    """A person, who knows the parents and the children."""

    name: str
    parent: "Person | None" = None
    children: list["Person"] = field(default_factory=list)

    def add(self, name: str) -> "Person":
        """A child of this person."""
        child = Person(name, self)
        self.children.append(child)
        return child


class Linked(ast.NodeVisitor):
    """Gives each node of a syntax tree its parent."""

    def generic_visit(self, node: ast.AST) -> None:
        """Visits a node."""
        for child in ast.iter_child_nodes(node):
            child.parent = node
            self.visit(child)


def family(generations: int) -> None:
    """A family that nobody holds afterwards."""
    people = [Person("eldest")]
    for _ in range(generations):
        people = [person.add(name) for person in people for name in ("one", "two")]
    weakref.finalize(people[0], print, "a family is gone")


def tree(source: str) -> None:
    """A syntax tree that nobody holds afterwards."""
    Linked().visit(ast.parse(source))


async def tasks(number: int) -> list[BaseException | int]:
    """Tasks, of which some fail: the traceback of each holds the frame that holds the task's exception."""

    async def task(place: int) -> int:
        try:
            await asyncio.sleep(0)
            return 1 // (place % 3)
        except ZeroDivisionError as fault:
            kept = fault
            raise kept

    return await asyncio.gather(*map(task, range(number)), return_exceptions=True)


def legacy() -> None:
    """A cycle with a legacy finalizer, which the collector sets aside, where this Python has the means to make one."""
    try:
        from _testcapi import with_tp_del
    except ImportError:
        return

    @with_tp_del
    class Legacy:
        def __tp_del__(self) -> None:
            pass

    one = Legacy()
    one.held = [one, {"a key": [one]}]


def main(rounds: int) -> None:
    """All of them."""
    gc.freeze()
    for number in range(rounds):
        family(3)
        tree("total = sum(a + b * c for a, b, c in rows if a)\n")
        asyncio.run(tasks(9))
        legacy()
        gc.collect(number % 2)
    gc.collect()
    print(f"{len(gc.garbage)} objects were set aside")


if __name__ == "__main__":
    main(int(sys.argv[1]) if len(sys.argv) > 1 else 10)
