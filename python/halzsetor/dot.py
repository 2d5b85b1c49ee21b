"""Pictures of objects in the language DOT, which graphviz draws: `dot -Tsvg < PICTURE > PICTURE.svg`."""

OUTLINE = 'node [shape=box, style="rounded,filled", fillcolor=white, fontname="Helvetica", fontsize=10]'
ARROWS = 'edge [fontname="Helvetica", fontsize=9]'


class Picture:
    """Boxes by keys, and arrows between them."""

    def __init__(self, title: str) -> None:
        self.lines = [f"digraph {quoted(title)} {{", f"  {OUTLINE}", f"  {ARROWS}"]

    def box(self, key: object, text: str, **how: str) -> None:
        """A box with a text of one or more lines."""
        self.lines.append(f"  {quoted(str(key))} [{attributes(label=text, **how)}]")

    def arrow(self, tail: object, head: object, **how: str) -> None:
        """An arrow from a box to another."""
        self.lines.append(f"  {quoted(str(tail))} -> {quoted(str(head))} [{attributes(**how)}]")

    def text(self) -> str:
        """The picture."""
        return "".join(line + "\n" for line in [*self.lines, "}"])


def attributes(**how: str) -> str:
    """How something is drawn."""
    return ", ".join(f"{name}={quoted(value)}" for name, value in how.items())


def quoted(text: str) -> str:
    """A text as DOT has it."""
    escaped = text.replace("\\", "\\\\").replace('"', '\\"').replace("\n", "\\n")
    return f'"{escaped}"'


def times(number: int) -> str:
    """What stands at an arrow that stands for so many references."""
    return "" if number == 1 else f"{number} times"
