"""Makes random scripts about groups of objects that collections find together, the same ones each time.

A group has members of all kinds that lead to each other at random. It is held by a list while collections move it
through the generations, and then by nothing. Finalizers bring members back, and callbacks are called for them; what
comes back is in a list, and a later collection may find it again.
"""
from random import Random

from .generator import FLAGS

ATTRIBUTES = ("left", "right", "name")
# the bodies of procedures, of which a script has some
BODIES = (
    (),
    ("print self",),
    ("append kept self",),
    ("append kept self", "print self"),
    ("kept = list self",),
    ("n_{} = attr self left", "append kept n_{}"),
    ("n_{} = attr self right", "append kept n_{}", "collect 0"),
    ("setattr self left none",),
    ("print ref",),
    ("print c0", "append kept c0"),
    ("n_{} = deref ref", "print n_{}"),
    ("w_{} = ref self", "append kept w_{}"),
    ("n_{} = list self", "append n_{} n_{}"),
    ("print self", "collect 1"),
    ("delitem kept 0",),
    ("gens",),
    ("append kept c0", "gens"),
)
# how often a member is of a kind
KINDS = ("instance",) * 6 + ("list",) * 3 + ("tuple",) * 2 + ("dict", "func", "func")
BUDGET = 120


class Groups:
    """Makes one script."""

    def __init__(self, seed: int) -> None:
        self.random = Random(f"groups {seed}")
        self.lines: list[str] = []
        self.classes: list[str] = []
        self.procedures: list[str] = []
        # members of the group that is made, with their kinds
        self.members: dict[str, str] = {}
        self.made = 0

    def script(self) -> str:
        """The script."""
        pick = self.random
        self.lines.append(f"budget {BUDGET}")
        for number, body in enumerate(pick.choices(BODIES, k=pick.randrange(2, 5))):
            self.procedures.append(f"p{number}")
            self.lines += [f"def p{number}", *("  " + line.format(number, number) for line in body), "end"]
        self.classes = [f"C{number}" for number in range(pick.randrange(1, 4))]
        for name in self.classes:
            self.lines.append(f"class {name}{self.finalizers()}")
        self.lines.append("kept = list")
        if pick.random() < 0.9:
            self.set_attributes_in_order()
        if pick.random() < 0.15:
            self.lines.append(f"threshold {pick.randrange(5, 20)} {pick.randrange(1, 4)} {pick.randrange(1, 4)}")
        if pick.random() < 0.2:
            self.lines.append(" ".join(["debug", *pick.choices(FLAGS, k=pick.randrange(1, 3))]))
        for _ in range(pick.randrange(1, 4)):
            self.add_group()
        self.lines += ["gens", "del kept", "collect"]
        return "\n".join(self.lines) + "\n"

    def finalizers(self) -> str:
        """What a class has."""
        pick = self.random
        words = f" del={pick.choice(self.procedures)}" if pick.random() < 0.8 else ""
        return words + (f" legacy={pick.choice(self.procedures)}" if pick.random() < 0.07 else "")

    def set_attributes_in_order(self) -> None:
        """Gives each class its attributes in their order: CPython keeps those of its instances in that one."""
        for name in self.classes:
            self.lines.append(f"x = new {name}")
            self.lines += [f"setattr x {attribute} none" for attribute in ATTRIBUTES]
        self.lines.append("del x")

    # groups

    def add_group(self) -> None:
        """A group, what it lives through, and its end."""
        pick = self.random
        self.members = {}
        for _ in range(pick.randrange(3, 8)):
            self.add_member()
        for name in list(self.members):
            self.add_links(name)
        for _ in range(pick.randrange(4)):
            self.add_weak_reference()
        held = pick.sample(list(self.members), pick.randrange(1, len(self.members) + 1))
        self.lines.append(f"{pick.choice(('held', 'kept'))} = {pick.choice(('list', 'tuple'))} {' '.join(held)}")
        gone = pick.sample(list(self.members), len(self.members))
        left = gone.pop() if pick.random() < 0.1 else None
        self.lines += [f"del {name}" for name in gone]
        for _ in range(pick.randrange(3)):
            self.lines.append(f"collect {pick.choice((0, 0, 1, 1, 2))}")
            if pick.random() < 0.1:
                self.lines += ["freeze"] + ["unfreeze"] * (pick.random() < 0.8)
        self.lines.append(pick.choice(("del held", "del held", "held = none", "kept = list")))
        if left is not None:
            self.lines.append(f"del {left}")
        self.lines.append(f"collect {pick.choice((0, 1, 2, 2, 2))}")
        if pick.random() < 0.3:
            self.lines.append("gens")

    def add_member(self) -> None:
        """A member: a tuple and a function lead to members that are there."""
        pick = self.random
        kind = pick.choice(KINDS)
        name = f"{kind[0]}{self.made}"
        self.made += 1
        if kind == "instance":
            made = f"new {pick.choice(self.classes)}"
        elif kind == "func":
            made = f"func {pick.choice(self.procedures)}{self.some_members(0, 4)}"
        elif kind == "tuple":
            made = f"tuple{self.some_members(1, 4)}"
        else:
            made = kind
        self.lines.append(f"{name} = {made}")
        self.members[name] = kind

    def some_members(self, fewest: int, most: int) -> str:
        """Some members, or an atom where there is none."""
        found = list(self.members) or ["none"]
        return "".join(" " + self.random.choice(found) for _ in range(self.random.randrange(fewest, most)))

    def add_links(self, name: str) -> None:
        """What a member leads to."""
        pick = self.random
        kind = self.members[name]
        targets = pick.choices(list(self.members), k=pick.randrange(1, 4))
        if kind == "instance":
            attributes = sorted(pick.sample(ATTRIBUTES, len(targets)), key=ATTRIBUTES.index)
            self.lines += [f"setattr {name} {attribute} {target}" for attribute, target in zip(attributes, targets)]
        elif kind == "list":
            self.lines += [f"append {name} {target}" for target in targets]
        elif kind == "dict":
            keys = [self.key(number) for number in range(len(targets))]
            self.lines += [f"put {name} {key} {target}" for key, target in zip(keys, targets)]

    def key(self, number: int) -> str:
        """A key of a dictionary."""
        found = [name for name, kind in self.members.items() if kind in ("instance", "func")]
        return self.random.choice(found) if found and self.random.random() < 0.3 else str(number)

    def add_weak_reference(self) -> None:
        """A weak reference to a member, which a member, a list or a name holds."""
        pick = self.random
        targets = [name for name, kind in self.members.items() if kind in ("instance", "func")]
        if not targets:
            return
        name = f"w{self.made}"
        self.made += 1
        functions = [member for member, kind in self.members.items() if kind == "func"]
        if functions and pick.random() < 0.4:
            callback = f" {pick.choice(functions)}"
        elif pick.random() < 0.8:
            made = f"g = func {pick.choice(self.procedures)}"
            self.lines.append(made + (self.some_members(0, 2) if pick.random() < 0.2 else ""))
            callback = " g"
        else:
            callback = ""
        self.lines.append(f"{name} = ref {pick.choice(targets)}{callback}")
        lists = [member for member, kind in self.members.items() if kind == "list"]
        if pick.random() < 0.6:
            self.lines += [f"append {pick.choice(lists + ['kept'])} {name}", f"del {name}"]
        if callback == " g":
            self.lines.append("del g")
