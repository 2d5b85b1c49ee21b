"""Makes random scripts over all commands, the same ones each time.

A script keeps as a rule to names that it has bound, with objects of the kinds that its commands ask for, and now and
then asks for something that is refused. What a procedure binds has a name of its own.
"""
from random import Random

# the names, and what each stands for as a rule
USUAL = {
    "a": "instance",
    "b": "instance",
    "c": "instance",
    "d": "dict",
    "e": "function",
    "f": "function",
    "g": "list",
    "h": "list",
    "t": "tuple",
    "u": "weakref",
    "v": "weakref",
}
NAMES = tuple(USUAL)
ATTRIBUTES = ("left", "right", "name")
ATOMS = ("'k", "'name", "1", "2", "-7", "none")
FLAGS = ("saveall", "collectable", "uncollectable", "stats", "leak")
LOCALS = (("self",), ("self",), ("ref", "c0"), ("c0", "c1"), ("self", "ref", "c0"))
MAKERS = {"instance": "new", "function": "func", "weakref": "ref"}
# groups of commands, how often each comes, and its commands
GROUPS = (
    (30, ("list", "tuple", "dict", "new", "new", "new", "func", "ref", "ref")),
    (30, ("append", "append", "setitem", "delitem", "put", "put", "drop", "setattr", "setattr", "setattr", "delattr")),
    (22, ("bind", "item", "get", "attr", "deref", "del", "del", "del", "del")),
    (9, ("call", "collect", "collect", "debug", "freeze", "unfreeze", "enable", "disable", "threshold", "quit")),
    (11, ("print", "refs", "tracked", "finalized", "count", "gens", "referents", "referrers", "referrers")),
)
SMALL_BUDGET = 12
LARGE_BUDGET = 150


class Generator:
    """Makes one script."""

    def __init__(self, seed: int) -> None:
        self.random = Random(seed)
        self.kinds: dict[str, str] = {}
        self.lines: list[str] = []
        self.procedures: list[str] = []
        self.classes: list[str] = []
        # the locals of the procedure that is being made, and what its names end with
        self.locals: tuple[str, ...] = ()
        self.ending = ""

    def script(self) -> str:
        """The script."""
        pick = self.random
        is_short = pick.random() < 0.12
        self.lines.append(f"budget {pick.randrange(SMALL_BUDGET) if is_short else LARGE_BUDGET}")
        for _ in range(pick.randrange(1, 4)):
            self.add_procedure()
        for _ in range(pick.randrange(1, 4)):
            self.add_class()
        if pick.random() < 0.3:
            self.lines.append(f"threshold {pick.randrange(8)} {pick.randrange(3)} {pick.randrange(3)}")
        self.lines += [self.make(name, kind) for name, kind in USUAL.items() if pick.random() < 0.9]
        for _ in range(pick.randrange(10, 35)):
            self.lines.append(self.command())
            if not is_short and pick.random() < 0.15:
                self.add_ring()
        self.lines += [f"del {name}" for name in pick.sample(NAMES, pick.randrange(len(NAMES)))]
        self.lines.append("collect")
        if pick.random() < 0.04:
            self.spoil_line()
        return "\n".join(self.lines) + "\n"

    # parts of a script

    def add_procedure(self) -> None:
        """A procedure."""
        name = f"p{len(self.procedures)}"
        self.procedures.append(name)
        kinds, self.kinds = self.kinds, dict(USUAL)
        self.locals = self.random.choice(LOCALS)
        self.ending = f"_{name}"
        body = ["  " + self.command() for _ in range(self.random.randrange(5))]
        self.kinds, self.locals, self.ending = kinds, (), ""
        self.lines += [f"def {name}", *body, "end"]

    def add_class(self) -> None:
        """A class, with finalizers or without."""
        pick = self.random
        name = f"C{len(self.classes)}"
        self.classes.append(name)
        line = f"class {name}"
        if pick.random() < 0.7:
            line += f" del={pick.choice(self.procedures)}"
        if pick.random() < 0.2:
            line += f" legacy={pick.choice(self.procedures)}"
        self.lines.append(line)

    def add_ring(self) -> None:
        """A ring of instances to which nothing else leads, as a rule, and which is watched now and then."""
        pick = self.random
        names = pick.sample(("a", "b", "c"), pick.randrange(1, 4))
        self.lines += [self.make(name, "instance") for name in names]
        for name, following in zip(names, names[1:] + names[:1]):
            self.lines.append(f"setattr {name} {pick.choice(ATTRIBUTES)} {following}")
        if pick.random() < 0.5:
            self.lines.append(f"{pick.choice('uv')} = ref {pick.choice(names)} {pick.choice('ef')}")
        if pick.random() < 0.5:
            self.lines.append(self.command())
        if pick.random() < 0.5:
            self.lines.append(f"append {pick.choice('gh')} {pick.choice(names)}")
        for name in names:
            self.lines.append(f"del {name}")
            self.kinds.pop(name, None)
        if pick.random() < 0.7:
            self.lines.append(f"collect {pick.choice((0, 1, 2, 2, 2))}")
        self.lines += [self.make(name, "instance") for name in names if pick.random() < 0.8]

    def spoil_line(self) -> None:
        """Makes one line a bad one, as a rule."""
        place = self.random.randrange(len(self.lines))
        line = self.lines[place]
        spoilt = (line + " x", line.rpartition(" ")[0], line.upper(), line + "\t", "list = dict", "end", "def p0")
        self.lines[place] = self.random.choice(spoilt)

    # words

    def name(self, *kinds: str) -> str:
        """A name that is bound to an object of one of the kinds, if there is one."""
        if self.locals and self.random.random() < 0.5:
            return self.random.choice(self.locals if "function" not in kinds else ("c0", "e", "f"))
        found = [name for name, kind in self.kinds.items() if not kinds or kind in kinds]
        if not found or self.random.random() < 0.03:
            return self.random.choice(NAMES)
        return self.random.choice(found)

    def value(self) -> str:
        """Any value."""
        return self.random.choice(ATOMS) if self.random.random() < 0.25 else self.name()

    def values(self, fewest: int) -> str:
        """Up to two values."""
        return "".join(" " + self.value() for _ in range(self.random.randrange(fewest, 3)))

    def key(self) -> str:
        """A key of a dictionary."""
        return self.random.choice(ATOMS) if self.random.random() < 0.6 else self.name("instance", "function")

    def index(self) -> int:
        """An index."""
        return self.random.randrange(2)

    def attribute(self) -> str:
        """An attribute."""
        return self.random.choice(ATTRIBUTES)

    def target(self, kind: str) -> str:
        """A name to bind."""
        usual = [name for name in NAMES if USUAL[name] == kind]
        name = self.random.choice(usual if self.random.random() < 0.8 else NAMES)
        if not self.ending:
            self.kinds[name] = kind
        return name + self.ending

    # commands

    def command(self) -> str:
        """A command."""
        (group,) = self.random.choices([forms for _, forms in GROUPS], [often for often, _ in GROUPS])
        form = self.random.choice(group)
        if form in MAKERS.values() or form in USUAL.values():
            kind = next((kind for kind, maker in MAKERS.items() if maker == form), form)
            return f"{self.target(kind)} = {self.new_object(form)}"
        return getattr(self, f"command_{form}", lambda: form)()

    def make(self, name: str, kind: str) -> str:
        """A command that binds a name to a new object."""
        line = f"{name} = {self.new_object(MAKERS.get(kind, kind))}"
        self.kinds[name] = kind
        return line

    def new_object(self, form: str) -> str:
        """The part of a command that makes an object."""
        if form == "new" and self.classes:
            return f"new {self.random.choice(self.classes)}"
        if form == "func":
            return f"func {self.random.choice(self.procedures)}{self.values(0)}"
        if form == "ref":
            callback = f" {self.name('function')}" if self.random.random() < 0.7 else ""
            return f"ref {self.name('instance', 'instance', 'function')}{callback}"
        if form == "dict":
            return "dict"
        return f"tuple{self.values(1)}" if form == "tuple" else f"list{self.values(0)}"

    def command_append(self) -> str:
        return f"append {self.name('list')} {self.value()}"

    def command_setitem(self) -> str:
        return f"setitem {self.name('list')} {self.index()} {self.value()}"

    def command_delitem(self) -> str:
        return f"delitem {'garbage' if self.random.random() < 0.2 else self.name('list')} {self.index()}"

    def command_put(self) -> str:
        return f"put {self.name('dict')} {self.key()} {self.value()}"

    def command_drop(self) -> str:
        return f"drop {self.name('dict')} {self.key()}"

    def command_setattr(self) -> str:
        return f"setattr {self.name('instance')} {self.attribute()} {self.value()}"

    def command_delattr(self) -> str:
        return f"delattr {self.name('instance')} {self.attribute()}"

    def command_bind(self) -> str:
        source = self.name()
        return f"{self.target(self.kinds.get(source, 'list'))} = {source}"

    def command_item(self) -> str:
        source = "garbage" if self.random.random() < 0.1 else self.name("list", "tuple")
        return f"{self.target('list')} = item {source} {self.index()}"

    def command_get(self) -> str:
        return f"{self.target('list')} = get {self.name('dict')} {self.key()}"

    def command_attr(self) -> str:
        return f"{self.target('instance')} = attr {self.name('instance')} {self.attribute()}"

    def command_deref(self) -> str:
        return f"{self.target('instance')} = deref {self.name('weakref')}"

    def command_del(self) -> str:
        name = self.name()
        if not self.ending:
            self.kinds.pop(name, None)
        return f"del {name if name in NAMES else 'a'}"

    def command_call(self) -> str:
        return f"call {self.name('function')}"

    def command_quit(self) -> str:
        return f"quit {self.name()}"

    def command_collect(self) -> str:
        return f"collect {self.random.choice((0, 0, 1, 1, 2, 2, 2, 3))}"

    def command_debug(self) -> str:
        return " ".join(["debug", *self.random.choices(FLAGS, k=self.random.choice((0, 0, 1, 2)))])

    def command_threshold(self) -> str:
        return f"threshold {self.random.randrange(10)}"

    def command_print(self) -> str:
        return f"print {self.value()}"

    def command_refs(self) -> str:
        return f"refs {self.name()}"

    def command_tracked(self) -> str:
        return f"tracked {'garbage' if self.random.random() < 0.05 else self.name()}"

    def command_referents(self) -> str:
        return f"referents {self.name()}"

    def command_referrers(self) -> str:
        return f"referrers {self.name()}"

    def command_finalized(self) -> str:
        return f"finalized {self.name()}"
