"""Names of objects by their types, and of references as a person would write them. No code of the program runs."""
import sys
import types
from functools import partial
from typing import NamedTuple

CACHE = "functools._lru_cache_wrapper"
DICTIONARY = ".__dict__"
CLOSURE, CONTENTS = ".__closure__", ".cell_contents"
SIZED = (list, tuple, set, frozenset, dict)
FUNCTION_PARTS = tuple("__globals__ __closure__ __defaults__ __kwdefaults__ __dict__ __code__ __builtins__".split())
UNKNOWN = "(a reference)"


def type_name(kind: type) -> str:
    """The name of a type, in one line."""
    name = type.__repr__(kind).removeprefix("<class '").removesuffix("'>").removeprefix("builtins.")
    return name.encode("unicode_escape").decode("ascii")


def node(one: object) -> str:
    """What an object is called."""
    kind = type(one)
    if kind is types.ModuleType:
        return f"module {module_name(one)}"
    if issubclass(kind, type):
        return f"class {type_name(one)}"
    if kind is types.FunctionType:
        return f"function {one.__qualname__}"
    if kind is types.MethodType:
        return f"method {getattr(one.__func__, '__qualname__', '')}"
    if kind is types.CodeType:
        return f"code of {one.co_qualname}"
    if kind is dict and (module := module_of_globals(one)) is not None:
        return f"globals of {module_name(module)}"
    if kind in SIZED:
        return f"{kind.__name__} of {len(one)} at {id(one):#x}"
    if type_name(kind) == CACHE:
        return f"lru_cache of {getattr(one.__wrapped__, '__qualname__', '')}"
    return f"{type_name(kind)} at {id(one):#x}"


def module_name(module: object) -> str:
    """The name of a module."""
    return str(types.ModuleType.__getattribute__(module, "__dict__").get("__name__"))


def module_of_globals(found: object) -> object | None:
    """The module whose globals these are."""
    for module in list(sys.modules.values()):
        if type(module) is types.ModuleType and types.ModuleType.__getattribute__(module, "__dict__") is found:
            return module
    return None


def edge(holder: object, held: object) -> str:
    """How an object is reached from one that refers to it."""
    kind = type(holder)
    if kind is dict:
        return in_dictionary(holder, held)
    if kind in (list, tuple):
        return next((f"[{place}]" for place, item in enumerate(holder) if item is held), UNKNOWN)
    if kind in (set, frozenset):
        return " as an item"
    if kind is types.FrameType:
        # the memory of another thread's frame is gone by now
        return " of a frame"
    if kind is types.FunctionType:
        return next(("." + name for name in FUNCTION_PARTS if getattr(holder, name) is held), UNKNOWN)
    if kind is types.CellType:
        return CONTENTS
    if type_name(kind) == CACHE and type(held) is dict:
        return " cache"
    if kind is held:
        return ".__class__"
    return in_attributes(holder, held)


def in_dictionary(holder: dict[object, object], held: object) -> str:
    """The key under which a dictionary has an object."""
    for key, value in list(holder.items()):
        if value is held:
            return f"[{key_text(key)}]"
    return " as a key"


def key_text(key: object) -> str:
    """A key."""
    return repr(key) if type(key) in (str, int, float, bool, bytes, type(None)) else f"a {type_name(type(key))}"


def in_attributes(holder: object, held: object) -> str:
    """The attribute of an object; those of its dictionary, and those that its type describes in C."""
    for base in type.mro(type(holder)) if type(holder) is not type else (type,):
        for name, found in list(vars(base).items()):
            if isinstance(found, (types.MemberDescriptorType, types.GetSetDescriptorType)) and name != "__weakref__":
                if partial(value_of, found, holder)() is held:
                    return "." + name
    try:
        attributes = object.__getattribute__(holder, "__dict__")
    except AttributeError:
        return UNKNOWN
    return next(("." + name for name, value in list(attributes.items()) if value is held), UNKNOWN)


def value_of(descriptor: object, holder: object) -> object:
    """What a descriptor gives; nothing where it gives none."""
    try:
        return descriptor.__get__(holder)
    except Exception:
        return None


class Link(NamedTuple):
    """A step of a path: how the object is reached from the one before, and its name."""

    edge: str
    node: str


def shortened(links: list[Link], path: list[object]) -> list[Link]:
    """A path as a person would write it: attributes without their dictionaries, variables of closures by name."""
    found: list[Link] = []
    at = 0
    while at < len(links):
        edges = [link.edge for link in links[at : at + 3]]
        if edges[0] == DICTIONARY and len(edges) > 1 and (name := edges[1][2:-2]).isidentifier():
            found.append(Link("." + name, links[at + 1].node))
            at += 2
        elif edges[0] == CLOSURE and len(edges) == 3 and edges[2] == CONTENTS:
            variable = path[at - 1].__code__.co_freevars[int(edges[1][1:-1])]
            found.append(Link(f" cell '{variable}'", links[at + 2].node))
            at += 3
        else:
            found.append(links[at])
            at += 1
    return found
