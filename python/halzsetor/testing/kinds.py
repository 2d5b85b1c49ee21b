"""What keeps an object that a test made, where that is usual: by the object itself, or by who held it before."""
import abc
import gc
import re
import sys
import types
import weakref
from typing import Iterable

from .holders import Before, is_globals

# what is not counted by default, and what is
MODULES, SUBCLASSES, ABC, RE = "new modules", "lists of subclasses", "caches of abc", "caches of re"
TEST, COUNTED = "the test itself", "counted"
# what several kinds of heads lead to is of the first
ORDER = (MODULES, COUNTED, SUBCLASSES, ABC, RE, TEST)
IMPORTERS = ("importlib", "_frozen_importlib", "_frozen_importlib_external", "zipimport")
RUNNERS = ("unittest", "_pytest", "pluggy")
ABC_DATA = type(abc.ABC._abc_impl)
# where the module `re` keeps patterns, beside the cache of a function
CACHES = ("_cache", "_cache2")
CONTAINERS = (dict, list, set)
# how far it is gone from a container to what it belongs to
DEPTH = 4


def kind_of(one: object, test: object) -> str:
    """What keeps an object, as far as it tells itself."""
    if isinstance(one, types.ModuleType):
        return MODULES
    if is_entry_of_subclasses(one) or (type(one) is dict and one and all(map(is_entry_of_subclasses, one.values()))):
        return SUBCLASSES
    is_of_test = one is test or (type(one) is types.MethodType and one.__self__ is test)
    return TEST if is_of_test or is_of(one, RUNNERS) else COUNTED


def kind_by_holder(holder: object, test: object, before: Before) -> str:
    """What keeps an object, by who holds it; of a container by who holds that, and so on."""
    owners = [holder]
    for _ in range(DEPTH):
        kinds = {kind_of_holder(owner, test) for owner in owners}
        if kinds != {COUNTED}:
            return min(kinds - {COUNTED}, key=ORDER.index, default=COUNTED)
        owners = before.referrers(*filter(is_part_of_another, owners))
    return COUNTED


def is_part_of_another(one: object) -> bool:
    """Whether an object is a container that belongs to another object: the globals of a module have their own name."""
    return type(one) in CONTAINERS and not is_globals(one)


def kind_of_holder(holder: object, test: object) -> str:
    """What belongs to a part of Python, or to what runs tests."""
    if holder is sys.modules or holder is sys.path_importer_cache or is_of(holder, IMPORTERS):
        return MODULES
    if type(holder) is ABC_DATA:
        return ABC
    if is_cache_of_re(holder):
        return RE
    return TEST if holder is test or is_of(holder, RUNNERS) else COUNTED


def is_entry_of_subclasses(one: object) -> bool:
    """Whether an object is what a class keeps of a subclass."""
    return type(one) is weakref.ReferenceType and isinstance(one(), type) and one.__callback__ is None


def is_of(one: object, packages: tuple[str, ...]) -> bool:
    """Whether an object's type, or a base of it, is of one of these packages; mocks are made by tests."""
    modules = {str(type.__getattribute__(base, "__module__")) for base in type.mro(type(one))} - {"unittest.mock"}
    return any(module.partition(".")[0] in packages for module in modules)


def is_cache_of_re(one: object) -> bool:
    """Whether the module `re` keeps patterns in an object."""
    if type(one) is dict:
        return is_one_of(one, map(vars(re).get, CACHES)) or is_one_of(one, gc.get_referents(re._compile_template))
    return one is re._compile_template


def is_one_of(one: object, others: Iterable[object]) -> bool:
    """Whether an object is among others: they are not compared."""
    return any(one is other for other in others)
