"""Carries out a script's commands on real objects.

What is seen is not to be disturbed by looking at it. So the reader keeps no reference to an object but where the script
has one, and gives its own up before anything is released: a command takes the value that it replaces, changes what is
to be changed, lets go of everything else, and last of that value, which then dies as if it had been replaced at once.
What frames that are under way hold for the reader's sake is noted, and `refs` leaves it out. No exception is raised
while a script runs, since a traceback would hold what its frames do.

Nothing that the reader makes while a script runs becomes garbage of the collector's, so that the numbers of a
collection are the script's alone; and it makes no list, tuple or dictionary that is there while a frame or `gens` runs,
since that one might lie where an object of the script was.
"""
import ctypes
import gc
import sys
import weakref
from typing import Callable, Iterable, NoReturn, Protocol

from .collector import Collector
from .compare import Evidence
from .hidden import Hidden, untrack
from .objects import (
    MOST_ATTRIBUTES,
    Function,
    Registry,
    Unsupported,
    WeakReference,
    attribute,
    new_class,
    new_function,
)
from .points import FINALIZED, GARBAGE, HELD, HOLDERS
from .reader import Command, Operand, Procedure, Script, Sort

NO_NAME = 1
WRONG_KIND = 2
NO_INDEX = 3
NO_KEY = 4
NO_ATTRIBUTE = 5
NOT_WEAK = 6
NOT_CALLABLE = 7
BAD_GENERATION = 8
UNHASHABLE = 9
IN_A_COLLECTION = 13
# the answer of `quit none`, which is no refusal
QUIT = 0
# what the names stand under in their own dictionary, and what tells that it is gone: no names of a script
GLOBALS, SIGN = "globals()", "gone()"

# how often the reader itself holds what a frame is about: see `finalizer_of`, `Function.__call__` and `Frame`; the
# arguments of a callback are a tuple of CPython's
HELD_BY_A_FINALIZER = 2
HELD_BY_A_CALLBACK = 3
HELD_BY_ITS_FUNCTION = 2


class Frame:
    """What a frame's locals stand for."""

    __slots__ = ("sort", "subject", "function")

    def __init__(self, sort: str, subject: object, function: Function | None) -> None:
        self.sort = sort
        self.subject = subject
        self.function = function


def is_atom(value: object) -> bool:
    """Whether a value is no object of a script."""
    return value is None or isinstance(value, (int, str))


class Schedule(Protocol):
    """Says which collections start by themselves."""

    def due(self, written: list[str], command: Command | None) -> int | None:
        """The generation of a collection that starts before a command, where these lines are written."""

    def done(self, written: list[str], command: Command) -> None:
        """Takes notice of a command that begins where these lines are written."""


class Machine:
    """A script under way."""

    def __init__(
        self, script: Script, ended: Callable[[list[str]], NoReturn], schedule: Schedule | None, automatic: bool
    ) -> None:
        self.script = script
        self.ended = ended
        self.schedule = schedule
        self.automatic = automatic
        self.budget = script.budget
        self.lines: list[str] = []
        self.evidence = Evidence()
        self.bound_names: dict[str, object] = {}
        # the address of the dictionary of names while that is garbage
        self.thrown_away: int | None = None
        # tells when that dictionary is cleared
        self.sign: weakref.ref | None = None
        self.registry = Registry()
        self.held: dict[int, int] = {}
        # the attributes that instances of a class have had, in the order in which the class got them
        self.attributes: dict[type, dict[str, None]] = {}
        self.classes: dict[str, type] = {}
        self.collector = Collector(self.registry, self.emit)
        self.hidden = Hidden()
        # whether objects of the script may be in the permanent generation
        self.is_frozen = False
        # how often CPython itself holds the garbage list
        self.garbage_base = 0
        self.methods = {name[3:]: getattr(self, name) for name in dir(self) if name.startswith("do_")}

    # running

    def run(self) -> NoReturn:
        """Runs the script to its end."""
        for definition in self.script.classes.values():
            self.classes[definition.name] = new_class(definition, self.run_finalizer)
        Function.run_callback = self.run_callback
        gc.collect()
        # a dictionary is tracked once it has had something that is: so the names are hidden with the rest
        self.bound_names[GLOBALS] = self.bound_names
        del self.bound_names[GLOBALS]
        self.hidden.hide()
        self.collector.watch()
        self.garbage_base = sys.getrefcount(gc.garbage) - 1
        if self.automatic:
            gc.enable()
        self.run_commands(self.script.commands, None)
        self.collect_what_is_due(None)
        if self.script.shutdown is not None:
            self.shut_down()
        self.emit("end")
        self.ended(self.lines)

    def shut_down(self) -> None:
        """Ends as an interpreter does: a collection, then the names are given up, another one, and what is left."""
        if self.collector.flags:
            raise Unsupported("the script ends with debug flags, which would tell of the reader's own objects too")
        self.evidence.shutdown = len(self.lines)
        self.evidence.starts.add(len(self.lines))
        if not self.is_frozen:
            # so that the names are among what is collected, as a module's globals are
            self.hidden.show()
        self.thrown_away = id(self.bound_names)
        # the collector meets the names before their holder, as a module's globals before the modules: that makes the
        # order of the names the order of what they hold
        holder = [self.bound_names]
        del self.bound_names
        gc.collect()
        self.give_names_up(holder)
        gc.collect()
        self.collector.own = 0
        if self.thrown_away is not None:
            self.begin_new_names()
        self.emit(f"left {self.registry.left()}")

    def begin_new_names(self, _: object = None) -> None:
        """The dictionary of names is gone: what is bound from now on stands in a new one."""
        self.thrown_away, self.bound_names = None, {}

    def give_names_up(self, holder: list[dict[str, object]]) -> None:
        """Gives the names up, as those of a module are when it goes."""
        if self.script.procedures:
            # functions hold their module's globals, so these are garbage together with all that only they hold
            self.names[GLOBALS] = self.names
            # the collector does not track code, so this dies when the dictionary is cleared, and no sooner
            self.names[SIGN] = compile("", SIGN, "exec")
            self.sign = weakref.ref(self.names[SIGN], self.begin_new_names)
            self.collector.own = 1
        else:
            # the globals die, and give up their first entry first
            while self.names:
                del self.names[next(iter(self.names))]
        holder.clear()

    @property
    def names(self) -> dict[str, object]:
        """The names that are bound."""
        if self.thrown_away is not None:
            return ctypes.cast(self.thrown_away, ctypes.py_object).value
        return self.bound_names

    def emit(self, line: str) -> None:
        """Writes a line."""
        self.lines.append(line)

    def note(self, point: str) -> None:
        """Notes that a point bears on the next line."""
        self.evidence.notes[len(self.lines)] = point

    def run_commands(self, commands: Iterable[Command], frame: Frame | None) -> None:
        """Runs commands; in a frame up to the first that is refused."""
        for command in commands:
            self.collect_what_is_due(command)
            self.evidence.starts.add(len(self.lines))
            answer = self.perform(command, frame)
            if answer:
                self.emit(f"refused {answer}")
            if answer == QUIT or (answer and frame is not None):
                return

    def collect_what_is_due(self, command: Command | None) -> None:
        """Starts the collections that are to start by themselves before a command."""
        while self.schedule is not None and not self.collector.is_running:
            generation = self.schedule.due(self.lines, command)
            if generation is None:
                return
            gc.collect(generation)

    def perform(self, command: Command, frame: Frame | None) -> int | None:
        """Does a command. The answer is the number of a refusal, `QUIT`, or none."""
        for operand in command.operands:
            if not self.is_bound(operand, frame):
                return NO_NAME
        if self.schedule is not None:
            self.schedule.done(self.lines, command)
        return self.methods[command.form](frame, command.parts)

    def run_frame(self, frame: Frame, procedure: Procedure, serial: int) -> None:
        """Runs a procedure's commands."""
        if self.budget == 0:
            self.emit("budget spent")
            self.ended(self.lines)
        self.budget -= 1
        self.emit(f"enter {frame.sort} #{serial}")
        # so that what the frame needs is held from outside, as by a frame of Python's
        untrack(frame)
        self.run_commands(procedure.body, frame)
        self.emit("leave")

    def run_finalizer(self, sort: str, subject: object, procedure: Procedure) -> None:
        """Runs the frame of a finalizer."""
        frame = Frame(sort, subject, None)
        address = id(subject)
        del subject
        self.hold(address, HELD_BY_A_FINALIZER)
        self.run_frame(frame, procedure, self.registry.serials[address])
        self.hold(address, -HELD_BY_A_FINALIZER)

    def run_callback(self, reference: WeakReference, function: Function) -> None:
        """Runs the frame of a callback."""
        self.registry.forget_tuples_of_a_call(self.names)
        frame = Frame("callback", reference, function)
        held, function_held = id(reference), id(function)
        del reference, function
        self.hold(held, HELD_BY_A_CALLBACK)
        self.hold(function_held, HELD_BY_ITS_FUNCTION)
        self.run_frame(frame, frame.function.procedure, self.registry.serials[held])
        self.hold(held, -HELD_BY_A_CALLBACK)
        self.hold(function_held, -HELD_BY_ITS_FUNCTION)

    def hold(self, address: int, times: int) -> None:
        """Notes how often the reader itself holds an object."""
        self.held[address] = self.held.get(address, 0) + times

    # values

    def is_bound(self, operand: Operand, frame: Frame | None) -> bool:
        """Whether something stands under the operand."""
        if operand.sort is Sort.NAME:
            return operand.value in self.names
        if operand.sort is Sort.SELF:
            return frame is not None and frame.sort in ("del", "legacy")
        if operand.sort is Sort.REF:
            return frame is not None and frame.sort == "callback"
        if operand.sort is Sort.CELL:
            return frame is not None and frame.function is not None and operand.value < frame.function.size
        return True

    def value(self, operand: Operand, frame: Frame | None) -> object:
        """What stands under a bound operand."""
        if operand.sort is Sort.NAME:
            return self.names[operand.value]
        if operand.sort is Sort.ATOM:
            return operand.value
        if operand.sort is Sort.GARBAGE:
            return gc.garbage
        if operand.sort is Sort.CELL:
            return getattr(frame.function, f"c{operand.value}")
        return frame.subject

    def values(self, operands: Iterable[Operand], frame: Frame | None) -> list[object]:
        """A new list of values."""
        return [self.value(operand, frame) for operand in operands]

    def is_instance(self, value: object) -> bool:
        """Whether the value is an instance of a class of the script."""
        return type(value) in self.attributes

    def bind(self, name: str, value: object) -> None:
        """Binds a name; what it had is given up last, when the reader itself holds nothing any more."""
        old = self.names.get(name)
        self.names[name] = value
        del value
        del old

    def note_contents(self, holder: object) -> None:
        """Notes where a dictionary, an instance or a function holds two objects, so that their order may be seen."""
        word = f"#{self.registry.serial(holder)}"
        if word in self.evidence.wide:
            return
        held = 0
        for found in gc.get_referents(holder):
            held += self.registry.is_of_script(found)
        if held > 1:
            self.evidence.wide.add(word)

    def made(self, kind: str, value: object) -> object:
        """Tells that an object was made, and hands it on."""
        self.emit(f"made {kind} #{self.registry.add(value)}")
        if kind == "function":
            self.note_contents(value)
        return value

    # Each command below is one of docs/SCRIPT.md, and answers as `perform` does. Where it gives something up, it holds
    # nothing else by then.

    # commands that make an object

    def do_list(self, frame: Frame | None, parts: tuple) -> None:
        name, operands = parts
        self.bind(name, self.made("list", self.values(operands, frame)))

    def do_tuple(self, frame: Frame | None, parts: tuple) -> None:
        name, operands = parts
        self.bind(name, self.made("tuple", tuple(self.values(operands, frame))))

    def do_dict(self, frame: Frame | None, parts: tuple) -> None:
        (name,) = parts
        self.bind(name, self.made("dict", {}))

    def do_new(self, frame: Frame | None, parts: tuple) -> None:
        name, class_name = parts
        found = self.classes[class_name]
        self.attributes.setdefault(found, {})
        self.bind(name, self.made("instance", found()))

    def do_func(self, frame: Frame | None, parts: tuple) -> None:
        name, procedure, cells = parts
        self.bind(name, self.made("function", new_function(procedure, self.values(cells, frame))))

    def do_ref(self, frame: Frame | None, parts: tuple) -> int | None:
        name, referent, callback = parts
        target = self.value(referent, frame)
        if not self.is_instance(target) and type(target) is not Function:
            return WRONG_KIND
        function = self.value(callback, frame)
        if function is not None and type(function) is not Function:
            return NOT_CALLABLE
        del target, function
        self.bind(name, self.made("weakref", WeakReference(self.value(referent, frame), self.value(callback, frame))))

    # commands on names

    def do_bind(self, frame: Frame | None, parts: tuple) -> None:
        name, operand = parts
        self.bind(name, self.value(operand, frame))

    def do_del(self, frame: Frame | None, parts: tuple) -> int | None:
        (name,) = parts
        if name not in self.names:
            return NO_NAME
        del self.names[name]

    # commands on lists and tuples

    def do_append(self, frame: Frame | None, parts: tuple) -> int | None:
        operand, value = parts
        target = self.value(operand, frame)
        if type(target) is not list or target is gc.garbage:
            return WRONG_KIND
        target.append(self.value(value, frame))

    def do_setitem(self, frame: Frame | None, parts: tuple) -> int | None:
        operand, index, value = parts
        target = self.value(operand, frame)
        if type(target) is not list or target is gc.garbage:
            return WRONG_KIND
        if not 0 <= index < len(target):
            return NO_INDEX
        old = target[index]
        target[index] = self.value(value, frame)
        del target
        del old

    def do_delitem(self, frame: Frame | None, parts: tuple) -> int | None:
        operand, index = parts
        target = self.value(operand, frame)
        if type(target) is not list:
            return WRONG_KIND
        if not 0 <= index < len(target):
            return NO_INDEX
        self.collector.saved -= target is gc.garbage
        old = target.pop(index)
        del target
        del old

    def do_item(self, frame: Frame | None, parts: tuple) -> int | None:
        name, operand, index = parts
        target = self.value(operand, frame)
        if type(target) not in (list, tuple):
            return WRONG_KIND
        if not 0 <= index < len(target):
            return NO_INDEX
        del target
        self.bind(name, self.value(operand, frame)[index])

    # commands on dictionaries

    def refused_key(self, operand: Operand, key: Operand, frame: Frame | None) -> int | None:
        """Why a command on a dictionary and a key is refused."""
        if type(self.value(operand, frame)) is not dict:
            return WRONG_KIND
        if type(self.value(key, frame)) in (list, tuple, dict, WeakReference):
            return UNHASHABLE
        return None

    def refused_entry(self, operand: Operand, key: Operand, frame: Frame | None) -> int | None:
        """Why a command on an entry of a dictionary is refused."""
        refusal = self.refused_key(operand, key, frame)
        if refusal is None and self.value(key, frame) not in self.value(operand, frame):
            return NO_KEY
        return refusal

    def do_put(self, frame: Frame | None, parts: tuple) -> int | None:
        operand, key, value = parts
        refusal = self.refused_key(operand, key, frame)
        if refusal is not None:
            return refusal
        target, found = self.value(operand, frame), self.value(key, frame)
        old = target.get(found)
        target[found] = self.value(value, frame)
        if not is_atom(self.value(value, frame)) or not is_atom(found):
            self.note_contents(target)
        del target, found
        del old

    def do_drop(self, frame: Frame | None, parts: tuple) -> int | None:
        """Takes an entry out; CPython gives up the key, and then the value."""
        operand, key = parts
        refusal = self.refused_entry(operand, key, frame)
        if refusal is not None:
            return refusal
        target, found = self.value(operand, frame), self.value(key, frame)
        old = target.pop(found)
        del target
        del old

    def do_get(self, frame: Frame | None, parts: tuple) -> int | None:
        name, operand, key = parts
        refusal = self.refused_entry(operand, key, frame)
        if refusal is not None:
            return refusal
        self.bind(name, self.value(operand, frame)[self.value(key, frame)])

    # commands on instances

    def refused_attribute(self, operand: Operand, name: str, frame: Frame | None) -> int | None:
        """Why a command on an attribute is refused."""
        if not self.is_instance(self.value(operand, frame)):
            return WRONG_KIND
        return None if hasattr(self.value(operand, frame), attribute(name)) else NO_ATTRIBUTE

    def do_setattr(self, frame: Frame | None, parts: tuple) -> int | None:
        operand, name, value = parts
        target = self.value(operand, frame)
        if not self.is_instance(target):
            return WRONG_KIND
        self.note_attribute(target, name)
        old = getattr(target, attribute(name), None)
        setattr(target, attribute(name), self.value(value, frame))
        if not is_atom(self.value(value, frame)):
            self.note_contents(target)
        del target
        del old

    def note_attribute(self, target: object, name: str) -> None:
        """Notes an attribute of a class's instances: where there are many, CPython gives them a dictionary each.

        CPython keeps the attributes of all instances of a class in one order, so also whether this one is set out of it.
        """
        names = self.attributes[type(target)]
        names.setdefault(name)
        if len(names) > MOST_ATTRIBUTES:
            found = type(target).__name__
            raise Unsupported(f"the instances of class {found} have more than {MOST_ATTRIBUTES} attributes")
        if not hasattr(target, attribute(name)):
            for later in reversed(names):
                if later == name:
                    return
                self.evidence.is_askew = self.evidence.is_askew or hasattr(target, attribute(later))

    def do_delattr(self, frame: Frame | None, parts: tuple) -> int | None:
        operand, name = parts
        refusal = self.refused_attribute(operand, name, frame)
        if refusal is not None:
            return refusal
        target = self.value(operand, frame)
        old = getattr(target, attribute(name))
        delattr(target, attribute(name))
        del target
        del old

    def do_attr(self, frame: Frame | None, parts: tuple) -> int | None:
        name, operand, key = parts
        refusal = self.refused_attribute(operand, key, frame)
        if refusal is not None:
            return refusal
        self.bind(name, getattr(self.value(operand, frame), attribute(key)))

    # other commands on objects

    def do_deref(self, frame: Frame | None, parts: tuple) -> int | None:
        name, operand = parts
        if type(self.value(operand, frame)) is not WeakReference:
            return NOT_WEAK
        self.bind(name, self.value(operand, frame)())

    def do_call(self, frame: Frame | None, parts: tuple) -> int | None:
        (operand,) = parts
        called = Frame("call", None, self.value(operand, frame))
        if type(called.function) is not Function:
            return NOT_CALLABLE
        self.run_frame(called, called.function.procedure, self.registry.serial(called.function))

    def do_quit(self, frame: Frame | None, parts: tuple) -> int | None:
        (operand,) = parts
        return QUIT if self.value(operand, frame) is None else None

    # commands on the collector

    def do_collect(self, frame: Frame | None, parts: tuple) -> int | None:
        (generation,) = parts
        if not 0 <= generation <= 2:
            return BAD_GENERATION
        self.emit(f"collected {gc.collect(generation)}")

    def do_enable(self, frame: Frame | None, parts: tuple) -> None:
        if self.automatic:
            gc.enable()

    def do_disable(self, frame: Frame | None, parts: tuple) -> None:
        gc.disable()

    def do_threshold(self, frame: Frame | None, parts: tuple) -> None:
        gc.set_threshold(*parts)

    def do_debug(self, frame: Frame | None, parts: tuple) -> None:
        flags = 0
        for bits in parts:
            flags |= bits
        self.collector.set_flags(flags)
        if self.collector.is_running:
            self.evidence.debugged.append(len(self.lines))

    def do_freeze(self, frame: Frame | None, parts: tuple) -> None:
        gc.freeze()
        self.is_frozen = True

    def do_unfreeze(self, frame: Frame | None, parts: tuple) -> None:
        gc.unfreeze()
        self.is_frozen = False

    # commands that answer

    def do_print(self, frame: Frame | None, parts: tuple) -> None:
        (operand,) = parts
        value = self.value(operand, frame)
        if value is None or isinstance(value, int):
            self.emit(f"value {'none' if value is None else value}")
        elif isinstance(value, str):
            self.emit(f"value '{value}")
        else:
            self.emit(f"value #{self.registry.serial(value)}")

    def do_refs(self, frame: Frame | None, parts: tuple) -> int | None:
        (operand,) = parts
        value = self.value(operand, frame)
        if is_atom(value):
            return WRONG_KIND
        # less the local `value` and the argument of `getrefcount`
        count = sys.getrefcount(value) - 2
        if value is gc.garbage:
            count += 1 - self.garbage_base
        if self.is_held_otherwise(value, frame):
            self.note(HELD)
        self.emit(f"refs {count - self.held.get(id(value), 0)}")

    def is_held_otherwise(self, value: object, frame: Frame | None) -> bool:
        """Whether CPython may hold a weak reference to a dying object at other times than gcrun.

        The one with a callback is not held, if it is the only one; one without a callback is, if it is of a subclass.
        """
        if type(value) is not WeakReference or value.__callback__ is not None:
            return False
        is_in_callback = frame is not None and frame.sort == "callback"
        return bool(self.held.get(id(value))) or (is_in_callback and value() is None)

    def do_tracked(self, frame: Frame | None, parts: tuple) -> None:
        (operand,) = parts
        value = self.value(operand, frame)
        if value is gc.garbage:
            self.note(GARBAGE)
        self.emit("tracked yes" if gc.is_tracked(value) else "tracked no")

    def do_finalized(self, frame: Frame | None, parts: tuple) -> None:
        (operand,) = parts
        value = self.value(operand, frame)
        if self.is_instance(value) and self.held.get(id(value)):
            self.note(FINALIZED)
        self.emit("finalized yes" if gc.is_finalized(value) else "finalized no")

    def do_referents(self, frame: Frame | None, parts: tuple) -> int | None:
        return self.list_objects("referent", gc.get_referents, frame, parts)

    def do_referrers(self, frame: Frame | None, parts: tuple) -> int | None:
        return self.list_objects("referrer", gc.get_referrers, frame, parts)

    def list_objects(
        self, word: str, asked: Callable[[object], list[object]], frame: Frame | None, parts: tuple
    ) -> int | None:
        """Lists what a function of the collector's tells of an object, as far as it is the script's."""
        (operand,) = parts
        if is_atom(self.value(operand, frame)):
            return WRONG_KIND
        if self.collector.is_running:
            return IN_A_COLLECTION
        listed = 0
        for found in asked(self.value(operand, frame)):
            if self.registry.is_known(found):
                self.emit(f"{word} #{self.registry.serial(found)}")
                listed += 1
        if self.is_frozen:
            self.note(HOLDERS)
        self.emit(f"listed {listed}")

    def do_count(self, frame: Frame | None, parts: tuple) -> None:
        """Prints nothing: CPython counts other things too."""

    def do_gens(self, frame: Frame | None, parts: tuple) -> None:
        self.collector.tell_sizes()
