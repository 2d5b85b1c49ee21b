"""What is wrong with a line of a script, in words: the word, and what to write instead."""
import difflib
from typing import Iterable, Sequence

USAGE = {
    "list": "x = list VALUE..",
    "tuple": "x = tuple VALUE..",
    "dict": "x = dict",
    "new": "x = new CLASS",
    "func": "x = func PROCEDURE VALUE.., with 8 values at most",
    "ref": "x = ref VALUE, or x = ref VALUE FUNCTION",
    "item": "x = item LIST INDEX",
    "get": "x = get DICT KEY",
    "attr": "x = attr INSTANCE ATTRIBUTE",
    "deref": "x = deref WEAKREF",
    "wmap": "m = wmap",
    "wget": "x = wget MAP KEY",
    "bind": "x = VALUE",
    "del": "del x",
    "append": "append LIST VALUE",
    "setitem": "setitem LIST INDEX VALUE",
    "delitem": "delitem LIST INDEX",
    "put": "put DICT KEY VALUE",
    "drop": "drop DICT KEY",
    "setattr": "setattr INSTANCE ATTRIBUTE VALUE",
    "delattr": "delattr INSTANCE ATTRIBUTE",
    "call": "call FUNCTION",
    "quit": "quit VALUE",
    "collect": "collect, or collect GENERATION",
    "threshold": "threshold A, threshold A B, or threshold A B C",
    "debug": "debug FLAG.., with 5 flags at most",
    "print": "print VALUE",
    "refs": "refs VALUE",
    "tracked": "tracked VALUE",
    "finalized": "finalized VALUE",
    "referents": "referents VALUE",
    "referrers": "referrers VALUE",
    "why": "why NAME",
    "profile": "profile 1, or profile 2",
    "budget": "budget NUMBER",
    "class": "class NAME, with del=PROCEDURE and legacy=PROCEDURE where it has finalizers",
    "def": "def NAME",
    "wset": "wset MAP KEY VALUE",
    "wdrop": "wdrop MAP KEY",
    "finalize": "finalize VALUE FUNCTION",
}
BRACKETS = {"[": "list", "(": "tuple", "{": "dict"}
MARK = b"\xef\xbb\xbf"


def guess(word: str, known: Iterable[str]) -> str:
    """The known word that is nearest, as the end of a sentence."""
    found = difflib.get_close_matches(word, sorted(known), 1, 0.7)
    return f": did you mean `{found[0]}`?" if found else ""


def foreign_byte(text: bytes, position: int) -> str:
    """A byte that may not stand in a script."""
    if position == 1 and text.startswith(MARK):
        return "a byte order mark stands before the first word: save the script without one"
    found = next(byte for byte in text if byte < 32 or byte > 126)
    if found == 13:
        return "the line ends in CR and LF: a line feed alone ends a line (save the script with Unix line ends)"
    if found == 9:
        return "a tab: words are set apart by spaces"
    shown = next((f" (`{letter}`)" for letter in text.decode("utf-8", "ignore") if not letter.isascii()), "")
    return f"the byte {found:#04x}{shown}: a script has the characters from space to ~ alone"


def no_form(words: Sequence[str], openers: Iterable[str], bindings: Iterable[str], extended: Iterable[str]) -> str:
    """No word picks a form."""
    word, rest = words[0], words[1:]
    if word in extended:
        return f"`{word}` is for weak value maps and exit finalizers: `gcrun expand` writes it out, as gcplay does"
    name, equals, value = word.partition("=")
    if equals and name and name not in ("del", "legacy"):
        return f"`{word}` is one word: spaces stand around `=`, as in `{name} = {value or '..'}`"
    if rest and rest[0].startswith("=") and len(rest[0]) > 1:
        return f"`{rest[0]}` is one word: spaces stand around `=`, as in `{word} = {rest[0][1:]}`"
    called, parenthesis, inside = word.partition("(")
    if parenthesis and called in openers:
        return f"`{word}`: a command has no parentheses, as in `{' '.join([called, inside.rstrip(')')]).strip()}`"
    if word in bindings:
        return f"`{word}` makes or reads a value, which a name gets: `{USAGE[word]}`"
    near = guess(word, openers)
    if near or not rest:
        return f"`{word}` is no command{near}"
    return f"`{word}` is no command{guess(word, openers)}; a name gets a value by `{word} = VALUE`"


def wrong_number(key: str, words: Sequence[str], fewest: int, most: int) -> str:
    """The number of words behind a key is none that its form allows."""
    comment = next((word for word in words if word.startswith("#")), None)
    if comment is not None and len(words) > most:
        return comment_behind(comment)
    opening = next((place for place, word in enumerate(words) if word[0] in "'\""), None)
    if opening is not None and len(words) > most and any(word[-1] in "'\"" for word in words[opening + 1 :]):
        string = " ".join(words[opening:])
        return f"`{string}`: a string has no spaces and no closing quote, as in `'{words[opening][1:]}`"
    if key == "bind":
        bound = " ".join(words)
        return f"a name gets one value, and here are {len(words)}: for a list write `x = list {bound}`"
    if most == 0:
        return f"`{key}` stands alone, and here follows `{words[0]}`"
    follows = "nothing follows" if not words else f"here {'follows' if len(words) == 1 else 'follow'} {len(words)}"
    return f"`{key}` wants {how_many(fewest, most)}, and {follows}: {USAGE[key]}"


def comment_behind(word: str) -> str:
    """A word that begins a comment."""
    return f"`{word}` begins a comment behind a command: a comment is a line of its own"


def how_many(fewest: int, most: int) -> str:
    """How many words are wanted."""
    if fewest == most:
        return f"{fewest} word{'s' * (fewest > 1)} behind it"
    return f"{fewest} to {most} words behind it"


def no_identifier(word: str) -> str:
    """A word that can't be a name of any kind."""
    if len(word) > 32:
        return f"`{word}` is too long: a name has at most 32 characters"
    if "." in word and all(part.isidentifier() for part in word.split(".")):
        holder, attribute = word.split(".", 1)
        return f"`{word}` is no name: an attribute is read by `x = attr {holder} {attribute}`"
    if word[0].isdigit():
        return f"`{word}` is no name: a name begins with a letter or `_`"
    return f"`{word}` is no name: a name has letters, digits and `_`"


def reserved(word: str) -> str:
    """A word of the language where a variable is wanted."""
    return f"`{word}` is a word of the language, not a name: take another, as `{word[:31]}_`"


def reserved_value(word: str, bindings: Iterable[str]) -> str:
    """A word of the language where a value is wanted."""
    if word in bindings:
        return f"`{word}` is a word of the language, not a value: give it a name first, by `{USAGE[word]}`"
    return reserved(word)


def no_number(word: str) -> str:
    """A word where a whole number is wanted."""
    if word.lstrip("-").isdigit():
        return f"`{word}` is out of range: numbers have 64 bits"
    return f"`{word}` is no number, and one is wanted here"


def no_count(word: str, least: int, limit: int) -> str:
    """A word where a count is wanted."""
    return f"`{word}`: a number from {least} to {limit} is wanted here"


def no_value(word: str) -> str:
    """A word that stands for no value."""
    if word[0] == '"':
        text = word.strip('"')
        return f"`{word}` is no value: a string begins with one ' and has no closing quote, as in `'{text}`"
    if word[0] == "#":
        return comment_behind(word)
    if word[0] in BRACKETS:
        return f"`{word}` is no value: give it a name first, by `{USAGE[BRACKETS[word[0]]]}`"
    if word[0] == "-" or word[0].isdigit():
        return no_number(word)
    return no_identifier(word)


def no_flag(word: str, flags: Iterable[str]) -> str:
    """A word where a debug flag is wanted."""
    return f"`{word}` is no debug flag, which are {', '.join(flags)}"


def no_finalizer(word: str) -> str:
    """A word of a class that names no finalizer."""
    return f"`{word}`: a class has del=PROCEDURE and legacy=PROCEDURE, without spaces around `=`"


def unknown(kind: str, name: str, known: Iterable[str], later: int | None, opened: str | None) -> str:
    """A procedure or a class that no earlier line defines."""
    if later is None:
        return f"no {kind} `{name}`{guess(name, known)}"
    if opened is not None and kind == "class":
        behind = f"the procedure `{opened}` can't name what comes later"
        return f"no class `{name}` yet: line {later} defines it, and {behind}"
    return f"no {kind} `{name}` yet: line {later} defines it, and has to stand before"


def unbound(name: str, bound: Iterable[str]) -> str:
    """A name that no line binds."""
    if name in ("None", "nil", "null"):
        return f"no line binds `{name}`: the value is `none`"
    return f"no line binds `{name}`, so the command is refused{guess(name, bound)}"
