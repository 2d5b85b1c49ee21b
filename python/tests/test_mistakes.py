"""What is said of bad scripts, and of good ones that are surely wrong: the line, the word and the remedy."""
import unittest

from halzsetor.beside.reader import EXTENDED, BadScript, Mistake, is_extended, read, told, warnings

from .running import run

# ten typical mistakes in one script; `p` and `C` are not known before their lines
TEN = """\
count = list
f = func p
def p
  x = new C
end
class C del=p
print 'hello world'
a = list # a new list
prnt a
a=list
append a
a = [1]
print(a)
"""
TEN_SAID = """\
line 1: `count` is a word of the language, not a name: take another, as `count_`
line 2: no procedure `p` yet: line 3 defines it, and has to stand before
line 4: no class `C` yet: line 6 defines it, and the procedure `p` can't name what comes later
line 7: `'hello world'`: a string has no spaces and no closing quote, as in `'hello`
line 8: `#` begins a comment behind a command: a comment is a line of its own
line 9: `prnt` is no command: did you mean `print`?
line 10: `a=list` is one word: spaces stand around `=`, as in `a = list`
line 11: `append` wants 2 words behind it, and here follows 1: append LIST VALUE
line 12: `[1]` is no value: give it a name first, by `x = list VALUE..`
line 13: `print(a)`: a command has no parentheses, as in `print a`
"""
# a script, and what is said of its last line
SAID = (
    (b"a = list\r", "the line ends in CR and LF: a line feed alone ends a line (save the script with Unix line ends)"),
    (b"a\t= list", "a tab: words are set apart by spaces"),
    (b"\xef\xbb\xbfa = list", "a byte order mark stands before the first word: save the script without one"),
    ("print caf\u00e9".encode(), "the byte 0xc3 (`\u00e9`): a script has the characters from space to ~ alone"),
    (b'print "x"', "`\"x\"` is no value: a string begins with one ' and has no closing quote, as in `'x`"),
    (b"x = a.b", "`a.b` is no name: an attribute is read by `x = attr a b`"),
    (b"1a = list", "`1a` is no name: a name begins with a letter or `_`"),
    (b"a =", "`a =` binds nothing: x = VALUE"),
    (b"a = 1 2", "a name gets one value, and here are 2: for a list write `x = list 1 2`"),
    (b"a = list list", "`list` is a word of the language, not a value: give it a name first, by `x = list VALUE..`"),
    (b"a = new C", "no class `C`"),
    (b"class Node\na = new node", "no class `node`: did you mean `Node`?"),
    (b"class C del p", "`del`: a class has del=PROCEDURE and legacy=PROCEDURE, without spaces around `=`"),
    (b"def p\nend\ndef p", "a second procedure `p`: line 1 defines it already"),
    (b"end", "`end` stands outside a procedure: no `def` is open here"),
    (b"def p\nclass C", "`class` stands inside the procedure `p`: `end` closes that first"),
    (b"a = list\nprofile 2", "`profile` is the first line of a script, comments aside"),
    (b"debug all", "`all` is no debug flag, which are stats, collectable, uncollectable, saveall, leak"),
    (b"threshold -1", "`-1`: a number from 0 to 2147483647 is wanted here"),
    (
        b"m = dict\nwset m 1 m",
        "`wset` is for weak value maps and exit finalizers: `gcrun expand` writes it out, as gcplay does",
    ),
)
WARNED = (
    (b"a = list\nprint b", "line 2: warning: no line binds `b`, so the command is refused\n"),
    (
        b"node = list\nprint nod",
        "line 2: warning: no line binds `nod`, so the command is refused: did you mean `node`?\n",
    ),
    (b"print None", "line 1: warning: no line binds `None`: the value is `none`\n"),
    (b"del a", "line 1: warning: no line binds `a`, so the command is refused\n"),
    (b"print self", "line 1: warning: `self` stands for nothing outside a procedure, so the command is refused\n"),
    (b"print 'x'", "line 1: warning: `'x'`: the closing quote belongs to the text, since a string has none\n"),
    (b"def p\nprint self\nprint a\nend\na = list", ""),
)


class Mistakes(unittest.TestCase):
    """Bad scripts."""

    def found(self, text: bytes) -> list[Mistake]:
        """The mistakes in a script."""
        with self.assertRaises(BadScript) as raised:
            read(text)
        return raised.exception.mistakes

    def test_ten_typical_mistakes(self) -> None:
        self.assertEqual(TEN_SAID, told(self.found(TEN.encode())))

    def test_each_is_told_in_words(self) -> None:
        for text, said in SAID:
            position = text.count(b"\n") + 1
            with self.subTest(text):
                self.assertEqual((position, said), self.found(text)[0][::2])

    def test_a_procedure_without_an_end(self) -> None:
        self.assertEqual("line 3: the procedure `p` of line 1 has no `end`\n", told(self.found(b"def p\nprint 1\n")))

    def test_a_bad_line_is_not_blamed_on_others(self) -> None:
        said = "line 1: `def` wants 1 word behind it, and here follow 2: def NAME\n"
        self.assertEqual(said, told(self.found(b"def p x\nend\n")))
        found = self.found(b"class C del p\na = new C\ndef q\nend\nclass C del=q")
        self.assertEqual([1, 5], [mistake.line for mistake in found])

    def test_warnings(self) -> None:
        for text, said in WARNED:
            with self.subTest(text):
                self.assertEqual(said, told(warnings(read(text))))


class Extended(unittest.TestCase):
    """Weak value maps and exit finalizers."""

    def test_what_is_extended(self) -> None:
        for text in (b"m = wmap", b"x = wget m 1", b"wset m 1 x", b"wdrop m 1", b"finalize a f"):
            self.assertTrue(is_extended(text), text)
        for text in (b"wmap = list\na = wmap", b"wset = list", b"x = wget", b"# m = wmap", b"", b"print 'wset"):
            self.assertFalse(is_extended(text), text)

    def test_what_is_read(self) -> None:
        read(b"class C\nm = wmap\na = new C\nwset m 1 a\nx = wget m 1\nwdrop m 1", EXTENDED)
        for text, said in (
            (b"wset m 1", "`wset` wants 3 words behind it, and here follow 2: wset MAP KEY VALUE"),
            (b"wv_1 = list", "`wv_1`: names that begin with `wv_` are kept for the expansion"),
            (b"def p\nfinalize a f\nend", "`finalize` stands inside the procedure `p`: it is for the script alone"),
        ):
            with self.assertRaises(BadScript) as raised:
                read(text, EXTENDED)
            self.assertEqual(said, raised.exception.mistakes[0].says)


class Gcscript(unittest.TestCase):
    """What gcscript says of scripts that it doesn't run."""

    def test_a_bad_script(self) -> None:
        outcome = run("a = list\nlist = list\n")
        said = "line 2: `list` is a word of the language, not a name: take another, as `list_`\n"
        self.assertEqual((1, "bad script 2 4\n", said), outcome)
        compared = run("a = list\nlist = list\n", text="bad script 2 4\n")
        self.assertEqual((0, "agrees: the script is bad, and nothing was run\n", said), compared)
        compared = run("a = list\nlist = list\n", text="made list #2\nend\n")
        said += "gcscript: the script is bad here, and gcrun has `made list #2`: nothing was run\n"
        self.assertEqual((1, "bad script 2 4\n", said), compared)

    def test_what_it_cannot_carry_out(self) -> None:
        for script, line, word in (
            ("profile 2\na = list\n", 1, "profile"),
            ("a = list\nwhy a\n", 2, "why"),
            ("a = list\ndef p\nwhy a\nend\n", 3, "why"),
        ):
            for text in (None, "end\n"):
                outcome = run(script, text=text)
                self.assertEqual((2, ""), outcome[:2])
                self.assertRegex(outcome.message, f"^gcscript: line {line}: `{word}` can't be carried out by CPython: ")

    def test_warnings_do_not_keep_it_from_running(self) -> None:
        outcome = run("print a\n")
        said = "line 1: warning: no line binds `a`, so the command is refused\n"
        self.assertEqual((0, "refused 1\nend\n", said), outcome)


if __name__ == "__main__":
    unittest.main()
