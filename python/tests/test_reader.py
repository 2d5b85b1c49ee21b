"""Reading scripts: the codes of bad lines, and what words stand for."""
import unittest

from halzsetor.beside.reader import BadScript, Operand, Script, Sort, TooLarge, read

BAD_LINES = (
    ("a = list\t", 1, 1),
    ("print " + "1" * 1020, 1, 5),
    ("a = list" + " 1" * 62, 1, 5),
    ("\n" * 400_000 + "# too many", 400_001, 5),
    ("prnt a", 1, 2),
    ("a b", 1, 2),
    ("a =", 1, 3),
    ("a = tuple", 1, 3),
    ("a = list b\nappend a", 2, 3),
    ("f = func p" + " 1" * 9, 1, 3),
    ("a = 1 2", 1, 3),
    ("list = list", 1, 4),
    ("a = 9223372036854775808", 1, 4),
    ("debug all", 1, 4),
    ("threshold 2147483648", 1, 4),
    ("budget 100001", 1, 4),
    ("class C del=", 1, 4),
    ("class C del=p del=p", 1, 4),
    ("print x'", 1, 4),
    ("end", 1, 7),
    ("def p\nclass C\nend", 2, 7),
    ("def p\nprint 1", 3, 7),
    ("def p\nend\ndef p\nend", 3, 8),
    ("class C\nclass C", 2, 8),
    ("budget 1\nbudget 1", 2, 8),
    ("a = new C", 1, 6),
    ("f = func p", 1, 6),
    ("class C del=p", 1, 6),
)


def command(line: str) -> tuple[str, tuple]:
    """The form and the parts of a command."""
    found = read(line.encode()).commands[-1]
    return found.form, found.parts


class Reading(unittest.TestCase):
    """What scripts are read as."""

    def test_bad_lines_have_their_codes(self) -> None:
        for text, line, code in BAD_LINES:
            with self.subTest(text[-40:]), self.assertRaises(BadScript) as raised:
                read(text.encode())
            self.assertEqual((line, code), (raised.exception.line, raised.exception.code), text[-40:])

    def test_lines_without_words_are_passed_over(self) -> None:
        self.assertEqual(Script(), read(b"\n   \n# a comment\n"))

    def test_a_script_may_be_too_large(self) -> None:
        with self.assertRaises(TooLarge):
            read(b" " * (2**24 + 1))

    def test_words_stand_for_values(self) -> None:
        for word, sort, value in (
            ("none", Sort.ATOM, None),
            ("-007", Sort.ATOM, -7),
            ("'", Sort.ATOM, ""),
            ("'a'b", Sort.ATOM, "a'b"),
            ("self", Sort.SELF, None),
            ("ref", Sort.REF, None),
            ("garbage", Sort.GARBAGE, None),
            ("c7", Sort.CELL, 7),
            ("c8", Sort.NAME, "c8"),
        ):
            self.assertEqual(("print", (Operand(sort, value),)), command(f"print {word}"))

    def test_ref_alone_is_a_local(self) -> None:
        self.assertEqual(("bind", ("x", Operand(Sort.REF, None))), command("x = ref"))
        self.assertEqual("ref", command("x = ref y")[0])

    def test_absent_words_have_a_meaning(self) -> None:
        self.assertEqual(("collect", (2,)), command("collect"))
        self.assertEqual(Operand(Sort.ATOM, None), command("x = ref y")[1][2])
