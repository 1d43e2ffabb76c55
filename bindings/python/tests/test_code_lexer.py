"""The tokens of Rust: each row is a rule of the Reference, worked out by hand."""
import time
import unittest

from . import ROOT  # noqa: F401

from cfgx.code import _lexer, read
from cfgx.code._lexer import Kind, Skim, TokenError, first_place, tokens_in

WORD, RAW, STRING, RAW_STRING, LITERAL = (
    Kind.WORD, Kind.RAW_WORD, Kind.STRING, Kind.RAW_STRING, Kind.LITERAL
)
LIFETIME, OPEN, CLOSE, MARK, DOC = Kind.LIFETIME, Kind.OPEN, Kind.CLOSE, Kind.MARK, Kind.DOC
ROWS = [
    # Words and numbers.
    ("a b1 _ r#fn", [(WORD, "a"), (WORD, "b1"), (WORD, "_"), (RAW, "r#fn")]),
    ("\u00e9\u4e2d 1e3 0x1f", [(WORD, "\u00e9\u4e2d"), (WORD, "1e3"), (WORD, "0x1f")]),
    # White space is also what Unicode says, but no other character.
    ("a\u2028b\u200ec\x85d", [(WORD, "a"), (WORD, "b"), (WORD, "c"), (WORD, "d")]),
    # Comments nest, and a doc comment is a token.
    ("a /* /* */ */ b // c\nd", [(WORD, "a"), (WORD, "b"), (WORD, "d")]),
    ("a /*/ */ b /**/ c /***/ d", [(WORD, "a"), (WORD, "b"), (WORD, "c"), (WORD, "d")]),
    ("/// x\na //// y\n b", [(DOC, "/// x"), (WORD, "a"), (WORD, "b")]),
    ("/** x */ a /*! y */ //! z", [(DOC, "/** x */"), (WORD, "a"), (DOC, "/*! y */"),
                                  (DOC, "//! z")]),
    # Strings end at a quote that is not escaped, and may have a suffix.
    (r'"a" "\"" "\\" b', [(STRING, '"a"'), (STRING, r'"\""'), (STRING, r'"\\"'), (WORD, "b")]),
    ('"a\nb"x y', [(STRING, '"a\nb"x'), (WORD, "y")]),
    # A raw string ends at as many `#` as it begins with, and has no escapes.
    (r'r"\" a', [(RAW_STRING, r'r"\"'), (WORD, "a")]),
    ('r#"" "# a', [(RAW_STRING, 'r#"" "#'), (WORD, "a")]),
    ('r##" "# "##b c', [(RAW_STRING, 'r##" "# "##b'), (WORD, "c")]),
    # Bytes and C strings.
    (r'''b"\"" b'\'' b'"' a''', [(LITERAL, r'b"\""'), (LITERAL, r"b'\''"), (LITERAL, "b'\"'"),
                                 (WORD, "a")]),
    ('br#"""# c"x" cr#"""# a', [(LITERAL, 'br#"""#'), (LITERAL, 'c"x"'), (LITERAL, 'cr#"""#'),
                               (WORD, "a")]),
    # A word that only ends as a prefix is none.
    ('ar"\\" " b', [(WORD, "ar"), (STRING, '"\\" "'), (WORD, "b")]),
    ('1r"x" 1.0r"x"', [(WORD, "1r"), (STRING, '"x"'), (WORD, "1"), (MARK, "."), (WORD, "0r"),
                      (STRING, '"x"')]),
    # What stands behind a literal is its suffix, and no prefix.
    ('"x"r"y"', [(STRING, '"x"r'), (STRING, '"y"')]),
    # Characters and lifetimes.
    (r"""'a' 'a '\'' '"' '/' '(' b""", [
        (LITERAL, "'a'"), (LIFETIME, "'a"), (LITERAL, r"'\''"), (LITERAL, "'\"'"),
        (LITERAL, "'/'"), (LITERAL, "'('"), (WORD, "b")]),
    ("<'a,'b>", [(MARK, "<"), (LIFETIME, "'a"), (MARK, ","), (LIFETIME, "'b"), (MARK, ">")]),
    ("'static 'r#fn '_ '\\u{1_0}'", [(LIFETIME, "'static"), (LIFETIME, "'r#fn"), (LIFETIME, "'_"),
                                     (LITERAL, "'\\u{1_0}'")]),
    ("'r\"x\"", [(LIFETIME, "'r"), (STRING, '"x"')]),
    ("'\u00e9' '\U0001f600'", [(LITERAL, "'\u00e9'"), (LITERAL, "'\U0001f600'")]),
    # Delimiters and marks.
    ("({[]})", [(OPEN, "("), (OPEN, "{"), (OPEN, "["), (CLOSE, "]"), (CLOSE, "}"), (CLOSE, ")")]),
    ("=> -> :: == = > # !", [(MARK, one) for one in "=> -> :: == = > # !".split()]),
    ("r#[ r##", [(WORD, "r"), (MARK, "#"), (OPEN, "["), (WORD, "r"), (MARK, "#"), (MARK, "#")]),
]
# Text that ends within a token, and the place of the token.
UNENDED = [('a "b', 2), ('a r#"b"', 4), ("a /* /* */", 2), ("a '\\'", 2), ('b"x', 1), ("a '(", 2)]
# A file, and its first token.
FIRST = [
    ("#!/bin/sh\nfn", "fn"), ("#!/bin/sh [\nfn", "fn"), ("#![a]\nfn", "#"), ("#! [a]\nfn", "#"),
    ("#!/* c */[a]\nfn", "#"), ("#!//c\n[a]\nfn", "#"), ("\ufefffn", "fn"),
    ("\ufeff#!/bin/sh\nfn", "fn"), ("#!", None), ("", None), ("#!\n[a] fn", "#"),
    ("#!/// doc\n[a]", "["),
]


class Tokens(unittest.TestCase):
    """The tokens of texts."""

    def test_rows(self):
        for text, wanted in ROWS:
            with self.subTest(text=text):
                found = tokens_in(text, 0, len(text))
                self.assertEqual([(one.kind, text[one.start:one.end]) for one in found], wanted)

    def test_the_coarse_pass_sees_the_same_groups(self):
        # Around each row stand an attribute and a group. If a literal or a comment of the row ended
        # elsewhere, one of them would be missed.
        for text, _ in ROWS:
            opened = sum(text[one.start] in "([{" for one in tokens_in(text, 0, len(text))
                         if one.kind is Kind.OPEN)
            if opened and text != "({[]})":
                continue
            with self.subTest(text=text):
                skim = Skim(f"m! {{ {text}\n }} #[cfg(a)] fn f() {{}}")
                self.assertIsNone(skim.problem)
                self.assertEqual(len(skim.starts), 5 + opened)

    def test_what_does_not_end(self):
        for text, place in UNENDED:
            with self.subTest(text=text):
                with self.assertRaises(TokenError) as caught:
                    list(tokens_in(text, 0, len(text)))
                self.assertEqual(caught.exception.place, place)
                self.assertEqual(Skim(text).problem.place, place)

    def test_first_tokens(self):
        for text, word in FIRST:
            with self.subTest(text=text):
                found = next(tokens_in(text, first_place(text), len(text)), None)
                self.assertEqual(found and text[found.start:found.end], word)

    def test_delimiters_that_do_not_fit(self):
        for text, place in (("fn f() { ( }", 11), ("a )", 2), ("fn f() {", 7), ("[(]", 2)):
            with self.subTest(text=text):
                self.assertEqual(Skim(text).problem.place, place)


class Hostile(unittest.TestCase):
    """Texts that would be slow for patterns that try again."""

    def test_time(self):
        size = 20_000
        texts = ["'" * size, '"' * size, "r#" * size, "/*" * size, "/" * size, "#" * size,
                 "'a" * size, "r" * size + '"', "\\" * size, '"' + "\\\\" * size, "#[" * size,
                 "(" * size, "cfg" * size, "cfg!" * size, "#[cfg(" * size, "b'" * size,
                 "#!" * size, "'\\" * size, "mod " * size, '#"' * size, "/**" * size]
        for text in texts:
            with self.subTest(text=text[:10]):
                start = time.process_time()
                read(text)
                self.assertLess(time.process_time() - start, 20)

    def test_deep_conditions(self):
        for name in ("all(", "not("):
            [found] = read(f"#[cfg({name * 50_000}unix{')' * 50_000})] fn f() {{}}").conditions
            self.assertEqual(len(found.text), 50_000 * 5 + 4)

    def test_deep_attributes(self):
        depth = 20_000
        code = read("#[" + "cfg_attr(a, " * depth + "cfg(b)" + ")" * depth + "] fn f() {}")
        self.assertEqual(len(code.conditions), depth + 1)


assert _lexer.MARK == "\ufeff"
