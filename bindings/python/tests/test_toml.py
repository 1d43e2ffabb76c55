"""Where keys stand in a text of TOML."""
import time
import unittest

from . import needs
from .test_budget import slowness

from cfgx import _toml

# Texts, and the keys that they have, each with the text that stands for it, from the outermost on.
# The rules are those of TOML 1.0 but for the last texts, which are those of 1.1.
ROWS = [
    ("", []),
    ("a = 1", ["a"]),
    ("a.b = 1\n[t]\nc = 2 # d = 3\n", ["a.b", "t", "t.c"]),
    (" [ t . u ] # [x]\n\t\"a\" . 'b' = 1\n", ["t.u", "t.u.\"a\".'b'"]),
    ("[[t]]\na = 1\n[[t]]\n[t.u]\n", ["t", "t.a", "t", "t.u"]),
    ("a = '[b]'\nc = \"# \\\" d = 1\"\ne = 1\n", ["a", "c", "e"]),
    ("a = '''\nb = 1\n[c]\n''''\nd = 1", ["a", "d"]),
    ('a = """\nb = 1\n\\"""c = 1\n"""""\nd = 1', ["a", "d"]),
    ('a = """"b" """\nc = ""\nd = \'\'\ne = """"""\nf = \'\'\'\'\'\'\ng = 1',
     ["a", "c", "d", "e", "f", "g"]),
    ("a = [ 1, # ] b = 1\n  '], \"', \"\\\"]\", [2, {c = 1}],\n]\nd = 1", ["a", "d"]),
    ("a = { b = 1, c.d = '}', 'e' = { f = [1] } }\ng = 1",
     ["a", "a.b", "a.c.d", "a.'e'", "a.'e'.f", "g"]),
    ("a = {}\r\nb = { }\r\nc = 2024-01-01 10:00:00\r\nd = 1", ["a", "b", "c", "d"]),
    ("a.b.c.d.e = 1\n[a.b.c.x.y.z]\nv = 1", ["a.b.c.d", "a.b.c.x", "a.b.c.x"]),
    ("a.b = { c = { d = { e = 1 }, f = 1 } }\ng = 1", ["a.b", "a.b.c", "a.b.c.d", "a.b.c.f", "g"]),
    ('"" = 1\n"é\\u00e9" = 1', ['""', '"é\\u00e9"']),
    ("a = {\n b = 1, # c = 1\n d = 2,\n}\ne = 1", ["a", "a.b", "a.d", "e"]),
]
# Keys as they stand in a text, and the names that they are for.
NAMES = [
    ("a-b_C9", "a-b_C9"), ('"a.b"', "a.b"), ("'a\\n\"'", 'a\\n"'), ('"\\"\\\\"', '"\\'),
    ('"\\b\\t\\n\\f\\r"', "\b\t\n\f\r"), ('"\\u00E9\\U0001f600x"', "é😀x"), ("'日本'", "日本"),
    ('"\\e\\x41"', "\x1bA"), ("''", ""), ("1", "1"), ('"#"', "#"), ("'='", "="),
]
# What is no TOML, and the keys before it.
FAULTY = [
    ("a = 1\n= 2", ["a"]), ("a = 1\nb", ["a"]), ("a = 1\n'b = 1\nc = 2", ["a"]),
    ("a = '''\nb", ["a"]), ('a = "b\nc = 1', ["a"]), ("a = { b = 1", ["a", "a.b"]),
    ("a = { b = [] ] }", ["a", "a.b"]), ("a = { b }", ["a"]), ("[a.]\nb = 1", []),
    ('"\\U99999999" = 1', []), ("é = 1", []),
]
LARGE = 1 << 20
# Texts of a megabyte.
LONG = {
    "one key of many parts": "a." * (LARGE // 2 - 2) + "b=1",
    "many keys": "".join(f"a{number}=1\n" for number in range(LARGE // 10)),
    "comments": "#\n" * (LARGE // 2), "blanks": " " * LARGE, "brackets": f"a={'[' * LARGE}",
    "inline tables": "a=" + "{a=" * (LARGE // 3), "a text": f'a="{"x" * LARGE}"',
    "escapes": 'a="' + '\\"' * (LARGE // 2) + '"', "quotes": 'a="""' + '""x' * (LARGE // 3) + '"""',
    "an escaped key": '"' + "\\u0041" * (LARGE // 6) + '"=1', "headers": "[a]\n" * (LARGE // 4),
    "a text that does not end": 'a="""' + '""x' * (LARGE // 3),
    "commas": "a=[" + "1," * (LARGE // 2),
}


def keys_of(text):
    """Returns the keys of a text as they stand there, and what is wrong behind them."""
    found = []
    try:
        for key in _toml.keys_in(text, 4):
            found.append(".".join(text[start:end] for start, end in key.spans))
    except _toml.TomlError as error:
        return found, str(error)
    return found, None


class Keys(unittest.TestCase):
    """Which keys are found, and where."""

    def test_texts(self):
        for text, wanted in ROWS:
            with self.subTest(text=text):
                self.assertEqual(keys_of(text), (wanted, None))

    @needs("Python 3.11", untested="whether TOML has the keys that are found")
    def test_texts_beside_python(self):
        import tomllib
        for text, _ in [row for row in ROWS[:-1] if "[[" not in row[0]]:
            with self.subTest(text=text):
                found = {one.path for one in _toml.keys_in(text, 4)}
                # A key or a header also leads to the tables above it.
                led = {path[:size] for path in found for size in range(1, len(path) + 1)}
                self.assertEqual(led, paths_in(tomllib.loads(text)))

    def test_names(self):
        for text, wanted in NAMES:
            for form in ("{} = 1", "[{}]", "x = {{ {} = 1 }}", "[t]\n x . {} = 1"):
                with self.subTest(text=text, form=form):
                    given = form.format(text)
                    key = list(_toml.keys_in(given, 4))[-1]
                    start, end = key.spans[-1]
                    self.assertEqual((key.path[-1], given[start:end]), (wanted, text))

    def test_what_is_no_toml(self):
        for text, wanted in FAULTY:
            with self.subTest(text=text):
                found, message = keys_of(text)
                self.assertEqual(found, wanted)
                self.assertIsNotNone(message)

    def test_time(self):
        most = 3 * slowness()
        for name, text in LONG.items():
            before = time.process_time()
            keys_of(text)
            with self.subTest(name=name):
                self.assertLess(time.process_time() - before, most)

    def test_lines(self):
        lines = _toml.Lines("ab\r\n\n日本x")
        rows = [(0, (1, 1)), (2, (1, 3)), (3, (1, 4)), (4, (2, 1)), (5, (3, 1)), (7, (3, 3)),
                (8, (3, 4))]
        for offset, wanted in rows:
            self.assertEqual(lines.place_of(offset), wanted)


def paths_in(table, above=()):
    """Returns the paths of at most four keys to all values in a table."""
    found = set()
    for name, value in table.items():
        path = (*above, name)
        found.add(path)
        if isinstance(value, dict) and len(path) < 4:
            found |= paths_in(value, path)
    return found
