"""What a condition in code is to rustc, and what is read of it. The tests ask the rustc on the
path, and the rows have what it says."""
import os
import re
import subprocess
import tempfile
import unittest
from concurrent.futures import ThreadPoolExecutor

from . import ROOT, needs

import cfgx
from cfgx.code import Reason, read

# What rustc takes, and the text that is read of it.
TAKEN = [
    ("unix", "unix"), ("any(unix,)", "any(unix)"), ("any()", "any()"), ("all()", "all()"),
    ("not(a,)", "not(a)"), ("true", "true"), ("all(true, false)", "all(true, false)"),
    ("True", "True"), ("r#unix", "unix"), ("r#fn", "fn"), ("r#all(unix)", "all(unix)"),
    ("r#not(unix)", "not(unix)"), ("gen", "gen"), ("/**/a", "a"), ("a /* x */", "a"),
    ("not(not(not(a)))", "not(not(not(a)))"), ("any(unix, /* c */ feature = r\"x\")",
                                               'any(unix, feature = "x")'),
    ("all(a, // c\n b)", "all(a, b)"), ("any(all(a), not(b))", "any(all(a), not(b))"),
    ('feature="x"', 'feature = "x"'), ('a=r#"x"#', 'a = "x"'), ('a="\\u{62}"', 'a = "b"'),
    ('a="\\x41"', 'a = "A"'), ('a="a\\\n  b"', 'a = "ab"'),
    ('a="\\u{1_F6_00}"', 'a = "\U0001f600"'),
    ('a=""', 'a = ""'), ('a="\\t\\\\"', 'a = "\t\\"'), ('a="\u00e9"', 'a = "\u00e9"'),
    ('r#true="x"', 'true = "x"'), ('not="x"', 'not = "x"'), ('all="x"', 'all = "x"'),
    # RULES calls these faulty.
    ("feature", "feature"), ('unix="x"', 'unix = "x"'), ("target_os", "target_os"),
    ("target_foo", "target_foo"), ('target_foo="x"', 'target_foo = "x"'),
    ('target_endian="middle"', 'target_endian = "middle"'), ("panic", "panic"),
    ('target_pointer_width="x"', 'target_pointer_width = "x"'),
    ('target_has_atomic="x"', 'target_has_atomic = "x"'),
    ("target_has_atomic", "target_has_atomic"), ('target_feature=""', 'target_feature = ""'),
]
# What rustc refuses, and why.
REFUSED = [
    ("any(unix,,)", Reason.UNEXPECTED), ("any(,)", Reason.UNEXPECTED), ("not()", Reason.MEMBERS),
    ("not(a,b)", Reason.MEMBERS), ("not(,a)", Reason.UNEXPECTED), ("", Reason.ROOTS),
    (",", Reason.UNEXPECTED), ("a,b", Reason.ROOTS), ("a,,", Reason.ROOTS),
    ('true="x"', Reason.ROOTS), ("fn", Reason.UNEXPECTED), ("self", Reason.UNEXPECTED),
    ("crate", Reason.UNEXPECTED), ("_", Reason.UNEXPECTED), ("async", Reason.UNEXPECTED),
    ('fn="x"', Reason.UNEXPECTED), ("a::b", Reason.UNEXPECTED), ("::a", Reason.UNEXPECTED),
    ("foo(unix)", Reason.UNKNOWN), ("feature(x)", Reason.UNKNOWN), ("a=1", Reason.UNEXPECTED),
    ("a=true", Reason.UNEXPECTED), ('a=b"x"', Reason.VALUE), ('a=c"x"', Reason.VALUE),
    ("a='x'", Reason.VALUE), ('a="x"s', Reason.VALUE), ('"x"', Reason.UNEXPECTED),
    ("1", Reason.UNEXPECTED), ("a=", Reason.UNEXPECTED), ("=", Reason.UNEXPECTED),
    ('a "x"', Reason.UNEXPECTED), ("a b", Reason.UNEXPECTED), ("(a)", Reason.UNEXPECTED),
    ("all[unix]", Reason.UNEXPECTED), ("all{unix}", Reason.UNEXPECTED),
    ("any unix", Reason.UNEXPECTED), ("/** d */a", Reason.UNEXPECTED), ("a=-1", Reason.UNEXPECTED),
    ('a=concat!("a")', Reason.UNEXPECTED), ("r#crate", Reason.UNEXPECTED),
    ("any(a=b)", Reason.UNEXPECTED), ("any(a b)", Reason.UNEXPECTED), ("a.b", Reason.UNEXPECTED),
    ('a="\\q"', Reason.VALUE), ('a="\\u{110000}"', Reason.VALUE), ('a="\\u{D800}"', Reason.VALUE),
    ('a="\\xff"', Reason.VALUE), ('a="\\u{1234567}"', Reason.VALUE), ("?a", Reason.UNEXPECTED),
    ("!a", Reason.UNEXPECTED), ("not[a]", Reason.UNEXPECTED),
]
# What is not read, why, and whether a stable rustc takes it.
NOT_READ = [
    ('a="x\\"y"', Reason.QUOTE, True), ('a=r#"""#', Reason.QUOTE, True),
    ("\u00e9", Reason.NAME, True),
    ("r#true", Reason.NAME, True), ("not", Reason.NAME, True), ("all", Reason.NAME, True),
    ('version("1.50")', Reason.FUNCTION, False), ("accessible(std::x)", Reason.FUNCTION, False),
    ('target(os = "linux")', Reason.FUNCTION, False),
]
# What only a nightly rustc takes. It is read.
NIGHTLY = ["target_thread_local", 'target_has_atomic_load_store="8"', "overflow_checks",
           "ub_checks", 'relocation_model="pic"', 'sanitize="address"', "version"]
# Attributes and macros that rustc refuses for their form, and those that it takes.
FORMS = [
    ("#[cfg] fn f() {}", Reason.ROOTS), ('#[cfg = "x"] fn f() {}', Reason.UNEXPECTED),
    ("#[cfg[unix]] fn f() {}", Reason.UNEXPECTED), ("#[cfg{unix}] fn f() {}", Reason.UNEXPECTED),
    ("#[cfg(unix) x] fn f() {}", Reason.UNEXPECTED), ("#[cfg_attr()] fn f() {}", Reason.ROOTS),
    ("#[cfg_attr(unix)] fn f() {}", Reason.UNEXPECTED),
    ("#[cfg_attr(unix,,inline)] fn f() {}", Reason.UNEXPECTED),
    ("fn f() -> bool { cfg!() }", Reason.ROOTS), ("fn f() -> bool { cfg!(a,,) }", Reason.ROOTS),
    ("cfg_select! { unix, => {} }", Reason.UNEXPECTED),
    ("#[cfg_attr(unix,)] fn f() {}", None), ("#[cfg_attr(unix,inline,)] fn f() {}", None),
    ("fn f() -> bool { cfg![unix] }", None), ("fn f() -> bool { std::cfg!{unix,} }", None),
    ("cfg_select! { unix => { fn f() {} }, _ => {} }", None),
    ("#[r#cfg(unix)] fn f() {}", None), ("# [ cfg /* a */ ( unix ) ] fn f() {}", None),
]
PAGE = os.path.join(ROOT, "docs", "CODE.md")


def condition_of(written):
    """Returns the only condition in an attribute, as it is read."""
    [found] = read(f"#[cfg({written})] fn f() {{}}").conditions
    return found


def is_taken(code):
    """Whether rustc takes a file."""
    with tempfile.TemporaryDirectory() as folder:
        with open(os.path.join(folder, "lib.rs"), "w", encoding="utf-8", newline="") as file:
            file.write(code)
        words = ["rustc", "--edition", "2021", "--crate-type", "lib", "--emit", "metadata", "-A",
                 "warnings", "lib.rs"]
        run = subprocess.run(words, cwd=folder, stdout=subprocess.PIPE, stderr=subprocess.PIPE,
                             check=False)
        return run.returncode == 0


def asked(codes):
    """Returns for each file whether rustc takes it."""
    with ThreadPoolExecutor(4) as threads:
        return list(threads.map(is_taken, codes))


class Conditions(unittest.TestCase):
    """What is read of conditions."""

    def test_texts(self):
        for written, text in TAKEN:
            with self.subTest(written=written):
                self.assertEqual((condition_of(written).text, condition_of(written).problem),
                                 (text, None))

    def test_reasons(self):
        rows = [*REFUSED, *((written, reason) for written, reason, _ in NOT_READ)]
        for written, reason in rows:
            with self.subTest(written=written):
                found = condition_of(written)
                self.assertEqual((found.text, found.problem.reason), (None, reason))
                self.assertEqual(reason.is_fault, (written, reason) in REFUSED)

    def test_forms(self):
        for code, reason in FORMS:
            with self.subTest(code=code):
                found = read(code).conditions[0].problem
                self.assertEqual(found and found.reason, reason)

    def test_variables_of_macros(self):
        for written in ("$x", "any($x, unix)", "feature = $x", "$($m:meta),*", "not($x)"):
            with self.subTest(written=written):
                self.assertIs(condition_of(written).problem.reason, Reason.VARIABLE)

    def test_each_text_is_read_by_the_engine_or_told_on_the_page(self):
        with open(PAGE, encoding="utf-8") as file:
            page = file.read()
        refused = []
        for _, text in TAKEN:
            try:
                cfgx.parse(text)
            except cfgx.ParseError:
                refused.append(text)
        self.assertGreaterEqual(len(refused), 10)
        self.assertEqual([one for one in refused if f"`{one}`" not in page], [])

    def test_places_in_the_file(self):
        # The places are counted by hand.
        code = read('\ufeff// \u00e9\n#[cfg(all(unix, /* \u00e9 */ r#b = r"x"))] fn f() {}')
        [found] = code.conditions
        self.assertEqual(found.text, 'all(unix, b = "x")')
        self.assertEqual(found.place, (2, 7, 2, 36, 15, 45))
        rows = [((0, 3), (2, 7, 10, 15, 18)), ((4, 8), (2, 11, 15, 19, 23)),
                ((10, 11), (2, 25, 28, 34, 37)), ((14, 17), (2, 31, 35, 40, 44))]
        for (start, end), (line, column, end_column, first, last) in rows:
            place = found.place_in_file(start, end)
            self.assertEqual(place, (line, column, line, end_column, first, last))


@needs("rustc", untested="what rustc takes as a condition")
class Rustc(unittest.TestCase):
    """What rustc says of the rows."""

    def test_taken(self):
        codes = [f"#[cfg({written})] fn f() {{}}" for written, _ in TAKEN]
        self.assertEqual([code for code, is_so in zip(codes, asked(codes)) if not is_so], [])

    def test_refused(self):
        codes = [f"#[cfg({written})] fn f() {{}}" for written, _ in REFUSED]
        self.assertEqual([code for code, is_so in zip(codes, asked(codes)) if is_so], [])

    def test_not_read(self):
        codes = [f"#[cfg({written})] fn f() {{}}" for written, _, _ in NOT_READ]
        self.assertEqual(asked(codes), [is_so for _, _, is_so in NOT_READ])

    def test_nightly(self):
        codes = [f"#[cfg({written})] fn f() {{}}" for written in NIGHTLY]
        self.assertEqual(asked(codes), [False] * len(NIGHTLY))
        for written in NIGHTLY:
            self.assertIsNone(condition_of(written).problem, written)

    def test_forms(self):
        codes = [code for code, _ in FORMS]
        self.assertEqual(asked(codes), [reason is None for _, reason in FORMS])

    def test_values(self):
        # A condition holds if its value is the one that is set.
        rows = [(written, text) for written, text in TAKEN
                if re.fullmatch(r'a = "[^"]*"', text) and "\t" not in text and "\\" not in text]
        self.assertGreaterEqual(len(rows), 6)
        with tempfile.TemporaryDirectory() as folder:
            for written, text in rows:
                path = os.path.join(folder, "main.rs")
                with open(path, "w", encoding="utf-8") as file:
                    file.write(f'#[cfg(not({written}))] compile_error!("");\nfn f() {{}}')
                words = ["rustc", "--crate-type", "lib", "--emit", "metadata", "-A", "warnings",
                         "--cfg", text.replace(" = ", "="), "main.rs"]
                run = subprocess.run(words, cwd=folder, stderr=subprocess.PIPE, check=False)
                self.assertEqual(run.returncode, 0, (written, text, run.stderr))
