"""What conditions of code are on targets. The rows are worked out by hand, by what rustc prints of
the targets."""
import doctest
import os
import re
import time
import tracemalloc
import unittest
import unittest.mock

from . import ROOT
from .made import Folder

from cfgx import code
from cfgx.code import Verdict, _findings
from cfgx.code._model import Place
from cfgx.code._modules import Modules
from cfgx.code._text import Lines, marked

LINUX, MAC = "x86_64-unknown-linux-gnu", "aarch64-apple-darwin"
WINDOWS, WASM = "x86_64-pc-windows-msvc", "wasm32-unknown-unknown"
FOUR = (LINUX, MAC, WINDOWS, WASM)
# A condition, what it is on the four targets, and its values there: `y`, `n` and `?`.
ROWS = [
    ("unix", "platforms", "yynn"), ("windows", "platforms", "nnyn"),
    ("all(unix, windows)", "never", "nnnn"), ("any(unix, not(unix))", "always", "yyyy"),
    ("any()", "never", "nnnn"), ("all()", "always", "yyyy"), ("true", "always", "yyyy"),
    ("false", "never", "nnnn"), ('target_os = "macosx"', "never", "nnnn"),
    ('target_os = "android"', "never", "nnnn"), ('target_env = "msvc"', "platforms", "nnyn"),
    ('target_family = "wasm"', "platforms", "nnny"), ("not(target_os)", "always", "yyyy"),
    ('unix = "x"', "never", "nnnn"), ('target_pointer_width = "32"', "platforms", "nnny"),
    ('target_pointer_width = "032"', "never", "nnnn"), ('target_endian = "big"', "never", "nnnn"),
    ('target_has_atomic = "64"', "always", "yyyy"),
    ('target_vendor = "apple"', "platforms", "nynn"),
    ('target_arch = "aarch64"', "platforms", "nynn"), ('target_abi = ""', "always", "yyyy"),
    # What another build may set or not.
    ('feature = "x"', "depends", "????"), ("test", "depends", "????"), ("loom", "depends", "????"),
    ("debug_assertions", "depends", "????"), ('panic = "abort"', "depends", "????"),
    ('target_feature = "sse2"', "depends", "????"), ("target_thread_local", "depends", "????"),
    ('target_foo = "x"', "depends", "????"), ("proc_macro", "depends", "????"),
    ('all(unix, feature = "x")', "depends", "??nn"),
    ('any(unix, feature = "x")', "depends", "yy??"),
    # Equal predicates have one value.
    ('any(feature = "x", not(feature = "x"))', "always", "yyyy"),
    ("all(a, not(a))", "never", "nnnn"), ("all(any(a, b), not(a), not(b))", "never", "nnnn"),
    ('all(a = "1", a = "2")', "depends", "????"),
]
# Code, and the lines with what each condition in it is on the four targets.
CODES = [
    ("#[cfg(unix)] mod m { fn f() { cfg!(windows); cfg!(unix); } }",
     ["platforms", "never", "always"]),
    ("#[cfg(all(unix, windows))] mod m { #[cfg(unix)] fn f() {} }", ["never", "never 0"]),
    ("#[cfg(unix)] #[cfg(windows)] fn f() {}", ["platforms", "never"]),
    ("cfg_if! { if #[cfg(unix)] { } else if #[cfg(target_os = \"linux\")] { } else {"
     " cfg!(windows); } }",
     ["platforms", "never", "platforms"]),
    ("#[cfg_attr(unix, cfg(windows))] fn f() { cfg!(windows); cfg!(unix); }",
     ["platforms", "never", "platforms", "never"]),
    ("#[cfg(feature = \"x\")] mod m { #[cfg(feature = \"x\")] fn f() {}"
     " #[cfg(not(feature = \"x\"))] fn g() {} }", ["depends", "always", "never"]),
    ("macro_rules! m { ($x:meta) => { #[cfg($x)] mod a { #[cfg(unix)] fn f() {} } } }",
     ["not read", "platforms partial"]),
    ("#[cfg(not(a, b))] mod m { #[cfg(all(unix, windows))] fn f() {} }",
     ["faulty", "never partial"]),
]
# Code, and on which of the four targets none and two of its first group are taken.
GROUPS = [
    ("#[cfg(unix)] fn f() {} #[cfg(windows)] fn f() {}", "nnny", "nnnn"),
    ("#[cfg(unix)] fn f() {} #[cfg(target_os = \"linux\")] fn f() {}", "nnyy", "ynnn"),
    ("#[cfg(unix)] fn f() {} fn f() {}", "nnnn", "yynn"),
    ("#[cfg(feature = \"x\")] fn f() {} #[cfg(not(feature = \"x\"))] fn f() {}", "nnnn", "nnnn"),
    ("#[cfg(feature = \"x\")] fn f() {} #[cfg(feature = \"y\")] fn f() {}", "????", "????"),
    ("#[cfg(unix)] mod m { #[cfg(target_os = \"linux\")] fn f() {} #[cfg(windows)] fn f() {} }",
     "nynn", "nnnn"),
    ("#![cfg(windows)] #[cfg(unix)] fn f() {} #[cfg(target_os = \"linux\")] fn f() {}",
     "nnyn", "nnnn"),
    ("cfg_if! { if #[cfg(unix)] { } else if #[cfg(target_os = \"linux\")] { } }", "nnyy", "ynnn"),
    ("cfg_if! { if #[cfg(unix)] { mod m; } else if #[cfg(target_os = \"linux\")] { mod m; } }"
     "mod m;", "nnyy", "ynnn"),
    ("#[cfg(unix)] mod m { #![cfg(windows)] } #[cfg(unix)] mod m;", "nnyy", "nnnn"),
]
WORDS = {True: "y", False: "n", None: "?"}


def shown(answer):
    """Returns the values of an answer as letters."""
    return "".join(WORDS[one] for one in answer.on)


class Made(Folder):
    """Files of Rust in a folder of their own."""

    def report(self, *targets, **files):
        """Returns the report on files by their names, without the ends."""
        for name, text in files.items():
            self.write(f"src/{name.replace('__', '/')}.rs", text)
        return code.report([os.path.join(self.folder, "src")], targets or FOUR)

    def rows(self, text):
        """Returns the conditions of a text, and what belongs together in it."""
        [file] = self.report(one=text).files
        return file.rows, file.groups


class Values(Made):
    """What conditions are."""

    def test_conditions(self):
        text = "\n".join(f"#[cfg({condition})] fn f{number}() {{}}"
                         for number, (condition, _, _) in enumerate(ROWS))
        rows, _ = self.rows(text)
        for row, (condition, verdict, values) in zip(rows, ROWS):
            with self.subTest(condition=condition):
                self.assertEqual((row.verdict.value, shown(row.answer)), (verdict, values))

    def test_guards(self):
        for text, wanted in CODES:
            with self.subTest(text=text):
                rows, _ = self.rows(text)
                self.assertEqual([
                    row.verdict.value + ("" if row.within is None else f" {row.within}")
                    + (" partial" if row.is_partial else "") for row in rows
                ], wanted)

    def test_groups(self):
        for text, none, two in GROUPS:
            with self.subTest(text=text):
                group = self.rows(text)[1][0]
                self.assertEqual((shown(group.none), shown(group.two)), (none, two))

    def test_no_group_lacks_a_branch_that_is_always_there(self):
        for text in ("cfg_if! { if #[cfg(unix)] {} else {} }",
                     "cfg_select! { unix => {} _ => {} }"):
            [group] = self.rows(text)[1]
            self.assertIsNone(group.none)

    def test_examples(self):
        rows, groups = self.rows('#[cfg(all(unix, a, not(b)))] fn f() {} #[cfg(c)] fn f() {}')
        [(reason, places)] = rows[0].answer.unknown
        self.assertEqual((reason.flags, places), (("a", "b"), (0, 1)))
        self.assertEqual(reason.if_yes, {"a": True, "b": False})
        self.assertIn(reason.if_no, ({"a": False}, {"b": True}))
        self.assertIs(groups[0].two.on[0], None)

    def test_flags(self):
        path = self.write("one.rs", '#[cfg(a)] fn f() {} #[cfg(b)] fn g() {} #[cfg(feature = "c")]'
                          " fn h() {} #[cfg(debug_assertions)] fn i() {}"
                          ' #[cfg(target_feature = "d")] fn j() {}')
        flags = ["a", 'feature="c"', 'target_feature="d"']
        report = code.report([path], [LINUX], flags=flags)
        self.assertEqual([shown(row.answer) for row in report.files[0].rows], list("y?y?y"))
        report = code.report([path], [LINUX], flags=flags, has_other_flags=False)
        # rustc prints `debug_assertions` for each target.
        self.assertEqual([shown(row.answer) for row in report.files[0].rows], list("ynyyy"))

    def test_all_targets(self):
        path = self.write("one.rs", "#[cfg(unix)] fn f() {}")
        [file] = code.report([path]).files
        # As the page MANIFESTS counts them.
        on = file.rows[0].answer.on
        self.assertEqual((on.count(True), len(on)), (202, 320))

    def test_facts(self):
        path = self.write("one.rs", "#[cfg(unix)] fn f() {} #[cfg(target_thread_local)] fn g() {}")
        facts = {"my-os": 'unix\ntarget_os="my"\ntarget_thread_local\n'}
        [file] = code.report([path], [WINDOWS], facts=facts).files
        self.assertEqual([shown(row.answer) for row in file.rows], ["ny", "?y"])


class Files(Made):
    """Files whose modules stand in other files."""

    def test_contexts(self):
        report = self.report(
            lib='#[cfg(unix)] mod sys; #[cfg(windows)] #[path = "win.rs"] mod other;'
                " cfg_if! { if #[cfg(unix)] {} else { mod rest; } } mod free; mod twice;"
                " mod n { #[cfg(unix)] mod inner; }",
            sys__mod="mod deep; fn f() { cfg!(windows); }", sys__deep="fn f() { cfg!(unix); }",
            win="#[cfg(unix)] fn f() {} mod twice;", rest="#[cfg(unix)] fn f() {}",
            free="#[cfg(unix)] fn f() {}", twice="#[cfg(unix)] fn f() {}",
            n__inner="#[cfg(windows)] fn f() {}", alone="#[cfg(unix)] fn f() {}",
        )
        found = {os.path.relpath(file.path, self.folder): (
            " ".join(file.context), [row.verdict.value for row in file.rows]
        ) for file in report.files}
        del found["src/lib.rs"]
        self.assertEqual(found, {
            "src/sys/mod.rs": ("unix", ["never"]), "src/sys/deep.rs": ("unix", ["always"]),
            "src/win.rs": ("windows", ["never"]), "src/rest.rs": ("not(unix)", ["never"]),
            "src/free.rs": ("", ["platforms"]), "src/twice.rs": ("", ["platforms"]),
            "src/n/inner.rs": ("unix", ["never"]), "src/alone.rs": ("", ["platforms"]),
        })

    def test_paths_with_a_condition(self):
        report = self.report(
            lib='#[cfg_attr(windows, path = "win.rs")] mod sys; #[cfg_attr(a, path = "x.rs")]'
                ' #[cfg_attr(b, cfg_attr(c, path = "y.rs"))] #[cfg(unix)] mod m;',
            win="#[cfg(windows)] fn f() {}", x="#[cfg(a)] fn f() {}",
            y="#[cfg(all(b, c))] fn f() {}",
            sys='#[cfg(target_os = "linux")] fn f() {} #[cfg(target_os = "macos")] fn f() {}'
                " #[cfg(windows)] fn g() {} #[cfg(windows)] fn g() {}",
            m="#[cfg(a)] fn f() {}",
        )
        found = {os.path.relpath(file.path, self.folder): (
            " ".join(file.context), [row.verdict.value for row in file.rows]
        ) for file in report.files}
        del found["src/lib.rs"]
        self.assertEqual(found, {
            "src/win.rs": ("windows", ["always"]), "src/x.rs": ("unix a", ["always"]),
            "src/y.rs": ("unix all(b, c)", ["always"]),
            "src/sys.rs": ("not(windows)", ["platforms", "platforms", "never", "never"]),
            "src/m.rs": ("unix not(a) not(all(b, c))", ["never"]),
        })
        # On Windows the file with these is not there.
        [sys] = [file for file in report.files if file.path.endswith("sys.rs")]
        told = [(shown(group.none), shown(group.two)) for group in sys.groups]
        self.assertEqual(told, [("nnny", "nnnn"), ("yyny", "nnnn")])

    def test_a_file_of_two_modules(self):
        report = self.report(
            lib='#[cfg(windows)] #[path = "x.rs"] mod a;'
                ' #[cfg(target_os = "linux")] #[path = "x.rs"] mod b;', x="#[cfg(unix)] fn f() {}",
        )
        [file] = [file for file in report.files if file.path.endswith("x.rs")]
        self.assertEqual(file.context, ('any(windows, target_os = "linux")',))
        self.assertEqual(shown(file.rows[0].answer), "ynnn")


class Marks(unittest.TestCase):
    """Lines with a mark under a place."""

    def test_lines(self):
        for text, place, wanted in (
            ("a\n#[cfg(b)]\n", (2, 7, 2, 8), ["2 | #[cfg(b)]", "  |       ^"]),
            ("\ufeff#[cfg(b)]", (1, 7, 1, 8), ["1 | #[cfg(b)]", "  |       ^"]),
            ("#[cfg(any(\nb))]", (1, 7, 2, 3), ["1 | #[cfg(any(", "  |       ^^^^"]),
            ("\u4e2d #[cfg(b)] \u4e2d", (1, 9, 1, 10), ["1 | \u4e2d #[cfg(b)] \u4e2d",
                                                       "  |          ^"]),
            ("a" * 100 + "b" + "c" * 200, (1, 101, 1, 102),
             ["1 | " + "a" * 60 + "b" + "c" * 99, "  | " + " " * 60 + "^"]),
            ("a" * 100 + "b" * 200, (1, 101, 1, 301),
             ["1 | " + "a" * 60 + "b" * 100, "  | " + " " * 60 + "^" * 100]),
        ):
            with self.subTest(text=text):
                self.assertEqual(list(marked(Place(*place, 0, 0), Lines(text))), wanted)

    def test_a_long_line_is_not_copied(self):
        source = Lines("x" * 1_000_000)
        tracemalloc.start()
        for column in range(1, 1_000_000, 100_000):
            list(marked(Place(1, column, 1, 1_000_001, 0, 0), source))
        peak = tracemalloc.get_traced_memory()[1]
        tracemalloc.stop()
        self.assertLess(peak, 100_000)


class Costs(Made):
    """How much a report takes."""

    def test_findings_inside_of_one_another(self):
        for front in ("", "/* \u00e9 */ "):
            path = self.write("one.rs", f"{front}fn f() {{ {'cfg!(' * 5000}{')' * 5000} }}")
            report = code.report([path], [LINUX])
            tracemalloc.start()
            found = list(_findings.findings_in(report, 20))
            size = tracemalloc.get_traced_memory()[0]
            tracemalloc.stop()
            self.assertEqual(len(found), 5000)
            self.assertEqual(found[0].condition, "cfg!(cfg!(cfg!(cfg!(")
            self.assertLess(size, 10_000_000)

    def test_many_modules_of_one_file(self):
        # To keep what has to hold for each of them would take a hundred megabytes.
        modules = "".join(f'#[cfg(a{number})] #[path = "../x.rs"] mod m;' for number in range(2000))
        texts = [f"#[cfg({'b' * 50_000})] mod n {{ {modules} }}", "#[cfg(unix)] fn f() {}"]
        codes = list(map(code.read, texts))
        tracemalloc.start()
        found = Modules(["/lib.rs", "/x.rs"], codes).context(1)
        peak = tracemalloc.get_traced_memory()[1]
        tracemalloc.stop()
        self.assertEqual(found, [])
        self.assertLess(peak, 10_000_000)

    def test_many_items_with_one_name(self):
        # To keep for each of them what has to hold would take a hundred megabytes.
        text = (f"cfg_if! {{ if #[cfg({'a' * 30_000})] {{}} else if #[cfg(b)] {{}} else {{"
                f" {'fn f() {}' * 5000} }} }} #[cfg(c)] fn f() {{}}")
        path = self.write("one.rs", text)
        tracemalloc.start()
        report = code.report([path], [LINUX])
        peak = tracemalloc.get_traced_memory()[1]
        tracemalloc.stop()
        [group] = [row for row in report.files[0].groups if row.group.items]
        self.assertEqual((len(group.group.items), group.none, group.two), (5001, None, None))
        self.assertLess(peak, 50_000_000)

    def test_files_that_lead_to_each_other(self):
        # To look at each module of a file for each module of the other one would take a minute.
        self.write("a.rs", '#[path = "b.rs"] mod m;' * 20_000)
        self.write("b.rs", '#[path = "a.rs"] mod m;' * 20_000)
        self.write("c.rs", '#[cfg(a)] #[path = "d.rs"] mod d;')
        self.write("d.rs", "#[cfg(unix)] fn f() {}")
        start = time.process_time()
        report = code.report([self.folder], [LINUX])
        self.assertEqual([file.context for file in report.files], [(), ("a",)])
        self.assertLess(time.process_time() - start, 30)

    def test_long_paths_of_modules(self):
        front = "".join(f"mod {'a' * 1900} {{" for _ in range(32))
        self.write("lib.rs", f"{front} {'mod b;' * 20_000} {'}' * 32}")
        start = time.process_time()
        with unittest.mock.patch("os.path.normpath", wraps=os.path.normpath) as normal:
            self.assertEqual(code.report([self.folder], [LINUX]).files, ())
        self.assertLess(normal.call_count, 100)
        self.assertLess(time.process_time() - start, 60)

    def test_many_guards(self):
        report, seconds = self.judged_in("#[cfg(a)]" * 20_000 + "fn f() {}")
        rows = report.files[0].rows
        self.assertEqual([rows[number].verdict for number in (0, 1, 256, 257, -1)],
                         [Verdict.DEPENDS, Verdict.ALWAYS, Verdict.ALWAYS, Verdict.NOT_TRIED,
                          Verdict.NOT_TRIED])
        self.assertLess(seconds, 60)

    def judged_in(self, text):
        """Returns the report on a text on all targets, and the seconds of a processor."""
        start = time.process_time()
        report = code.report([self.write("one.rs", text)])
        return report, time.process_time() - start

    def test_deep_guards(self):
        depth, long = 200, "x" * 400
        text = "".join(f"#[cfg({long}{number})] mod m {{" for number in range(depth)) + "}" * depth
        report, seconds = self.judged_in(text)
        self.assertEqual(len(report.files[0].rows), depth)
        self.assertFalse(report.is_tried)
        self.assertIs(report.files[0].rows[0].verdict, Verdict.DEPENDS)
        self.assertIs(report.files[0].rows[-1].verdict, Verdict.NOT_TRIED)
        self.assertLess(seconds, 120)

    def test_a_long_guard_around_many(self):
        flags = ", ".join(map("a{}".format, range(6000)))
        text = "".join(f"#[cfg(b{number})] impl A {{}}" for number in range(2000))
        report, seconds = self.judged_in(f"#[cfg(any({flags}))] mod m {{ {text} }}")
        rows = report.files[0].rows
        self.assertEqual(len(rows), 2001)
        self.assertTrue(all(row.answer for row in rows[:20]))
        self.assertFalse(any(row.answer for row in rows[40:]))
        self.assertLess(seconds, 60)

    def test_memory_of_conditions_that_are_alike(self):
        flags = ", ".join(map("a{}".format, range(6000)))
        text = f"#[cfg(any({flags}))] mod m {{ {'#[cfg(b)] impl A {}' * 2000} }}"
        path = self.write("one.rs", text)
        tracemalloc.start()
        try:
            report = code.report([path], [LINUX])
            _, peak = tracemalloc.get_traced_memory()
        finally:
            tracemalloc.stop()
        self.assertIs(report.files[0].rows[-1].verdict, Verdict.DEPENDS)
        self.assertLess(peak, 30_000_000)

    def test_a_long_chain(self):
        branches = " else ".join(f"if #[cfg(a{number})] {{}}" for number in range(400))
        report, seconds = self.judged_in(f"cfg_if! {{ {branches} }}")
        self.assertEqual(len(report.files[0].rows), 400)
        self.assertLess(seconds, 120)


def load_tests(loader, tests, pattern):
    """Adds the examples of the module and of its page to the tests."""
    with open(os.path.join(ROOT, "docs", "CODE.md"), encoding="utf-8") as file:
        page = "".join(re.findall(r"^```python\n(.*?)^```$", file.read(), re.M | re.S))
    found = [doctest.DocTestParser().get_doctest(page, {}, "CODE.md", "CODE.md", 0)]
    found += doctest.DocTestFinder().find(code, "cfgx.code", module=False, globs={})
    examples = [one for one in found if one.examples]
    if {one.name for one in examples} != {"CODE.md", "cfgx.code", "cfgx.code.read",
                                          "cfgx.code.report"}:
        raise ValueError(f"the examples are {[one.name for one in examples]}")
    tests.addTests(map(doctest.DocTestCase, examples))
    return tests
