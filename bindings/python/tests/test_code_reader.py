"""Which conditions are found in code, and what has to hold where they stand. Each row is worked out
by hand; the tests of rustc compare what is found with what it sees."""
import json
import os
import random
import time
import tracemalloc
import unittest

from . import HERE, needs
from .judge_code import compared
from .made_code import file_of

from cfgx.code import read

RECORDED = os.path.join(HERE, "code_seen.json")
# How many files that are made are compared with rustc.
MADE = 24
# Code, and each condition in it as `form text`, behind it in `{ }` the guards from the outside in.
ROWS = [
    ("#![cfg(a)] #[cfg(b)] fn f() {} fn g() { cfg!(c); }",
     ["cfg a {}", "cfg b {a}", "cfg! c {a}"]),
    ("#[cfg(a)] mod m { #[cfg(b)] fn f() { if cfg!(c) {} } } #[cfg(d)] fn g() {}",
     ["cfg a {}", "cfg b {a}", "cfg! c {a, b}", "cfg d {}"]),
    ("mod m { #![cfg(a)] fn f() { cfg!(b); } } fn g() { cfg!(c); }",
     ["cfg a {}", "cfg! b {a}", "cfg! c {}"]),
    ("fn f() { #[cfg(a)] { cfg!(b); } cfg!(c); }", ["cfg a {}", "cfg! b {a}", "cfg! c {}"]),
    ("fn f() { #[cfg(a)] let x = { cfg!(b) }; cfg!(c); }", ["cfg a {}", "cfg! b {a}", "cfg! c {}"]),
    ("fn f() { #[cfg(a)] if x { cfg!(b); } else { cfg!(c); } cfg!(d); }",
     ["cfg a {}", "cfg! b {a}", "cfg! c {a}", "cfg! d {}"]),
    ("fn f() { #[cfg(a)] if let S { x } = y { cfg!(b); } cfg!(c); }",
     ["cfg a {}", "cfg! b {a}", "cfg! c {}"]),
    ("fn f() { match x { #[cfg(a)] S { y, .. } => { cfg!(b) } #[cfg(c)] _ => cfg!(d), } cfg!(e); }",
     ["cfg a {}", "cfg! b {a}", "cfg c {}", "cfg! d {c}", "cfg! e {}"]),
    ("fn f() { match x { #[cfg(a)] 1 => |p, q| cfg!(b), 2 => cfg!(c) } }",
     ["cfg a {}", "cfg! b {a}", "cfg! c {}"]),
    ("fn f() { g(#[cfg(a)] cfg!(b), cfg!(c)); [#[cfg(d)] cfg!(e), cfg!(f)]; }",
     ["cfg a {}", "cfg! b {a}", "cfg! c {}", "cfg d {}", "cfg! e {d}", "cfg! f {}"]),
    ("struct S { #[cfg(a)] x: A<B, C>, #[cfg(b)] y: u8 } fn f() { cfg!(c); }",
     ["cfg a {}", "cfg b {}", "cfg! c {}"]),
    ("fn f() { S { #[cfg(a)] x: p < q, y: cfg!(b) } }", ["cfg a {}", "cfg! b {}"]),
    ("enum E { #[cfg(a)] A { #[cfg(b)] x: u8 }, #[cfg(c)] B }",
     ["cfg a {}", "cfg b {a}", "cfg c {}"]),
    ("fn f<#[cfg(a)] T, U>(#[cfg(b)] x: T, y: U) { cfg!(c); }",
     ["cfg a {}", "cfg b {}", "cfg! c {}"]),
    ("#[cfg(a)] const X: bool = cfg!(b); const Y: bool = cfg!(c);",
     ["cfg a {}", "cfg! b {a}", "cfg! c {}"]),
    ("#[cfg(a)] macro_rules! m { () => { cfg!(b) } } fn f() { cfg!(c); }",
     ["cfg a {}", "cfg! b {a}", "cfg! c {}"]),
    ("#[cfg(a)] m!(cfg!(b)); #[cfg(c)] m! { cfg!(d) } fn f() { cfg!(e); }",
     ["cfg a {}", "cfg! b {a}", "cfg c {}", "cfg! d {c}", "cfg! e {}"]),
    ("#[cfg(a)] unsafe extern \"C\" { fn f(); } #[cfg(b)] pub(crate) const unsafe fn g()"
     " { cfg!(c); } fn h() { cfg!(d); }", ["cfg a {}", "cfg b {}", "cfg! c {b}", "cfg! d {}"]),
    # Several attributes on one item hold together.
    ("#[cfg(a)] #[inline] /// doc\n #[cfg(b)] fn f() { cfg!(c); } fn g() { cfg!(d); }",
     ["cfg a {}", "cfg b {a}", "cfg! c {a, b}", "cfg! d {}"]),
    # What is inside of `cfg_attr` matters only where its condition holds.
    ("#[cfg_attr(a, path = \"x\", cfg(b))] mod m { cfg!(c) }",
     ["cfg_attr a {}", "cfg b {a}", "cfg! c {any(not(a), b)}"]),
    ("#[cfg_attr(a, cfg_attr(b, inline, cfg(c)))] fn f() { cfg!(d); }",
     ["cfg_attr a {}", "cfg_attr b {a}", "cfg c {a, b}", "cfg! d {any(not(a), not(b), c)}"]),
    ("#[cfg_attr(a, inline)] fn f() { cfg!(b); }", ["cfg_attr a {}", "cfg! b {}"]),
    # Of a chain, the first branch is taken that holds.
    ("cfg_if! { if #[cfg(a)] { cfg!(b); } else if #[cfg(c)] { cfg!(d); } else { cfg!(e); } }"
     " fn f() { cfg!(f); }",
     ["cfg_if! a {}", "cfg! b {a}", "cfg_if! c {not(a)}", "cfg! d {not(a), c}",
      "cfg! e {not(a), not(c)}", "cfg! f {}"]),
    ("cfg_select! { a => { cfg!(b) } any(c, d) => cfg!(e), _ => { cfg!(f) } }",
     ["cfg_select! a {}", "cfg! b {a}", "cfg_select! any(c, d) {not(a)}",
      "cfg! e {not(a), any(c, d)}", "cfg! f {not(a), not(any(c, d))}"]),
    ("fn f() { cfg_select! { a => if x { 1 } else { cfg!(b) } _ => cfg!(c) }; cfg!(d); }",
     ["cfg_select! a {}", "cfg! b {a}", "cfg! c {not(a)}", "cfg! d {}"]),
    # What looks like a condition and is none.
    ("// #[cfg(a)]\n/* cfg!(b) */ const S: &str = \"#[cfg(c)]\"; const C: char = '\"'; fn"
     " f<'a>() {} #[doc = r#\"cfg!(d) \"# ] #[xcfg(e)] fn g() { cfg_(f); cfg != x; acfg!(h);"
     " }", []),
]
# Code that is read up to a piece without tokens, that piece, the conditions and the items with one
# name.
UNFINISHED = [
    ("#[cfg(a)] fn f() {} ", "/* open", ["a"], []),
    ("#[cfg(a)] fn f() {} fn f() {} ", "/* open", ["a"], ["f"]),
    ("#[cfg(a)] fn f() {} #[cfg(b)] ", '"open', ["a", "b"], []),
    ("#[cfg(a)] fn f() {} /* c */ ", "'\\", ["a"], []),
    ("#[cfg(a)] x ", "'+ab cd", ["a"], []),
    ("#![cfg(a)] ", "/* /* */ open", ["a"], []),
    ("#[cfg(a)] fn f() { cfg!(b); mod m; ", '"open', ["a", "b"], []),
    ("#[cfg(a)] fn f() {} mod m; mod /* c */ ", "/* n;", ["a"], []),
    ("#[cfg(a)] fn f() {} #[cfg(b, ", '"open', ["a"], []),
    ("#[cfg(a)] fn f() {} #[cfg_attr(b, cfg(", '"open', ["a"], []),
    ("#[cfg(a)] fn f() {} cfg!(b ", "/* open", ["a"], []),
    ("cfg_if! { if #[cfg(a)] {} else if #[cfg(b", "/* open", ["a"], []),
    ("cfg_select! { a => {} any(b) ", "/* open", ["a"], []),
    ("#[cfg(a)] fn f() {} ", "} #[cfg(b)] /* open", ["a"], []),
    ("#[cfg(a)] fn f() {} #[cfg(b", "} fn g() {} 'x", ["a"], []),
]
# Pieces of which code is made that may not end.
PIECES = """
#[cfg( #![cfg( #[cfg_attr( cfg!( cfg_if!{ cfg_select!{ if else => a any( ) ] } { ( , ; : < > | = # !
" ' b' r#" r" " / /* */ // /// 'a x fn struct #[path="x"] #[cfg_attr(a,path="x")] match let unsafe .
? $x -> :: #! \\ r# const use extern impl enum macro_rules! pub 1
""".split() + ["#[cfg(a)]", "fn f() {}", "#[cfg(b)] fn f() {}", "mod m;"] * 8
# How many texts are made of pieces, and of how many.
TEXTS, MOST_PIECES = 4000, 16
# Code, and the names that stand there several times, with the guards of each.
TWINS = [
    ("#[cfg(a)] fn f() {} #[cfg(b)] fn f() {}", ["f: a | b"]),
    ("#[cfg(a)] struct S; #[cfg(b)] type S = u8; fn S() {}", ["S: a | b"]),
    ("#[cfg(a)] fn f() {} fn f() {}", ["f: a | "]),
    ("#[cfg(a)] fn f() {} mod m { #[cfg(b)] fn f() {} }", []),
    ("#[cfg(x)] mod m { #[cfg(a)] fn f() {} #[cfg(b)] fn f() {} }", ["f: x a | x b"]),
    ("cfg_if! { if #[cfg(a)] { mod m; } else { mod m; } } mod m;", ["m: a | not(a) | "]),
    ("cfg_if! { if #[cfg(a)] { fn f() {} } else if #[cfg(b)] { fn f() {} } else if #[cfg(c)] {"
     " fn f() {} } else { fn f() {} } } fn g() {} #[cfg(d)] fn g() {}",
     ["f: a | not(a) b | not(a) not(b) c | not(a) not(b) not(c)", "g:  | d"]),
    ("cfg_select! { a => { fn f() {} } b => { fn f() {} } c => { fn f() {} } }",
     ["f: a | not(a) b | not(a) not(b) c"]),
    ("fn f() { #[cfg(a)] const X: u8 = 1; #[cfg(b)] static X: u8 = 2; }", ["X: a | b"]),
    ("impl S { #[cfg(a)] pub fn f(&self) {} #[cfg(b)] pub unsafe fn f(&self) {} }", ["f: a | b"]),
    ("#[cfg(a)] const _: () = (); #[cfg(b)] const _: () = ();", []),
    ("#[cfg(a)] mod m { #![cfg(b)] } #[cfg(c)] mod m;", ["m: a b | c"]),
    ("#[cfg(a)] use x::f; #[cfg(b)] use y::f;", []),
    ("#[cfg(a)] macro_rules! m { () => {} } #[cfg(b)] macro_rules! m { () => {} }", []),
]


def guards_of(guard):
    """Returns the texts of guards, from the outside in."""
    return [one.text for one in ([] if guard is None else guard.all)][::-1]


class Reading(unittest.TestCase):
    """What is found in code."""

    def test_conditions_and_guards(self):
        for code, wanted in ROWS:
            with self.subTest(code=code):
                found = read(code)
                self.assertIsNone(found.unread)
                self.assertEqual([
                    f"{one.form.value} {one.text} {{{', '.join(guards_of(one.guard))}}}"
                    for one in found.conditions
                ], wanted)

    def test_items_with_one_name(self):
        for code, wanted in TWINS:
            with self.subTest(code=code):
                groups = [one for one in read(code).groups if one.items]
                self.assertEqual([
                    f"{group.items[0].name}: "
                    + " | ".join(" ".join(guards_of(item.guard)) for item in group.items)
                    for group in groups
                ], wanted)

    def test_columns_count_characters(self):
        [found] = read('/* \u00e9\u4e2d */ #[cfg(unix)] fn f() {}').conditions
        self.assertEqual(found.place, (1, 16, 1, 20, 18, 22))

    def test_what_follows_an_end_is_not_read(self):
        code = read('#[cfg(a)] fn f() {}\nconst X: &str = r#"#[cfg(b)] "; #[cfg(c)] fn g() {}')
        self.assertEqual([one.text for one in code.conditions], ["a"])
        told = code.unread, code.unread_from[:2]
        self.assertEqual(told, ("a raw string does not end", (2, 19)))

    def test_what_does_not_end(self):
        for code, rest, conditions, names in UNFINISHED:
            with self.subTest(code=code + rest):
                found = read(code + rest)
                self.assertIsNotNone(found.unread)
                self.assertEqual(found.unread_from.start, len(code))
                self.assertEqual([one.text for one in found.conditions], conditions)
                self.assertEqual([one.items[0].name for one in found.groups if one.items], names)

    def test_pieces_that_may_not_end(self):
        made = random.Random(1)
        for _ in range(TEXTS):
            pieces = made.choices(PIECES, k=made.randint(1, MOST_PIECES))
            text = made.choice(("", " ", "\n")).join(pieces)
            with self.subTest(text=text):
                found = read(text)
                self.assertEqual(found.unread is None, found.unread_from is None)

    def test_many_parts_of_one_thing(self):
        for code in ("fn f() { #[cfg(a)] %s {} cfg!(b); }" % ("if x {} else " * 20_000),
                     "fn f() { match x { #[cfg(a)] x %s y, _ => cfg!(b) } }" % ("=> {}." * 20_000),
                     "fn f() { #[cfg(a)] 'a: %s cfg!(b); }" % ("loop {}.x => 'a: " * 20_000)):
            self.assertEqual([one.text for one in read(code).conditions], ["a", "b"])

    def test_memory(self):
        # What is repeated for each of many things would take sixty megabytes and more.
        long = "x" * 50_000
        for code in (f"#[cfg_attr({long}{', cfg(a)' * 2000})] fn f() {{}}",
                     f"#[cfg_attr({long}{', cfg_attr(a, path = %s)' % repr('x') * 2000})] mod m;",
                     f"#[cfg_attr({long}{', path = %s' % repr('x') * 2000})] mod m;",
                     f"mod {'a' * 1900} {{" * 30 + "mod m;" * 1000):
            code = code.replace("'", '"')
            with self.subTest(code=code[-40:]):
                tracemalloc.start()
                read(code)
                peak = tracemalloc.get_traced_memory()[1]
                tracemalloc.stop()
                self.assertLess(peak, 30_000_000)

    def test_time(self):
        # To go over the rest of the statement for each of its parts would take a minute.
        start = time.process_time()
        found = read(f"fn f() {{ let x{' = #[cfg(a)] x' * 2000}; }}")
        self.assertEqual(len(found.conditions), 2000)
        self.assertLess(time.process_time() - start, 30)

    def test_what_is_copied_of_a_condition_is_bounded(self):
        code = read(f"#[cfg_attr({'x' * 60_000}, cfg(a))] fn f() {{ cfg!(b) }}\n" * 4)
        guards = [one.guard.text for one in code.conditions if one.text == "b"]
        self.assertEqual([None if one is None else len(one) for one in guards],
                         [60_000 + len("any(not(), a)")] * 4)
        code = read(f"#[cfg_attr({'x' * 60_000}, cfg(a), cfg(b), cfg(c))] #[cfg(d)] fn f()"
                    " { cfg!(e) }")
        self.assertEqual([one is None for one in guards_of(code.conditions[-1].guard)],
                         [False, False, True, False])

    def test_modules(self):
        [one, other] = read('#[cfg(a)] #[path = "x.rs"] mod m;\nmod n { mod o; } mod p {}').modules
        self.assertEqual((one.name, one.paths, one.has_usual_path, guards_of(one.guard)),
                         ("m", ("x.rs",), False, ["a"]))
        self.assertEqual((other.name, other.folders, other.has_usual_path), ("o", ("n",), True))

    def test_paths_of_modules(self):
        for code, wanted, usual in (
            ('#[path = "x.rs"] mod m;', ["x.rs"], []),
            ('#[cfg_attr(a, path = "x.rs")] mod m;', ["x.rs a"], ["not(a)"]),
            ('#[cfg_attr(a, path = "x.rs")] #[cfg_attr(b, doc = "", path /**/ = "y.rs")] mod m;',
             ["x.rs a"], ["not(a)"]),
            ('#[cfg_attr(a, path = "x.rs")] #[cfg_attr(b, doc = "", path = "y.rs")] mod m;',
             ["x.rs a", "y.rs b"], ["not(a)", "not(b)"]),
            ('#[cfg_attr(a, cfg_attr(b, path = "x.rs"))] #[cfg(c)] mod m;',
             ["x.rs all(a, b)"], ["not(all(a, b))"]),
            ('#[cfg_attr($a, path = "x.rs")] mod m;', ["x.rs None"], [None]),
            ('#[cfg_attr(a, path = "x.rs")] mod m; mod n;', ["x.rs a"], ["not(a)"]),
            ('#[path = "x.rs"] /* ; */ /// }\n#[doc = "{"] pub(crate) mod m;', ["x.rs"], []),
            ('#[path = "x.rs"] use n; #[path = "y.rs"] fn f() {} mod m;', [], []),
            ('mod n { mod m; } #[path = "x.rs"] mod o;', [], []),
            ('// #[path = "x.rs"]\n/* #[cfg_attr(a, path = "y.rs")] */ mod m;', [], []),
            ('#[doc = r#"path = "x.rs""#] #[cfg_attr(a, doc = r#"path = "y.rs""#)] mod m;', [], []),
        ):
            with self.subTest(code=code):
                one = read(code).modules[0]
                self.assertEqual(len(one.paths), len(one.path_guards))
                paths = zip(one.paths, map(guards_of, one.path_guards))
                self.assertEqual([" ".join([path, *map(str, of)]) for path, of in paths], wanted)
                self.assertEqual(guards_of(one.usual_guard), usual)
                self.assertEqual(one.has_usual_path, wanted != ["x.rs"])

    def test_recorded(self):
        # What rustc 1.95 sees in files that are made, as tests/judge_code records it.
        with open(RECORDED, encoding="utf-8") as file:
            rows = json.load(file)
        self.assertGreaterEqual(len(rows), 20)
        for row in rows:
            found = [[one.form.value, one.is_inner, *one.place[:4]]
                     for one in read(row["code"]).conditions]
            self.assertEqual(found, row["seen"])


@needs("rustc", untested="whether cfgx.code sees the conditions that rustc sees")
class Rustc(unittest.TestCase):
    """What rustc sees."""

    def test_files_that_are_made(self):
        count = 0
        for seed in range(10_000, 10_000 + MADE):
            found = compared(str(seed), file_of(seed).encode())
            self.assertIsNotNone(found.count, seed)
            self.assertEqual((seed, found.missed, found.invented), (seed, [], []))
            count += found.count
        self.assertGreater(count, 100)
