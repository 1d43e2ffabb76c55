"""What is left out of a text, what is rewritten, and what is refused."""
import re
import unittest

from leaving_out import Reader, Refused


def made(text):
    """Returns the Rust of a text of the crate `cfgx_one`."""
    return Reader("file.rt", text, "cfgx_one", ("cfgx_one", "cfgx_two"), ("laws",)).rust()


def words(text):
    """Returns the words and marks of a text."""
    return re.findall(r"\w+|[^\w\s]", text)


class Case(unittest.TestCase):
    """Looks at what is made of a text."""

    def check(self, text, rust):
        self.assertEqual(words(made(text)), words(rust))

    def check_kept(self, text):
        """The text has nothing that is left out."""
        self.assertEqual(made(text), text)

    def check_refused(self, text, what, line=1):
        with self.assertRaises(Refused) as caught:
            made(text)
        self.assertRegex(str(caught.exception), rf"^file\.rt:{line}: .*{re.escape(what)}")


class Ghosts(Case):
    """Ghost imports, members and fields."""

    def test_imports(self):
        self.check("ghost use a.b.{◌≡◌, c-d};\nuse x::y;", "use x::y;")
        self.check("impl A { ghost use a.{b as c}; fn f() {} }", "impl A { fn f() {} }")
        self.check("ghost use a.B as b;\nghost use a.C;\n", "")

    def test_module_comments_stay(self):
        self.assertEqual(made("//! Of a module.\nghost use a.b;\n\nuse x::y;\n"),
                         "//! Of a module.\n\nuse x::y;\n")

    def test_members(self):
        self.check("impl A for B { ghost eq = { λ a b. a ≡ b }; fn f() {} }",
                   "impl A for B { fn f() {} }")
        self.check("trait A { ghost top: { Self → List (T × U) }; fn f(); }", "trait A { fn f(); }")
        self.check("trait A {\n /// Said of it.\n ghost top: { Self };\n\n /// Kept.\n fn f(); }",
                   "trait A {\n /// Kept.\n fn f(); }")

    def test_fields(self):
        self.check("struct A { a: u8,\n /// Said of it.\n ghost small: { a < 4 }, b: u8 }",
                   "struct A { a: u8, b: u8 }")
        self.check("struct A { a: u8, pub ghost small: { a < 4 }, }", "struct A { a: u8, }")

    def test_others_are_refused(self):
        self.check_refused("ghost fn f() {}", "ghost fn")
        self.check_refused("\nfn f() { ghost let a = 1; }", "ghost let", 2)
        self.check_refused("fn f()\n ghost g: { List T }\n requires { g } {}", "requires", 3)
        self.check_refused("ghost g = 4;", "an opening bracket")
        self.check_refused("ghost use a.b", "no `;` follows")
        self.check_refused("trait T { ghost valid: { Type 0 } = { 1 }; }", "behind a ghost member")


class Clauses(Case):
    """`requires` and `ensures`."""

    def test_with_and_without_names(self):
        self.check("fn f(a: u8) -> u8 requires { a < 4 } ensures { result ≡ a } { a }",
                   "fn f(a: u8) -> u8 { a }")
        self.check("fn f() requires one { 0 < 1 }\n ensures two { 1 }\n ensures three { 1 } {}",
                   "fn f() {}")
        self.check("trait T { fn f() -> u8 ensures { result ≡ 1 }; fn g(); }",
                   "trait T { fn f() -> u8; fn g(); }")
        self.check("fn f<T>(t: T) where T: Copy, requires { a } { g(t) }",
                   "fn f<T>(t: T) where T: Copy, { g(t) }")

    def test_nested_brackets(self):
        self.check("fn f() ensures { (a : { b [ c ] }) → { ({}) } } { { } }", "fn f() { { } }")
        self.check("fn f() ensures { (one : Has a) × (λ x. record { b = { x } ; c = x }) } {}",
                   "fn f() {}")

    def test_brackets_in_literals_and_comments(self):
        for inside in ('codes "}"', 'codes "\\"}"', "'}'", "'\\''", 'r"}\\"', 'r#"}"}"#', 'b"}"',
                       "b'}'", "// }\n a", '// "\n a', "// it's }\n a", "«data»"):
            with self.subTest(inside):
                self.check(f"fn f() requires {{ {inside} }} {{ '}}' }}", "fn f() { '}' }")

    def test_lifetimes(self):
        self.check("fn f<'a>(a: &'a str) -> &'a str ensures { ⟦<A<'a> as B>⟧.c '{' } { a }",
                   "fn f<'a>(a: &'a str) -> &'a str { a }")
        self.check_kept("fn f<'a, 'b>(a: &'a u8) -> char { 'l: loop { break 'l '{' } }\n")

    def test_comments_right_above(self):
        self.check("fn f()\n // Of the clause.\n // Still.\n ensures { a }\n{\n // Kept.\n 1 }",
                   "fn f()\n{\n // Kept.\n 1 }")
        self.check("fn f() // Kept.\n ensures { a }\n{}", "fn f() // Kept.\n {}")
        self.check("fn f()\n // Kept.\n\n ensures { a }\n{}", "fn f()\n // Kept.\n\n {}")

    def test_others_are_refused(self):
        self.check_refused("fn f() requires* { a } {}", "without a clause")
        self.check_refused("fn f() { let ensures = 1; }", "`ensures` without a clause")
        self.check_refused("fn f() ensures { a } decreases { b } {}", "behind a clause")
        self.check_refused("fn f()\n\n ensures { a ] {}", "closes another bracket", 3)
        self.check_refused("fn f() ensures { a ", "never closed")
        self.check_refused("fn f()\n ensures { a -- of antt\n } {}", "a comment", 2)
        self.check_refused("fn f() ensures { a /* b */ } {}", "a comment")
        self.check_refused("fn f() { while a invariant { b } {} }", "`invariant`")


class Others(Case):
    """What else is left out."""

    def test_prove(self):
        self.check("fn f() { a(); prove!(b == [c(1), 2][0]); d() }", "fn f() { a(); d() }")
        self.check("fn f() {\n a();\n // Of the line below.\n prove!(b);\n d() }",
                   "fn f() {\n a();\n d() }")

    def test_what_only_a_prove_asks_is_not_imported(self):
        self.check("use a::b::holds;\nfn f() { prove!(holds(1)); }", "fn f() { }")
        self.check("use a::holds;\nfn f() { prove!(holds(1)); holds(2) }",
                   "use a::holds; fn f() { holds(2) }")

    def test_models(self):
        model = ("/// Of it.\nimpl<'a, A: B> Model for C<'a, A> {\n"
                 "    ghost use a.b;\n\n    ghost Value = { T };\n}\n")
        self.check(f"use std::marker::Model;\nstruct C;\n{model}fn f() {{}}", "struct C; fn f() {}")
        self.check(f"use std::marker::{{Model, PhantomData}};\n{model}",
                   "use std::marker::PhantomData;")
        self.check(f"use std::marker::{{A, Model, B}};\n{model}", "use std::marker::{A, B};")
        self.check_refused(f"use std::marker::{{A, Model}};\n{model}", "in an import")
        self.check_refused("impl Model for C { fn f() {} }", "code among ghost members")

    def test_names_in_a_clause_between_brackets(self):
        self.check("use a::{B, C, D};\nimpl E { ghost f = { ⟦<B as C>⟧.g }; fn h(d: D, c: C) {} }",
                   "use a::{C, D}; impl E { fn h(d: D, c: C) {} }")

    def test_attributes(self):
        self.check("#![tactic(auto)]\n\nmod a;", "mod a;")
        self.check("#[tactic(auto, using(crate::proofs::A::b, c))]\n#[inline(always)]\nfn f() {}",
                   "#[inline(always)]\nfn f() {}")
        self.check("// Of it.\n#[derived]\nimpl<A> Hash for C<A> { ghost a = { b }; }\nmod d;",
                   "mod d;")
        self.check_refused("#[derived]\nimpl Hash for C { fn f() {} }", "code among", 2)

    def test_derives(self):
        self.check("/// Kept.\n#[derive(Drop)]\nstruct A;", "/// Kept.\nstruct A;")
        for names in ("Drop, Debug, Eq", "Debug, Drop, Eq", "Debug, Eq, Drop"):
            self.check(f"#[derive({names})] struct A;", "#[derive(Debug, Eq)] struct A;")
        self.check("#[derive_where(Debug, Hash)] struct A;", "#[derive(Debug, Hash)] struct A;")
        self.check("#[derive_where(Drop)] struct A;", "struct A;")
        self.check_refused("#[derive_where(Clone; A)] struct A;", "more than names")

    def test_no_line_is_left_empty(self):
        self.assertEqual(made("/// A.\n#[derive(Drop)]\n#[derive(Eq)]\nstruct A {\n    b: u8,\n"
                              "    ghost c: { b < 4 },\n}\n"),
                         "/// A.\n#[derive(Eq)]\nstruct A {\n    b: u8,\n}\n")

    def test_writers(self):
        self.check("fn fmt<W: fmt::Write>(f: &mut fmt::Formatter<W>) -> fmt::Result { a(f) }",
                   "fn fmt(f: &mut fmt::Formatter) -> fmt::Result { a(f) }")
        self.check("fn f<T: Member, W: fmt::Write>(f: &mut fmt::Formatter<W>, items: &[T]) {}",
                   "fn f<T: Member>(f: &mut fmt::Formatter, items: &[T]) {}")
        self.check_kept("fn f<W: Write>(writer: &mut W) {}\n")
        self.check_refused("fn f<W: fmt::Write, T>(f: &mut fmt::Formatter<W>) {}", "fmt::Write")
        self.check_refused("struct A<T: fmt::Write>(T);", "fmt::Write")

    def test_drops_that_take_apart(self):
        self.check("// Why.\nimpl<A: B> Drop for C<A> {\n    fn drop(self) {\n"
                   "        let C { d: _d, .. } = self;\n    }\n}\nmod e;", "mod e;")
        for body in ("let C { d } = self; g(d);", "g(); let C { .. } = self;", "self.clear();", "",
                     "let C { d } = g(self);", "let C { d } = self; d"):
            with self.subTest(body):
                self.check_refused(f"impl Drop for C {{ fn drop(self) {{ {body} }} }}",
                                   "a `drop` with an effect")
        self.check_refused("impl Drop for C { fn drop(mut self) { let C { .. } = self; } }",
                           "a `drop` with an effect")

    def test_bounds(self):
        self.check("trait A: Drop { fn f(); }", "trait A { fn f(); }")
        self.check("trait A: Drop + Copy {}", "trait A: Copy {}")
        self.check("trait A: Eq + Drop {}", "trait A: Eq {}")
        self.check("fn f<T: Drop, I: Iterator<Item = T> + Drop>(i: I) {}",
                   "fn f<T, I: Iterator<Item = T>>(i: I) {}")
        self.check_refused("fn f(a: &dyn A) {}", "`dyn`")
        self.check_refused("use std::ops::Drop;", "elsewhere than in a bound")

    def test_modules(self):
        self.check("mod a;\n/// Of it.\npub mod laws;\nmod laws;\nmod b;", "mod a; mod b;")
        self.check_refused("mod laws { fn f() {} }", "is no file")
        self.check_refused("pub(crate) mod laws;", "is no file")

    def test_tests(self):
        self.check("fn a() {}\n/// Of it.\n#[test]\nfn b() -> C ensures { d } { e() }\nfn f() {}",
                   "fn a() {} fn f() {}")
        self.check("mod a;\n#[cfg(test)]\nmod tests;\n#[cfg(test)]\nmod more { fn f() { ; } }\n"
                   "mod b;", "mod a; mod b;")
        self.check_refused("#[cfg(unix)] mod a;", "`cfg`")


class Rewritten(Case):
    """Heads of paths, and the prelude."""

    def test_heads(self):
        engine = "crate::engine"
        self.check("use crate::a::b;\nuse cfgx_two::c::{d, e};\nuse std::fmt;\nuse super::g;",
                   f"use {engine}::cfgx_one::a::b; use {engine}::cfgx_two::c::{{d, e}};"
                   " use std::fmt; use super::g;")
        self.check("use std::alloc::{A, B};\nuse std::borrow::C;\nuse smallvec::D;",
                   f"use {engine}::rattle::alloc::{{A, B}}; use {engine}::rattle::borrow::C;"
                   f" use {engine}::rattle::smallvec::D;")
        self.check("fn f() { cfgx_two::a(std::mem::take(b), crate::c, d::crate_::e) }",
                   f"fn f() {{ {engine}::cfgx_two::a(std::mem::take(b), {engine}::cfgx_one::c,"
                   " d::crate_::e) }")
        self.check("fn f() { a::std::b(c.std::<u8>()) }", "fn f() { a::std::b(c.std::<u8>()) }")
        self.check_kept("use std::{fmt, mem};\nuse std::io::{self, Write};\n")

    def test_other_modules_of_std_are_refused(self):
        self.check_refused("use std::collections::A;", "`collections` of `std`")
        self.check_refused("use a;\nuse std::{alloc, fmt};", "a group of modules", 2)

    def test_prelude(self):
        prelude = "use crate::engine::rattle::prelude"
        self.check("use a;\npub use b;\nfn f(s: &String) -> Vec<u8> { }",
                   f"use a; pub use b; {prelude}::{{String, Vec}};"
                   " fn f(s: &String) -> Vec<u8> { }")
        self.check("use std::fmt;\nfn f(f: &mut fmt::Formatter<W>) { f.write(1); f.slice(a) }",
                   f"use std::fmt; {prelude}::{{FormatterExt, ListExt}};"
                   " fn f(f: &mut fmt::Formatter) { f.write(1); f.slice(a) }")
        self.check("use a;\nfn f() { vec![in b; 1; 2] }",
                   f"use a; {prelude}::{{vec}}; fn f() {{ vec![in b; 1; 2] }}")
        # A `write` of other types, and the macro, ask for nothing.
        self.check_kept("use std::fmt;\nfn f(g: G) { g.write(1) }\n")
        self.check_kept("use std::fmt;\nfn f(f: &mut fmt::Formatter) { write!(f, \"a\") }\n")
        # What is left out asks for nothing.
        self.check("use a;\nfn f() ensures { String } { prove!(Vec); }", "use a; fn f() { }")
        self.check_refused("fn f() -> String { }", "no import")


class RefusedForms(Case):
    """Forms that mean something else in Rust, or that are not known."""

    def test_attributes(self):
        for name in ("repr(u8)", "lang = \"a\"", "cycle(a)", "must_use", "macro_use", "allow(b)"):
            self.check_refused(f"\n\n#[{name}]\nstruct A;", "the attribute", 3)

    def test_macros(self):
        for call in ("panic!(rt; \"a\")", "assert!(rt; a)", "prove_eq!(a, b);", "dbg!(a)",
                     "format!(in a; \"b\")", "println!(rt; \"a\")", "vec![1, 2]", "vec![1; 2]",
                     "let a = prove!(b)"):
            with self.subTest(call):
                self.check_refused(f"fn f() {{\n {call} }}", "the macro", 2)
        self.check_refused("macro_rules! a { () => {} }", "`macro_rules`")
        self.check_kept("fn f() { matches!(a, b) && write!(f, \"{c}\") || unreachable!() }\n")
        self.check_kept("fn f() { if !(a && b) { return !(a != (b)); } }\n")

    def test_methods_that_take_memory(self):
        for call in ("a.clone()?", "a.clone()", "a.replace(alloc, b, c)", "a.to_string()",
                     "a.to_vec()", "a.collect::<B>()", "a.to_owned()", "a.concat()", "a.repeat(2)",
                     "Clone::clone(a)", "a.map(str::to_string)", "str::replace(a, b, c)"):
            with self.subTest(call):
                self.check_refused(f"fn f() {{ {call} }}", "takes memory in Rust")
        self.check_kept("fn f() { mem::replace(a, b); a.try_clone(b)?; a.copied(); a.clone }\n")

    def test_words(self):
        for text in ("unsafe fn f() {}", "extern fn f() {}", "static A: u8 = 1;", "union A {}",
                     "async fn f() {}", "fn f(a: &dyn A) {}", "unsafe impl A for B {}",
                     "fn f() -> Box<A> {}", "fn f() { \"a }", "/* a */ fn f() {}",
                     "fn f(a: 'é) {}"):
            with self.subTest(text):
                self.check_refused(text, "is not known")

    def test_what_is_not_ascii(self):
        self.check_refused("fn f() {\n a ≡ b }", "`≡` is no code", 2)
        self.check_refused("fn f() { «data» }", "is no code")
        self.check_kept("fn f() { \"é\"; 'é' } // é\n")

    def test_literals_and_comments_are_no_code(self):
        self.check_kept("fn f() { \"ghost use a; requires { \\\" } .clone()\" } // ghost {\n")
        self.check_kept("fn f() { r#\"ensures { \" } crate::a\"#; b\"}\"; '\\u{7d}'; '\\'' }\n")
        self.check_kept("/// It `requires { }` and `crate::a`, and isn't closed: (\nfn f() {}\n")


if __name__ == "__main__":
    unittest.main()
