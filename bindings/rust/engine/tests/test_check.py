"""What `check` finds in an engine that is not that of its sources."""
import os

from .trees import ERROR, Tree, write

NAME = "cfgx_syntax/error.rs"


class Check(Tree):
    """Each change of a token is found, whether `make` or a hand made it."""

    def assert_found(self, old, new, saying=NAME):
        with self.subTest(old):
            text = self.read(NAME)
            self.change(NAME, old, new)
            self.assert_fails("check", saying=saying)
            write(self.path(NAME), text)

    def test_what_was_just_made(self):
        self.assertRegex(self.assert_passes("check"), r"^\d{3} tokens of 7 files are those of")

    def test_a_token_added(self):
        self.assert_found("self.number + 100", "self.number + 100 + 1")
        self.assert_found("pub fn number", "pub(crate) fn number")
        self.assert_found("None => 0,", "None => 0,\n_ => 1,")
        self.assert_found("f.write(self.number)?;", "f.write(self.number)?;\nf.write_str(\"\")?;")
        self.assert_found("#[derive(Debug)]", "#[derive(Debug, Clone)]")
        self.assert_found("number: u8,\n}", "number: u8,\nother: u8,\n}")
        write(self.path(NAME), self.read(NAME) + "\nfn last() {}\n")
        self.assert_fails("check", saying=NAME)

    def test_a_token_dropped(self):
        self.assert_found("self.number + 100", "self.number")
        self.assert_found("pub fn number", "fn number")
        self.assert_found("None => 0,", "")
        self.assert_found("f.write(self.number)?;", "")
        self.assert_found("#[derive(Debug)]\n", "")
        self.assert_found("impl<A: Allocator> Fault<A>", "impl Fault")
        write(self.path(NAME), self.read(NAME).split("impl<A: Allocator> fmt::Display")[0])
        self.assert_fails("check", saying=NAME)

    def test_a_token_exchanged(self):
        self.assert_found("self.number + 100", "self.number - 100")
        self.assert_found("self.number + 100", "100 + self.number")
        self.assert_found("Some(true) =>", "Some(false) =>")
        self.assert_found("100", "1_00")
        self.assert_found("text: String<A>,\n    number: u8,", "number: u8,\n    text: String<A>,")

    def test_a_contract_kept(self):
        self.assert_found("-> u8 {", "-> u8 ensures { result ≡ self.now.number } {")
        self.assert_found("match wide {", "prove!(holds(self.number < 4));\nmatch wide {")
        self.assert_found("#[derive(Debug)]", "#[derive(Drop)]\n#[derive(Debug)]")
        self.assert_found("number: u8,\n}", "number: u8,\nghost small: { number < 4 },\n}")

    def test_imports(self):
        self.assert_found("use std::fmt;\n", "")
        self.assert_found("use std::fmt;\n", "use std::fmt;\nuse std::mem;\n")
        self.assert_found("use std::fmt;\n", "pub use std::fmt;\n")
        self.assert_found("use std::fmt;\n", "use std::io as fmt;\n")
        self.assert_found("{Allocator, Global}", "{Allocator, AllocError as Global}")
        self.assert_found("rattle::alloc", "rattle::borrow")
        self.assert_found("use std::fmt;\n", "use crate::engine::rattle::prelude::Vec;\n"
                          "use std::fmt;\n")
        self.assert_found("use std::fmt;\n", "use std::fmt;\nuse std::marker::Model as Clone;\n")

    def test_paths(self):
        self.change("cfgx_fields.rs", "cfgx_syntax::error", "cfgx_parser::error")
        self.assert_fails("check", saying="cfgx_fields.rs")
        self.change("cfgx_fields.rs", "cfgx_parser::error", "cfgx_fields::error")
        self.assert_fails("check", saying="cfgx_fields.rs")

    def test_a_stale_file(self):
        self.write_source("cfgx_syntax/src/error.rt", ERROR.replace("100", "101"))
        self.assert_fails("check", saying=NAME)

    def test_a_source_that_is_not_there(self):
        os.remove(os.path.join(self.root, "crates/cfgx_syntax/src/error.rt"))
        self.assert_fails("check", saying="error.rt")

    def test_heads(self):
        self.assert_found("// Made of crates/cfgx_syntax/src/error.rt\n", "", "names no source")
        self.assert_found("cfgx_syntax/src/error.rt", "cfgx_fields/src/lib.rt")

    def test_comments_and_layout_are_not_looked_at(self):
        self.change(NAME, "/// A fault.", "/// Fault.")
        self.change(NAME, "=> self.number + 100,", "=> {\nself.number + 100 }")
        self.assert_passes("check")
