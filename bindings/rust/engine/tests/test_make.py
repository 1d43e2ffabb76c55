"""The files that are made, and what `make --check` finds."""
import os

from .trees import ERROR, Tree

MADE = """\
// Made of crates/cfgx_syntax/src/error.rt
// by bindings/rust/engine/make, which leaves its contracts out. Nobody edits this file.

//! Faults.

use crate::engine::rattle::alloc::{Allocator, Global};
use crate::engine::rattle::prelude::{FormatterExt, String};
use std::fmt;

/// A fault.
#[derive(Debug)]
pub struct Fault<A: Allocator = Global> {
    text: String<A>,
    number: u8,
}

impl<A: Allocator> Fault<A> {
    /// Returns the number.
    pub fn number(&self, wide: Option<bool>) -> u8 {
        match wide {
            Some(true) => self.number + 100,
            Some(false) => self.number,
            None => 0,
        }
    }
}

impl<A: Allocator> fmt::Display for Fault<A> {
    fn fmt(&self, f: &mut fmt::Formatter) -> fmt::Result {
        f.write(self.number)?;
        f.write_str(self.text.as_str())
    }
}
"""


class Make(Tree):
    """`make` without a word."""

    def test_files(self):
        self.assertEqual(self.read("cfgx_syntax/error.rs"), MADE)
        self.assertIn("//! One.\n\npub mod error;\n", self.read("cfgx_syntax.rs"))
        self.assertIn("pub use crate::engine::cfgx_syntax::error::Fault;",
                      self.read("cfgx_fields.rs"))
        for name in ("cfgx_syntax/laws.rs", "cfgx_engine/engine.rs"):
            self.assertFalse(os.path.exists(self.path(name)), name)

    def test_old_files_are_replaced(self):
        self.change("cfgx_syntax/error.rs", "100", "101")
        with open(self.path("cfgx_syntax/old.rs"), "w", encoding="utf-8"):
            pass
        self.assert_passes("make")
        self.assertEqual(self.read("cfgx_syntax/error.rs"), MADE)
        self.assertFalse(os.path.exists(self.path("cfgx_syntax/old.rs")))
        self.assertEqual(self.read("rattle/alloc.rs"), "// By hand.\n")

    def test_nothing_is_written_if_a_source_is_refused(self):
        self.write_source("cfgx_syntax/src/lib.rt", "//! Other.\n")
        self.write_source("cfg_expr/src/lib.rt", "//! Last.\n\nfn f() {\n    a.clone()?;\n}\n")
        self.assert_fails("make", saying="crates/cfg_expr/src/lib.rt:4: the method `clone`")
        self.assertIn("//! One.", self.read("cfgx_syntax.rs"))

    def test_nothing_is_written_if_what_is_made_is_no_rust(self):
        self.write_source("cfgx_syntax/src/lib.rt", "//! Other.\nfn f() where A: Drop, {} fn\n")
        self.assert_fails("make", saying="make: rustfmt refuses what is made")
        self.assertIn("//! One.", self.read("cfgx_syntax.rs"))


class Check(Tree):
    """`make --check`."""

    def assert_stale(self, name, saying="is not what its source gives"):
        self.assert_fails("make", "--check", saying=f"{name}: {saying}")

    def test_what_was_just_made(self):
        self.assert_passes("make", "--check")

    def test_a_source_that_changed(self):
        self.write_source("cfgx_syntax/src/error.rt", ERROR.replace("100", "101"))
        self.assert_stale("cfgx_syntax/error.rs")

    def test_a_contract_that_changed(self):
        self.write_source("cfgx_syntax/src/error.rt", ERROR.replace("number < 4 }", "number < 5 }"))
        self.assert_passes("make", "--check")

    def test_a_file_that_changed(self):
        for old, new in (("100", "101"), (" + ", " - "), ("FormatterExt, ", ""),
                         ("100,\n", "100\n"), ("/// A fault.", "/// Fault."),
                         ("error.rt", "other.rt")):
            with self.subTest(old):
                self.change("cfgx_syntax/error.rs", old, new)
                self.assert_stale("cfgx_syntax/error.rs")
                self.change("cfgx_syntax/error.rs", new, old) if new else self.assert_passes("make")

    def test_files_too_many_and_too_few(self):
        os.rename(self.path("cfgx_syntax/error.rs"), self.path("cfgx_syntax/other.rs"))
        self.assert_stale("cfgx_syntax/error.rs", "is missing")
        self.assert_stale("cfgx_syntax/other.rs", "is made of nothing")
        os.remove(self.path("cfgx_syntax/other.rs"))
        self.assert_passes("make")
        os.remove(self.path("cfg_expr.rs"))
        self.assert_stale("cfg_expr.rs", "is missing")

    def test_a_new_source(self):
        self.write_source("cfg_expr/src/new.rt", "//! New.\n")
        self.assert_stale("cfg_expr/new.rs", "is missing")

    def test_another_layout(self):
        self.change("cfgx_syntax/error.rs", "Some(false) => self.number,",
                    "Some(false) => {\n                self.number\n            }")
        self.change("cfgx_syntax/error.rs", "None => 0,", "None => 0")
        self.change("cfgx_syntax/error.rs", "wide: Option<bool>)", "wide: Option<bool>,\n)")
        self.assert_passes("make", "--check")
        self.assert_passes("check")

    def test_files_by_hand_are_not_looked_at(self):
        self.change("rattle/alloc.rs", "By", "Not by")
        self.assert_passes("make", "--check")
