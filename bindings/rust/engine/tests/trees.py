"""A small tree of sources, with both programs in it."""
import os
import shutil
import subprocess
import sys
import tempfile
import unittest

HERE = os.path.dirname(os.path.dirname(os.path.abspath(__file__)))
CRATES = ("cfgx_syntax", "cfgx_fields", "cfgx_targets", "cfgx_parser", "cfg_expr", "cfgx_engine")
ENGINE = os.path.join("bindings", "rust", "src", "engine")

# A file with most of what is left out and rewritten.
ERROR = """\
//! Faults.
ghost use Rattle.std.specs.Prelude.{◌≡◌};

use crate::laws::holds;
use std::alloc::{Allocator, Global};
use std::fmt;
use std::marker::Model;

/// A fault.
#[derive(Drop)]
#[derive_where(Debug)]
pub struct Fault<A: Allocator = Global> {
    text: String<A>,
    number: u8,
    ghost small: { number < 4 },
}

impl<A: Allocator> Model for Fault<A> {
    ghost view = { λ fault. fault.text };
}

impl<A: Allocator> Fault<A> {
    /// Returns the number.
    #[tactic(auto, using(crate::proofs::Numbers::small))]
    pub fn number(&self, wide: Option<bool>) -> u8
        // The number is small.
        ensures { result ≡ self.now.number }
    {
        prove!(holds(self.number < 4));
        match wide {
            Some(true) => self.number + 100,
            Some(false) => self.number,
            None => 0,
        }
    }
}

impl<A: Allocator> fmt::Display for Fault<A> {
    ghost output = { λ fault. fault.text };

    fn fmt<W: fmt::Write>(&self, f: &mut fmt::Formatter<W>) -> fmt::Result {
        f.write(self.number)?;
        f.write_str(self.text.as_str())
    }
}
"""

SOURCES = {
    "cfgx_syntax/src/lib.rt": "//! One.\n#![tactic(auto)]\n\npub mod error;\npub mod laws;\n",
    "cfgx_syntax/src/laws.rt": "//! Laws.\n",
    "cfgx_syntax/src/error.rt": ERROR,
    "cfgx_fields/src/lib.rt": "//! Two.\n#![tactic(auto)]\n\npub use cfgx_syntax::error::Fault;\n",
    "cfgx_engine/src/lib.rt": "//! Six.\n#![tactic(auto)]\n\npub mod engine;\n",
    "cfgx_engine/src/engine.rt": "//! Commands.\nfn f() { never!() }\n",
}


def write(path, text):
    """Writes a file, and its folder."""
    os.makedirs(os.path.dirname(path), exist_ok=True)
    with open(path, "w", encoding="utf-8") as file:
        file.write(text)


@unittest.skipUnless(shutil.which("rustfmt"), "rustfmt does not run here")
class Tree(unittest.TestCase):
    """Each test has a copy of a tree, in which the engine is made."""

    @classmethod
    def setUpClass(cls):
        folder = tempfile.TemporaryDirectory()
        cls.addClassCleanup(folder.cleanup)
        cls.made = cls.root = os.path.join(folder.name, "made")
        programs = os.path.join(cls.root, "bindings", "rust", "engine")
        os.makedirs(programs)
        for name in ("make", "check", "leaving_out.py"):
            shutil.copy(os.path.join(HERE, name), programs)
        for crate in CRATES:
            write(os.path.join(cls.root, "crates", crate, "src", "lib.rt"), "//! Of a crate.\n")
        for name, text in SOURCES.items():
            write(os.path.join(cls.root, "crates", name), text)
        for name in ("rattle.rs", "rattle/alloc.rs"):
            write(os.path.join(cls.root, ENGINE, name), "// By hand.\n")
        subprocess.run([sys.executable, os.path.join(programs, "make")], check=True)

    def setUp(self):
        folder = tempfile.TemporaryDirectory()
        self.addCleanup(folder.cleanup)
        self.root = os.path.join(folder.name, "tree")
        shutil.copytree(self.made, self.root)

    def path(self, name):
        """Returns the path of a file of the engine."""
        return os.path.join(self.root, ENGINE, name)

    def read(self, name):
        """Returns a file of the engine."""
        with open(self.path(name), encoding="utf-8") as file:
            return file.read()

    def write_source(self, name, text):
        """Writes a source."""
        write(os.path.join(self.root, "crates", name), text)

    def change(self, name, old, new):
        """Changes what stands once in a file of the engine."""
        text = self.read(name)
        self.assertEqual(text.count(old), 1, old)
        write(self.path(name), text.replace(old, new))

    def run_program(self, name, *words):
        """Runs a program in the tree, and returns its status and what it prints."""
        program = os.path.join(self.root, "bindings", "rust", "engine", name)
        run = subprocess.run([sys.executable, program, *words], capture_output=True, text=True)
        return run.returncode, run.stdout + run.stderr

    def assert_passes(self, *words):
        """The program ends well. Returns what it prints."""
        status, printed = self.run_program(*words)
        self.assertEqual(status, 0, printed)
        return printed

    def assert_fails(self, *words, saying):
        """The program fails, and prints this."""
        status, printed = self.run_program(*words)
        self.assertEqual(status, 1, printed)
        self.assertIn(saying, printed)
