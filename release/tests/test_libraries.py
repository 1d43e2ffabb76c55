"""What the program and the libraries show and need, and the examples in C over them."""
import os
import re

from . import C, SONAME, VERSION, User

import repository
from manifest import GLIBC, PROGRAM_GLIBC

# What a program may need beside glibc's own files: nothing.
NEEDED = {"libc.so.6", "ld-linux-x86-64.so.2"}

# An example in C, its words, and what it prints.
EXAMPLES = (
    ("predicates", ["all(unix, feature = \"x\")"], "family unix\nfeature x\n"),
    ("decide", ["all(unix, feature = \"x\")", "unix", "?feature = \"x\""],
     "unknown\ntrue with 11\nfalse with 10\n"),
    ("apply", ["all(any(unix, windows), not(a), feature = \"x\")"],
     "all(any(unix, windows), not(a), feature = \"x\")\nunknown\ntrue with 2 true predicates\n"),
    ("table", ["conditions", "linux", "wasm"], "yes\tno\tunix\nunknown\tyes\tfeature = \"x\"\n"),
    ("readme", [], ""),
    ("values", ["cfg(not(unix))", "any(windows, test)", "cfg(foo ()"],
     "false\nunknown\nstatus 1, byte 8\n"),
    ("cfgx", ["parse", "all(a, any(b), c)"], "b\na\nc\n"),
)
FILES = (
    ("conditions", "unix\nfeature = \"x\"\n"),
    ("linux", "unix\ntarget_arch = \"x86_64\"\n"),
    ("wasm", "target_arch = \"wasm32\"\nfeature = \"x\"\n"),
)
CFLAGS = ("-std=c99", "-D_POSIX_C_SOURCE=200809L", "-O2", "-Wall", "-Wextra", "-Werror")


def parts(version):
    """Returns the numbers of a version."""
    return [int(part) for part in version.split(".")]


class Libraries(User):
    """The program and both libraries, as the archive for C has them."""

    def setUp(self):
        super().setUp()
        self.top = self.unpacked(C)
        self.shared = os.path.join(self.top, "lib", f"libcfgx.so.{VERSION}")
        self.archive = os.path.join(self.top, "lib", "libcfgx.a")
        self.program = os.path.join(self.top, "bin", "cfgx")
        self.calls = sorted(
            re.findall(r"^uint32_t (cfgx_\w+)\(", repository.read_text(repository.HEADER), re.M)
        )

    def test_what_they_show(self):
        self.need("what the libraries of a release show", "nm")
        self.assertEqual(len(self.calls), 12)
        for words in (["-D", self.shared], ["-g", self.archive]):
            lines = self.lines_of("nm", "--defined-only", *words)
            names = sorted(line.split()[-1] for line in lines if len(line.split()) == 3)
            self.assertEqual(names, self.calls)

    def test_what_they_need(self):
        self.need("what the libraries of a release need", "objdump", "readelf")
        for path, most in ((self.shared, GLIBC), (self.program, PROGRAM_GLIBC)):
            versions = re.findall(r"\bGLIBC_([\d.]+)\b", self.succeed("objdump", "-T", path))
            self.assertTrue(versions)
            self.assertLessEqual(max(map(parts, versions)), parts(most), path)
            needed = re.findall(r"NEEDED.*\[(.*)\]", self.succeed("readelf", "-dW", path))
            self.assertLessEqual(set(needed), NEEDED)
        said = f"glibc {GLIBC} or later, or musl, and the program glibc {PROGRAM_GLIBC}."
        self.assertIn(said, repository.read_text("docs/RELEASE.md"))

    def test_how_they_are_loaded(self):
        self.need("how the libraries of a release are loaded", "readelf")
        for path in (self.shared, self.program):
            text = self.succeed("readelf", "-dlW", path)
            self.assertNotIn("TEXTREL", text)
            self.assertNotIn("RPATH", text)
            self.assertNotIn("RUNPATH", text)
            stack, = re.findall(r"^ *GNU_STACK .*? (RWE?) ", text, re.M)
            self.assertEqual(stack, "RW")
        self.assertIn(f"[{SONAME}]", self.succeed("readelf", "-dW", self.shared))

    def test_examples(self):
        self.need("the examples in C of a release", "cc", "pkg-config")
        for name, text in FILES:
            with open(os.path.join(self.folder, name), "w", encoding="utf-8") as file:
                file.write(text)
        where = {"PKG_CONFIG_PATH": os.path.join(self.top, "lib", "pkgconfig")}
        flags = self.succeed("pkg-config", "--cflags", "--libs", "cfgx", **where).split()
        self.assertEqual(self.succeed("pkg-config", "--modversion", "cfgx", **where),
                         f"{VERSION}\n")
        for name, words, wanted in EXAMPLES:
            source = os.path.join(self.top, "examples", f"{name}.c")
            self.succeed("cc", *CFLAGS, "-o", name, source, *flags)
            found = self.succeed(f"./{name}", *words,
                                 LD_LIBRARY_PATH=os.path.join(self.top, "lib"))
            self.assertEqual(found, wanted, name)
        sources = {name[:-2] for name in os.listdir(os.path.join(self.top, "examples"))
                   if name.endswith(".c")}
        self.assertEqual({name for name, _, _ in EXAMPLES}, sources)
