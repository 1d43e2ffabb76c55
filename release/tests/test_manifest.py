"""MANIFEST.txt and SHA256SUMS."""
import hashlib
import os
import re
import subprocess
import sys
import tarfile
import unittest
import zlib

from . import (
    C, FAMILIES, FOLDER, PACKAGE, RUST, VERSION, WHEELS, c_for, files_in, files_of_wheel,
    path_of, wheel_for,
)

import repository
import targets

# The files that have the engine inside.
ENGINES = [
    f"{C}/bin/cfgx", f"{C}/lib/libcfgx.a", f"{C}/lib/libcfgx.so.{VERSION}",
    *(f"{c_for('aarch64-linux')}/{path}"
      for path in ("bin/cfgx", "lib/libcfgx.a", f"lib/libcfgx.so.{VERSION}")),
    *(f"{c_for('x86_64-windows')}/{path}"
      for path in ("bin/cfgx.dll", "bin/cfgx.exe", "lib/cfgx.lib", "lib/libcfgx.a")),
    *(f"{c_for(family)}/lib/{name}" for family in ("x86_64-macos", "aarch64-macos")
      for name in ("libcfgx.a", "libcfgx.dylib")),
    *(f"cfgx/{library}" for _, library, *_ in WHEELS),
    "package/src/cfgx.wasm",
]
# The tools that link a library, or lower one.
TOOLS = ("cc", "ld", "aarch64-linux-gnu-gcc", "aarch64-linux-gnu-ld", "x86_64-w64-mingw32-gcc",
         "x86_64-w64-mingw32-ld", "wasm-ld", "wasm-opt")
# The targets for which the crate is checked, and what is said of each platform.
X86, ARM = "x86_64-unknown-linux-gnu", "aarch64-unknown-linux-gnu"
PLATFORMS = [
    (X86, X86, "this processor"),
    (ARM, ARM, "qemu-aarch64"),
    ("x86_64-pc-windows-gnu", X86, "wine"),
    ("x86_64-pc-windows-msvc", X86, "not run"),
    ("x86_64-apple-darwin", X86, "not run"),
    ("aarch64-apple-darwin", ARM, "not run"),
    ("wasm32-unknown-unknown", X86, "Node"),
]
PAGE = 4096
# The archives in the order of the sections.
NAMES = [f"{C}.tar.gz", *(f"{c_for(family)}.tar.gz" for family, _ in FAMILIES),
         *(wheel_for(systems) for systems, *_ in WHEELS), f"{RUST}.tar.gz", PACKAGE]


def printed(*words, **variables):
    """Returns what a command prints at the top of the repository, without the last line's end."""
    run = subprocess.run(words, cwd=repository.ROOT, env={**os.environ, **variables}, check=False,
                         stdout=subprocess.PIPE, encoding="utf-8")
    return run.stdout.rstrip("\n")


def sum_of(data):
    """Returns the sum of bytes."""
    return hashlib.sha256(data).hexdigest()


def sections():
    """Returns the lines of MANIFEST.txt before the first section, and those of each section by the
    name of its archive."""
    parts = re.split(r"^(cfgx-\S+)$", repository.read_text("out/release/MANIFEST.txt"), flags=re.M)
    return parts[0], dict(zip(parts[1::2], parts[2::2]))


class Manifest(unittest.TestCase):
    """MANIFEST.txt."""

    def test_sections(self):
        self.assertEqual(list(sections()[1]), NAMES)

    def test_each_section_has_the_files_of_its_archive(self):
        _, found = sections()
        for name in NAMES:
            is_wheel = name.endswith(".whl")
            files = files_of_wheel(name) if is_wheel else files_in(name)
            rows = [(f"{sum_of(data)}  {path}", path) for path, data in files.items()]
            rows = [(row + "  (engine)" if path in ENGINES else row, path) for row, path in rows]
            if not is_wheel:
                with tarfile.open(path_of(name)) as archive:
                    rows += [(f"{'link':64}  {one.name} -> {one.linkname}", one.name)
                             for one in archive if one.issym()]
            wanted = [row for row, _ in sorted(rows, key=lambda row: row[1])]
            lines = [line for line in found[name].splitlines() if line[64:66] == "  "]
            self.assertEqual(lines, wanted)

    def test_the_marks_are_on_files_that_are_there(self):
        marked = re.findall(r"^\S{64}  (\S+)  \(engine\)$", "\n".join(sections()[1].values()), re.M)
        self.assertEqual(sorted(marked), sorted(ENGINES))

    def test_head(self):
        """Each line says what this machine says by other commands."""
        changes = ", and changes after it" if printed("git", "diff", "HEAD", "--name-only") else ""
        date = printed("git", "log", "-1", "--format=%cd", TZ="UTC",
                       *["--date=format-local:%Y-%m-%d %H:%M:%S UTC"])
        with open(os.path.join(os.path.dirname(printed("rt", "doc")), "WHAT"),
                  encoding="utf-8") as file:
            kit = dict(line.split() for line in file)
        cc, ld, *others = (printed(tool, "--version").splitlines()[0] for tool in TOOLS)
        lines = "".join(f"          {line}\n" for line in others)
        wanted = f"""cfgx {VERSION}

commit    {printed("git", "rev-parse", "HEAD")}{changes}
          of {date}
sources   {printed("crates/cfgx_c/stamp", "sources")}
kit       {printed("rt", "version")}
          commit of the kit    {kit["commit"]}
          compiler of the kit  {kit["compiler"]}
linker    {cc}, {ld}
others    of the libraries for other platforms, beside the clang, lld and llvm-ar of the kit:
{lines}packed    by Python {sys.version.split()[0]}, zlib {zlib.ZLIB_RUNTIME_VERSION}
"""
        self.assertEqual(sections()[0].split("\nProved.")[0], wanted)

    def test_platforms(self):
        """Each platform has a line, which says for which target the crate was checked and what runs
        the library, and a frame. Each of both targets has a verdict."""
        head = sections()[0]
        found = re.findall(r"^(\S+) +(\S+-linux-gnu) +(\S.*?)  +(\d+) bytes$", head, re.M)
        self.assertEqual([row[:3] for row in found], PLATFORMS)
        self.assertLess(max(int(row[3]) for row in found), 2 * PAGE)
        stamp = repository.read_text("out/platforms/stamp")
        self.assertEqual([(row[0], row[3]) for row in found],
                         re.findall(r"^frame (\S+) (\d+) ", stamp, re.M))
        verdicts = re.findall(r"^(\S+-linux-gnu)\n  logic=proved .*\btarget=(\S+)", head, re.M)
        self.assertEqual(verdicts, [(target, target) for target in (X86, ARM)])

    def test_what_is_needed(self):
        texts = sections()[1]
        crate = repository.read_text("bindings/rust/Cargo.toml")
        over = repository.read_text("bindings/rust/cfg-expr/Cargo.toml")
        rust, = re.findall(r'^rust-version = "(.*)"$', crate, re.M)
        number, = re.findall(r'^version = "(.*)"$', over, re.M)
        python, = re.findall(r'^requires-python = ">=(.*)"$',
                             repository.read_text("bindings/python/pyproject.toml"), re.M)
        node, = re.findall(r'"node": ">=(.*)"', repository.read_text("bindings/js/package.json"))
        macs = [(family, platform.target.partition("macosx")[2])
                for family, (platform, *_) in targets.FAMILIES.items() if "mac" in family]
        self.assertEqual(len(macs), 2)
        glibc = "glibc 2.34 or later, and the shared object glibc 2.17 or later."
        for name, said in (
            (f"{C}.tar.gz", glibc), (f"{c_for('aarch64-linux')}.tar.gz", glibc),
            (f"{c_for('x86_64-windows')}.tar.gz", "It holds parts of MinGW-w64."),
            (f"{c_for('x86_64-windows')}.tar.gz", "cfgx.dll needs msvcrt.dll,"),
            *((f"{c_for(family)}.tar.gz", f"The libraries are for macOS {least} or later.")
              for family, least in macs),
            (PACKAGE, f"for Node {node} or later and for browsers,"),
            *((wheel_for(systems), f"The package for Python {python} or later,")
              for systems, *_ in WHEELS),
            (f"{RUST}.tar.gz", f"package `cfg-expr` {number} over it, for Rust {rust} or later,"),
        ):
            self.assertIn(said, texts[name].replace("\n", " "))
        self.assertNotIn("@", "".join([sections()[0], *texts.values()]))


class Sums(unittest.TestCase):
    """SHA256SUMS."""

    def test_sums(self):
        names = sorted([*NAMES, "cfgx.html", "MANIFEST.txt"])
        self.assertEqual(sorted(os.listdir(FOLDER)), sorted([*names, "SHA256SUMS"]))
        wanted = []
        for name in names:
            with open(path_of(name), "rb") as file:
                wanted.append(f"{sum_of(file.read())}  {name}\n")
        self.assertEqual(repository.read_text("out/release/SHA256SUMS"), "".join(wanted))
