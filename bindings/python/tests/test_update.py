"""The script that writes the table of targets, beside what it wrote, and over a made-up `rustc`."""
import os
import shutil
import subprocess
import sys
import tempfile
import unittest

from . import ROOT

FOLDER = os.path.join("bindings", "targets")
TABLE = os.path.join(FOLDER, "targets.tsv")
ROWS = os.path.join(FOLDER, "cfg-expr", "targets.tsv")
NAMED = os.path.join(FOLDER, "cfg-expr", "named.tsv")
RUST_SOURCE = os.path.join("bindings", "rust", "src", "targets", "builtins.rs")
PYTHON_TABLE = os.path.join("bindings", "python", "src", "cfgx", "targets.tsv")
JAVASCRIPT_TABLE = os.path.join("bindings", "js", "src", "targets_table.js")
MADE = (RUST_SOURCE, PYTHON_TABLE, JAVASCRIPT_TABLE)
UPDATE = os.path.join(FOLDER, "update")

# A `rustc` whose targets are files of a folder, with the lines that it prints of each.
RUSTC = """#!/bin/sh
case "$*" in
-vV) printf 'rustc 1.2.3\\nrelease: 1.2.3\\nhost: one\\n' ;;
"--print target-list") cd '{targets}' && ls -r ;;
"- --crate-name ___ "*" --crate-type=proc-macro --target "*" --print=cfg")
  while [ "$1" != --target ]; do shift; done
  cat '{targets}'/"$2" ;;
*) echo "wrong words: $*" >&2; exit 9 ;;
esac
"""
LINES = """\
debug_assertions
panic="unwind"
proc_macro
target_abi=""
target_arch="arm"
target_endian="little"
target_env="gnu"
target_family="unix"
target_family="wasm"
target_feature="sse2"
target_feature="fxsr"
target_has_atomic="128"
target_has_atomic="16"
target_has_atomic="8"
target_has_atomic="ptr"
target_os="linux"
target_pointer_width="32"
target_vendor="pc"
unix
"""
BARE = 'panic="abort"\ntarget_arch="x"\ntarget_endian="big"\ntarget_os="none"\n' \
       'target_pointer_width="16"\n'
WRITTEN = """\
# Targets of rustc 1.2.3, as it describes them to Cargo. Made by bindings/targets/update.
triple|target_os|target_abi|target_arch|target_env|target_vendor|target_family|\
target_pointer_width|target_endian|target_has_atomic|panic|debug_assertions|target_feature
bare|-|-|x|-|-|-|16|big|-|abort|no|-
one|linux|-|arm|gnu|pc|unix wasm|32|little|8 16 128 ptr|unwind|yes|fxsr sse2
""".replace("|", "\t")
# Made-up tables of cfg-expr: a target that rustc lacks, one that it describes otherwise, and the
# same one; names, among them one that does not follow from its value, and one of no target.
WRITTEN_ROWS = """\
# Targets of cfg-expr 0.20.10, which are those of rustc 9.8.7. Made by \
bindings/targets/cfg-expr/update.
triple|target_os|target_abi|target_arch|target_env|target_vendor|target_family|\
target_pointer_width|target_endian|target_has_atomic|panic
alone|-|odd.value|x|-|-|-|64|big|-|abort
bare|-|-|x|-|-|-|32|big|-|abort
one|linux|-|arm|gnu|pc|unix wasm|32|little|8 16 128 ptr|unwind
""".replace("|", "\t")
WRITTEN_NAMED = """\
# Named values of cfg-expr 0.20.10. Made by bindings/targets/cfg-expr/update.
type|name|value
Abi|odd_name|odd.value
Arch|x|x
Families|both|unix wasm
Os|plan9|plan9
""".replace("|", "\t")
# Lines of the Rust source that these targets make, and how it declares them.
SOURCE_LINES = [
    '    odd_name "odd.value",', '    plan9 "plan9",', '    arm "arm",', "    both: unix, wasm;",
    "    atomic_8_16_128_ptr: 8, 16, 128, ptr;",
    'pub(super) const RUSTC_VERSION: &str = "9.8.7";',
]
SOURCE_ROWS = """
built_in! {
    TARGETS, OTHER_FACTS:
    "alone" - odd_name x - - - 64 big - abort false "";
    "bare" - - x - - - 32 big - abort false "";
    "one" linux - arm gnu pc both 32 little atomic_8_16_128_ptr unwind true "fxsr sse2";
}

built_in! {
    RUSTC_TARGETS, RUSTC_FACTS:
    "bare" - - x - - - 16 big - abort false "";
}
"""
# What rustc prints of a target for which nothing is written, and what the message has.
REFUSED = [
    (LINES + 'target_object_format="elf"\n', 'not known here: target_object_format="elf"'),
    (LINES + "target_has_atomic\n", "not known here: target_has_atomic"),
    (LINES + "overflow_checks\n", "not known here: overflow_checks"),
    (LINES + 'unix="x"\n', 'not known here: unix="x"'),
    (LINES + 'target_feature="a b"\n', 'not known here: target_feature="a b"'),
    (LINES + "\n", "not known here: "),
    (LINES + 'target_os="macos"\n', "more than once: target_os"),
    (LINES + 'target_feature="fxsr"\n', "more than once: target_feature"),
    (LINES + "windows\n", "windows as a flag or a family alone"),
    (LINES.replace("\nunix\n", "\n"), "unix as a flag or a family alone"),
    (LINES.replace('panic="unwind"\n', ""), "prints no panic for two"),
    (LINES.replace('"arm"', '"a.b"'), "cannot be the name of a constant, at Arch: a.b"),
    (LINES.replace('"arm"', '"loop"'), "cannot be the name of a constant, at Arch: loop"),
    (LINES.replace('"arm"', '"8051"'), "cannot be the name of a constant, at Arch: 8051"),
    (LINES.replace('"gnu"', '"a-b"') + 'target_abi="x"\n', "more than once: target_abi"),
    (LINES.replace('_abi=""', '_abi="odd_name"'), "two values have the same name, at Abi"),
]
# What a row or a name of cfg-expr becomes for which nothing is made, and what the message has.
REFUSED_OF_CFG_EXPR = [
    (ROWS, WRITTEN_ROWS.replace("\tlinux", "\tbeos"), "this value has no name, at Os: beos"),
    (ROWS, WRITTEN_ROWS.replace("\t-\tabort", "\t8\tabort"), "has no name, at HasAtomics: 8"),
    (NAMED, WRITTEN_NAMED.replace("Os", "Triple"), "of a type that is not known: Triple"),
    (NAMED, WRITTEN_NAMED + "Abi\todd_name\tx\n", "two values have the same name, at Abi"),
]


class Written(unittest.TestCase):
    """What stands in the repository."""

    def test_the_files_are_what_the_script_makes_of_the_table(self):
        run = subprocess.run([sys.executable, os.path.join(ROOT, UPDATE), "--check"], check=False)
        self.assertEqual(run.returncode, 0)


class Made(unittest.TestCase):
    """The script in a folder of its own."""

    def setUp(self):
        folder = tempfile.TemporaryDirectory()
        self.addCleanup(folder.cleanup)
        self.root = os.path.realpath(folder.name)
        for path in (UPDATE, *MADE):
            os.makedirs(os.path.dirname(os.path.join(self.root, path)), exist_ok=True)
        shutil.copy(os.path.join(ROOT, UPDATE), os.path.join(self.root, UPDATE))
        self.targets = os.path.join(self.root, "targets")
        self.write("bin/rustc", RUSTC.format(targets=self.targets))
        os.chmod(os.path.join(self.root, "bin", "rustc"), 0o755)
        self.write("targets/one", LINES)
        self.write("targets/bare", BARE)
        self.write(ROWS, WRITTEN_ROWS)
        self.write(NAMED, WRITTEN_NAMED)

    def write(self, path, text):
        """Writes a file of the folder."""
        path = os.path.join(self.root, path)
        os.makedirs(os.path.dirname(path), exist_ok=True)
        with open(path, "w", encoding="utf-8") as file:
            file.write(text)

    def read(self, path):
        """Returns the text of a file of the folder."""
        with open(os.path.join(self.root, path), encoding="utf-8") as file:
            return file.read()

    def run_update(self, *words):
        """Runs the script. Returns its status, and what it says of an error."""
        path = os.pathsep.join([os.path.join(self.root, "bin"), os.environ["PATH"]])
        run = subprocess.run(
            [sys.executable, os.path.join(self.root, UPDATE), *words],
            env={**os.environ, "PATH": path}, stdout=subprocess.PIPE, stderr=subprocess.PIPE,
            check=False,
        )
        return run.returncode, run.stderr.decode()

    def written(self):
        """Returns the texts of the files that are there."""
        there = [path for path in (TABLE, *MADE) if os.path.exists(os.path.join(self.root, path))]
        return [self.read(path) for path in there]

    def test_the_table_and_what_is_made(self):
        self.assertEqual(self.run_update(), (0, ""))
        self.assertEqual(self.read(TABLE), WRITTEN)
        self.assertEqual(self.read(PYTHON_TABLE), WRITTEN)
        self.assertIn(f"\nexport const TABLE = `{WRITTEN}`;\n", self.read(JAVASCRIPT_TABLE))
        source = self.read(RUST_SOURCE)
        for line in SOURCE_LINES:
            self.assertEqual(source.splitlines().count(line), 1, line)
        self.assertTrue(source.endswith(SOURCE_ROWS), source)
        self.assertEqual(self.run_update("--check"), (0, ""))

    def test_what_is_made_without_a_compiler(self):
        self.run_update()
        wanted = self.written()
        os.remove(os.path.join(self.root, "bin", "rustc"))
        for path in MADE:
            self.write(path, "")
            status, said = self.run_update("--check")
            self.assertEqual((status, path in said), (1, True), said)
            self.assertEqual(self.run_update("--made"), (0, ""))
            self.assertEqual(self.written(), wanted)

    def test_what_is_refused(self):
        for lines, message in REFUSED:
            self.write("targets/two", lines)
            status, said = self.run_update()
            self.assertEqual((status, message in said), (1, True), said)
            self.assertEqual(said.count("\n"), 1, said)
            self.assertEqual(self.written(), [])

    def test_a_compiler_that_refuses(self):
        self.write("bin/rustc", "#!/bin/sh\necho 'error: not now' >&2\nexit 1\n")
        self.assertIn("rustc refused -vV: error: not now", self.run_update()[1])
        script = RUSTC.format(targets=self.targets).replace("cat ", "cat none ")
        self.write("bin/rustc", script)
        status, said = self.run_update()
        self.assertEqual((status, "--target bare" in said), (1, True), said)
        self.assertEqual(self.written(), [])

    def test_values_with_one_name(self):
        self.write("targets/one", LINES.replace('"gnu"', '"a-b"'))
        self.write("targets/two", LINES.replace('"gnu"', '"a_b"'))
        self.assertIn("two values have the same name, at Env", self.run_update()[1])
        self.assertEqual(self.written(), [])

    def test_a_value_that_no_target_has_any_more(self):
        self.run_update()
        wanted = self.written()
        self.write("targets/one", LINES.replace('"linux"', '"plan9"'))
        status, said = self.run_update()
        self.assertEqual(status, 1)
        self.assertIn("no target has ['linux'] any more: add it to KEPT, at Os", said)
        self.assertEqual(self.written(), wanted)

    def test_a_value_that_cfg_expr_names_stays(self):
        self.run_update()
        self.write("targets/bare", BARE.replace('"x"', '"y"'))
        self.assertEqual(self.run_update(), (0, ""))
        lines = self.read(RUST_SOURCE).splitlines()
        self.assertEqual([lines.count(f'    {name} "{name}",') for name in "xy"], [1, 1])

    def test_a_file_that_is_no_table(self):
        self.run_update()
        wanted = self.written()
        for path in (TABLE, ROWS, NAMED):
            text = self.read(path)
            head, columns = text.splitlines(keepends=True)[:2]
            for other in ("", "# Targets\n", head, head + columns.replace("t", "T"),
                          text.replace(head, head.replace(" of ", " by ")), text + "x\n"):
                self.write(path, other)
                status, said = self.run_update("--made")
                self.assertEqual(status, 1)
                self.assertIn(f"this is no table of targets: {self.root}", said)
                self.assertIn(path, said)
            self.write(path, text)
        self.assertEqual(self.written(), wanted)

    def test_what_is_refused_of_cfg_expr(self):
        self.run_update()
        wanted = self.written()
        for path, text, message in REFUSED_OF_CFG_EXPR:
            before = self.read(path)
            self.write(path, text)
            status, said = self.run_update("--made")
            self.assertEqual((status, message in said), (1, True), said)
            self.assertEqual(said.count("\n"), 1, said)
            self.write(path, before)
        self.assertEqual(self.written(), wanted)
