"""The table of the page MANIFESTS on what else Cargo does, beside Cargo's unit graph."""
import os

from . import needs
from .made import RUSTC, Shell, entry, value_in
from .test_pages import HOST, MANIFESTS_PAGE

from cfgx import _command, manifest

# For words of the first cell of each row: lines of a manifest, of which one that is a condition
# stands for a dependency with it.
PACKAGES = {
    'package = "notify"': ['[dependencies.watch]\npath = "../stubs/notify"\npackage = "notify"'],
    "optional = true": [
        entry("dependencies", "a", "optional = true"),
        entry("dependencies", "b", "optional = true"), '[features]\nx = ["dep:b"]',
    ],
    "log.workspace = true": [
        "[workspace]\n[workspace.dependencies.log]",
        'path = "../stubs/notify"\npackage = "notify"',
        "[target.'cfg(unix)'.dependencies]\nlog.workspace = true",
        "[target.'cfg(windows)'.build-dependencies]\nlog.workspace = true",
    ],
    "target.x86_64-pc-windows-gnu": [
        entry("dependencies", "a", condition="x86_64-pc-windows-gnu"),
        entry("dependencies", "b", condition=HOST),
        entry("build-dependencies", "c", condition=HOST),
    ],
    "crate-type": ['[lib]\ncrate-type = ["proc-macro"]', entry("dependencies", "a")],
    "r#unix": ["cfg(r#unix)", "cfg(r#true)", "cfg(r#windows)", "cfg(not(r#true))"],
    'unix = "x"': [
        'cfg(unix = "x")', "cfg(target_os)", 'cfg(target_foo = "x")', "cfg(panic)", "cfg(feature)",
        'cfg(target_endian = "middle")', 'cfg(target_pointer_width = "abc")',
    ],
    'feature = "x"': ['cfg(feature = "x")', "cfg(test)", "cfg(debug_assertions)"],
    "proc_macro": ["cfg(proc_macro)", "cfg(not(proc_macro))"],
    "any(loom, not(loom))": ["cfg(any(loom, not(loom)))", "cfg(all(loom, not(loom)))"],
    '"064"': ['cfg(target_pointer_width = "064")', 'cfg(target_pointer_width = "64")'],
    "RUSTFLAGS=": ["cfg(loom)", "cfg(other)"],
    "configuration file": ["cfg(loom)", "cfg(other)"],
    "RUSTC=": ["cfg(fast)", "cfg(unix)"],
}
# A compiler that prints another fact in the place of `unix`.
OTHER = RUSTC.replace("exec ", "").replace('"$@"', '"$@" | sed "s/^unix$/fast/"')
CONFIGURATION = '[build]\nrustflags = ["--cfg", "loom"]\n'


def rows():
    """Returns the cells of each row of the table."""
    with open(MANIFESTS_PAGE, encoding="utf-8") as file:
        text = file.read()
    table = text[text.index("## What else Cargo does"):].split("\n\n")[2].splitlines()
    return [row.strip("| ").split(" | ") for row in table[2:]]


class Rows(Shell):
    """What the commands of the table print of a package, and what Cargo would build of it."""

    def test_each_row_has_a_package(self):
        found = [[words for words in PACKAGES if words in cells[0]] for cells in rows()]
        self.assertEqual(found, [[words] for words in PACKAGES])

    @needs("cargo", "rustc", untested="the table of MANIFESTS on what else Cargo does")
    def test_each_row(self):
        for (_, _, command), words in zip(rows(), PACKAGES):
            with self.subTest(words=words):
                self.setUp()
                self.compare(words, command.strip("`"))

    def compare(self, words, command):
        """Compares what a command prints of a package with what Cargo would build of it."""
        path = self.write_package("p", *(
            entry("dependencies", f"d{place}", condition=line) if line.startswith("cfg(") else line
            for place, line in enumerate(PACKAGES[words])
        ), sources=("src/lib.rs", "build.rs"))
        if words == 'package = "notify"' or "workspace" in words:
            self.write_package("unused", entry("dependencies", "notify"))
        if words == "configuration file":
            self.write("p/.cargo/config.toml", CONFIGURATION)
        folder = os.path.dirname(path)
        given = _command.parser().parse_intermixed_args(command.replace("'", "").split()[1:])
        variables = self.variables_of(words, given)
        setting = " ".join(f"{name}='{value}'" for name, value in variables.items())
        printed = self.output_of(f"{setting} {command} --no-other-cfg --format tsv", folder)
        head, *lines = [line.split("\t") for line in printed.splitlines()]
        end = head.index("condition")
        units = self.graph_of(path, *head[5:end], folder=folder, **self.for_cargo(words, given))
        self.assertGreater(len(lines), 0)
        for line in lines:
            package, name, kind, is_optional, *values, condition = line[:end + 1]
            dependency = manifest.Dependency(
                package, name, None, kind, is_optional == "yes", condition or None
            )
            for triple, value in zip(head[4:end], values):
                wanted = value_in(units, dependency, triple, is_alone=len(values) == 1)
                self.assertEqual((name, triple, value), (name, triple, wanted.value))

    def variables_of(self, words, given):
        """Returns the variables of the environment that a row names."""
        if words == "RUSTC=":
            return {"RUSTC": self.write_program("own/rustc", OTHER)}
        return {"RUSTFLAGS": "--cfg loom"} if given.rustflags else {}

    def for_cargo(self, words, given):
        """Returns the options with which Cargo does what the row says."""
        if words == "RUSTC=":
            return {"rustc": os.path.join(self.folder, "own/rustc")}
        flags = ["loom"] if given.rustflags else given.cfg
        if words == "configuration file" or not flags:
            return {}
        return {"RUSTFLAGS": " ".join(f"--cfg {flag}" for flag in flags)}
