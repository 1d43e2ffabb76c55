"""For what Cargo builds the parts of packages: the columns of reports beside Cargo's unit graph."""
from . import needs
from .made import KINDS, Folder, entry

from cfgx import manifest

TARGET = "x86_64-pc-windows-gnu"
MACRO = "[lib]\nproc-macro = true"
# A part without unit tests, without documentation tests, and that is no benchmark.
UNTESTED = "test = false\ndoctest = false\nbench = false"


def each_kind(name):
    """Returns dependencies of each kind: one on Unix, one on Windows, and one without a condition.
    Their names begin with that of the package."""
    conditions = {"all": None, "unix": "cfg(unix)", "windows": "cfg(windows)"}
    return [
        entry(kind, f"{name}-{kind[0]}-{word}", condition=condition)
        for kind in KINDS for word, condition in conditions.items()
    ]


def use(kind, name, *fields, **options):
    """Returns a dependency on another package of the workspace."""
    return entry(kind, name, *fields, place="..", **options)


# A package: what it is, the lines before its dependencies, and its sources.
PARTS = [
    ("library", "", ["src/lib.rs"]),
    ("library-with-script", "", ["src/lib.rs", "build.rs"]),
    ("binary", "", ["src/main.rs"]),
    ("macro", MACRO, ["src/lib.rs"]),
    ("macro-with-script", MACRO, ["src/lib.rs", "build.rs"]),
    ("macro-by-crate-type", '[lib]\ncrate-type = ["proc-macro"]', ["src/lib.rs"]),
    ("macro-with-binary", MACRO, ["src/lib.rs", "src/main.rs"]),
    ("macro-with-test", MACRO, ["src/lib.rs", "tests/one.rs"]),
    ("macro-with-example", MACRO, ["src/lib.rs", "examples/one.rs"]),
    ("macro-with-bench", MACRO, ["src/lib.rs", "benches/one.rs"]),
    ("macro-with-all", MACRO, ["src/lib.rs", "src/main.rs", "tests/one.rs", "build.rs"]),
    ("library-untested", f"[lib]\n{UNTESTED}", ["src/lib.rs"]),
    ("binary-untested", f'[[bin]]\nname = "one"\n{UNTESTED}', ["src/bin/one.rs"]),
    ("macro-untested", f"{MACRO}\n{UNTESTED}", ["src/lib.rs"]),
    ("macro-untested-with-binary", f"{MACRO}\n{UNTESTED}", ["src/lib.rs", "src/main.rs"]),
    ("untested-with-test", f"[lib]\n{UNTESTED}", ["src/lib.rs", "tests/one.rs"]),
    ("untested-with-example", f"{MACRO}\n{UNTESTED}", ["src/lib.rs", "examples/one.rs"]),
    ("untested-with-bench", f"[lib]\n{UNTESTED}", ["src/lib.rs", "benches/one.rs"]),
    ("test-that-is-not-built", f'[lib]\n{UNTESTED}\n[[test]]\nname = "one"\ntest = false',
     ["src/lib.rs", "tests/one.rs"]),
    ("macro-with-test-that-is-not-built",
     f'{MACRO}\n{UNTESTED}\n[[test]]\nname = "one"\ntest = false',
     ["src/lib.rs", "tests/one.rs"]),
    ("test", "", ["tests/one.rs"]),
    ("script-that-is-not", 'build = false', ["src/lib.rs", "build.rs"]),
    ("example-that-is-a-macro", '[[example]]\nname = "one"\ncrate-type = ["proc-macro"]',
     ["src/lib.rs", "examples/one.rs"]),
]
# The lines of packages of a workspace, by their names. Each package also has the dependencies of
# `each_kind`. What its name says is why it is built for the host, or that it is not.
USES = {
    "user-by-script": [use("build-dependencies", "used-by-script"),
                       use("build-dependencies", "not-on-windows", condition="cfg(windows)"),
                       use("build-dependencies", "used-on-unix", condition="cfg(unix)")],
    "user-without-script": [use("build-dependencies", "not-without-script")],
    "user-by-macro": [MACRO, use("dependencies", "used-by-macro"),
                      use("dev-dependencies", "used-by-test-of-macro")],
    "user-by-untested-macro": [f"{MACRO}\n{UNTESTED}", use("dependencies", "used-by-untested"),
                               use("dev-dependencies", "not-by-test-of-untested")],
    "user-by-library": [use("dependencies", "not-by-library"),
                        use("dev-dependencies", "not-by-test")],
    "used-by-script": [use("dependencies", "used-by-used"),
                       use("dependencies", "not-by-used", condition="cfg(windows)"),
                       use("build-dependencies", "not-by-used-without-script"),
                       use("dev-dependencies", "not-by-test-of-used")],
    "used-by-used": [use("build-dependencies", "used-by-script-of-used")],
    "user-of-optional": [use("build-dependencies", "used-if-asked", "optional = true")],
    "user-by-example": ['[[example]]\nname = "one"\ncrate-type = ["proc-macro"]',
                        use("dependencies", "used-by-example"),
                        use("dev-dependencies", "used-by-dev-of-example")],
    "user-by-other-name": ["[build-dependencies.other]", 'path = "../used-by-other-name"',
                           'package = "used-by-other-name"'],
}
ALSO = [
    "not-on-windows", "used-on-unix", "not-without-script", "used-by-macro",
    "used-by-test-of-macro", "not-by-library", "not-by-test", "not-by-used",
    "not-by-test-of-used", "used-by-script-of-used", "used-if-asked", "used-by-other-name",
    "not-by-used-without-script", "used-by-example", "used-by-dev-of-example", "used-by-untested",
    "not-by-test-of-untested",
]
SCRIPTS = {"user-by-script", "used-by-used", "user-of-optional", "user-by-other-name"}


@needs("cargo", "rustc", untested="the columns of a report beside Cargo's unit graph")
class UnitGraph(Folder):
    """What Cargo would build."""

    def write_parts(self):
        """Writes a workspace with a package for each of `PARTS`."""
        for name, lines, sources in PARTS:
            self.write_package(name, lines, *each_kind(name), sources=sources)
        return self.write_workspace(*(name for name, _, _ in PARTS))

    def test_parts_of_a_package(self):
        path = self.write_parts()
        report = manifest.report(path, [TARGET])
        compared = self.assert_is_built(report, self.graph_of(path, TARGET))
        self.assertEqual(compared, len(PARTS) * 9 * 2)

    def test_documentation_tests(self):
        # `cargo build` does not build them, and a documentation test reads dev-dependencies.
        for place, lines in enumerate(("[lib]", MACRO)):
            path = self.write_package(f"p{place}", f"{lines}\ntest = false\nbench = false",
                                      entry("dev-dependencies", "d", condition="cfg(unix)"))
            report = manifest.report(path, ["host-tuple"], kinds=["dev"])
            units = self.graph_of(path, report.platforms[0].triple, command=("test", "--doc"))
            self.assertEqual(self.assert_is_built(report, units), 2)
            self.assertIn(manifest.Value.YES, report.rows[0].values)

    def test_a_reason_where_cargo_reads_nothing(self):
        path = self.write_package("m", MACRO, entry("dependencies", "d", condition="cfg(loom)"),
                                  entry("build-dependencies", "b", condition="cfg(loom)"))
        for row in manifest.report(path, [TARGET]).rows:
            self.assertEqual((row.values[1], row.unknown), (manifest.Value.NOT_READ, {}))
        normal, build = manifest.report(path).rows
        self.assertEqual((normal.values, list(normal.unknown)), ((manifest.Value.UNKNOWN,), [0]))
        self.assertEqual((build.values, build.unknown), ((manifest.Value.NOT_READ,), {}))

    def test_without_a_target(self):
        path = self.write_parts()
        report = manifest.report(path)
        compared = self.assert_is_built(report, self.graph_of(path))
        self.assertEqual(compared, len(PARTS) * 9)

    def test_the_host_as_a_target(self):
        path = self.write_parts()
        report = manifest.report(path, ["host-tuple"])
        self.assert_is_built(report, self.graph_of(path, report.platforms[0].triple))

    def test_packages_that_others_use(self):
        for name in [*USES, *ALSO]:
            sources = ["src/lib.rs", *(["build.rs"] if name in SCRIPTS else [])]
            sources += ["examples/one.rs"] if name == "user-by-example" else []
            self.write_package(name, *USES.get(name, []), *each_kind(name), sources=sources)
        path = self.write_workspace(*USES, *ALSO)
        report = manifest.report(path, [TARGET])
        self.assert_is_built(report, self.graph_of(path, TARGET))
        on_host = {
            row.dependency.package for row in report.rows
            if row.dependency.name.endswith("-d-unix") and row.dependency.kind == "normal"
            and row.values[0] is manifest.Value.YES
        }
        named = {name for name in [*USES, *ALSO] if name.startswith("used")}
        macros = {"user-by-macro", "user-by-example", "user-by-untested-macro"}
        self.assertEqual(on_host, named | macros)
        # The other packages of the workspace say so too if they have no rows.
        for name in ("used-by-script", "not-on-windows"):
            rows = manifest.report(path, [TARGET], packages=[name]).rows
            self.assertEqual(list(rows), [row for row in report.rows
                                          if row.dependency.package == name])
