"""The platforms of a report: facts, flags, and where they come from."""
import os
import re
import unittest
import unittest.mock

from . import needs
from .made import RUSTC, Folder, entry

import cfgx
from cfgx import manifest
from cfgx.manifest import Value, _flags, _platforms

LINUX, WINDOWS = "x86_64-unknown-linux-gnu", "x86_64-pc-windows-gnu"
# A word as `rustc --cfg` takes it, and the line that rustc 1.95 prints of it, or none if it refuses
# the word.
WORDS = [
    ("loom", "loom"), (" loom ", "loom"), ("r#loom", "loom"), ('a="b"', 'a="b"'),
    ("r#true", "true"), (" r#false", "false"),
    ('a = "b"', 'a="b"'), ('r#a="x"', 'a="x"'), ('a="é, b"', 'a="é, b"'),
    ('feature=""', 'feature=""'),
    ("unix", "unix"), ('unix="x"', 'unix="x"'), ("target_has_atomic", "target_has_atomic"),
    ("true", None), (" false", None), ("", None), ("a=b", None), ("a=1", None), ("a,b", None),
    ("all(a)", None), ("a b", None), ("8", None), ('a="', None), ('true="x"', None),
]
# What is set in the environment, and the flags that Cargo takes from it.
VARIABLES = [
    ({}, []),
    ({"RUSTFLAGS": ""}, []),
    ({"RUSTFLAGS": "  --cfg a   --cfg=b -Cdebuginfo=1 -C debuginfo=1 --cfg k=\"v\" "},
     ["a", "b", 'k="v"']),
    ({"RUSTFLAGS": "--cfg a", "CARGO_ENCODED_RUSTFLAGS": "--cfg\x1fb\x1f--cfg=c = \"d e\""},
     ["b", 'c="d e"']),
    ({"RUSTFLAGS": "--cfg a", "CARGO_ENCODED_RUSTFLAGS": ""}, []),
    ({"RUSTFLAGS": "-Dwarnings -L /x --cfg a -l b"}, ["a"]),
    # Only a space divides arguments, and other white space belongs to them.
    ({"RUSTFLAGS": "\t--cfg \na\n --cfg=k=\"d\te\"\t"}, ["a", 'k="d\te"']),
]
TEXTS = ("a", "b", 'k = "v"', 'c = "d e"', 'k = "d\te"')
# Arguments of rustc, and those of them that change facts.
ARGUMENTS = [
    (["-C", "target-feature=+avx2"], ["-C target-feature=+avx2"]),
    (["-Ctarget-cpu=native"], ["-C target-cpu=native"]),
    (["--codegen=panic=abort"], ["-C panic=abort"]), (["-O"], ["-O"]),
    (["--codegen", "target_feature=+x"], ["-C target_feature=+x"]),
    (["-C", "debug-assertions"], ["-C debug-assertions"]),
    (["-Zsanitizer=address"], ["-Z sanitizer=address"]),
    (["-C", "link-arg=-s", "-Clinker=x", "-g", "-D", "warnings", "-C"], []),
    (["--cfg", "a", "-Wunused"], []),
]
# Lines that rustc prints for every target.
WHOLE = 'target_arch="arm"\ntarget_endian="little"\ntarget_pointer_width="32"\n'
# A compiler that runs on another host.
ON_HOST = """\
#!/bin/sh
unset RUSTC_BOOTSTRAP
case " $* " in
*" -vV "*) rustc "$@" | sed "s/^host: .*/host: {host}/" ;;
*" --target "*) exec rustc "$@" ;;
*) exec rustc --target {host} "$@" ;;
esac
"""
LINES = {
    LINUX: ["unix", 'target_os="linux"', "proc_macro", "debug_assertions"],
    WINDOWS: ["windows", 'target_os="windows"'],
}


class Table:
    """A source of facts that is made up, with this machine as the host."""

    def host(self):
        """Returns the triple of the host."""
        return LINUX

    def targets(self):
        """Returns all triples."""
        return list(LINES)

    def lines(self, triple, is_with_flags):
        """Returns the facts of a target."""
        return LINES[triple] + (["flagged"] if is_with_flags else [])

    def each(self, triples):
        """Returns the facts of targets with flags."""
        return [self.lines(triple, True) for triple in triples]


def platforms_of(targets=(), facts=None, host=None, **options):
    """Returns the platforms over facts that are made up."""
    flags = _platforms.Flags(**options)
    return _platforms.platforms_of(Table(), targets, facts or {}, flags, host)


class Platforms(unittest.TestCase):
    """Which platforms there are, and what is true there."""

    def test_the_host_alone(self):
        [host] = platforms_of(names=("loom",))
        self.assertEqual((host.name, host.triple, host.is_host), ("host", LINUX, True))
        self.assertEqual(host.facts, {"unix", 'target_os="linux"', "debug_assertions", "flagged",
                                      "loom"})
        self.assertTrue(host.has_other_flags)
        self.assertFalse(platforms_of(has_others=False)[0].has_other_flags)

    def test_no_flag_reaches_the_host_beside_a_target(self):
        for options in ({"targets": [WINDOWS]}, {"facts": {WINDOWS: ["windows"]}}):
            host, target = platforms_of(names=("loom", 'a = "b"'), **options)
            self.assertEqual(host.facts, {"unix", 'target_os="linux"', "debug_assertions"})
            self.assertFalse(host.has_other_flags)
            self.assertLessEqual({"windows", "loom", 'a="b"'}, target.facts)
            self.assertTrue(target.has_other_flags)
            self.assertEqual((target.name, target.is_host), (WINDOWS, False))

    def test_a_host_that_is_named(self):
        [host] = platforms_of(host=WINDOWS, names=("loom",))
        self.assertEqual((host.name, host.triple, host.is_host), ("host", WINDOWS, True))
        self.assertEqual(host.facts, {"windows", 'target_os="windows"', "flagged", "loom"})
        host, target = platforms_of(["host-tuple"], host=WINDOWS)
        self.assertEqual(host.facts, {"windows", 'target_os="windows"'})
        self.assertEqual((target.name, target.is_host), (WINDOWS, False))

    def test_facts_of_a_host_that_is_named(self):
        rows = [("t", {"a"}), (WINDOWS, {"windows", 'target_os="windows"'})]
        for triple, wanted in rows:
            host, target = platforms_of(host=triple, facts={triple: ["a"]})
            self.assertEqual((host.triple, host.facts), (triple, wanted))
            self.assertEqual((target.triple, target.facts), (triple, {"a"}))

    def test_names_of_targets(self):
        rows = [
            (["host-tuple"], [LINUX]), (["all"], [LINUX, WINDOWS]),
            ([WINDOWS, "all"], [WINDOWS, LINUX]), ([WINDOWS, WINDOWS], [WINDOWS]),
        ]
        for targets, wanted in rows:
            self.assertEqual([one.name for one in platforms_of(targets)], ["host", *wanted])

    def test_the_name_of_the_host_is_no_target(self):
        for options in ({"targets": ["host"]}, {"facts": {"host": ["unix"]}}):
            with self.assertRaises(manifest.RequestError) as caught:
                platforms_of(**options)
            self.assertEqual(str(caught.exception),
                             "host is no target: host-tuple is the host as a target")

    def test_facts_of_a_caller(self):
        platforms = platforms_of([WINDOWS], {"t": ["unix\r", "", ' a = "b"']})
        self.assertEqual([one.name for one in platforms], ["host", WINDOWS, "t"])
        self.assertEqual(platforms[2].facts, {"unix", 'a="b"'})
        for lines in ("unix\r\n\na", iter(["unix", "a"])):
            host, target = platforms_of([], {"t": lines}, "t")
            self.assertEqual((host.facts, target.facts), ({"unix", "a"}, {"unix", "a"}))

    def test_facts_of_a_caller_replace_those_of_the_source(self):
        _, target = platforms_of([WINDOWS], {WINDOWS: ["a"]})
        self.assertEqual(target.facts, {"a"})

    def test_what_is_no_fact(self):
        for line in ("all(", "a=b", 'a="b', "é", "a b", 'a="b"c"'):
            with self.subTest(line=line), self.assertRaises(manifest.FactsError) as caught:
                platforms_of([], {"t": ["unix", line]})
            self.assertEqual(str(caught.exception), f"line 2 of t is no fact: {line}")


class Words(unittest.TestCase):
    """Flags and arguments of rustc."""

    def test_flags(self):
        for word, wanted in WORDS:
            with self.subTest(word=word):
                if wanted is not None:
                    self.assertEqual(_flags.flag_of(word), wanted)
                    continue
                with self.assertRaises(manifest.RequestError) as caught:
                    _flags.flag_of(word)
                self.assertIn("is no flag", str(caught.exception))

    def test_variables(self):
        for variables, wanted in VARIABLES:
            with self.subTest(variables=variables):
                arguments = _flags.rustflags_of(variables)
                self.assertEqual(_flags.divided(arguments or [])[0], wanted)
                self.assertEqual(arguments is None, variables == {})
                self.assertNotIn("", arguments or [])

    def test_arguments_that_change_facts(self):
        for arguments, wanted in ARGUMENTS:
            with self.subTest(arguments=arguments):
                self.assertEqual(_flags.divided(arguments)[1], wanted)
                flags = _platforms.Flags(rustflags=tuple(arguments))
                if wanted:
                    with self.assertRaisesRegex(manifest.RequestError, "needs --rustc"):
                        _platforms.Table(flags)
                else:
                    _platforms.Table(flags)


class Sources(Folder):
    """Where facts come from."""

    def test_a_target_that_the_table_lacks(self):
        table = _platforms.Table(_platforms.Flags())
        with self.assertRaises(manifest.RequestError) as caught:
            table.lines("nowhere", True)
        hint = "(--rustc asks a compiler, and --facts reads a file)"
        self.assertRegex(str(caught.exception), f"nowhere.*{re.escape(hint)}")
        self.assertIn("unix", table.lines(LINUX, True))

    def test_files(self):
        for name, triple in [("a-b.cfg", "a-b"), ("a-b.txt", "a-b"), ("thumbv8m.main-none", None),
                             ("thumbv8m.main-none.cfg", "thumbv8m.main-none")]:
            path = self.write(name, f"{WHOLE}unix\na=\"b\"\n")
            found, lines = _platforms.read_facts(path)
            self.assertEqual(found, triple or name)
            self.assertEqual(lines, [*WHOLE.splitlines(), "unix", 'a="b"', ""])
        path = self.write("t.cfg", f"\ufeff{WHOLE}")
        self.assertEqual(_platforms.read_facts(path)[1], [*WHOLE.splitlines(), ""])

    def test_files_that_cannot_be_read(self):
        path = os.path.join(self.folder, "none.cfg")
        with self.assertRaisesRegex(manifest.FactsError, "cannot be read: No such file"):
            _platforms.read_facts(path)
        with open(path, "wb") as file:
            file.write(b"\xff")
        with self.assertRaisesRegex(manifest.FactsError, "is not UTF-8"):
            _platforms.read_facts(path)

    def test_files_that_are_not_whole(self):
        arch, endian, width = WHOLE.splitlines()
        rows = [
            ("", "target_arch"), ("\n", "target_arch"), ("unix\n", "target_arch"),
            ("target_arch_x=\"arm\"\n", "target_arch"), (f"{arch}\n{width}", "target_endian"),
            (f"unix\n{endian}\n{arch}\n", "target_pointer_width"),
        ]
        for text, key in rows:
            path = self.write("t.cfg", text)
            with self.subTest(text=text), self.assertRaises(manifest.FactsError) as caught:
                _platforms.read_facts(path)
            self.assertEqual(str(caught.exception), f"{path} has no `{key}`: did rustc fail?")

    def test_each_target_has_what_a_file_must_have(self):
        for triple in cfgx.targets():
            path = self.write(f"{triple}.cfg", "\n".join(cfgx.target_facts(triple)))
            self.assertEqual(_platforms.read_facts(path)[0], triple)

    def test_the_compiler_starts_in_another_folder(self):
        program = self.write_program("rustc", "#!/bin/sh\npwd\necho \"$@\"\n")
        compiler = _platforms.Compiler(
            _platforms.Flags(rustflags=("-O",)), {"RUSTC": os.path.relpath(program)}
        )
        kind = "--print cfg --crate-type proc-macro --target t"
        self.assertEqual(compiler.lines("t", True), ["/", f"{kind} -O"])
        self.assertEqual(compiler.lines("t", False), ["/", kind])

    def test_a_compiler_of_the_current_folder(self):
        mark = os.path.join(self.folder, "mark")
        self.write_program("here/rustc", f"#!/bin/sh\n: > {mark}\nexit 1\n")
        self.write_program("tools/rustc", "#!/bin/sh\npwd\n")
        before = os.getcwd()
        self.addCleanup(os.chdir, before)
        os.chdir(os.path.join(self.folder, "here"))
        for path in (".:{}", ":{}", "{}:", "./:{}", "../here:{}", "{}"):
            path = path.format(os.path.join(self.folder, "tools"))
            with self.subTest(path=path), unittest.mock.patch.dict("os.environ", PATH=path):
                self.assertEqual(cfgx.rustc_facts("t"), ["/"])
                compiler = _platforms.Compiler(_platforms.Flags(), {})
                self.assertEqual(compiler.lines("t", True), ["/"])
        for path in (".", "", "here", "../here"):
            with self.subTest(path=path), unittest.mock.patch.dict("os.environ", PATH=path):
                with self.assertRaisesRegex(cfgx.RustcError, "rustc could not be run: "):
                    cfgx.rustc_facts("t")
                with self.assertRaisesRegex(manifest.CompilerError, "rustc could not be run: "):
                    _platforms.Compiler(_platforms.Flags(), {}).host()
        self.assertFalse(os.path.exists(mark))

    def test_compilers_that_fail(self):
        rows = [
            ("#!/nowhere\n", "could not be run: "),
            ("#!/bin/sh\necho oh >&2; exit 1\n", "refuses -vV:\n    oh"),
            ("#!/bin/sh\nkill -KILL $$\n", "refuses -vV:\n    "), ("#!/bin/sh\n", "names no host"),
            ("#!/bin/sh\nprintf 'hosts: none\\nnone: a\\n'\n", "names no host"),
        ]
        for script, message in rows:
            program = self.write_program("rustc", script)
            compiler = _platforms.Compiler(_platforms.Flags(), {"RUSTC": program})
            with self.subTest(script=script), self.assertRaises(manifest.CompilerError) as caught:
                compiler.host()
            self.assertIn(message, str(caught.exception))

    def test_lines_of_a_compiler_that_are_no_facts(self):
        rows = [("unix\\n\\377", 2, "\ufffd"), ("all(\\033\\n", 1, r"all(\x1b")]
        for printed, number, line in rows:
            program = self.write_program("rustc", f"#!/bin/sh\nprintf '{printed}'\n")
            compiler = _platforms.Compiler(_platforms.Flags(), {"RUSTC": program})
            with self.subTest(line=line), self.assertRaises(manifest.FactsError) as caught:
                _platforms.facts_in(compiler.lines("t", True), "t")
            self.assertEqual(str(caught.exception), f"line {number} of t is no fact: {line}")

    def test_configurations(self):
        rows = [
            ("[build]\nrustflags = [\"--cfg\", \"a\"]\n", True),
            ("[target.x]\nrustflags = 1\n", True),
            ("build.rustflags = 1\n", True), ("# rustflags\n[build]\njobs = 1\n", False),
            ("[build]\nrustdocflags = []\n", False), ("a = 1 # rustflags\n", False),
            ("[build]\n\"rustflags\" = 1\n", True),
        ]
        own = {"CARGO_HOME": os.path.join(self.folder, "own")}
        below = os.path.join(self.folder, "a/b")
        for place in (".cargo/config.toml", "a/b/.cargo/config", "a/.cargo/config.toml",
                      "own/config.toml"):
            for text, wanted in rows:
                path = self.write(place, text)
                found = [one for one in _flags.notes_on_configurations(below, own)
                         if one.startswith(self.folder)]
                note = f"{path} has rustflags, which are not read; --cfg says which flags are set"
                self.assertEqual(found, [note] if wanted else [])
            os.remove(path)


@needs("cargo", "rustc", untested="flags and compilers beside Cargo's unit graph")
class UnitGraph(Folder):
    """What Cargo would build."""

    def write_conditions(self, *conditions):
        """Writes a package with a dependency and a build-dependency for each condition."""
        return self.write_package("a", *(
            entry(kind, f"{kind[0]}{number}", condition=f"cfg({condition})")
            for number, condition in enumerate(conditions)
            for kind in ("dependencies", "build-dependencies")
        ), sources=("src/lib.rs", "build.rs"))

    def test_variables(self):
        path = self.write_conditions(*TEXTS)
        for variables, flags in VARIABLES:
            for targets in ([LINUX], []):
                with self.subTest(variables=variables, targets=targets):
                    arguments = _flags.rustflags_of(variables)
                    report = manifest.report(
                        path, targets, rustflags=arguments, no_other_cfg=True
                    )
                    self.assert_is_built(report, self.graph_of(path, *targets, **variables))
                    read = {row.dependency.condition for row in report.rows
                            if Value.YES in row.values}
                    self.assertEqual(len(read), len(flags))

    def test_arguments_that_change_facts(self):
        path = self.write_conditions(
            'target_feature = "avx2"', 'panic = "abort"', "debug_assertions", "loom"
        )
        flags = "-C target-feature=+avx2 -Cpanic=abort -O --cfg loom"
        for targets in ([LINUX], []):
            report = manifest.report(
                path, targets, rustflags=flags.split(), no_other_cfg=True, rustc=True
            )
            self.assert_is_built(report, self.graph_of(path, *targets, RUSTFLAGS=flags))
            values = {row.values[-1] for row in report.rows if row.dependency.kind == "normal"}
            self.assertEqual(values, {Value.YES, Value.NO})

    def test_a_compiler_of_its_own(self):
        path = self.write_conditions("fast", 'target_foo = "x"', "unix")
        script = RUSTC.replace("exec ", "").replace('"$@"', '"$@" | sed "s/^unix$/fast/"')
        rustc = self.write_program("own/rustc", script)
        for targets in ([LINUX], []):
            report = manifest.report(path, targets, rustc=True, environment={"RUSTC": rustc},
                                     no_other_cfg=True)
            self.assert_is_built(report, self.graph_of(path, *targets, rustc=rustc))
            self.assertIn((Value.YES, "cfg(fast)"),
                          {(row.values[-1], row.dependency.condition) for row in report.rows})

    def test_another_host(self):
        path = self.write_conditions("unix", "windows", 'target_arch = "x86"')
        host = "i686-pc-windows-gnu"
        rustc = self.write_program("own/rustc", ON_HOST.format(host=host))
        ways = [{"host": host}, {"rustc": True, "environment": {"RUSTC": rustc}},
                {"rustc": True, "host": host}]
        for targets in ([LINUX], [host], []):
            units = self.graph_of(path, *targets, rustc=rustc)
            for options in ways:
                report = manifest.report(path, targets, no_other_cfg=True, **options)
                self.assertEqual(report.platforms[0].triple, host)
                self.assert_is_built(report, units)

    def test_a_configuration(self):
        path = self.write_conditions("loom", "tokio_unstable")
        config = self.write("a/.cargo/config.toml", '[build]\nrustflags = ["--cfg", "loom"]\n')
        report = manifest.report(path, [LINUX])
        self.assertEqual([note for note in report.notes if self.folder in note],
                         [f"{config} has rustflags, which are not read; --cfg says which flags are"
                          " set"])
        self.assertEqual({row.values[1] for row in report.rows if row.dependency.kind == "normal"},
                         {Value.UNKNOWN})
        report = manifest.report(path, [LINUX], cfg=["loom"], no_other_cfg=True)
        units = self.graph_of(path, LINUX, folder=os.path.dirname(path))
        self.assert_is_built(report, units)
