"""The command `cfgx-deps` as a process."""
import json
import os
import re
import resource
import shutil
import subprocess
import sys
import unittest.mock

from . import HERE, PACKAGE, needs
from .made import Folder

import cfgx
from cfgx import _command, _library, _output

PROJECT = os.path.join(HERE, "..", "pyproject.toml")
# What each file of facts has.
FACTS = 'target_arch="arm"\ntarget_endian="little"\ntarget_pointer_width="32"\n'
HOST, WINDOWS = "x86_64-unknown-linux-gnu", "x86_64-pc-windows-gnu"
# A `cargo` that lists what a file has.
CARGO = """#!/bin/sh
case "$1" in
-vV) printf 'cargo 1.95.0\\nhost: {host}\\n' ;;
*) exec {cat} '{folder}/metadata.json' ;;
esac
"""
TABLE = f"""\
dependency  host  {WINDOWS}  condition
a           -     no                     cfg(unix)

host {HOST}; 1 row: 1 no
"""
# Values that would end the line, clear the screen, or turn the direction of what follows.
HOSTILE = "\n\terror\x07\x1b[2J\x7f\x85\x9b\xa0\u200e\u2028\u202e\u2066\ufeff"
SHOWN = r"\n\terror\x07\x1b[2J\x7f\x85\x9b\xa0\u200e\u2028\u202e\u2066\ufeff"


def dependency_of(name="a", target=None, **fields):
    """Returns a dependency as Cargo lists it."""
    usual = {"name": name, "rename": None, "kind": None, "optional": False, "target": target,
             "source": "registry+https://github.com/rust-lang/crates.io-index", "req": "^1",
             "uses_default_features": True, "features": [], "registry": None}
    return {**usual, **fields}


def package_of(name, path, *dependencies, kind="lib"):
    """Returns a package as Cargo lists it."""
    return {"name": name, "version": "0.1.0", "id": f"path+file://{path}#0.1.0", "source": None,
            "manifest_path": path, "dependencies": dependencies,
            "targets": [{"kind": [kind], "crate_types": [kind]}]}


class Made(Folder):
    """A manifest in a folder of its own, a `cargo` that is made up, and the command."""

    def setUp(self):
        super().setUp()
        self.tools = os.path.join(self.folder, "tools")
        self.audited = os.path.join(self.folder, "audited")
        self.path = self.write("audited/Cargo.toml")
        values = {"host": HOST, "cat": shutil.which("cat"), "folder": self.folder}
        self.write_program("tools/cargo", CARGO.format(**values))
        self.list(dependency_of(target="cfg(unix)"))
        with open(PROJECT, encoding="utf-8") as file:
            [(module, name)] = re.findall(r'^cfgx-deps = "(\w+):(\w+)"$', file.read(), re.M)
        # What pip writes of this line.
        self.script = self.write("bin/cfgx-deps", (
            f"import sys\nfrom {module} import {name}\n"
            f'if __name__ == "__main__":\n    sys.exit({name}())\n'
        ))

    def list(self, *dependencies):
        """Makes `cargo` list these dependencies of the package."""
        package = package_of("p", self.path, *dependencies)
        if any(one["kind"] == "build" for one in dependencies):
            package["targets"].append({"kind": ["custom-build"], "crate_types": ["bin"]})
        self.write("metadata.json", json.dumps({"packages": [package]}))

    def command(self, *words, start=None, shell=None, stdout=subprocess.PIPE, **variables):
        """Returns the status of the command with these words in the folder of the manifest, and
        what it prints on both streams. `shell` may redirect streams of `"$@"`."""
        variables = {
            "PATH": self.tools, "PYTHONPATH": os.path.abspath(PACKAGE), "PYTHONUTF8": "1",
            "PYTHONDONTWRITEBYTECODE": "1", "CFGX_LIBRARY": _library.path_of(),
            "HOME": self.folder, **variables,
        }
        command = [sys.executable, *(start or [self.script]), *words]
        if shell is not None:
            command = [shutil.which("sh"), "-c", shell, "sh", *command]
        run = subprocess.run(command, env=variables, cwd=self.audited, stdout=stdout,
                             stderr=subprocess.PIPE, check=False)
        return run.returncode, (run.stdout or b"").decode(), run.stderr.decode()


class Statuses(Made):
    """With which status the command ends, and what it prints then."""

    def test_a_table(self):
        words = ("--target", WINDOWS)
        for given in (words, (*words, "Cargo.toml"), ("Cargo.toml", *words), (".", *words),
                      (self.path, *words), (*words, self.audited)):
            with self.subTest(given=given):
                self.assertEqual(self.command(*given), (0, TABLE, ""))

    def test_options_in_any_order(self):
        words = [["--target", WINDOWS], ["--no-other-cfg"], ["--kind", "normal,dev"],
                 ["--cfg", "loom"], [self.path], ["--format=table"]]
        for turn in range(len(words)):
            given = [word for one in words[turn:] + words[:turn] for word in one]
            with self.subTest(given=given):
                self.assertEqual(self.command(*given), (0, TABLE, ""))

    def test_wrong_use(self):
        rows = [
            (["--none"], "unrecognized arguments: --none"),
            (["a", "b"], "unrecognized arguments: b"),
            (["--target"], "--target: expected one argument"),
            (["--format", "xml"], "invalid choice: 'xml'"), (["--targ", HOST], "--targ"),
            (["--target", "x\x1b"], r"x\x1b"), (["--host", "x\x1b"], r"x\x1b"),
            (["--kind", "normal,test"], "test is no kind"), (["--cfg", "a=b"], "a=b is no flag"),
            (["--fail-on", "no"], "--fail-on takes unknown and never, and not no"),
            (["-p", "q\u202e"], r"the workspace has no package q\u202e"),
            (["\x1b", "\x1b"], r"unrecognized arguments: \x1b"),
        ]
        for words, message in rows:
            with self.subTest(words=words):
                status, output, found = self.command(*words)
                self.assertEqual((status, output), (2, ""))
                self.assertIn(message, found)
                self.assertTrue(found.replace("\n", "").isprintable(), found)

    def test_the_version(self):
        self.assertEqual(self.command("--version"), (0, f"cfgx-deps {cfgx.__version__}\n", ""))

    def test_what_fails(self):
        rows = [
            ((os.path.join(self.folder, "tools"), ), "cargo lists no packages"),
            (("--facts", "none.cfg"), "none.cfg cannot be read: No such file or directory"),
            (("--rustc",), "rustc could not be run"),
        ]
        for words, message in rows:
            with self.subTest(words=words):
                if "tools" in words[0]:
                    self.write("metadata.json", "[")
                status, output, found = self.command(*words)
                self.assertEqual((status, output), (3, ""))
                self.assertRegex(found, r"\Acfgx-deps: .*\n\Z")
                self.assertIn(message, found)
                self.list(dependency_of())

    def test_no_cargo(self):
        os.remove(os.path.join(self.tools, "cargo"))
        message = "cfgx-deps: there is no cargo on the path, and only cargo reads a manifest\n"
        self.assertEqual(self.command(), (3, "", message))

    def test_no_manifest(self):
        os.remove(self.path)
        message = f"cfgx-deps: there is no Cargo.toml in {self.audited} or above it\n"
        self.assertEqual(self.command(), (3, "", message))

    def test_no_library(self):
        status, output, message = self.command(CFGX_LIBRARY="/nowhere/\x1bsome.so")
        self.assertEqual((status, output), (3, ""))
        self.assertRegex(message, r"\Acfgx-deps: cfgx cannot load /nowhere/\\x1bsome.so \("
                                  rf".* let CFGX_LIBRARY name the file {_library.NAME}\n\Z")

    def test_no_library_by_the_name_of_the_package(self):
        status, output, message = self.command(start=["-m", "cfgx"], CFGX_LIBRARY="/nowhere")
        self.assertEqual((status, output), (1, ""))
        self.assertRegex(message, r"\A.*ImportError: cfgx cannot load /nowhere .*\n\Z")

    def test_what_is_found(self):
        self.list(dependency_of("a", "cfg(loom)", kind="dev"), dependency_of("b", "cfg(windows)"))
        unknown = "cfgx-deps: unknown: p a (dev) cfg(loom)\n"
        never = "cfgx-deps: never true: p b cfg(windows)\n"
        rows = [
            ([], ""), (["--fail-on", "unknown"], unknown), (["--fail-on", "never"], never),
            (["--fail-on", "never,unknown"], unknown + never),
            (["--fail-on", "never", "--target", WINDOWS], ""),
            (["--fail-on", "unknown", "--no-other-cfg"], ""),
            (["--fail-on", "unknown", "--fail-on", "never", "--cfg", "loom"], never),
            (["--fail-on", "never,unknown", "--cfg", "loom", "--target", WINDOWS], ""),
        ]
        for words, wanted in rows:
            with self.subTest(words=words):
                status, output, message = self.command(*words)
                self.assertEqual((status, message), (1 if wanted else 0, wanted))
                self.assertIn("2 rows", output)

    def test_a_condition_that_is_never_true(self):
        self.list(dependency_of("a", 'cfg(target_os = "linx")'), dependency_of("b", "cfg(windows)"),
                  dependency_of("c", "cfg(windows)", kind="build"), dependency_of("d", "cfg(a)"))
        words = ["--target", "all", "--summary", "--format", "json", "--fail-on", "never"]
        status, output, message = self.command(*words)
        wanted = 'cfgx-deps: never true: p a cfg(target_os = "linx")\n'
        self.assertEqual((status, message), (1, wanted))
        found = {one["name"]: one["never"] for one in json.loads(output)["dependencies"]}
        self.assertEqual(found, {"a": True, "b": False, "c": False, "d": False})

    @needs("/dev/full", untested="an output on a full device")
    def test_a_full_device(self):
        message = "cfgx-deps: the output could not be written: No space left on device\n"
        for words in ([], ["--version"], ["--help"]):
            with open("/dev/full", "w") as full:
                self.assertEqual(self.command(*words, stdout=full), (3, "", message))

    def test_a_closed_output(self):
        message = "cfgx-deps: the output is closed\n"
        for words in ([], ["--version"], ["--help"]):
            self.assertEqual(self.command(*words, shell='"$@" >&-'), (3, "", message))

    @needs("/dev/full", untested="messages on a full device")
    def test_messages_that_cannot_be_printed(self):
        # The environment has flags, of which a note tells.
        self.list(dependency_of(target='cfg(target_os = "")'))
        table = TABLE.replace("cfg(unix)", 'cfg(target_os = "")')
        rows = [([], 0, table), (["--fail-on", "never"], 1, table), (["--none"], 2, ""),
                (["--kind", "x"], 2, ""), (["--facts", "none.cfg"], 3, "")]
        for words, status, output in rows:
            for closing in ("2> /dev/full", "2>&-"):
                with self.subTest(words=words, closing=closing):
                    found = self.command(*words, "--target", WINDOWS, shell=f'"$@" {closing}',
                                         RUSTFLAGS="--cfg a")
                    self.assertEqual(found, (status, output, ""))

    def test_lines_that_are_printed_in_pieces(self):
        for count, length in ((0, 1), (1, 1), (3, 1), (10, _output.PIECE // 4), (3, 1 << 21)):
            lines = [str(number) * length for number in range(count)]
            pieces = list(_output.pieces_of(lines))
            self.assertEqual("\n".join(pieces), "\n".join(lines))
            self.assertTrue(all(len(piece) <= _output.PIECE + length for piece in pieces))
        self.assertEqual([list(_output.pieces_of(["a", ""])), list(_output.pieces_of([""]))],
                         [["a\n"], [""]])

    def test_a_reader_that_has_enough(self):
        reader, writer = os.pipe()
        os.close(reader)
        found = self.command(stdout=writer)
        os.close(writer)
        self.assertEqual(found, (0, "", ""))

    def test_an_output_that_cannot_show_a_character(self):
        self.list(dependency_of("é日", "cfg(unix)"))
        found = self.command(PYTHONUTF8="0", PYTHONIOENCODING="ascii")
        self.assertEqual((found[0], found[2]), (0, ""))
        # The column has room for the name as a terminal shows it: three cells of ten.
        self.assertIn("\n\\xe9\\u65e5" + " " * 9 + "yes   cfg(unix)\n", found[1])

    def test_memory_that_is_refused(self):
        for error, status in ((MemoryError(), 3), (KeyboardInterrupt(), 130)):
            with unittest.mock.patch.object(_command, "run", side_effect=error), \
                    unittest.mock.patch.object(_command, "complain") as complain:
                self.assertEqual(_command.main([]), status)
            self.assertEqual(complain.call_count, 1 if status == 3 else 0)


class Options(Made):
    """What options do."""

    def rows(self, *words, **variables):
        """Returns the values of each row that the command prints, and what it prints on stderr."""
        status, output, message = self.command("--format", "json", *words, **variables)
        self.assertEqual(status, 0, message)
        found = json.loads(output)
        return {one["name"]: one["values"] for one in found["dependencies"]}, message

    def test_targets(self):
        self.list(dependency_of("a", "cfg(unix)"))
        facts = self.write("my-target.cfg", f"unix\n{FACTS}")
        rows = [
            ([], ["yes"]), (["--target", "host-tuple"], ["-", "yes"]),
            (["--facts", facts], ["-", "yes"]), (["--target", WINDOWS, "--facts", facts],
                                                 ["-", "no", "yes"]),
            (["--facts", facts, "--target", HOST, "--target", WINDOWS], ["-", "yes", "no", "yes"]),
        ]
        for words, wanted in rows:
            self.assertEqual(self.rows(*words)[0], {"a": wanted})
        self.assertEqual(len(self.rows("--target", "all")[0]["a"]), 1 + len(cfgx.targets()))

    def test_another_host(self):
        self.list(dependency_of("a", "cfg(unix)"), dependency_of("b", WINDOWS, kind="build"))
        rows = [
            ([], [["yes"], ["no"]]), (["--host", WINDOWS], [["no"], ["yes"]]),
            (["--target", HOST, "--host", WINDOWS], [["-", "yes"], ["yes", "-"]]),
            (["--host", WINDOWS, "--target", "host-tuple"], [["-", "no"], ["yes", "-"]]),
        ]
        for words, wanted in rows:
            self.assertEqual(list(self.rows(*words)[0].values()), wanted)
        self.assertIn(f"\nhost {WINDOWS}; ", self.command("--host", WINDOWS)[1])

    def test_two_files_with_one_name(self):
        paths = [self.write(f"{place}/t.cfg", FACTS) for place in ("a", "b")]
        found = self.command("--facts", paths[0], "--facts", paths[1])
        self.assertEqual(found, (2, "", "cfgx-deps: two files of facts have the name t\n"))

    def test_flags(self):
        self.list(dependency_of("a", "cfg(loom)"), dependency_of("b", 'cfg(key = "x")'),
                  dependency_of("c", "cfg(loom)", kind="build"))
        unknown, yes, no, none = "unknown", "yes", "no", "-"
        rows = [
            ([], [unknown], [unknown], [unknown]),
            (["--cfg", "loom"], [yes], [unknown], [yes]),
            (["--cfg", "loom", "--no-other-cfg"], [yes], [no], [yes]),
            (["--cfg", 'key = "x"', "--cfg=loom"], [yes], [yes], [yes]),
            (["--target", HOST], [none, unknown], [none, unknown], [no, none]),
            (["--target", HOST, "--cfg", "loom"], [none, yes], [none, unknown], [no, none]),
        ]
        for words, *wanted in rows:
            with self.subTest(words=words):
                found, message = self.rows(*words)
                self.assertEqual((list(found.values()), message), (wanted, ""))

    def test_flags_of_the_environment(self):
        self.list(dependency_of("a", "cfg(loom)"))
        flags = {"RUSTFLAGS": "--cfg loom -C debuginfo=1"}
        note = "cfgx-deps: note: RUSTFLAGS is set and not read; --rustflags reads it\n"
        self.assertEqual(self.rows(**flags), ({"a": ["unknown"]}, note))
        self.assertEqual(self.rows("--rustflags", **flags), ({"a": ["yes"]}, ""))
        self.assertEqual(self.rows("--rustflags"), ({"a": ["unknown"]}, ""))
        status, _, message = self.command("--rustflags", RUSTFLAGS="-C target-cpu=native")
        wanted = "RUSTFLAGS has -C target-cpu=native: what it changes needs --rustc"
        self.assertEqual((status, message), (2, f"cfgx-deps: {wanted}\n"))

    def test_variables_that_are_not_read(self):
        rows = [
            ({"CARGO_ENCODED_RUSTFLAGS": "--cfg\x1fa"}, "--rustflags reads it"),
            ({"CARGO_BUILD_RUSTFLAGS": "--cfg a"}, "--cfg says which flags are set"),
            ({"CARGO_TARGET_X86_64_UNKNOWN_LINUX_GNU_RUSTFLAGS": "--cfg a"},
             "--cfg says which flags are set"),
            ({"RUSTFLAGS": "", "CARGO_ENCODED_RUSTFLAGS": ""}, None), ({"RUSTDOCFLAGS": "x"}, None),
        ]
        for variables, end in rows:
            [name, *_] = variables
            note = "" if end is None else f"cfgx-deps: note: {name} is set and not read; {end}\n"
            self.assertEqual(self.rows(**variables)[1], note)

    def test_a_target_of_the_environment(self):
        note = "cfgx-deps: note: CARGO_BUILD_TARGET is set and not read; --target names a target\n"
        facts = self.write("my.cfg", FACTS)
        for words, value, wanted in [((), WINDOWS, note), ((), "", ""),
                                     (("--target", HOST), WINDOWS, ""),
                                     (("--facts", facts), WINDOWS, "")]:
            with self.subTest(words=words, value=value):
                self.assertEqual(self.rows(*words, CARGO_BUILD_TARGET=value)[1], wanted)

    def test_a_configuration(self):
        config = self.write("audited/.cargo/config.toml", "[build]\nrustflags = []\n")
        note = f"cfgx-deps: note: {config} has rustflags, which are not read; --cfg says which"
        self.assertTrue(self.rows()[1].startswith(note))

    def test_a_compiler(self):
        rustc = self.write_program("own/rustc", '#!/bin/sh\ncase "$1" in -vV) echo "host: h" ;;'
                                                " *) echo mine ;; esac\n")
        self.list(dependency_of("a", "cfg(mine)"), dependency_of("b", "cfg(unix)"))
        self.assertEqual(self.rows("--rustc", RUSTC=rustc)[0], {"a": ["yes"], "b": ["no"]})
        self.assertEqual(self.rows("--rustc", "--target", "any", RUSTC=rustc)[0],
                         {"a": ["-", "yes"], "b": ["-", "no"]})
        shutil.copy(rustc, self.tools)
        self.assertEqual(self.rows("--rustc")[0], {"a": ["yes"], "b": ["no"]})
        self.assertEqual(self.rows()[0], {"a": ["unknown"], "b": ["yes"]})

    def test_kinds(self):
        self.list(dependency_of("a"), dependency_of("b", kind="dev"),
                  dependency_of("c", kind="build"))
        for words, wanted in ([[], "abc"], [["--kind", "dev"], "b"],
                              [["--kind", "build,normal"], "ac"],
                              [["--kind", "dev", "--kind", "build"], "bc"]):
            self.assertEqual("".join(self.rows(*words)[0]), wanted)

    def test_help(self):
        status, output, message = self.command("--help")
        self.assertEqual((status, message), (0, ""))
        for word in ("MANIFEST", "--target", "--host", "--facts", "--rustc", "--workspace", "-p",
                     "--kind", "--cfg", "--no-other-cfg", "--rustflags", "--format", "--summary",
                     "--fail-on", "--wide", "--version", "--cargo-timeout"):
            self.assertIn(word, output)


class Terminal(Made):
    """What reaches the terminal of a text that is not printable."""

    def test_cells(self):
        self.list(dependency_of("a\x9b", f'cfg(k = "{HOSTILE}")', rename=HOSTILE))
        for words in ([], ["--summary"], ["--format", "tsv"], ["--format", "json"]):
            status, output, message = self.command(*words)
            self.assertEqual((status, message), (0, ""))
            self.assertTrue(output.replace("\n", "").replace("\t", "").isprintable())
            if "json" not in words:
                self.assertIn(f'cfg(k = "{SHOWN}")', output)

    def test_what_is_found(self):
        self.list(dependency_of("a\x9b", f'cfg(k = "{HOSTILE}")', rename=HOSTILE))
        status, _, message = self.command("--fail-on", "unknown")
        wanted = f'cfgx-deps: unknown: p {SHOWN} cfg(k = "{SHOWN}")\n'
        self.assertEqual((status, message), (1, wanted))

    def test_a_condition_that_cargo_cannot_list(self):
        self.list(dependency_of("a", f"cfg({HOSTILE} a b)"))
        status, output, message = self.command()
        self.assertEqual((status, output), (3, ""))
        self.assertTrue(message[:-1].replace("\n", "").isprintable())
        self.assertIn(SHOWN[2:], message)

    def test_a_width(self):
        """A condition is cut, and an explanation is wrapped where it has a blank."""
        flags = [letter * 20 for letter in "abcdefgh"]
        self.list(dependency_of("a", f"cfg(all({', '.join(flags)}))"))
        script = "import pty, sys; sys.exit(pty.spawn(sys.argv[1:]) >> 8)"
        for words, is_cut in ([], True), (["--wide"], False):
            start = ["-c", script, sys.executable, self.script]
            status, output, message = self.command(*words, start=start, COLUMNS="70", TERM="dumb")
            self.assertEqual((status, message), (0, ""))
            longest = max(map(len, output.splitlines()))
            self.assertEqual(longest <= 70, is_cut, output)
            for flag in flags:
                self.assertIn(f" {flag}", output.split("\nunknown:")[1])

    def test_notes(self):
        os.rename(self.audited, f"{self.audited}{HOSTILE}")
        self.audited += HOSTILE
        self.write(f"audited{HOSTILE}/.cargo/config.toml", "[build]\nrustflags = []\n")
        status, _, message = self.command()
        note = f"{self.folder}/audited{SHOWN}/.cargo/config.toml has rustflags"
        self.assertTrue(message.startswith(f"cfgx-deps: note: {note}"), message)
        self.assertTrue(message[:-1].isprintable(), ascii(message))
        self.assertEqual(status, 0)


class Folders(Made):
    """What an audited folder makes the command run."""

    MODULES = ("json.py", "argparse.py", "cfgx/__init__.py", "cfgx_deps.py")

    def runs(self, name, **options):
        """Whether the command runs a module of the folder. If not, it prints the table."""
        self.setUp()
        mark = os.path.join(self.folder, "mark")
        self.write(f"audited/{name}", f"open({mark!r}, 'w').close()\n")
        found = self.command("--target", WINDOWS, self.path, **options)
        is_run = os.path.exists(mark)
        self.assertTrue(is_run or found == (0, TABLE, ""), found)
        return is_run

    def test_the_script(self):
        self.assertEqual([self.runs(name) for name in self.MODULES], [False] * 4)

    def test_the_file_in_the_repository(self):
        start = [os.path.abspath(os.path.join(PACKAGE, "cfgx_deps.py"))]
        found = [self.runs(name, start=start, PYTHONPATH="") for name in self.MODULES]
        self.assertEqual(found, [False] * 4)

    @needs("Python 3.11", untested="python3 -P in a folder with modules")
    def test_safe_path(self):
        found = [self.runs(name, start=["-P", "-m", "cfgx"]) for name in self.MODULES]
        self.assertEqual(found, [False] * 4)

    def test_another_folder(self):
        found = [self.runs(name, start=["-m", "cfgx"], shell='cd / && exec "$@"')
                 for name in self.MODULES]
        self.assertEqual(found, [False] * 4)

    def test_python_takes_modules_of_the_folder(self):
        found = [self.runs(name, start=["-m", "cfgx"]) for name in self.MODULES[:3]]
        self.assertEqual(found, [True] * 3)

    def test_tools_of_the_folder(self):
        mark = os.path.join(self.folder, "mark")
        for tool in ("cargo", "rustc"):
            self.write_program(f"audited/{tool}", f"#!/bin/sh\n: > {mark}\nexit 1\n")
        for path in (".:{}", ":{}", "{}:", "./:{}", "../audited:{}"):
            path = path.format(self.tools)
            self.command("--rustc", PATH=path)
            self.assertEqual(self.command("--target", WINDOWS, PATH=path), (0, TABLE, ""))
        for path in (".", "../audited"):
            self.assertEqual(self.command(PATH=path)[0], 3)
        self.assertFalse(os.path.exists(mark))

    def test_a_toolchain_of_the_folder(self):
        # rustup takes the toolchain from the folder in which cargo starts.
        self.write("audited/rust-toolchain.toml", '[toolchain]\nchannel = "1.0.0"\n')
        real = os.path.join(self.folder, "tools/real")
        os.rename(os.path.join(self.tools, "cargo"), real)
        script = f'#!/bin/sh\n[ ! -e rust-toolchain.toml ] || exit 1\nexec {real} "$@"\n'
        self.write_program("tools/cargo", script)
        self.assertEqual(self.command("--target", WINDOWS), (0, TABLE, ""))

    @needs("cargo", untested="a configuration of the folder beside a real cargo")
    def test_programs_of_a_configuration(self):
        mark = os.path.join(self.folder, "mark")
        evil = self.write_program("evil", f"#!/bin/sh\n: > {mark}\nexit 1\n")
        self.write("audited/.cargo/config.toml",
                   f'[build]\nrustc = "{evil}"\nrustc-wrapper = "{evil}"\n[alias]\n'
                   f'metadata = "build"\n')
        self.write("audited/rust-toolchain.toml", f'[toolchain]\npath = "{self.folder}"\n')
        self.write("audited/build.rs", f'fn main() {{ std::fs::write("{mark}", "").unwrap(); }}')
        self.write("audited/src/lib.rs")
        self.write("audited/Cargo.toml", '[package]\nname = "p"\nversion = "0.1.0"\n'
                                         "[target.'cfg(unix)'.dependencies]\na = \"1\"\n")
        variables = {name: os.environ[name] for name in ("RUSTUP_HOME", "CARGO_HOME")
                     if name in os.environ}
        status, output, _ = self.command("--target", WINDOWS, PATH=os.environ["PATH"],
                                         HOME=os.path.expanduser("~"), **variables)
        self.assertEqual((status, output), (0, TABLE))
        self.assertFalse(os.path.exists(mark))
        self.assertFalse(os.path.exists(os.path.join(self.audited, "Cargo.lock")))


class Cost(Made):
    """How much time the command takes."""

    def test_many_packages_and_targets(self):
        conditions = [
            f'cfg(any({key} = "{word}{number}", all(unix, not({flag}))))'
            for key in ("target_os", "target_arch", "key") for word in "ab"
            for number in range(10) for flag in ("windows", "loom", 'feature = "x"')
        ]
        packages = [
            package_of(f"p{number}", f"{self.audited}/{number}/Cargo.toml", *(
                dependency_of(f"d{place}", conditions[(20 * number + place) % len(conditions)])
                for place in range(20)
            )) for number in range(50)
        ]
        self.write("metadata.json", json.dumps({"packages": packages}))
        for words in ([], ["--summary"], ["--format", "json"], ["--format", "tsv"]):
            before = spent()
            status, output, message = self.command("--target", "all", *words)
            self.assertEqual((status, message), (0, ""))
            self.assertGreaterEqual(output.count("\n"), 1001)
            self.assertLess(spent() - before, 3)


def spent():
    """Returns the seconds of a processor that processes which have ended took."""
    usage = resource.getrusage(resource.RUSAGE_CHILDREN)
    return usage.ru_utime + usage.ru_stime
