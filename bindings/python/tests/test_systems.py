"""What is otherwise on Windows and macOS, tried here as far as that goes: the name of the library,
how programs are found and ended, encodings, and the ends of lines."""
import errno
import os
import shutil
import subprocess
import sys
import tempfile
import time
import unittest
import unittest.mock

from . import PACKAGE
from .made import Folder
from .test_command import FACTS, HOST, TABLE, WINDOWS, Made, dependency_of
from .test_library import NAME, python

from cfgx import _output, _process
from cfgx.manifest import _platforms

# The file of the library by what Python calls a system.
NAMES = (
    ("linux", NAME), ("darwin", "libcfgx.dylib"), ("win32", "cfgx.dll"), ("freebsd14", NAME),
)
# Imports the package as on another system, and prints what the loader is asked for.
IMPORTING = """
import ctypes, selectors, subprocess, sys, unittest.mock
library = unittest.mock.Mock()
library.cfgx_version.return_value = {version}
sys.platform = "{system}"
with unittest.mock.patch("ctypes.CDLL", return_value=library) as load:
    import cfgx
print(*load.call_args.args)
"""
# Runs the command as Windows starts it: its output has an encoding of that system and its own end
# of lines, and `cargo` is a file with an end of its own.
AS_ON_WINDOWS = """
import io, sys
sys.stdout = io.TextIOWrapper(sys.stdout.buffer, encoding="{encoding}", newline="\\r\\n")
import cfgx_deps
from cfgx import _process
_process.IS_WINDOWS = True
sys.exit(cfgx_deps.main())
"""
# A `taskkill` that keeps its words and ends the group, as the one of Windows ends the tree.
TASKKILL = """#!/bin/sh
echo "$@" > {mark}
kill -9 -- "-$4"
"""


class Names(unittest.TestCase):
    """The name of the library."""

    def asked(self, system, files):
        """Returns what the loader is asked for on a system, if these files stand beside the
        package."""
        with tempfile.TemporaryDirectory() as folder:
            package = os.path.join(folder, "cfgx")
            shutil.copytree(os.path.join(PACKAGE, "cfgx"), package,
                            ignore=shutil.ignore_patterns("*.so*"))
            for name in files:
                with open(os.path.join(package, name), "w", encoding="utf-8"):
                    pass
            program = IMPORTING.format(version=self.version(), system=system)
            run = python(program, folder)
            self.assertEqual(run.returncode, 0, run.stderr.decode())
            return run.stdout.decode().strip().replace(package, "PACKAGE")

    def version(self):
        """Returns a version that suits the package."""
        language, major = NAME.rsplit(".", 2)[1:]
        return int(language) * 1000000 + int(major) * 1000

    def test_beside_the_package(self):
        every = {name for _, name in NAMES}
        for system, name in NAMES:
            with self.subTest(system=system):
                self.assertEqual(self.asked(system, every), os.path.join("PACKAGE", name))

    def test_where_the_loader_looks(self):
        for system, name in NAMES:
            others = {other for _, other in NAMES} - {name}
            with self.subTest(system=system):
                self.assertEqual(self.asked(system, others), name)


class Programs(Folder):
    """How programs are found and ended on Windows."""

    def setUp(self):
        super().setUp()
        patch = unittest.mock.patch.object(_process, "IS_WINDOWS", True)
        patch.start()
        self.addCleanup(patch.stop)

    def test_names(self):
        for name in ("a/cargo", "b/cargo.exe", "b/cargo.bat", "c/cargo.exe"):
            self.write_program(name, "#!/bin/sh\n")
        folders = [os.path.join(self.folder, name) for name in "abc"]
        with unittest.mock.patch.dict("os.environ", PATH=os.pathsep.join(folders)):
            self.assertEqual(_process.path_to("cargo"), os.path.join(folders[1], "cargo.exe"))
        here = os.getcwd()
        self.addCleanup(os.chdir, here)
        os.chdir(folders[1])
        for path in (".", "", folders[0]):
            with unittest.mock.patch.dict("os.environ", PATH=path), \
                    self.assertRaises(FileNotFoundError):
                _process.path_to("cargo")

    def test_what_a_program_started_ends_with_it(self):
        mark = os.path.join(self.folder, "mark")
        self.write_program("System32/taskkill.exe", TASKKILL.format(mark=mark))
        sleep = self.write_program("sleep", "#!/bin/sh\nsleep 60 & wait\n")
        with unittest.mock.patch.dict("os.environ", SystemRoot=self.folder), \
                self.assertRaisesRegex(_process.LimitError, "did not end within 0.5 s"):
            _process.run([sleep], _process.Limits(seconds=0.5))
        with open(mark, encoding="utf-8") as file:
            self.assertRegex(file.read(), r"\A/F /T /PID \d+\n\Z")

    def test_no_taskkill(self):
        """The process itself ends all the same."""
        before = time.monotonic()
        with unittest.mock.patch.dict("os.environ", SystemRoot="/nowhere"), \
                self.assertRaisesRegex(_process.LimitError, "did not end within 0.5 s"):
            _process.run([shutil.which("sleep"), "60"], _process.Limits(seconds=0.5))
        self.assertLess(time.monotonic() - before, 30)


class Commands(Made):
    """The command as Windows starts it."""

    def setUp(self):
        super().setUp()
        os.rename(os.path.join(self.tools, "cargo"), os.path.join(self.tools, "cargo.exe"))

    def on_windows(self, *words, encoding="cp1252", **options):
        """Returns what the command does, and its output as bytes."""
        start = ["-c", AS_ON_WINDOWS.format(encoding=encoding)]
        command = [sys.executable, *start, *words]
        usual = {"PATH": self.tools, "PYTHONPATH": os.path.abspath(PACKAGE), "HOME": self.folder,
                 "PYTHONDONTWRITEBYTECODE": "1", "PYTHONIOENCODING": encoding,
                 "CFGX_LIBRARY": os.environ.get("CFGX_LIBRARY", "")}
        run = subprocess.run(command, env={**usual, **options}, cwd=self.audited, check=False,
                             stdout=subprocess.PIPE, stderr=subprocess.PIPE)
        return run.returncode, run.stdout, run.stderr

    def test_a_table(self):
        found = self.on_windows("--target", WINDOWS)
        self.assertEqual(found, (0, TABLE.encode(), b""))

    def test_no_line_ends_with_a_carriage_return(self):
        for words in (["--format", "tsv"], ["--format", "json"], ["--help"], ["--summary"]):
            status, output, message = self.on_windows(*words)
            self.assertEqual((status, message), (0, b""))
            self.assertIn(b"\n", output)
            self.assertNotIn(b"\r", output)

    def test_characters_of_the_encoding(self):
        """Those that it has are printed, and the others escaped."""
        self.list(dependency_of("é日€", "cfg(unix)"))
        rows = [("cp1252", b"\n\xe9\\u65e5\x80 "), ("cp437", b"\n\x82\\u65e5\\u20ac "),
                ("cp932", "\n\\xe9日\\u20ac ".encode("cp932")), ("utf-8", "\né日€ ".encode())]
        for encoding, wanted in rows:
            status, output, message = self.on_windows(encoding=encoding)
            self.assertEqual((status, message), (0, b""))
            self.assertIn(wanted, output, encoding)

    def test_messages_in_the_encoding(self):
        self.list(dependency_of("日", 'cfg(target_os = "é")'))
        status, _, message = self.on_windows("--fail-on", "never")
        wanted = b'cfgx-deps: never true: p \\u65e5 cfg(target_os = "\xe9")\n'
        self.assertEqual((status, message), (1, wanted))

    def test_a_reader_that_has_enough(self):
        """Windows says then that an argument is invalid."""
        for number, is_enough in ((errno.EINVAL, True), (errno.ENOSPC, False)):
            error = OSError(number, os.strerror(number))
            with unittest.mock.patch.object(_process, "IS_WINDOWS", True), \
                    unittest.mock.patch.object(_output, "abandon"), \
                    unittest.mock.patch("builtins.print", side_effect=error):
                if is_enough:
                    _output.write(["a"])
                else:
                    self.assertRaises(_output.OutputError, _output.write, ["a"])


class Files(Folder):
    """Files of facts, and what programs print, with the ends and the encodings of Windows."""

    def test_files_of_facts(self):
        lines = f'windows\ntarget_os="é"\n{FACTS}'
        for encoding in ("utf-8", "utf-8-sig", "utf-16", "utf-16-le", "utf-16-be"):
            mark = "" if encoding in ("utf-8", "utf-8-sig", "utf-16") else "\ufeff"
            path = os.path.join(self.folder, f"{encoding}.cfg")
            with open(path, "wb") as file:
                file.write((mark + lines.replace("\n", "\r\n")).encode(encoding))
            with self.subTest(encoding=encoding):
                self.assertEqual(_platforms.read_facts(path), (encoding, lines.split("\n")))

    def test_half_a_character(self):
        path = os.path.join(self.folder, "half.cfg")
        with open(path, "wb") as file:
            file.write(FACTS.encode("utf-16")[:-1])
        with self.assertRaisesRegex(_platforms.FactsError, "truncated data"):
            _platforms.read_facts(path)

    def test_what_a_compiler_prints(self):
        rustc = self.write_program(
            "rustc", "#!/bin/sh\nprintf 'host: %s\\r\\nwindows\\r\\n' " + HOST + "\n")
        found = _platforms.Compiler(_platforms.Flags(), {"RUSTC": rustc})
        self.assertEqual(found.host(), HOST)
        self.assertIn("windows", found.lines(HOST, False))
        self.assertEqual(found.targets(), [f"host: {HOST}", "windows"])

    def test_what_a_compiler_refuses(self):
        rustc = self.write_program("rustc", "#!/bin/sh\nprintf 'a\\r\\nb\\r\\n' >&2\nexit 1\n")
        found = _platforms.Compiler(_platforms.Flags(), {"RUSTC": rustc})
        with self.assertRaises(_platforms.CompilerError) as caught:
            found.host()
        self.assertTrue(str(caught.exception).endswith(" refuses -vV:\n    a\n    b"))
