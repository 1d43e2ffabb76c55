"""The library: its header, how it is found, and memory."""
import ctypes
import itertools
import os
import re
import shutil
import subprocess
import sys
import tempfile
import unittest
import unittest.mock

from . import HERE, PACKAGE, PYTHON, ROOT, needs

import cfgx
from cfgx import _error, _library, _targets

PROJECT = os.path.join(HERE, "..", "pyproject.toml")
HEADER = os.path.join(ROOT, "crates", "cfgx_c", "include", "cfgx.h")
NAME = _library.NAME
# Parses a text of 2.5 MB, and evaluates it with as much memory as is there and a little more.
WITH_LITTLE_MEMORY = """
import cfgx, resource
expression = cfgx.parse("all(" + "true," * 500_000 + ")")
pages = int(open("/proc/self/statm").read().split()[0])
resource.setrlimit(resource.RLIMIT_AS, (pages * resource.getpagesize() + 4_000_000,) * 2)
for call in (expression.eval, expression.decide):
    try:
        print(call([]))
    except MemoryError as error:
        print(error)
"""


def header():
    """Returns the text of the header."""
    with open(HEADER, encoding="utf-8") as file:
        return file.read()


def numbers_of(prefix):
    """Returns the numbers of the macros of the header with this prefix, by the rest of their
    names."""
    macros = re.findall(rf"^#define CFGX_{prefix}_(\w+) (\d+)", header(), re.MULTILINE)
    return {name: int(number) for name, number in macros}


def declared(kind):
    """Returns the type of `ctypes` for a parameter of the header. What a call only reads is passed
    as `bytes`."""
    scalars = {"size_t": ctypes.c_size_t, "uint8_t": ctypes.c_uint8, "uint32_t": ctypes.c_uint32}
    pointers = {
        "const char *": ctypes.c_char_p, "const uint8_t *": ctypes.c_char_p,
        "const size_t *": _library.SIZES, "size_t *": _library.SIZES,
        "char *": _library.BYTES, "uint8_t *": _library.BYTES,
        "struct cfgx_fault *": _library.FAULT,
        "struct cfgx_predicate *": ctypes.POINTER(_library.Described),
        "const struct cfgx_step *": _library.STEPS, "struct cfgx_step *": _library.STEPS,
    }
    return {**scalars, **pointers}[kind]


def python(program, folder=PACKAGE, cwd=None, **variables):
    """Returns the run of a program in a Python of its own, in which the package is looked for in a
    folder."""
    kept = {name: os.environ[name] for name in ("PATH", "LD_LIBRARY_PATH") if name in os.environ}
    variables = {**kept, "PYTHONPATH": folder, "PYTHONDONTWRITEBYTECODE": "1", **variables}
    pipe = subprocess.PIPE
    command = [*PYTHON, "-c", program]
    return subprocess.run(command, env=variables, cwd=cwd, stdout=pipe, stderr=pipe)


class Header(unittest.TestCase):
    """What the package says again of the header."""

    def test_numbers(self):
        self.assertEqual({kind.name: kind.value for kind in cfgx.Kind}, numbers_of("PREDICATE"))
        reasons = {one.name: one.value for one in cfgx.Reason}
        self.assertEqual({"NONE": 0, **reasons}, numbers_of("REASON"))
        self.assertEqual(numbers_of("VALUE"), {"FALSE": 0, "TRUE": 1, "UNKNOWN": 2})
        self.assertEqual(_library.VALUES, (False, True, None))
        self.assertEqual(numbers_of("ENDIAN"), {"BIG": 0, "LITTLE": 1})
        self.assertEqual(_library.ENDIANS, ("big", "little"))
        self.assertEqual(numbers_of("ATOMIC"), {"POINTER": _library.ATOMIC_POINTER})
        statuses = numbers_of("STATUS")
        for name in ("DONE", "FAULTY", "OUT_OF_MEMORY", "MISCOUNTED", "TOO_LARGE", "FAULTY_FACT"):
            self.assertEqual(getattr(_library, name), statuses[name])

    def test_version(self):
        language, major, minor = numbers_of("VERSION").values()
        self.assertEqual((_library.LANGUAGE, _library.MAJOR), (language, major))
        self.assertLessEqual(_library.MINOR, minor)
        self.assertRegex(cfgx.version(), rf"^{language}\.{major}\.\d+$")

    def test_structs(self):
        types = {ctypes.c_size_t: "size_t", ctypes.c_uint32: "uint32_t"}
        structs = [
            ("fault", _library.Fault), ("predicate", _library.Described), ("step", _library.Step),
        ]
        for name, struct in structs:
            body = re.search(rf"^struct cfgx_{name} \{{$(.*?)^\}};$", header(), re.M | re.S)[1]
            fields = re.findall(r"^ +(\w+) (\w+);$", body, re.MULTILINE)
            found = [(types[kind], field) for field, kind in struct._fields_]
            self.assertEqual(found, fields)

    def test_arguments(self):
        for name, arguments in _library.ARGUMENTS.items():
            text = re.search(rf"^uint32_t {name}\((.*?)\);$", header(), re.M | re.S)[1]
            parameters = [] if text == "void" else text.split(",")
            kinds = [re.match(r"\s*(.*?)\w+$", one)[1].strip() for one in parameters]
            self.assertEqual(list(arguments), list(map(declared, kinds)), name)
            call = getattr(_library.LIBRARY, name)
            self.assertEqual((call.argtypes, call.restype), (arguments, ctypes.c_uint32))

    def test_lists_of_terms(self):
        with open(os.path.join(ROOT, "docs", "RULES.md"), encoding="utf-8") as page:
            section = page.read().split("## The lists of terms")[1].split("\n## ")[0]
        lists = re.findall(r"^\| \d+ \| (.*?) \|", section, re.MULTILINE)
        self.assertEqual(len(lists), len(_error.TERM_LISTS))
        named = re.findall(r"^#define CFGX_TERMS_\w+ \d+ +/\* (.*?) \*/$", header(), re.MULTILINE)
        self.assertEqual(list(numbers_of("TERMS").values()), list(range(1, len(lists) + 1)))
        for number in range(1, 14):
            found = " ".join(f"`{term}`" for term in _error.TERM_LISTS[number])
            self.assertEqual(found, lists[number])
            self.assertEqual(named[number], lists[number])


class Finding(unittest.TestCase):
    """How the library is found."""

    def test_a_library_that_is_not_there(self):
        run = python("import cfgx", CFGX_LIBRARY="/nowhere/some.so")
        self.assertEqual(run.returncode, 1)
        line = run.stderr.decode().splitlines()[-1]
        begin = "ImportError: cfgx cannot load /nowhere/some.so ("
        self.assertTrue(line.startswith(begin), line)
        folder = os.path.realpath(os.path.join(PACKAGE, "cfgx"))
        self.assertIn(f", and put it into {folder} or where the loader looks, or ", line)
        self.assertTrue(line.endswith(f"let CFGX_LIBRARY name the file {NAME}"), line)

    def test_another_library(self):
        for path in (sys.executable, __file__):
            run = python("import cfgx", CFGX_LIBRARY=path)
            self.assertIn(b"ImportError: cfgx cannot load", run.stderr)

    def test_a_library_without_the_calls(self):
        fewer = unittest.mock.Mock(spec=["cfgx_version", "cfgx_explain"])
        for library in (object(), fewer):
            with unittest.mock.patch("ctypes.CDLL", return_value=library), \
                    self.subTest(library=library), self.assertRaises(ImportError) as caught:
                _library.load("some.so")
            self.assertRegex(str(caught.exception), r"^cfgx cannot load some.so \(.*\): install")
            self.assertEqual(caught.exception.name, "cfgx")

    def test_a_library_by_a_relative_path(self):
        with tempfile.TemporaryDirectory() as folder:
            shutil.copy(_library.path_of(), os.path.join(folder, "some.so"))
            for name in ("some.so", "./some.so"):
                program = "import cfgx; print(cfgx._library.path_of())"
                run = python(program, os.path.abspath(PACKAGE), folder, CFGX_LIBRARY=name)
                wanted = os.path.join(os.path.realpath(folder), "some.so")
                self.assertEqual(run.stdout.decode(), f"{wanted}\n", run.stderr)

    def test_a_library_beside_the_package(self):
        with tempfile.TemporaryDirectory() as folder:
            package = os.path.join(folder, "cfgx")
            shutil.copytree(os.path.join(PACKAGE, "cfgx"), package)
            shutil.copy(_library.path_of(), os.path.join(package, NAME))
            run = python("import cfgx; print(cfgx._library.path_of())", folder)
        self.assertEqual(run.stdout.decode(), f"{package}/{NAME}\n", run.stderr)

    def test_a_library_that_the_loader_finds(self):
        with tempfile.TemporaryDirectory() as folder:
            shutil.copy(_library.path_of(), os.path.join(folder, NAME))
            # A package that was installed has the library beside itself.
            package = os.path.join(folder, "package")
            shutil.copytree(os.path.join(PACKAGE, "cfgx"), os.path.join(package, "cfgx"),
                            ignore=shutil.ignore_patterns(NAME))
            program = "import cfgx; print(cfgx._library.path_of())"
            # An empty variable names no file.
            for variables in ({}, {"CFGX_LIBRARY": ""}):
                run = python(program, package, LD_LIBRARY_PATH=folder, **variables)
                self.assertEqual(run.stdout.decode(), f"{NAME}\n", run.stderr)


class Versions(unittest.TestCase):
    """Which versions suit the package."""

    def load(self, number):
        """Loads a library with this version."""
        library = unittest.mock.Mock()
        library.cfgx_version.return_value = number
        with unittest.mock.patch("ctypes.CDLL", return_value=library):
            return _library.load("some.so")

    def test_versions(self):
        language, major, _ = numbers_of("VERSION").values()
        oldest = language * 1000000 + major * 1000
        for number in (oldest, oldest + 7):
            self.assertEqual(self.load(number).cfgx_version(), number)
        for number, name in [
            (oldest + 1000, f"{language}.{major + 1}.0"),
            (oldest - 1, f"{language}.{major - 1}.999"),
            (oldest + 1000000, f"{language + 1}.{major}.0"),
        ]:
            with self.assertRaises(ImportError) as caught:
                self.load(number)
            own = f"{language}.{major}"
            wanted = f"cfgx needs version {own}.0 of libcfgx.so.{own} or a later {own}, and some.so"
            self.assertEqual(str(caught.exception), f"{wanted} has version {name}")


class Refusing:
    """The library, but for one call, which returns this status alone."""

    def __init__(self, name, status):
        self.name, self.status = name, status

    def __getattr__(self, name):
        call = getattr(Refusing.LIBRARY, name)
        return (lambda *arguments: self.status) if name == self.name else call

    LIBRARY = _library.LIBRARY


class Counting:
    """The library, which counts its calls."""

    def __init__(self):
        self.names = []

    def __getattr__(self, name):
        self.names.append(name)
        return getattr(Refusing.LIBRARY, name)


class Calls(unittest.TestCase):
    """Which calls are made."""

    def calls(self, call, *arguments):
        """Returns the names of the calls of the library that a call of the package makes."""
        counting = Counting()
        with unittest.mock.patch.object(_library, "LIBRARY", counting):
            try:
                call(*arguments)
            except ValueError:
                pass
        return [name.replace("cfgx_", "") for name in counting.names]

    def test_a_text_is_parsed_once(self):
        room = _library.ROOM
        for members, count in [(0, 1), (1, 1), (room - 1, 1), (room, 2), (9 * room, 2)]:
            for member in ("a,", "true,"):
                text = f"all({members * member})"
                with self.subTest(text=text):
                    self.assertEqual(self.calls(cfgx.parse, text), ["compile"] * count)
        self.assertEqual(self.calls(cfgx.feature, "x"), ["compile"])

    def test_faults_come_with_the_call(self):
        self.assertEqual(self.calls(cfgx.parse, "all("), ["compile", "explain"])
        # The message has more bytes than the first call has room for.
        text = "a" * 1000 + ")"
        self.assertEqual(self.calls(cfgx.parse, text), ["compile", "explain", "explain"])
        self.assertEqual(self.calls(cfgx.audit, ["a", "all("], [["b"]]), ["audit", "explain"])
        self.assertEqual(self.calls(cfgx.audit, ["a"], [["b", "all("]]), ["audit"])
        self.assertEqual(self.calls(cfgx.parse("any(a, b)").answers, ["all("]), ["answers"])

    def test_values_are_those_of_steps(self):
        expression = cfgx.parse("any(a, b)")
        self.assertEqual(self.calls(expression.eval, [None, False]), ["apply"])
        self.assertEqual(self.calls(expression.decide, [None, True]), ["apply"])
        self.assertEqual(self.calls(expression.decide, [None, False]), ["apply", "decide"])

    def test_answers(self):
        expression = cfgx.parse("any(a, b)")
        self.assertEqual(self.calls(expression.answers, ["unix"]), ["answers"])


class Characters(unittest.TestCase):
    """The characters with some bytes."""

    def test_each_span(self):
        for text in ("", "unix", "é", "aé日𝄞\0", "日本𝄞é" * 5):
            encoded = text.encode()
            counted = _library.characters_in(encoded)
            places = itertools.combinations_with_replacement(range(len(encoded) + 1), 2)
            for span in places:
                # Of the last character before a place there may be some bytes only.
                before = [encoded[:place].decode(errors="replace") for place in span]
                with self.subTest(text=text, span=span):
                    self.assertEqual(counted(*span), tuple(map(len, before)))


class Memory(unittest.TestCase):
    """What happens without memory."""

    @needs("/proc/self/statm", "limit of memory", untested="calls with little memory")
    def test_memory_that_is_refused(self):
        # So what the parser returns to malloc goes back to the system.
        threshold = {"MALLOC_MMAP_THRESHOLD_": "100000"}
        run = python(WITH_LITTLE_MEMORY, CFGX_LIBRARY=_library.path_of(), **threshold)
        self.assertEqual(run.stdout.decode(), "cfgx got no memory\n" * 2, run.stderr)

    def test_statuses(self):
        for status in (3, 8):
            with self.assertRaises(MemoryError):
                _library.expect_done(status)

    def test_statuses_that_cannot_be(self):
        for status in (1, 2, 4, 5, 6, 7, 9, 10):
            with self.subTest(status=status), self.assertRaises(AssertionError):
                _library.expect_done(status)

    def test_each_call(self):
        expression = cfgx.parse("all(a, b)")
        rows = [
            ("cfgx_compile", lambda: cfgx.parse("a")),
            ("cfgx_compile", lambda: cfgx.flag("a")),
            ("cfgx_check", lambda: _library.fault_of(b"a")),
            ("cfgx_explain", lambda: cfgx.parse("all(")),
            ("cfgx_apply", lambda: expression.eval([True, None])),
            ("cfgx_apply", lambda: expression.decide([True, None])),
            ("cfgx_answers", lambda: expression.answers(["b"])),
            ("cfgx_answers", lambda: expression.answers(["all("])),
            ("cfgx_decide", lambda: expression.decide([True, None])),
            ("cfgx_audit", lambda: cfgx.audit(["a"], [["b"]])),
            ("cfgx_audit", lambda: cfgx.audit(["a"], [["all("]])),
            ("cfgx_explain", lambda: cfgx.audit(["all("], [["b"]])),
        ]
        # The version takes no memory.
        self.assertEqual({name for name, _ in rows}, {*_library.ARGUMENTS} - {"cfgx_version"})
        for name, call in rows:
            with unittest.mock.patch.object(_library, "LIBRARY", Refusing(name, 3)), \
                    self.subTest(name=name), self.assertRaises(MemoryError) as caught:
                call()
            self.assertEqual(str(caught.exception), "cfgx got no memory")

    def test_a_table_that_is_too_large(self):
        with unittest.mock.patch.object(_library, "LIBRARY", Refusing("cfgx_audit", 8)), \
                self.assertRaises(MemoryError):
            cfgx.audit(["a"], [["b"]])


class Project(unittest.TestCase):
    """What pip is told of the package, and what it exports."""

    def fields(self, name):
        """Returns what stands in quotes in a value of the project, a list or a line."""
        with open(PROJECT, encoding="utf-8") as file:
            value, = re.findall(rf"^{name} = (\[[^]]*\]|.*)$", file.read(), re.MULTILINE)
        return re.findall(r'"(.*?)"', value)

    def test_its_version(self):
        """The first number is that of the language, as for the calls."""
        self.assertEqual(self.fields("version"), ["cfgx.__version__"])
        self.assertRegex(cfgx.__version__, rf"^{numbers_of('VERSION')['LANGUAGE']}\.\d+\.\d+$")
        with open(os.path.join(ROOT, "CHANGELOG.md"), encoding="utf-8") as page:
            text = " ".join(page.read().split())
        self.assertIn(f", the packages for Python and JavaScript | {cfgx.__version__} |", text)

    def test_its_files(self):
        numbers = numbers_of("VERSION")
        self.assertEqual(NAME, f"libcfgx.so.{numbers['LANGUAGE']}.{numbers['MAJOR']}")
        schemas = (f"manifest/{name}" for name in self.fields('"cfgx.manifest"'))
        files = [*self.fields("cfgx"), *schemas]
        self.assertEqual(files, ["py.typed", _targets.NAME, "manifest/schema.json"])
        for name in files:
            self.assertTrue(os.path.exists(os.path.join(PACKAGE, "cfgx", name)))

    def test_the_python_that_it_needs(self):
        least, = self.fields("requires-python")
        with open(os.path.join(ROOT, "docs", "PYTHON.md"), encoding="utf-8") as page:
            version, = re.findall(r"\bPython (\S+) or later, and calls", page.read())
        self.assertEqual(least, f">={version}")
        with open(os.path.join(HERE, "..", "README.md"), encoding="utf-8") as page:
            self.assertIn(f"needs Python {version} or later,", page.read())

    def test_exported_names(self):
        public = {
            name for name, found in vars(cfgx).items()
            if not name.startswith("_") and not isinstance(found, type(cfgx))
        }
        self.assertEqual(set(cfgx.__all__), public)
        self.assertEqual(len(cfgx.__all__), len(public))
        exported = {}
        exec("from cfgx import *", exported)
        self.assertEqual({name: exported[name] for name in public},
                         {name: getattr(cfgx, name) for name in public})
        self.assertEqual({getattr(cfgx, name).__module__ for name in public}, {"cfgx"})
