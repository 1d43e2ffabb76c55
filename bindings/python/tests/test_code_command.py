"""The command `cfgx-code` as a process, and its page."""
import json
import os
import re
import subprocess
import sys

from . import PACKAGE, ROOT, needs
from .made import Folder

from cfgx import _code_arguments, _library
from cfgx.code._names import CHOICES

PAGE = os.path.join(ROOT, "docs", "CODE.md")
SCHEMA = os.path.join(PACKAGE, "cfgx", "code", "schema.json")
CODE = '#[cfg(all(unix, windows))]\nfn f() {}\n#[cfg(not(a, b))]\nfn g() {}\n'
# Code with a condition that rustc would refuse elsewhere.
UNSEEN = [
    "#[cfg(any())] mod m { #[cfg(not(a, b))] fn f() {} }",
    "#[cfg(any())] #[cfg(not(a, b))] fn f() {}",
    "#[cfg(any())] fn f() { cfg!(not(a, b)); }",
    "#[cfg_attr(any(), cfg(not(a, b)))] fn f() {}",
]
# What would end a line, clear the screen or turn the direction of what follows.
HOSTILE = "a\n\x1b[2J\u202e.rs"
SHOWN = r"a\n\x1b[2J\u202e.rs"


class Made(Folder):
    """Files in a folder of their own, and the command."""

    def command(self, *words, folder=None, front=()):
        """Returns the status of the command in the folder, and what it prints on both streams. It
        stands behind other words."""
        script = os.path.abspath(os.path.join(PACKAGE, "cfgx_code.py"))
        run = subprocess.run(
            [*front, sys.executable, script, *words], cwd=folder or self.folder, check=False,
            stdout=subprocess.PIPE, stderr=subprocess.PIPE,
            env={"PATH": os.environ["PATH"], "PYTHONUTF8": "1", "PYTHONDONTWRITEBYTECODE": "1",
                 "CFGX_LIBRARY": _library.path_of(), "HOME": os.environ.get("HOME", "/")},
        )
        return run.returncode, run.stdout.decode(), run.stderr.decode()


class Statuses(Made):
    """With which status the command ends."""

    def test_nothing_found(self):
        self.write("one.rs", "#[cfg(unix)] fn f() {}")
        status, stdout, stderr = self.command("--fail-on", "never,faulty,overlap")
        self.assertEqual((status, stderr), (0, ""))
        self.assertIn("true on 202 of 320", stdout)

    def test_found(self):
        self.write("one.rs", CODE + "#[cfg(unix)] fn h() {} fn h() {}")
        for word, line in (("never", "one.rs:1:7: never"), ("faulty", "one.rs:3:7: faulty"),
                           ("overlap", "one.rs:5:24: overlap")):
            status, stdout, stderr = self.command("--fail-on", word, "one.rs")
            self.assertEqual((status, stderr.count("\n")), (1, 1), stderr)
            self.assertTrue(stderr.startswith(f"cfgx-code: {line}: "), stderr)
            shown = "one.rs:1:7: never\n1 | #[cfg(all(unix, windows))]\n  |       ^^^^"
            self.assertIn(shown, stdout)

    def test_what_is_never_compiled(self):
        for code in UNSEEN:
            self.write("one.rs", code)
            status, stdout, stderr = self.command("--fail-on", "faulty", "one.rs")
            self.assertEqual((status, stderr), (0, ""), code)
            self.assertIn("faulty", stdout)

    @needs("rustc", untested="whether rustc reads what is never compiled")
    def test_rustc_does_not_read_what_is_never_compiled(self):
        for code, wanted in [*((code, True) for code in UNSEEN), ("#[cfg(not(a, b))] fn f() {}",
                                                                  False)]:
            path = self.write("one.rs", f"#![allow(dead_code)] {code} fn main() {{}}")
            words = ["rustc", "--edition", "2021", "--emit", "metadata", path]
            run = subprocess.run(words, cwd=self.folder, check=False, stderr=subprocess.PIPE)
            self.assertEqual(run.returncode == 0, wanted, code)

    def test_wrong_use(self):
        self.write("one.rs", "")
        self.write("empty.txt", "# nothing\n")
        for words, message in (
            (["--none"], "--none"), (["--target", "x-y-z"], "x-y-z"),
            (["no.rs"], "there is no no.rs"),
            (["--only", "maybe"], "--only takes"), (["--fail-on", "two"], "--fail-on takes"),
            (["--ci", "empty.txt"], "lists no target"), (["--ci", "no.txt"], "cannot be read"),
            (["--format", "sarif", "--summary"], "sarif"), (["--cfg", "a=b"], "no flag"),
        ):
            status, stdout, stderr = self.command(*words)
            self.assertEqual((status, stdout), (2, ""), words)
            self.assertIn(message, stderr)

    def test_could_not_run(self):
        self.write("Cargo.toml", "[package]\n")
        self.assertEqual(self.command("Cargo.toml")[0], 3)
        self.write("known.toml", "[[known]]\n")
        self.assertEqual(self.command("--known", "known.toml")[0], 3)

    def test_a_current_folder_that_is_gone(self):
        path = self.write("one.rs", "#[cfg(unix)] fn f() {}")
        gone = os.path.join(self.folder, "gone")
        for words, wanted in (([], 3), (["."], 3), (["Cargo.toml"], 3),
                              (["--manifest-path", "x"], 3),
                              ([path, "--format", "sarif"], 3), ([path], 0)):
            os.mkdir(gone)
            front = ("sh", "-c", 'rmdir "$PWD" && exec "$@"', "sh")
            status, _, stderr = self.command(*words, folder=gone, front=front)
            self.assertEqual(status, wanted, (words, stderr))
            self.assertEqual(stderr.count("\n"), 1 if wanted else 0, stderr)
            self.assertEqual("current folder" in stderr, wanted != 0, stderr)

    def test_two_files_of_facts_with_one_name(self):
        self.write("one.rs", "#[cfg(unix)] fn f() {}")
        lines = 'target_arch="x"\ntarget_endian="little"\ntarget_pointer_width="64"\n'
        for name in ("a/t.cfg", "b/t.txt"):
            self.write(name, lines)
        found = self.command("--facts", "a/t.cfg,b/t.txt", "one.rs")
        self.assertEqual(found, (2, "", "cfgx-code: two files of facts have the name t\n"))
        self.assertEqual(self.command("--facts", "a/t.cfg", "one.rs")[0], 0)

    def test_known(self):
        self.write("one.rs", CODE)
        known = self.write("known.toml", '[[known]]\nfinding = "never"\nreason = "x"\n'
                           'condition = "all(unix, windows)"\n')
        words = ("--known", known, "--fail-on", "never", "one.rs")
        self.assertEqual(self.command(*words)[0], 0)
        self.write("one.rs", "#[cfg(all(windows, unix))] fn f() {}")
        status, _, stderr = self.command(*words)
        self.assertEqual(status, 1)
        self.assertIn("matches nothing", stderr)

    @needs("cargo", untested="cfgx-code of a package")
    def test_packages(self):
        self.write("p/Cargo.toml", '[package]\nname = "p"\nversion = "0.1.0"\n')
        self.write("p/src/lib.rs", "#[cfg(unix)] mod a;")
        self.write("p/src/a.rs", "#[cfg(windows)] fn f() {}")
        self.write("p/other.rs", CODE)
        for words in (["p/Cargo.toml"], ["--manifest-path", "p"],
                      ["-p", "p", "--manifest-path", "p/Cargo.toml"]):
            status, stdout, stderr = self.command("--only", "never", *words)
            self.assertEqual((status, stdout.count(": never\n")), (0, 1), stderr)
        self.assertEqual(self.command("-p", "q", "--manifest-path", "p")[0], 2)


class Folders(Made):
    """What is read of folders that somebody else made."""

    def test_what_is_passed_over(self):
        outside = self.write("outside/x.rs", CODE)
        self.write("top/good.rs", "#[cfg(unix)] fn f() {}")
        self.write("top/.hidden/x.rs", CODE)
        self.write("top/target/CACHEDIR.TAG", "")
        self.write("top/target/x.rs", CODE)
        with open(self.write("top/latin.rs"), "wb") as file:
            file.write(b"// \xff\n#[cfg(a)] fn f() {}")
        with open(self.write("top/large.rs"), "wb") as file:
            file.truncate((1 << 24) + 1)
        os.mkfifo(os.path.join(self.folder, "top", "fifo.rs"))
        os.symlink(outside, os.path.join(self.folder, "top", "link.rs"))
        os.symlink(os.path.dirname(outside), os.path.join(self.folder, "top", "folder"))
        os.symlink("/nowhere", os.path.join(self.folder, "top", "broken.rs"))
        os.symlink(".", os.path.join(self.folder, "top", "loop"))
        status, stdout, stderr = self.command("top", "--format", "json")
        found = json.loads(stdout)
        self.assertEqual((status, [file["path"] for file in found["files"]]), (0, ["top/good.rs"]))
        self.assertEqual({one["path"]: one["reason"] for one in found["passed"]}, {
            "top/latin.rs": "it is not UTF-8", "top/large.rs": "it has more than 16777216 bytes",
            "top/fifo.rs": "it is no regular file", "top/link.rs": "a link leads out of the folder",
            "top/folder": "a link leads out of the folder",
            "top/broken.rs": "a link leads out of the folder",
        })
        self.assertEqual(stderr.count("was passed over"), 6)

    def test_hostile_names(self):
        self.write(HOSTILE, '#[cfg(a = "\x1b[2J")] #[cfg(all(unix, windows))] fn f() {}')
        with open(self.write(f"b{HOSTILE}"), "wb") as file:
            file.write(b"\xff")
        for words in ([], ["--summary"], ["--format", "tsv"], ["--format", "json"],
                      ["--format", "sarif"]):
            _, stdout, stderr = self.command("--fail-on", "never", *words)
            self.assertNotIn("\x1b", stdout + stderr)
            self.assertIn(SHOWN, stderr)
            self.assertIn(f"note: b{SHOWN} was passed over: it is not UTF-8\n", stderr)


class Formats(Made):
    """What is printed for programs."""

    def fitting(self, value, schema, where="$"):
        """Compares a value with a schema, as far as this one needs."""
        if "const" in schema:
            self.assertEqual(value, schema["const"], where)
        if "enum" in schema:
            self.assertIn(value, schema["enum"], where)
        kinds = {"object": dict, "array": list, "string": str, "integer": int, "boolean": bool,
                 "null": type(None)}
        wanted = schema.get("type", [])
        wanted = [wanted] if isinstance(wanted, str) else wanted
        if wanted:
            self.assertIn(type(value), [kinds[one] for one in wanted], where)
        if isinstance(value, dict) and "properties" in schema:
            self.assertLessEqual(set(schema.get("required", [])), set(value), where)
            for name, one in value.items():
                self.assertIn(name, schema["properties"], where)
                self.fitting(one, schema["properties"][name], f"{where}.{name}")
        if isinstance(value, list) and "items" in schema:
            for number, one in enumerate(value):
                self.fitting(one, schema["items"], f"{where}[{number}]")

    def test_json(self):
        self.write("one.rs", CODE + "#[cfg(unix)] fn h() {} fn h() {} #[cfg(version(\"1\"))]"
                   ' fn i() {} #[cfg(feature = "x")] mod m { cfg_if! { if #[cfg(unix)] {} } }')
        with open(SCHEMA, encoding="utf-8") as file:
            schema = json.load(file)
        self.assertEqual(json.loads(self.command("--schema")[1]), schema)
        for words in ([], ["--summary"], ["--only", "never"]):
            found = json.loads(self.command("--format", "json", *words)[1])
            self.fitting(found, schema)
        found = json.loads(self.command("--format", "json", "--target",
                                        "x86_64-unknown-linux-gnu")[1])
        [file] = found["files"]
        one, two, *_ = file["conditions"]
        values = [one["values"] for one in file["answers"]]
        told = one["is"], values[one["answer"]], one["line"], one["start"]
        self.assertEqual(told, ("never", ["no"], 1, 6))
        self.assertEqual((two["is"], two["answer"], two["problem"]["reason"]),
                         ("faulty", None, "MEMBERS"))
        self.assertEqual(values[file["groups"][0]["two"]], ["yes"])

    def test_answers_of_json(self):
        self.write("one.rs", "#[cfg(any(a, unix))] fn f() {} #[cfg(windows)] fn g() {}"
                   " #[cfg(any(a, unix))] fn h() {} cfg_if! { if #[cfg(windows)] {} }")
        found = json.loads(self.command("--format", "json", "--target",
                                        "x86_64-unknown-linux-gnu,x86_64-pc-windows-msvc")[1])
        [file] = found["files"]
        self.assertEqual([one["answer"] for one in file["conditions"]], [0, 1, 0, 1])
        self.assertEqual([(one["none"], one["two"]) for one in file["groups"]], [(2, None)])
        self.assertEqual(file["answers"], [
            {"values": ["yes", "unknown"], "unknown": [
                {"targets": [1], "flags": ["a"], "if_yes": {"a": True}, "if_no": {"a": False}}]},
            {"values": ["no", "yes"], "unknown": []},
            {"values": ["yes", "no"], "unknown": []},
        ])

    def json_file(self, *words):
        """Returns what JSON has of the only file: what its conditions have around them, and what is
        told of that."""
        [file] = json.loads(self.command("--format", "json", *words)[1])["files"]
        return ([(one["condition"], one["guard"]) for one in file["conditions"]],
                [(one["condition"], one["number"], one["outer"]) for one in file["guards"]])

    def test_guards_of_json(self):
        self.write("one.rs", "#[cfg(a)] mod m { #[cfg(b)] fn f() { cfg!(c); }"
                   " cfg_if! { if #[cfg(d)] {} else if #[cfg(e)] { cfg!(f); } } }")
        self.assertEqual(self.json_file(), (
            [("a", None), ("b", 0), ("c", 1), ("d", 0), ("e", 2), ("f", 3)],
            [("a", 0, None), ("b", 1, 0), ("not(d)", 3, 0), ("e", 4, 2)],
        ))
        self.write("one.rs", "#[cfg(x)] fn f() {} #[cfg(unix)] mod m { #[cfg(a)] fn g() {} }"
                   " #[cfg(windows)] mod n { #[cfg(windows)] fn h() {} }")
        self.assertEqual(self.json_file("--only", "platforms"),
                         ([("unix", None), ("windows", None)], []))
        self.assertEqual(self.json_file("--only", "depends"),
                         ([("x", None), ("a", 0)], [("unix", 1, None)]))

    def test_guards_that_were_not_read(self):
        self.write("one.rs", "macro_rules! m { () => { #[cfg($x)] fn f() { cfg!(a); } } }")
        self.assertEqual(self.json_file(), ([(None, None), ("a", 0)], [(None, 0, None)]))

    def test_long_conditions_around_many(self):
        name, many = "x" * 60_000, "#[cfg(any())] impl A {}\n" * 300
        flags, alike = ", ".join(map("a{}".format, range(6000))), "#[cfg(b)] impl A {}\n" * 300
        self.write("lib.rs", f"#[cfg(all({name}, {name}))] mod m {{ {many} }}"
                   f" #[cfg({name})] mod n; #[cfg(any({flags}))] mod o {{ {alike} }}")
        self.write("n.rs", many)
        for form in ("text", "json", "tsv", "sarif"):
            words = ("--format", form, "--target", "x86_64-unknown-linux-gnu")
            printed = self.command(*words)[1]
            self.assertTrue(10_000 < len(printed) < 1_500_000, (form, len(printed)))

    def test_tsv(self):
        self.write("one.rs", CODE)
        lines = self.command("--format", "tsv")[1].splitlines()
        self.assertEqual(lines[1], "one.rs\t1\t7\tcfg\tnever\t0\t320\t0\t\tall(unix, windows)")
        self.assertEqual({line.count("\t") for line in lines}, {9})

    def test_sarif(self):
        self.write("src/a b.rs", CODE)
        found = json.loads(self.command("--format", "sarif", "src")[1])["runs"][0]
        self.assertEqual([one["ruleId"] for one in found["results"]], ["never", "faulty"])
        place = found["results"][0]["locations"][0]["physicalLocation"]
        self.assertEqual(place["artifactLocation"]["uri"], "src/a%20b.rs")
        self.assertEqual(place["region"], {"startLine": 1, "startColumn": 7, "endLine": 1,
                                           "endColumn": 25})


class Page(Made):
    """The page CODE."""

    def blocks(self):
        """Returns the language and the text of each block of the page."""
        with open(PAGE, encoding="utf-8") as file:
            return re.findall(r"^```(\w*)\n(.*?)^```$", file.read(), re.M | re.S)

    def test_the_example(self):
        blocks = self.blocks()
        triples, never, two = [text for language, text in blocks if language == "text"]
        [code] = [text for language, text in blocks if language == "rust"]
        [known] = [text for language, text in blocks if language == "toml"]
        command, in_ci = [text for language, text in blocks if language == "sh"]
        self.write("ci.txt", triples)
        self.write("src/lib.rs", code)
        self.write("known.toml", known)
        self.assertEqual(self.command(*command.split()[1:]), (0, never, ""))
        self.assertEqual(self.command("--only", "two", "src"), (0, two, ""))
        first, second = (self.command(*line.split()[1:]) for line in in_ci.splitlines())
        # Of both lines that are never compiled, one is known.
        for (status, _, message), place in ((first, "src/lib.rs:3:13"), (second, "src/lib.rs:")):
            self.assertEqual((status, len(message.splitlines())), (1, 1), message)
            self.assertIn(place, message)

    def test_options_and_words(self):
        with open(PAGE, encoding="utf-8") as file:
            text = file.read()
        parser = _code_arguments.parser_of(__import__("argparse").ArgumentParser)
        names = {one for action in parser._actions for one in action.option_strings}
        told = set(re.findall(r"(?<![\w-])--?[a-z][\w-]*", text))
        self.assertLessEqual(names - {"--help", "-h", "-q", "--package", "--version"}, told)
        words = set(re.findall(r"^\| `([\w-]+)` \|", text, re.M))
        self.assertLessEqual(set(CHOICES), words)
