"""Which rows the command prints and fails for."""
import json
import os
import unittest.mock

from . import needs
from .test_command import HOST, WINDOWS, Made, dependency_of, package_of

import cfgx
from cfgx import manifest
from cfgx.manifest import _cargo

IOS = "aarch64-apple-ios"
TARGETS = ("--target", f"{WINDOWS},{IOS}")
# Dependencies, their conditions, and what they are by hand on Windows and iOS.
ROWS = [
    ("always", None, "yes yes"), ("nowhere", 'cfg(target_os = "x")', "no no"),
    ("unix", "cfg(unix)", "no yes"), ("both", "cfg(any(unix, windows))", "yes yes"),
    ("flag", "cfg(loom)", "unknown unknown"), ("part", "cfg(all(unix, loom))", "no unknown"),
    ("triple", WINDOWS, "yes no"), ("true", "cfg(true)", "yes yes"),
]
# What `--only` takes, and the rows that are left, by hand.
ONLY = [
    ("conditional", "nowhere unix both flag part triple true"), ("differing", "unix part triple"),
    ("unknown", "flag part"), ("unknown,differing", "unix flag part triple"),
    ("differing,conditional,unknown", "nowhere unix both flag part triple true"),
]
KNOWN = "[[known]]\nfinding = '{}'\n{}\nreason = 'because'\n"
NEVER = 'cfgx-deps: never true: p nowhere cfg(target_os = "x")\n'
READS = "Python 3.11 or tomli"


def known(finding, **members):
    """Returns an entry of a file of known rows."""
    lines = "\n".join(f"{name} = '{value}'" for name, value in members.items())
    return KNOWN.format(finding, lines)


class Chosen(Made):
    """Rows that are chosen."""

    def setUp(self):
        super().setUp()
        self.list(*(dependency_of(name, condition) for name, condition, _ in ROWS))

    def rows(self, *words):
        """Returns the values of each row that the command prints as JSON."""
        status, output, message = self.command(*TARGETS, "--format", "json", *words)
        self.assertEqual((status, message), (0, ""))
        return {row["name"]: " ".join(row["values"][1:])
                for row in json.loads(output)["dependencies"]}

    def test_all(self):
        self.assertEqual(self.rows(), {name: values for name, _, values in ROWS})

    def test_only(self):
        for words, wanted in ONLY:
            with self.subTest(words=words):
                values = {name: values for name, _, values in ROWS if name in wanted.split()}
                self.assertEqual(self.rows("--only", words), values)
                repeated = [word for one in words.split(",") for word in ("--only", one)]
                self.assertEqual(self.rows(*repeated), values)

    def test_only_in_each_form(self):
        words = ("--only", "unknown", "--target", f"{WINDOWS},{IOS}")
        status, output, _ = self.command(*words)
        lines = output.splitlines()
        self.assertEqual((status, [line.split()[0] for line in lines[1:3]]), (0, ["flag", "part"]))
        self.assertEqual(lines[-1], f"host {HOST}; 2 of 8 rows: 2 unknown")
        self.assertEqual(lines[3], "")
        for more in (["--format", "tsv"], ["--format", "tsv", "--summary"]):
            rows = self.command(*words, *more)[1].splitlines()[1:]
            self.assertEqual([row.split("\t")[1] for row in rows], ["flag", "part"])
        [run] = json.loads(self.command(*words, "--format", "sarif")[1])["runs"]
        found = [one["message"]["text"].split(":")[0] for one in run["results"]]
        self.assertEqual(found, ["p flag", "p part"])

    def test_a_row_that_is_not_printed(self):
        # What is found does not depend on what is printed.
        words = (*TARGETS, "--fail-on", "never", "--only", "unknown")
        status, output, message = self.command(*words)
        self.assertEqual((status, message), (1, NEVER))
        self.assertNotIn("nowhere", output)

    def test_properties(self):
        report = self.report(["x86_64-pc-windows-gnu", IOS])
        for name, attribute in (("conditional", "is_conditional"), ("differing", "is_differing"),
                                ("unknown", "is_unknown")):
            found = [row.dependency.name for row in report.rows if getattr(row, attribute)]
            self.assertEqual(found, dict(ONLY)[name].split())

    def report(self, targets, **options):
        """Returns the report in Python, by the `cargo` that is made up."""
        with unittest.mock.patch.dict(os.environ, {"PATH": self.tools}):
            return manifest.report(self.path, targets, **options)

    def test_wrong_words(self):
        rows = [
            (["--only", "none"],
             "--only takes conditional and differing and unknown, and not none"),
            (["--only", "unknown,"], "and not "), (["--only="], "and not "),
            (["--fail-on", "never,differing"], "--fail-on takes unknown and never, and not diff"),
        ]
        for words, wanted in rows:
            status, output, message = self.command(*words)
            self.assertEqual((status, output), (2, ""))
            self.assertIn(wanted, message)


class Packages(Made):
    """Packages that are chosen."""

    def setUp(self):
        super().setUp()
        names = ("p", "q", "r")
        paths = [self.path, *(os.path.join(self.audited, name, "Cargo.toml") for name in names[1:])]
        self.write("metadata.json", json.dumps({"packages": [
            package_of(name, path, dependency_of(f"of-{name}")) for name, path in zip(names, paths)
        ]}))

    def packages(self, *words):
        """Returns the packages of the rows that the command prints."""
        status, output, message = self.command("--format", "json", *words)
        self.assertEqual((status, message), (0, ""))
        return "".join(row["package"] for row in json.loads(output)["dependencies"])

    def test_packages(self):
        rows = [
            ([], "p"), (["--workspace"], "pqr"), (["--workspace", "--exclude", "q"], "pr"),
            (["--exclude", "q,p", "--workspace"], "r"), (["-p", "q,r"], "qr"),
            (["--workspace", "--exclude", "q", "--exclude", "r"], "p"),
            (["-p", "q", "-p", "p"], "pq"),
            (["--workspace", "--exclude=p,q,r"], ""), (["--package=r"], "r"),
        ]
        for words, wanted in rows:
            with self.subTest(words=words):
                self.assertEqual(self.packages(*words), wanted)

    def test_wrong_use(self):
        rows = [
            (["--workspace", "-p", "q"], "-p names packages, and --workspace takes all"),
            (["--exclude", "q"], "--exclude needs --workspace"),
            (["--exclude", "q", "-p", "r"], "--exclude needs --workspace"),
            (["--workspace", "--exclude", "qq"], "has no package qq"),
            (["-p", "q,"], "the workspace has no package \n"),
        ]
        for words, wanted in rows:
            with self.subTest(words=words):
                status, output, message = self.command(*words)
                self.assertEqual((status, output), (2, ""))
                self.assertIn(wanted, message)

    def test_python(self):
        workspace = _cargo.Workspace((), ())
        for names, is_whole, excluded in ((["a"], True, []), ([], False, ["a"])):
            with self.assertRaises(manifest.RequestError):
                workspace.chosen(names, is_whole, excluded)


class Manifests(Made):
    """The manifest that is named."""

    def test_the_path(self):
        for words in (["--manifest-path", self.path], [f"--manifest-path={self.audited}"],
                      ["--manifest-path", "../audited/Cargo.toml"]):
            status, output, message = self.command("--format", "json", *words)
            self.assertEqual((status, message), (0, ""))
            self.assertEqual(json.loads(output)["manifest"], self.path)

    def test_two(self):
        found = self.command("--manifest-path", self.path, self.path)
        message = "cfgx-deps: MANIFEST and --manifest-path name a manifest: give one\n"
        self.assertEqual(found, (2, "", message))

    def test_none(self):
        status, output, message = self.command("--manifest-path", "")
        self.assertEqual((status, output, message), self.command("")[0:3])


class Lists(Made):
    """Options that take several values, in lists and repeated."""

    def values(self, *words):
        """Returns the names of the platforms, and the values of each row."""
        status, output, message = self.command("--format", "json", *words)
        self.assertEqual((status, message), (0, ""))
        found = json.loads(output)
        return ([one["name"] for one in found["platforms"]],
                {row["name"]: row["values"] for row in found["dependencies"]})

    def test_targets(self):
        for words in (["--target", f"{WINDOWS},{IOS}"], ["--target", WINDOWS, "--target", IOS],
                      [f"--target={WINDOWS},{IOS},{WINDOWS}"]):
            self.assertEqual(self.values(*words)[0], ["host", WINDOWS, IOS])

    def test_flags(self):
        self.list(dependency_of("a", 'cfg(all(a, k = "x,y", k = "z"))'),
                  dependency_of("b", "cfg(b)"))
        rows = [
            (["--cfg", 'a,k="x,y",k="z"'], {"a": ["yes"], "b": ["unknown"]}),
            (["--cfg", 'k="z",k="x,y"', "--cfg", "a,b"], {"a": ["yes"], "b": ["yes"]}),
            (["--cfg", "a,b", "--no-other-cfg"], {"a": ["no"], "b": ["yes"]}),
        ]
        for words, wanted in rows:
            with self.subTest(words=words):
                self.assertEqual(self.values(*words)[1], wanted)
        for words in (["--cfg", "a,"], ["--cfg", ""], ["--cfg", 'a,"'], ["--cfg", 'k="x","y"']):
            with self.subTest(words=words):
                status, output, message = self.command(*words)
                self.assertEqual((status, output), (2, ""))
                self.assertIn("is no flag", message)

    def test_facts(self):
        text = 'target_arch="arm"\ntarget_endian="little"\ntarget_pointer_width="32"\n'
        one, other, comma = (self.write(name, text) for name in ("a.cfg", "b.txt", "c,d.cfg"))
        rows = [
            (["--facts", f"{one},{other}"], ["a", "b"]), (["--facts", comma], ["c,d"]),
            (["--facts", other, "--facts", comma, "--facts", one], ["b", "c,d", "a"]),
        ]
        for words, wanted in rows:
            self.assertEqual(self.values(*words)[0], ["host", *wanted])


class Quiet(Made):
    """What `--quiet` leaves out."""

    def test_notes(self):
        self.list(dependency_of("a", "cfg(loom)"))
        variables = {"RUSTFLAGS": "--cfg x"}
        note = "cfgx-deps: note: RUSTFLAGS is set and not read; --rustflags reads it\n"
        found = "cfgx-deps: unknown: p a cfg(loom)\n"
        for words, wanted in (([], note), (["--quiet"], ""), (["-q"], "")):
            whole = self.command(*words, **variables)
            self.assertEqual((whole[0], whole[2]), (0, wanted))
            self.assertIn("1 row: 1 unknown", whole[1])
            status, output, message = self.command(*words, "--fail-on", "unknown", **variables)
            self.assertEqual((status, output, message), (1, whole[1], wanted + found))
        self.assertEqual(self.command("-q", "--none")[2].splitlines()[-1],
                         "cfgx-deps: error: unrecognized arguments: --none")


@needs(READS, untested="the file of known rows")
class Known(Made):
    """Rows that a file knows."""

    def setUp(self):
        super().setUp()
        self.list(*(dependency_of(name, condition) for name, condition, _ in ROWS))

    def fails(self, text, *words, fail_on="never,unknown"):
        """Returns the status with a file of known rows, and the lines on stderr without the name of
        the command."""
        path = self.write("known.toml", text)
        words = (*TARGETS, "--fail-on", fail_on, "--known", path, *words)
        status, output, message = self.command(*words)
        self.assertIn("8 rows", output)
        return status, [line[len("cfgx-deps: "):] for line in message.splitlines()]

    def test_what_is_passed_over(self):
        never, flag, part = (
            'never true: p nowhere cfg(target_os = "x")', "unknown: p flag cfg(loom)",
            "unknown: p part cfg(all(unix, loom))",
        )
        nowhere = known("never", name="nowhere")
        rows = [
            ("", 1, [never, flag, part]), (nowhere, 1, [flag, part]),
            (known("unknown", condition="cfg(loom)"), 1, [never, part]),
            (nowhere + known("unknown", name="flag") + known("unknown", name="part"), 0, []),
            (known("never", name="nowhere", kind="normal", package="p",
                   condition='cfg(target_os = "x")'), 1, [flag, part]),
        ]
        for text, status, wanted in rows:
            with self.subTest(text=text):
                self.assertEqual(self.fails(text), (status, wanted))

    def test_what_is_not_passed_over(self):
        # Each differs in one member from what is found.
        rows = [
            known("unknown", name="nowhere"), known("never", name="now"),
            known("never", name="nowhere2"), known("never", name="nowhere", kind="dev"),
            known("never", name="nowhere", package="q"), known("never", name="NOWHERE"),
            known("never", name="nowhere", condition='cfg(target_os = "y")'),
            known("never", condition='cfg(target_os="x")'), known("never", name="*"),
        ]
        for text in rows:
            with self.subTest(text=text):
                status, lines = self.fails(text, fail_on="never")
                self.assertEqual((status, lines[1:]), (1, [NEVER[len("cfgx-deps: "):-1]]))
                self.assertRegex(lines[0], r"^note: .*/known\.toml: entry 1: .* matches nothing$")

    def test_an_entry_that_matches_nothing(self):
        text = known("never", name="nowhere") + known("unknown", condition="cfg(gone\u202e)")
        wanted = (r"note: {}/known.toml: entry 2: unknown, condition = 'cfg(gone\u202e)'"
                  " matches nothing")
        status, lines = self.fails(text, fail_on="never")
        self.assertEqual((status, lines), (0, [wanted.format(self.folder)]))
        # An entry for what nothing fails for matches all the same.
        self.assertEqual(self.fails(known("unknown", name="flag"), fail_on="never")[1],
                         ['never true: p nowhere cfg(target_os = "x")'])
        self.assertEqual(self.fails(text, "--quiet", fail_on="never"), (0, []))

    def test_without_fail_on(self):
        path = self.write("known.toml", known("never", name="none"))
        status, _, message = self.command("--known", path)
        self.assertEqual(status, 0)
        self.assertIn("entry 1: never, name = 'none' matches nothing", message)

    def test_a_file_that_is_wrong(self):
        for text, wanted in (("[[known]]\n", "entry 1 has no finding"), ("x", "is no TOML"),
                             (known("never", kind="dev"), "entry 1 is for everything")):
            path = self.write("known.toml", text)
            status, output, message = self.command("--known", path)
            self.assertEqual((status, output), (3, ""))
            self.assertIn(wanted, message)
        status, output, message = self.command("--known", "none.toml")
        self.assertEqual((status, output), (3, ""))
        self.assertEqual(message,
                         "cfgx-deps: none.toml cannot be read: No such file or directory\n")

    def test_what_is_not_tried_out(self):
        # A status says the first of what happened: something is found, or something failed.
        flags = ", ".join(f"any(all(a{n}, not(b{n})), all(not(a{n}), b{n}))" for n in range(18_000))
        self.list(dependency_of("a", f"cfg(all({flags}))"))
        path = self.write("known.toml", known("unknown", name="a"))
        for words, wanted in (([], 3), (["--fail-on", "unknown"], 1),
                              (["--fail-on", "unknown", "--known", path], 3)):
            self.assertEqual(self.command(*words)[0], wanted)


class Statuses(Made):
    """The status of each way in which the command ends."""

    def test_each(self):
        self.list(dependency_of("a", 'cfg(target_os = "x")'))
        rows = [
            ([], 0), (["--fail-on", "unknown"], 0), (["--fail-on", "never"], 1),
            (["--fail-on", "often"], 2), (["-p", "q"], 2), (["--nothing"], 2),
            (["--summary", "--format", "sarif"], 2), (["--facts", "none"], 3),
            (["--known", "none"], 3), (["--fail-on", "never", "--known", "none"], 3),
        ]
        for words, wanted in rows:
            with self.subTest(words=words):
                self.assertEqual(self.command(*words)[0], wanted)
        os.remove(os.path.join(self.tools, "cargo"))
        self.assertEqual(self.command("--fail-on", "never")[0], 3)
