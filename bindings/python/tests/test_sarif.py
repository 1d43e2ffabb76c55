"""Findings in SARIF."""
import json
import os
import unittest
import unittest.mock

from .made import Folder

from cfgx import _sarif
from cfgx._output import OutputError
from cfgx._sarif import Finding, Level, Place, Region, Rule, Run, Tool

TOOL = Tool("cfgx-some", "1.2.3", [Rule("never", "It is never true.", Level.WARNING),
                                   Rule("unknown", "It is unknown.", Level.NOTE)])
FOLDER = "Paths begin here."
# Names of files, and the references to them: RFC 3986 leaves some characters as they are, and
# writes each other one by its bytes.
PATHS = [
    ("Cargo.toml", "Cargo.toml"), ("a/b-c_d.e~f/Cargo.toml", "a/b-c_d.e~f/Cargo.toml"),
    ("a b/Cargo.toml", "a%20b/Cargo.toml"), ("a:b", "a%3Ab"), ("100%/x", "100%25/x"),
    ("é/日", "%C3%A9/%E6%97%A5"), ("#?[]@!$&'()*+,;=", "%23%3F%5B%5D%40%21%24%26%27%28%29%2A%2B%2C"
                                                        "%3B%3D"),
    ('"\\\n\u202e', "%22%5C%0A%E2%80%AE"), ("\udcff", "%FF"),
]


def log_of(*findings, run=Run(FOLDER)):
    """Returns what is written of findings, as JSON has it."""
    text = "\n".join(_sarif.lines_of(TOOL, run, findings))
    assert text.isascii() and text.replace("\n", "").isprintable(), text
    return json.loads(text)


def results_of(*findings):
    """Returns the results of findings."""
    [run] = log_of(*findings)["runs"]
    return run["results"]


def finding(**fields):
    """Returns a finding."""
    usual = {"rule": "never", "level": Level.ERROR, "text": "some text",
             "place": Place("Cargo.toml", Region(3, 9, 3, 20))}
    return Finding(**{**usual, **fields})


class Log(unittest.TestCase):
    """The object that is written."""

    def test_what_it_has(self):
        self.assertEqual(log_of(finding()), {
            "$schema": "https://docs.oasis-open.org/sarif/sarif/v2.1.0/errata01/os/schemas/"
                       "sarif-schema-2.1.0.json",
            "version": "2.1.0",
            "runs": [{
                "tool": {"driver": {"name": "cfgx-some", "version": "1.2.3", "rules": [
                    {"id": "never", "shortDescription": {"text": "It is never true."},
                     "defaultConfiguration": {"level": "warning"}},
                    {"id": "unknown", "shortDescription": {"text": "It is unknown."},
                     "defaultConfiguration": {"level": "note"}},
                ]}},
                "columnKind": "unicodeCodePoints",
                "originalUriBaseIds": {"SRCROOT": {"description": {"text": FOLDER}}},
                "invocations": [{"executionSuccessful": True, "toolExecutionNotifications": []}],
                "results": [{
                    "ruleId": "never", "ruleIndex": 0, "level": "error",
                    "message": {"text": "some text"},
                    "locations": [{"physicalLocation": {
                        "artifactLocation": {"uri": "Cargo.toml", "uriBaseId": "SRCROOT"},
                        "region": {"startLine": 3, "startColumn": 9, "endLine": 3,
                                   "endColumn": 20},
                    }}],
                }],
            }],
        })

    def test_a_run(self):
        [run] = log_of(run=Run(FOLDER, is_whole=False, notes=["one", "{two}"]))["runs"]
        self.assertEqual(run["results"], [])
        self.assertEqual(run["invocations"], [{
            "executionSuccessful": False, "toolExecutionNotifications": [
                {"level": "note", "message": {"text": "one"}},
                {"level": "note", "message": {"text": "{{two}}"}},
            ],
        }])

    def test_several(self):
        given = [finding(rule="unknown", level=Level.NOTE), finding(), finding(level=Level.WARNING)]
        found = [(one["ruleId"], one["ruleIndex"], one["level"]) for one in results_of(*given)]
        wanted = [("unknown", 1, "note"), ("never", 0, "error"), ("never", 0, "warning")]
        self.assertEqual(found, wanted)

    def test_a_known_one(self):
        known, other = results_of(finding(reason="it is\n\u202e{known}"), finding())
        self.assertEqual(known["suppressions"], [
            {"kind": "external", "status": "accepted", "justification": "it is\n\u202e{known}"}
        ])
        self.assertNotIn("suppressions", other)

    def test_related_places(self):
        [found] = results_of(finding(related=[Place("b", Region(1, 2, 3, 4)), Place("c", None)]))
        first, second = (one["physicalLocation"] for one in found["relatedLocations"])
        self.assertEqual(first["artifactLocation"]["uri"], "b")
        self.assertEqual(first["region"], {"startLine": 1, "startColumn": 2, "endLine": 3,
                                           "endColumn": 4})
        self.assertEqual(second, {"artifactLocation": {"uri": "c", "uriBaseId": "SRCROOT"}})


class Texts(Folder):
    """Messages and paths."""

    def test_messages(self):
        rows = [
            ("cfg(a)", "cfg(a)"), ('cfg(k = "{0}")', 'cfg(k = "{{0}}")'),
            ("[a](http://b)", r"\[a\](http://b)"), ("é \\x1b", "é \\x1b"),
        ]
        for text, wanted in rows:
            [found] = results_of(finding(text=text))
            self.assertEqual(found["message"], {"text": wanted})

    def test_paths(self):
        for path, wanted in PATHS:
            [found] = results_of(finding(place=Place(path, None)))
            [place] = found["locations"]
            self.assertEqual(place["physicalLocation"]["artifactLocation"]["uri"], wanted)
            self.assertNotIn("region", place["physicalLocation"])

    def test_where_paths_begin(self):
        before = os.getcwd()
        self.addCleanup(os.chdir, before)
        path = self.write("a/b/Cargo.toml")
        rows = [("", ""), ("a", "a"), ("a/b", "a/b"), ("c", ""), ("a/c", "a")]
        for current, wanted in rows:
            os.makedirs(os.path.join(self.folder, current), exist_ok=True)
            os.chdir(os.path.join(self.folder, current))
            with self.subTest(current=current):
                found = os.path.relpath(_sarif.base_of([path]), self.folder)
                self.assertEqual(found, wanted or ".")
        os.chdir(os.path.join(self.folder, "a"))
        others = [path, os.path.join(self.folder, "d/Cargo.toml")]
        self.assertEqual(_sarif.base_of(others), self.folder)

    def test_paths_that_begin_nowhere(self):
        for name, error, wanted in (
            ("getcwd", FileNotFoundError(2, "No such file"), "folder cannot be read: No such"),
            ("path.commonpath", ValueError("Paths don't have the same drive"), "the same drive"),
        ):
            with unittest.mock.patch(f"os.{name}", side_effect=error), \
                    self.assertRaisesRegex(OutputError, wanted):
                _sarif.base_of(["/a/b"])
