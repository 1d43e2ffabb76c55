"""Where conditions stand in manifests."""
import json
import os
import re
import subprocess
import unittest

from . import needs
from .made import Folder

from cfgx.manifest import _places
from cfgx.manifest._cargo import Dependency

HEAD = '[package]\nname = "p"\nversion = "0.1.0"\nedition = "2021"\n'
# Tables of a manifest with one dependency whose condition Cargo lists, and how Cargo lists it: its
# kind, its name and its condition. Marks stand around the condition and around the name.
ROWS = [
    ("[target.«'cfg(unix)'».dependencies]\n‹a› = \"1\"", "normal", "a", "cfg(unix)"),
    ("[target.«'cfg(unix)'».dependencies.‹a›]\nversion = \"1\"", "normal", "a", "cfg(unix)"),
    ('[target.«"cfg(target_os = \\"é\\")"».dependencies]\n‹a› = "1"', "normal", "a",
     'cfg(target_os = "é")'),
    ('[ target . «"c\\u0066g(unix)"» . dev-dependencies ]\n‹a› = "1"', "dev", "a", "cfg(unix)"),
    ("[target.«'cfg(k = \"日本\")'».dependencies]\n‹a› = \"1\"", "normal", "a",
     'cfg(k = "日本")'),
    ("[target.«'cfg( any(  r#unix ,not(k=\"a,)\" ),) )'».build-dependencies]\n‹a› = \"1\"",
     "build", "a", 'cfg(any(r#unix, not(k = "a,)")))'),
    ("[target.«'cfg(all(r#true))'».dependencies]\n‹a› = \"1\"", "normal", "a", "cfg(all(true))"),
    ("[target]\n«'cfg(unix)'».dependencies.‹a› = \"1\"", "normal", "a", "cfg(unix)"),
    ("[target]\n«'cfg(unix)'» = { dependencies = { b = \"1\", ‹a› = \"1\" } }", "normal", "a",
     "cfg(unix)"),
    ("[target.«'cfg(unix)'»]\ndependencies = { ‹a› = { version = \"1\" } }", "normal", "a",
     "cfg(unix)"),
    ("[target.«'cfg(unix)'»]\ndependencies.b = \"1\"\ndependencies.‹a›.version = \"1\"", "normal",
     "a", "cfg(unix)"),
    ("[target.«x86_64-pc-windows-gnu».dependencies]\n‹\"a\"› = \"1\"", "normal", "a",
     "x86_64-pc-windows-gnu"),
    ("[target.«\"x86_64-pc-windows-gnu\"».dependencies]\n‹'a'› = \"1\"", "normal", "a",
     "x86_64-pc-windows-gnu"),
    ("description = '''\n[target.'cfg(unix)'.dependencies]\na = 1'''\n"
     "[target.«'cfg(unix)'».dependencies]\n‹a› = \"1\"", "normal", "a", "cfg(unix)"),
    ("[dependencies]\na = \"1\"\n[target.'cfg(windows)'.dependencies]\na = \"1\"\n"
     "[target.'cfg(unix)'.dev-dependencies]\na = \"1\"\n"
     "[target.'cfg(unix)'.dependencies]\nb = \"1\"\n"
     "\r\n\t[target.«'cfg(unix)'».dependencies.‹a›]\r\nversion = \"1\"", "normal", "a",
     "cfg(unix)"),
    ("[target.'cfg(unix)'.dev_dependencies]\nb = \"1\"\n"
     "[target.«'cfg(unix)'».build_dependencies]\n‹a› = \"1\"", "build", "a", "cfg(unix)"),
    ("[package.metadata.target.'cfg(unix)'.dependencies]\na = 1\n"
     "[target.«'cfg(unix)'».dependencies]\n‹\"\\u0061\"› = \"1\"", "normal", "a", "cfg(unix)"),
    ("[dependencies]\n‹a› = { version = \"1\", default-features = false }", "normal", "a", None),
    ("[dev-dependencies.‹a›]\nversion = \"1\"", "dev", "a", None),
]
MARKS = re.compile("([«»‹›])")


def marked(text):
    """Returns a text without marks, and the spans between them: of the condition and the name."""
    places, parts = [], []
    for part in MARKS.split(text):
        if MARKS.fullmatch(part):
            places.append(sum(map(len, parts)))
        else:
            parts.append(part)
    return "".join(parts), list(zip(places[::2], places[1::2]))


class Found(Folder):
    """The places of dependencies."""

    def places_in(self, text, kind, name, condition):
        """Returns the places of a dependency in a manifest: the main one, and others."""
        path = os.path.join(self.folder, "Cargo.toml")
        with open(path, "w", encoding="utf-8", newline="") as file:
            file.write(text)
        one = Dependency("p", name, None, kind, False, condition, package_manifest=path)
        return _places.Places(self.folder).of(one)

    def test_rows(self):
        for text, kind, name, condition in ROWS:
            given, spans = marked(text)
            with self.subTest(text=text):
                self.assertEqual(len(spans), 1 if condition is None else 2)
                place, others = self.places_in(given, kind, name, condition)
                found = [place.region, *(one.region for one in others)]
                self.assertEqual(found, [region_of(given, *span) for span in spans])
                self.assertEqual({one.path for one in (place, *others)}, {"Cargo.toml"})

    @needs("cargo", untested="whether Cargo lists the dependencies whose places are tested")
    def test_rows_beside_cargo(self):
        self.write("src/lib.rs")
        for text, *wanted in ROWS:
            given, _ = marked(text)
            path = self.write("Cargo.toml", HEAD + given)
            words = ["metadata", "--no-deps", "--format-version=1", "--manifest-path", path]
            run = subprocess.run(["cargo", *words], check=False, stdout=subprocess.PIPE,
                                 stderr=subprocess.PIPE)
            self.assertEqual(run.returncode, 0, run.stderr.decode())
            listed = json.loads(run.stdout)["packages"][0]["dependencies"]
            rows = [[one["kind"] or "normal", one["name"], one["target"]] for one in listed]
            with self.subTest(text=text):
                self.assertIn(wanted, rows)

    def test_the_line_and_column_of_a_terminal(self):
        # By hand: an editor shows these.
        text = "# é\n\n[target.'cfg(unix)'.dependencies]\n\"é\\u0061\" = '日' # x\n  b = '1'\n"
        rows = [("éa", (3, 9, 3, 20), (4, 1, 4, 10)), ("b", (3, 9, 3, 20), (5, 3, 5, 4))]
        for name, condition, named in rows:
            place, [other] = self.places_in(text, "normal", name, "cfg(unix)")
            self.assertEqual((tuple(place.region), tuple(other.region)), (condition, named))

    def test_a_mark_of_the_order_of_bytes(self):
        place, _ = self.places_in("\ufeff[target.a.dependencies]\nb = '1'", "normal", "b", "a")
        self.assertEqual(tuple(place.region), (1, 9, 1, 10))

    def test_what_is_not_found(self):
        rows = [
            ("", "normal", "a", "cfg(unix)"), ("[dependencies]\na = '1'", "normal", "a", "cfg(b)"),
            ("[dependencies]\na = '1'", "dev", "a", None), ("]]]", "normal", "a", None),
            ("[target.'cfg(unix)'.dependencies]\naa = '1'", "normal", "a", "cfg(unix)"),
            ("[target.'cfg(unix)'.dependencies]\na = '1'", "normal", "a", "cfg(windows)"),
            ("x = [{target.'cfg(unix)'.dependencies.a = 1}]", "normal", "a", "cfg(unix)"),
        ]
        for text, *named in rows:
            with self.subTest(text=text):
                place, others = self.places_in(text, *named)
                self.assertEqual((tuple(place), others), (("Cargo.toml", None), ()))

    def test_a_manifest_that_cannot_be_read(self):
        one = Dependency("p", "a", None, "normal", False, None,
                         package_manifest=os.path.join(self.folder, "none"))
        self.assertEqual(_places.Places("/").of(one)[0].region, None)
        with open(os.path.join(self.folder, "none"), "wb") as file:
            file.write(b"[dependencies]\na = '\xff'")
        self.assertEqual(_places.Places("/").of(one)[0].region, None)

    def test_what_stands_before_a_fault(self):
        text = "[target.'cfg(unix)'.dependencies]\na = '1'\n= 1\nb = '1'"
        self.assertIsNotNone(self.places_in(text, "normal", "a", "cfg(unix)")[0].region)
        self.assertIsNone(self.places_in(text, "normal", "b", "cfg(unix)")[0].region)

    def test_several_that_are_alike(self):
        path = self.write("Cargo.toml", "[target.'cfg(unix)'.dependencies]\na = '1'\n"
                                        "[target.'cfg( unix )'.dependencies]\na = '2'\n")
        one = Dependency("p", "a", None, "normal", False, "cfg(unix)", package_manifest=path)
        places = _places.Places(self.folder)
        lines = [places.of(one)[0].region.line for _ in range(3)]
        self.assertEqual(lines, [1, 3, 3])

    def test_paths(self):
        path = self.write("a/b/Cargo.toml", "[dependencies]\nc = '1'\n")
        one = Dependency("p", "c", None, "normal", False, None, package_manifest=path)
        for base, wanted in (("", "a/b/Cargo.toml"), ("a", "b/Cargo.toml"), ("a/b", "Cargo.toml")):
            place, _ = _places.Places(os.path.join(self.folder, base)).of(one)
            self.assertEqual(place.path, wanted)


def region_of(text, start, end):
    """Returns the lines and columns of a part of a text, which are counted from its beginning."""
    places = []
    for offset in (start, end):
        lines = text[:offset].split("\n")
        places += [len(lines), len(lines[-1]) + 1]
    return _places.Region(*places)
