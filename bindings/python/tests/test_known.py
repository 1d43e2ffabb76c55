"""The file of known findings."""
import os
import sys
import unittest.mock

from . import needs
from .made import Folder

from cfgx import _known

FORM = _known.Form(("never", "unknown"), ("package", "name", "condition"), ("name", "condition"))
LOOM = "[[known]]\nfinding = 'unknown'\ncondition = 'cfg(loom)'\nreason = 'only our models'\n"
OS = (
    '[[known]]\nfinding = "never"\nname = "b"\ncondition = \'cfg(target_os = "x")\'\n'
    'reason = "r"\n'
)
READS = "Python 3.11 or tomli"


def members(package="p", name="a", condition="cfg(loom)"):
    """Returns the members of a finding."""
    return {"package": package, "name": name, "condition": condition}


@needs(READS, untested="files of known findings")
class Files(Folder):
    """What a file says."""

    def read(self, text):
        """Returns the known findings of a text."""
        return _known.read(self.write("known.toml", text), FORM)

    def test_what_is_known(self):
        known = self.read(LOOM + OS)
        rows = [
            ("unknown", members(), 1), ("unknown", members(package="q", name="z"), 1),
            ("never", members(), None), ("unknown", members(condition="cfg(loom2)"), None),
            ("unknown", members(condition="CFG(LOOM)"), None),
            ("unknown", members(condition="cfg(loom) "), None), ("unknown", {"name": "a"}, None),
            ("never", members(name="b", condition='cfg(target_os = "x")'), 2),
            ("never", members(name="bb", condition='cfg(target_os = "x")'), None),
            ("never", members(name="b"), None), ("", members(), None),
            ("unknown", members(name="b", condition='cfg(target_os = "x")'), None),
        ]
        for finding, given, wanted in rows:
            with self.subTest(finding=finding, given=given):
                found = known.entry_for(finding, given)
                self.assertEqual(found and found.number, wanted)

    def test_the_reason(self):
        entry = self.read(LOOM).entry_for("unknown", members())
        self.assertEqual(entry.reason, "only our models")

    def test_the_entry_with_the_most_members(self):
        narrow = LOOM.replace("reason", "name = 'a'\npackage = 'p'\nreason")
        for text, wanted in ((LOOM + narrow, 2), (narrow + LOOM, 1)):
            known = self.read(text)
            self.assertEqual(known.entry_for("unknown", members()).number, wanted)
            self.assertEqual(known.unmatched(), [])

    def test_what_matches_nothing(self):
        known = self.read(LOOM + OS)
        self.assertEqual([entry.number for entry in known.unmatched()], [1, 2])
        known.entry_for("never", members())
        self.assertEqual(len(known.unmatched()), 2)
        known.entry_for("unknown", members())
        [left] = map(str, known.unmatched())
        self.assertEqual(left, """entry 2: never, condition = 'cfg(target_os = "x")', name = 'b'""")

    def test_no_entry(self):
        for text in ("", "# nothing\n", "known = []\n", "\ufeff"):
            known = self.read(text)
            self.assertEqual((known.entry_for("never", members()), known.unmatched()), (None, []))

    def test_what_is_no_entry(self):
        rows = [
            ("[known]\n", "known is no list"), ("[[knwon]]\n", "it has knwon, and an entry is"),
            ("known = [1]\n", "entry 1 is no table"), (f"x = 1\n{LOOM}", "it has x"),
            (LOOM.replace("reason = 'only our models'", ""), "entry 1 has no reason"),
            (LOOM.replace("only our models", " "), "entry 1 has no reason"),
            (LOOM.replace("finding = 'unknown'", ""), "entry 1 has no finding"),
            (LOOM.replace("'unknown'", "'unkown'"), "has the finding unkown: one is never or"),
            (LOOM.replace("'unknown'", "1"), "entry 1 has a finding that is no text"),
            (LOOM.replace("condition =", "conditions ="), "entry 1 has conditions: it may have"),
            (LOOM.replace("'cfg(loom)'", "['cfg(loom)']"), "has a condition that is no text"),
            (LOOM.replace("condition = 'cfg(loom)'", ""), "is for everything: it needs name or"),
            (LOOM.replace("condition = 'cfg(loom)'", "package = 'p'"), "entry 1 is for everything"),
            (LOOM + OS + LOOM, "entry 3 repeats entry 1"), ("[[known]\n", "it is no TOML"),
            (f"a = {'[' * 9000}", "it is no TOML"),
        ]
        for text, wanted in rows:
            with self.subTest(text=text), self.assertRaises(_known.KnownError) as caught:
                self.read(text)
            self.assertIn(wanted, str(caught.exception))
            self.assertTrue(str(caught.exception).startswith(f"{self.folder}/known.toml: "))

    def test_what_is_not_printable(self):
        with self.assertRaises(_known.KnownError) as caught:
            self.read('"\\u001b[2J\\u202e" = 1\n')
        self.assertIn(r"it has \x1b[2J\u202e,", str(caught.exception))

    def test_what_cannot_be_read(self):
        path = os.path.join(self.folder, "none")
        with self.assertRaisesRegex(_known.KnownError, f"^{path} cannot be read: No such file"):
            _known.read(path, FORM)
        os.mkfifo(path)
        with self.assertRaisesRegex(_known.KnownError, "cannot be read: it is no regular file$"):
            _known.read(path, FORM)
        with open(self.write("x"), "wb") as file:
            file.write(b"\xff")
        with self.assertRaisesRegex(_known.KnownError, "x is not UTF-8: "):
            _known.read(os.path.join(self.folder, "x"), FORM)

    def test_many_entries(self):
        text = "".join(LOOM.replace("loom", f"f{number}") for number in range(5000))
        known = self.read(text)
        for number in range(0, 5000, 2):
            self.assertIsNotNone(
                known.entry_for("unknown", members(condition=f"cfg(f{number})"))
            )
        self.assertEqual(len(known.unmatched()), 2500)


class OldPython(Folder):
    """A Python that cannot read TOML."""

    def test_what_is_said(self):
        path = self.write("known.toml", LOOM)
        with unittest.mock.patch.dict(sys.modules, {_known.MODULE: None}), \
                self.assertRaises(_known.KnownError) as caught:
            _known.read(path, FORM)
        self.assertEqual(str(caught.exception), f"{path}: to read it takes Python 3.11 or later,"
                                                " or the package tomli")

    def test_which_module_is_asked(self):
        is_new = sys.version_info >= (3, 11)
        self.assertEqual(_known.MODULE, "tomllib" if is_new else "tomli")
