"""What is printed of a report."""
import json
import re
import unittest

from cfgx import Reason, manifest
from cfgx.manifest import Value, _formats, _once, _platforms, _summary, _table
from cfgx.manifest._conditions import Fault, Unknown

VALUES = {"y": Value.YES, "n": Value.NO, "?": Value.UNKNOWN, "-": Value.NOT_READ}
LOOM = Unknown(("loom",), {"loom": True}, {"loom": False})
BOTH = Unknown(("a", 'k="v"'), {"a": True}, {"a": False, 'k="v"': False})
MANY = Unknown(("a", "b", "c"), None, {"a": False})
# Characters that would end a line, clear the screen, or turn the direction of what follows, and how
# they are shown.
HOSTILE = (
    "\n\t\r\x07\x1b[2J\x7f\x85\x9b\xa0\xad\u061c\u200b\u200e\u200f\u2028\u2029\u202a\u202e\u2066"
    "\u2069\ufeff\U000e0041\udc80"
)
SHOWN = (
    r"\n\t\r\x07\x1b[2J\x7f\x85\x9b\xa0\xad\u061c\u200b\u200e\u200f\u2028\u2029\u202a\u202e\u2066"
    r"\u2069\ufeff\U000e0041\udc80"
)


# What is printed of a dependency of which a row here says nothing else, in JSON and in TSV.
USUAL = {"package_version": "1.2.3", "package_manifest": "/p/Cargo.toml", "requirement": "*",
         "source": "path", "location": "/q", "default_features": True, "features": []}
DETAILED = ("package_version\tpackage_manifest\trequirement\tsource\tlocation\tdefault_features\t"
            "features")
DETAILS = "\t1.2.3\t/p/Cargo.toml\t*\tpath\t/q\tyes\t"


def row(name, values, condition=None, unknown=(), **options):
    """Returns a row with these values. Each unknown one has the next of the reasons."""
    reasons = iter(unknown)
    fields = {"package": "p", "renamed_from": None, "kind": "normal", "is_optional": False,
              "package_version": "1.2.3", "package_manifest": "/p/Cargo.toml",
              "source": manifest.Source("path", "/q"), **options}
    is_never, fault = fields.pop("is_never", False), fields.pop("fault", None)
    is_tried = fields.pop("is_tried", True)
    found = tuple(VALUES[value] for value in values)
    why = {place: next(reasons) for place, value in enumerate(values) if value == "?"}
    dependency = manifest.Dependency(name=name, condition=condition, **fields)
    return manifest.Row(dependency, found, is_never, why, fault, is_tried)


def report(*rows, targets=("t1", "t2"), notes=()):
    """Returns a report with these rows on the host and on targets."""
    names = ["host", *targets]
    platforms = [
        _platforms.Platform(one, "h" if one == "host" else one, one == "host", frozenset(), True)
        for one in names
    ]
    return manifest.Report("/Cargo.toml", tuple(platforms), tuple(rows), tuple(notes))


def lines(found, width=None):
    """Returns the lines of the table of a report."""
    return list(_table.table_of(found, width))


class Table(unittest.TestCase):
    """The table for a terminal."""

    def test_columns(self):
        found = lines(report(
            row("log", "-yy"), row("cc", "y--", kind="build", is_optional=True),
            row("longer-name", "-n?", "cfg(a)", [LOOM], kind="dev"),
        ))
        self.assertEqual(found, [
            "dependency            host  t1   t2       condition",
            "log                   -     yes  yes",
            "cc (build, optional)  yes   -    -",
            "longer-name (dev)     -     no   unknown  cfg(a)",
            "",
            _table.EXPLANATION,
            "  loom",
            "    longer-name (dev): yes if loom; no if not(loom)",
            "host h; 3 rows: 2 yes, 1 unknown",
        ])

    def test_marks(self):
        rows = [
            ("normal", False, "a"), ("normal", True, "a (optional)"),
            ("dev", False, "a (dev)"), ("dev", True, "a (dev, optional)"),
            ("build", False, "a (build)"), ("build", True, "a (build, optional)"),
        ]
        for kind, is_optional, wanted in rows:
            made = row("a", "y", kind=kind, is_optional=is_optional)
            self.assertEqual(_table.name_of(made), wanted)

    def test_packages(self):
        found = lines(report(row("a", "y"), row("b", "n", package="q"), targets=()))
        self.assertEqual(found[:3], [
            "package  dependency  host  condition", "p        a           yes",
            "q        b           no",
        ])

    def test_the_last_line(self):
        rows = [
            ((), "0 rows: none"), (["yyy", "-y-", "y--"], "3 rows: 3 yes"),
            (["---", "nnn", "-nn", "-yn", "y?n"],
             "5 rows: 2 no, 1 yes or no, 1 unknown, 1 not read"),
        ]
        for left, end in ((1, "; 1 row not tried out"), (2, "; 2 rows not tried out")):
            made = [row("a", "?", unknown=[MANY], is_tried=number >= left) for number in range(3)]
            wanted = f"host h; 3 rows: 3 unknown{end}"
            self.assertEqual(lines(report(*made, targets=()))[-1], wanted)
        for values, wanted in rows:
            made = [row("a", one, unknown=[LOOM]) for one in values]
            self.assertEqual(lines(report(*made))[-1], f"host h; {wanted}")

    def test_reasons(self):
        rows = [row(f"d{number}", "-??", "cfg(loom)", [LOOM, LOOM]) for number in range(5)]
        rows += [row("e", "-?n", "cfg(x)", [BOTH]), row("f", "-y?", "cfg(y)", [MANY]),
                 row("d0", "-?n", "cfg(z)", [LOOM])]
        found = lines(report(*rows))
        self.assertEqual(found[found.index(_table.EXPLANATION) + 1:-1], [
            "  loom",
            "    d0, d1, d2 and 2 more: yes if loom; no if not(loom)",
            '  a, k="v"',
            '    e: for example, yes if a; no if not(a) and not(k="v")',
            "  a, b, c",
            f"    f: {_table.NOT_TRIED}",
        ])

    def test_reasons_of_several_packages(self):
        rows = [row("a", "?", "cfg(loom)", [LOOM], package=package) for package in ("p", "q")]
        rows.append(row("b", "?", "cfg(loom)", [LOOM], package="q", kind="dev"))
        found = lines(report(*rows, targets=()))
        self.assertEqual(found[found.index(_table.EXPLANATION) + 1:-1], [
            "  loom",
            "    p a, q a, q b (dev): yes if loom; no if not(loom)",
        ])

    def test_a_width_that_suffices(self):
        made = report(row("log", "-yy", "cfg(" + "x" * 30 + ")"))
        whole = lines(made)
        width = len(whole[1])
        self.assertEqual(lines(made, width), whole)
        cut = lines(made, width - 1)
        self.assertEqual(cut[1], whole[1][:width - 3] + "..")
        self.assertEqual(cut[0], whole[0])

    def test_columns_with_numbers(self):
        made = report(row("log", "-yy", "cfg(unix)"), targets=("long-triple-1", "long-triple-2"))
        self.assertEqual(lines(made, 44)[:4], [
            "1: long-triple-1", "2: long-triple-2",
            "dependency  host  1    2    condition", "log         -     yes  yes  cfg(unix)",
        ])

    def test_blocks(self):
        names = [f"target-{number}" for number in range(9)]
        made = report(row("log", "-yyyyyyyyn", "cfg(" + "x" * 40 + ")"), targets=names)
        found = lines(made, 60)
        heads = [line for line in found if line.startswith("dependency")]
        self.assertEqual([head.split()[1:-1] for head in heads],
                         [["host", "1", "2", "3"], ["4", "5", "6", "7"], ["8", "9"]])
        rows = [line for line in found if line.startswith("log")]
        self.assertTrue(all(len(line) <= 60 and line.endswith("xx..") for line in rows), rows)

    def test_a_width_for_an_explanation(self):
        made = report(row("a", "-?y", "cfg(loom)", [LOOM]))
        whole = [_table.EXPLANATION, "  loom", "    a: yes if loom; no if not(loom)"]
        narrow = [
            "unknown: flags that", "  RUSTFLAGS may set (see", "  --cfg and", "  --no-other-cfg)",
            "  loom", "    a: yes if loom; no", "      if not(loom)",
        ]
        middle = [
            "unknown: flags that RUSTFLAGS may set (see --cfg and", "  --no-other-cfg)", *whole[1:],
        ]
        rows = [(None, whole), (200, whole), (68, whole), (67, middle), (24, narrow), (1, narrow)]
        for width, wanted in rows:
            with self.subTest(width=width):
                self.assertEqual(lines(made, width)[-1 - len(wanted):-1], wanted)

    def test_cells_of_a_terminal(self):
        # Wide characters take two cells, and marks over others none.
        found = lines(report(
            row("日本語", "-yn", "cfg(a)"), row("ascii", "-ny", "cfg(b)"),
            row("e\u0301t\u0301", "-yy", "cfg(c)"), row("ＡＢ (x)", "-nn", "cfg(d)"),
            targets=("목표", "t2"),
        ))
        self.assertEqual(found[:5], [
            "dependency  host  목표  t2   condition",
            "日本語      -     yes   no   cfg(a)", "ascii       -     no    yes  cfg(b)",
            "e\u0301t\u0301          -     yes   yes  cfg(c)", "ＡＢ (x)    -     no    no   cfg(d)",
        ])

    def test_a_width_in_cells(self):
        made = report(row("日本", "-yn", f"cfg({'語' * 20})"))
        # In front of the condition stand 27 cells. Of the next 24, the two dots take two.
        for width in (51, 52):
            self.assertEqual(lines(made, width)[1], f"日本        -     yes  no  cfg({'語' * 9}..")
        self.assertEqual(lines(made, 53)[1], f"日本        -     yes  no  cfg({'語' * 10}..")

    def test_colours(self):
        made = report(row("yes", "-yn", "cfg(no)"), row("b", "-?y", None, [LOOM]),
                      targets=("no", "unknown"))
        found = list(_table.table_of(made, None, is_coloured=True))
        self.assertEqual(found[:3], [
            "dependency  host  no       unknown  condition",
            "yes         -     \x1b[32myes\x1b[0m      \x1b[31mno\x1b[0m       cfg(no)",
            "b           -     \x1b[33munknown\x1b[0m  \x1b[32myes\x1b[0m",
        ])
        plain = [re.sub("\x1b.*?m", "", line).rstrip() for line in found]
        self.assertEqual(plain, lines(made))

    def test_colours_of_a_summary(self):
        made = report(row("a", "-yn", "cfg(no)"))
        found = list(_table.summary_table_of(made, None, is_coloured=True))
        self.assertEqual(found, list(_table.summary_table_of(made, None)))

    def test_rows_that_are_left_out(self):
        rows = [(0, 1, "1 row: 1 yes"), (1, 1, "1 of 2 rows: 1 yes"), (2, 0, "0 of 2 rows: none"),
                (1, 0, "0 of 1 row: none"), (0, 2, "2 rows: 2 yes")]
        for left_out, count, wanted in rows:
            made = report(*[row("a", "-yy")] * count)
            for table in (_table.table_of, _table.summary_table_of):
                self.assertEqual(list(table(made, None, left_out))[-1], f"host h; {wanted}")

    def test_a_width_for_nothing(self):
        made = report(row("a-long-name", "-yy", "cfg(" + "x" * 40 + ")"))
        for width in range(1, 120):
            for line in lines(made, width):
                self.assertNotIn("\n", line)
            self.assertIn("yes", "".join(lines(made, width)))

    def test_a_summary(self):
        made = report(
            row("log", "-yyyyyy"), row("a", "-ynyyyy", "cfg(a)"), row("b", "-nnnnyy", "cfg(b)"),
            row("c", "-nnnnnn", "cfg(c)", is_never=True),
            row("d", "---????", "cfg(d)", [LOOM] * 4), row("e", "-yyynnn", "cfg(e)"),
            targets=("t1", "t2", "t3", "t4", "t5", "t6"),
        )
        found = [re.split(" {2,}", line) for line in _table.summary_table_of(made, None)]
        self.assertEqual(found[:7], [
            ["dependency", "yes", "no", "unknown", "smaller group", "condition"],
            ["log", "6", "0", "0"],
            ["a", "5", "1", "0", "no: t2", "cfg(a)"],
            ["b", "2", "4", "0", "yes: t5, t6", "cfg(b)"],
            ["c", "0", "6", "0", "never", "cfg(c)"],
            ["d", "0", "0", "4", "cfg(d)"],
            ["e", "3", "3", "0", "yes: t1, t2, t3", "cfg(e)"],
        ])

    def test_a_summary_of_many(self):
        more = report(row("a", "-yyyyynnnnnn", "cfg(a)"), targets=[f"t{n}" for n in range(11)])
        self.assertIn("  yes: t0, t1, t2, ..  ", list(_table.summary_table_of(more, None))[1])

    def test_a_summary_that_is_too_wide(self):
        names = [f"target-{number}" for number in range(5)]
        condition = f"cfg({'x' * 40})"
        made = report(row("a", "-yynnn", condition), row("b", "-nnnnn", "cfg(b)", is_never=True),
                      targets=names)
        group = "yes: target-0, target-1"
        whole = list(_table.summary_table_of(made, None))
        self.assertEqual(list(_table.summary_table_of(made, len(whole[1]))), whole)
        self.assertEqual(list(_table.summary_table_of(made, 54))[:7], [
            "dependency  yes  no  unknown  condition",
            f"a           2    3   0        {condition[:22]}..",
            "b           0    5   0        cfg(b)", "",
            "dependency  smaller group", f"a           {group}", "b           never",
        ])
        cut = list(_table.summary_table_of(made, 34))
        self.assertIn(f"a           {group[:20]}..", cut)


class Programs(unittest.TestCase):
    """JSON and TSV."""

    def test_json(self):
        fault = Fault(Reason.UNEXPECTED, (4, 9))
        made = report(
            row("a", "-??", "cfg(loom)", [LOOM, LOOM], renamed_from="b", is_optional=True),
            row("c", "nnn", "cfg(panic)", kind="build", is_never=True, fault=fault),
            row("é\u202e", "-??", None, [LOOM, BOTH], is_tried=False), notes=["one"],
        )
        text = "\n".join(_formats.json_of(made, False))
        self.assertTrue(text.isascii())
        found = json.loads(text)
        self.assertEqual(found, {
            "version": 1,
            "manifest": "/Cargo.toml",
            "platforms": [
                {"name": "host", "triple": "h", "host": True},
                {"name": "t1", "triple": "t1", "host": False},
                {"name": "t2", "triple": "t2", "host": False},
            ],
            "dependencies": [
                {**USUAL, "package": "p", "name": "a", "renamed_from": "b", "kind": "normal",
                 "optional": True, "condition": "cfg(loom)", "values": ["-", "unknown", "unknown"],
                 "never": False, "tried": True, "fault": None,
                 "unknown": [{"platforms": [1, 2], "flags": ["loom"], "if_yes": {"loom": True},
                              "if_no": {"loom": False}}]},
                {**USUAL, "package": "p", "name": "c", "renamed_from": None, "kind": "build",
                 "optional": False, "condition": "cfg(panic)", "values": ["no", "no", "no"],
                 "never": True, "unknown": [], "tried": True,
                 "fault": {"reason": "UNEXPECTED", "span": [4, 9]}},
                {**USUAL, "package": "p", "name": "é\u202e", "renamed_from": None,
                 "kind": "normal", "optional": False, "condition": None,
                 "values": ["-", "unknown", "unknown"],
                 "never": False, "tried": False, "fault": None,
                 "unknown": [{"platforms": [1], "flags": ["loom"], "if_yes": {"loom": True},
                              "if_no": {"loom": False}},
                             {"platforms": [2], "flags": ["a", 'k="v"'], "if_yes": {"a": True},
                              "if_no": {"a": False, 'k="v"': False}}]},
            ],
            "tried": False,
            "notes": ["one"],
        })

    def test_json_without_rows(self):
        found = json.loads("\n".join(_formats.json_of(report(targets=()), False)))
        self.assertEqual((found["dependencies"], found["notes"], found["tried"]), ([], [], True))

    def test_json_of_a_summary(self):
        made = report(row("a", "-yn?", "cfg(a)", [LOOM]), row("b", "yyyy"),
                      targets=("t1", "t2", "t3"))
        first, second = json.loads("\n".join(_formats.json_of(made, True)))["dependencies"]
        self.assertEqual(first["counts"], {"yes": 1, "no": 1, "unknown": 1, "-": 1})
        self.assertEqual(first["smaller"], {"value": "yes", "platforms": ["t1"]})
        self.assertEqual(second["smaller"], None)
        self.assertNotIn("values", first)

    def test_tsv(self):
        made = report(row("a", "-yn", "cfg(a)", kind="dev", is_optional=True),
                      row("b", "-y?", None, [LOOM]))
        self.assertEqual(list(_formats.tsv_of(made, False)), [
            f"package\tdependency\tkind\toptional\thost\tt1\tt2\tcondition\t{DETAILED}",
            f"p\ta\tdev\tyes\t-\tyes\tno\tcfg(a){DETAILS}",
            f"p\tb\tnormal\tno\t-\tyes\tunknown\t{DETAILS}",
        ])
        self.assertEqual(list(_formats.tsv_of(made, True)), [
            f"package\tdependency\tkind\toptional\tyes\tno\tunknown\tnever\tcondition\t{DETAILED}",
            f"p\ta\tdev\tyes\t1\t1\t0\tno\tcfg(a){DETAILS}",
            f"p\tb\tnormal\tno\t1\t0\t1\tno\t{DETAILS}",
        ])


class Hostile(unittest.TestCase):
    """What is not printable."""

    def made(self):
        """Returns a report whose texts have such characters."""
        reason = Unknown((f'k="{HOSTILE}"',), {f'k="{HOSTILE}"': True}, {f'k="{HOSTILE}"': False})
        return report(
            row(f"a{HOSTILE}", "-??", f'cfg(k = "{HOSTILE}")', [reason] * 2, package=HOSTILE,
                kind="dev"),
            row("b", "-yy"), targets=(f"t{HOSTILE}", "t2"),
        )

    def test_each_format(self):
        made = self.made()
        for found in (_table.table_of(made, None), _table.summary_table_of(made, None),
                      _table.table_of(made, 60), _formats.tsv_of(made, False),
                      _formats.tsv_of(made, True)):
            text = "\n".join(found)
            self.assertTrue(text.replace("\n", "").replace("\t", "").isprintable(), ascii(text))
        self.assertIn(SHOWN, "\n".join(_table.table_of(made, None)))
        for is_summary in (False, True):
            text = "\n".join(_formats.json_of(made, is_summary))
            self.assertTrue(text.isascii() and text.replace("\n", "").isprintable())
            self.assertEqual(json.loads(text)["dependencies"][0]["package"], HOSTILE)

    def test_what_is_escaped(self):
        # The control characters C0 and C1, and what sets a direction or ends a line.
        escaped = {*range(0x20), *range(0x7F, 0xA0), *range(0x202A, 0x202F), *range(0x2066, 0x206A),
                   0x200E, 0x200F, 0x061C, 0x2028, 0x2029}
        for number in sorted(escaped):
            found = _table.shown(f"a{chr(number)}b")
            self.assertRegex(found, r"\Aa\\([nrt]|x[0-9a-f]{2}|u[0-9a-f]{4})b\Z")

    def test_what_is_shown_as_it_is(self):
        text = "".join(map(chr, range(0x20, 0x7F))) + "é日𝄞"
        self.assertEqual(_table.shown(text), text)

    def test_errors(self):
        for error in (manifest.CargoError, manifest.RequestError):
            self.assertEqual(str(error(f"{HOSTILE[1:]}\nb")), f"{SHOWN[2:]}\nb")


class Shared(unittest.TestCase):
    """What is made once of an object that many rows share."""

    def test_each_object(self):
        made = []
        once = _once.Once(lambda given: made.append(given) or len(given))
        lists = [[1], [1], [1, 2]]
        self.assertEqual([once(one) for one in lists + lists], [1, 1, 2, 1, 1, 2])
        self.assertEqual(made, lists)

    def test_objects_that_are_gone(self):
        # A new object may have the address of one that is gone.
        once = _once.Once(len)
        self.assertEqual([once([0] * count) for count in range(100)], list(range(100)))


class Summaries(unittest.TestCase):
    """How many platforms have each value."""

    def test_groups(self):
        rows = [("-yyn", Value.NO, ("t3",)), ("nyyn", Value.YES, ("t1", "t2")), ("-yyy", None, ()),
                ("----", None, ()), ("-y?n", Value.YES, ("t1",)), ("-?yy", Value.UNKNOWN, ("t1",))]
        for values, smaller, names in rows:
            made = report(row("a", values, "cfg(a)", [LOOM]), targets=("t1", "t2", "t3"))
            found = _summary.summary_of(made.rows[0].values, made.platforms)
            self.assertEqual((found.smaller, found.names), (smaller, names))
            self.assertEqual(sum(found.counts.values()), 4)
