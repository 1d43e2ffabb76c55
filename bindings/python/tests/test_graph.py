"""Which packages of a graph a build reaches, and by which way."""
import collections
import json
import random
import unittest

from . import graphs
from .graphs import HOST, LINUX, WINDOWS, graph_of, letters_of, metadata, rows_of

from cfgx.manifest import Value, _graph, _resolved_formats
from cfgx.manifest._resolved import Resolved

# Dependencies, and what each package is built for on Linux and on Windows, with a host that is
# Linux: `t` for the target, `h` for the host, `b` for both, `n` for none, `?` for unknown.
REACHED = [
    (["app > a", "a > b cfg(windows)"], "app tt a tt b nt"),
    # The conditions on a way hold together nowhere.
    (["app > a cfg(windows)", "a > b cfg(unix)"], "a nt b nn"),
    (["app > a cfg(windows)", "app > b cfg(unix)", "a > c", "b > c"], "a nt b tn c tt"),
    (["app > a windows", "app > b linux", "app > c mac"], "a nt b tn c nn"),
    (["app > a cfg(windows)", "app > a cfg(unix)"], "a tt"),
    # A build-dependency is read and built on the host.
    (["app-built > a build cfg(unix)", "app-built > b build cfg(windows)"], "a hh b nn"),
    (["app-built > a build", "a > b cfg(windows)", "a > c cfg(unix)"], "a hh b nn c hh"),
    (["app > a build"], "app tt a nn"),
    (["app > a-built cfg(windows)", "a-built > b build"], "a-built nt b nh"),
    (["app-built > a-built build", "a-built > b build cfg(unix)", "a-built > c"], "b hh c hh"),
    # A proc-macro is built for the host, and a condition that leads to it is read on the target.
    (["app > mac", "mac > a cfg(windows)", "mac > b cfg(unix)"], "mac hh a nn b hh"),
    (["app > mac cfg(windows)", "mac > a"], "mac nh a nh"),
    (["app > a", "app > mac", "mac > a", "a > b"], "a bb b bb"),
    (["appmac > a cfg(windows)", "appmac > b cfg(unix)", "appmac > c dev"],
     "appmac hh a nn b hh c hh"),
    # Only the packages with which a build begins read their dev-dependencies.
    (["app > a dev", "a > b dev", "a > c"], "a tt b nn c tt"),
    (["app > a dev cfg(windows)"], "a nt"),
    (["app > a dev", "a > app", "app > b"], "a tt app tt b tt"),
    (["app-built > a build", "a > app-built cfg(unix)", "app-built > b dev"], "app-built bb b tt"),
    # What flags decide is unknown. With a target, no flag reaches the host.
    (["app > a cfg(loom)", "a > b", "a > c cfg(windows)"], "a ?? b ?? c n?"),
    (["app > a cfg(loom)", "app > b", "a > b"], "a ?? b tt"),
    (["app-built > a build cfg(loom)", "app-built > b build cfg(not(loom))"], "a nn b hh"),
    (["app > mac cfg(loom)", "mac > a cfg(loom)", "mac > b"], "mac ?? a nn b ??"),
    (["app > a cfg(any(windows, loom))"], "a ?t"),
    # Each condition is judged by itself, also if it is the opposite of another one.
    (["app > a cfg(loom)", "a > b cfg(not(loom))"], "b ??"),
    (["app > a cfg(loom)", "app > b cfg(not(loom))", "a > c", "b > c"], "c ??"),
]
# The packages with which a build begins, and what is built then.
ROOTS = [
    (["app > app2", "app2 > a dev", "app2 > b"], ["app"], "app2 tt a nn b tt"),
    (["app > app2", "app2 > a dev", "app2 > b"], ["app", "app2"], "app2 tt a tt b tt"),
    (["app > a", "app2 > b"], ["app2"], "app nn a nn app2 tt b tt"),
]
# The kinds that are followed, and what is built then.
KINDS = [
    (["normal"], "a tt b nn c nn"), (["normal", "build"], "a tt b nn c hh"),
    (["dev"], "a nn b tt c nn"), (["build"], "a nn b nn c hh"),
]
# Dependencies, a package, and the ways to it: one on the first platform where it is built, and one
# on the first where this is unknown.
WAYS = [
    (["app > a", "a > b", "b > c", "app > c cfg(windows)"], "c", ["app > a > b > c"]),
    (["app > a cfg(windows)", "a > c", "app > x cfg(unix)", "x > y", "y > c"], "c",
     ["app > x [cfg(unix)] > y > c"]),
    (["app > a cfg(windows)", "a > b windows"], "b", ["app > a [cfg(windows)] > b [windows]"]),
    (["app-built > a build", "a > b", "app-built > c dev"], "b", ["app-built > a (build) > b"]),
    (["app > a dev cfg(unix)"], "a", ["app > a (dev) [cfg(unix)]"]),
    (["app > a cfg(loom)", "a > b cfg(windows)"], "b", ["app > a [cfg(loom)] > b [cfg(windows)]"]),
    (["app > a cfg(loom)", "app > b cfg(windows)", "b > a"], "a",
     ["app > b [cfg(windows)] > a", "app > a [cfg(loom)]"]),
    (["app > app2", "app2 > a"], "a", ["app2 > a"]), (["app > a"], "app", ["app"]),
    (["app > a cfg(windows)", "a > b cfg(unix)"], "b", []),
]
# The features of `app` that are on, its table, and the optional packages that are on.
FEATURES = [
    ([], {"x": ["dep:a"]}, ""), (["x"], {"x": ["dep:a"]}, "a"), (["a"], {"a": ["dep:a"]}, "a"),
    (["x"], {"x": ["a/std"]}, "a"), (["x"], {"x": ["a?/std"]}, ""),
    (["x", "y"], {"x": ["a?/std"], "y": ["dep:a"]}, "a"), (["x"], {"x": ["a?/std", "dep:b"]}, "b"),
    (["default", "x"], {"default": ["x"], "x": ["dep:a", "b/y"]}, "ab"),
    (["x"], {"x": ["y"], "y": ["dep:a"]}, ""), (["a"], {}, "a"), (["x"], {"x": []}, ""),
]


class Rows(unittest.TestCase):
    """Rows that were worked out by hand."""

    def assert_letters(self, rows, wanted):
        """Compares packages with names, each in front of its letters."""
        words = wanted.split()
        for name, letters in zip(words[::2], words[1::2]):
            self.assertEqual((name, letters_of(rows[name])), (name, letters))

    def test_what_is_reached(self):
        for lines, wanted in REACHED:
            with self.subTest(lines=lines):
                self.assert_letters(rows_of(graph_of(*lines)), wanted)

    def test_roots(self):
        for lines, roots, wanted in ROOTS:
            with self.subTest(lines=lines, roots=roots):
                self.assert_letters(rows_of(graph_of(*lines), roots=roots), wanted)

    def test_kinds(self):
        graph = graph_of("app-built > a", "app-built > b dev", "app-built > c build")
        for kinds, wanted in KINDS:
            with self.subTest(kinds=kinds):
                self.assert_letters(rows_of(graph, kinds=kinds), wanted)

    def test_without_a_target(self):
        host = HOST.__class__("host", "linux", True, LINUX.facts, True)
        rows = rows_of(graph_of("app-built > a", "app-built > b build cfg(loom)", "a > mac",
                                "app-built > c cfg(windows)"), [host])
        found = {name: (row.values[0].value, row.for_target[0].value, row.for_host[0].value)
                 for name, row in rows.items()}
        self.assertEqual(found, {
            "app-built": ("yes", "no", "yes"), "a": ("yes", "no", "yes"),
            "b": ("unknown", "no", "unknown"), "mac": ("yes", "no", "yes"),
            "c": ("no", "no", "no"),
        })

    def test_ways(self):
        for lines, name, wanted in WAYS:
            with self.subTest(lines=lines):
                rows = rows_of(graph_of(*lines))
                report = Resolved("", "", (LINUX, WINDOWS), tuple(rows.values()), (), True)
                names = _resolved_formats.Names(report)
                self.assertEqual([names.way(one) for one in rows[name].routes], wanted)
                values = [one.value for one in rows[name].routes]
                self.assertEqual(values, sorted(set(rows[name].values) - {Value.NO},
                                                key=[*Value].index))

    def test_a_long_way(self):
        rows = rows_of(graph_of("app > p00", *(f"p{n:02} > p{n + 1:02}" for n in range(70))))
        [route] = rows["p70"].routes
        self.assertEqual((len(route.legs), route.omitted, route.start.name), (50, 21, "p20"))
        self.assertEqual([leg.package.name for leg in route.legs],
                         [f"p{n}" for n in range(21, 71)])

    def test_each_package_is_one_row(self):
        lines = ["app > a", "app > a dev", "app > a build", "app > mac", "mac > a", "app2 > a"]
        graph = graph_of(*lines)
        self.assertEqual(sorted(one.name for one in graph.packages), ["a", "app", "app2", "mac"])


class Features(unittest.TestCase):
    """Which optional dependencies are on."""

    def test_optional_dependencies(self):
        for on, table, wanted in FEATURES:
            with self.subTest(on=on, table=table):
                graph = graph_of("app > a", "app > b", "app > c", optional=("a", "b"),
                                 features={"app": (table, on)})
                found = "".join(name for name, row in rows_of(graph).items()
                                if row.values[0] is Value.YES and name != "app")
                self.assertEqual(found, wanted + "c")

    def test_two_rows_for_one_package(self):
        # `old` stands for another version of the package `a`.
        found = metadata("app > a", "app > b", optional=("b",))
        for one in found["packages"]:
            one["name"] = "a" if one["name"] == "b" else one["name"]
            for row in one["dependencies"]:
                if row["name"] == "b":
                    row.update(name="a", rename="old")
        found["resolve"]["nodes"][1]["deps"][1]["name"] = "old"
        graph = _graph.read(found, found["packages"])
        self.assertEqual([graph.packages[edge.target].identity for edges in graph.edges
                          for edge in edges], ["path+file:///a#0.1.0"])

    def test_what_no_feature_needs(self):
        found = metadata("app > a")
        every = [*found["packages"], graphs.listed("z")]
        rows = rows_of(_graph.read(found, every))
        self.assertEqual((letters_of(rows["z"]), rows["z"].features, rows["z"].routes),
                         ("nn", (), ()))

    def test_words(self):
        rows = [
            (_graph.Features(), []), (_graph.ALL_FEATURES, ["--all-features"]),
            (_graph.Features(("a", "b,c/d"), False),
             ["--no-default-features", "--features=a", "--features=b,c/d"]),
        ]
        for features, wanted in rows:
            self.assertEqual(features.words(), wanted)


# Conditions, and their values on Linux and Windows: true, false or unknown.
CONDITIONS = {
    None: (True, True), "cfg(windows)": (False, True), "cfg(unix)": (True, False),
    "windows": (False, True), "cfg(loom)": (None, None), "cfg(all(unix, loom))": (None, False),
    "cfg(any(unix, loom))": (True, None),
}


def shortest(lines, platform, is_possible):
    """Returns the lengths of the shortest ways to each package, and to what it is built for, on a
    platform: by all steps from what was reached, again and again."""
    def holds(condition, is_host):
        value = CONDITIONS[condition][0 if is_host else platform]
        # No flag reaches the host.
        value = condition == "cfg(any(unix, loom))" if is_host and value is None else value
        return value is True or (is_possible and value is None)

    rows = [graphs.divided(line) for line in lines]
    names = {name for front, name, _, _ in rows for name in (front, name)}
    lengths = {(name, name.startswith("appmac")): 0 for name in names if name.startswith("app")}
    for length in range(1, 2 * len(names) + 1):
        for (front, is_host), before in list(lengths.items()):
            for start, name, kind, condition in rows:
                is_read = {"normal": True, "build": front.endswith("-built"),
                           "dev": front.startswith("app")
                           and is_host == front.startswith("appmac")}[kind]
                there = is_host or kind == "build"
                place = name, there or name.startswith(("mac", "appmac"))
                if start == front and is_read and before == length - 1 and place not in lengths \
                        and holds(condition, there):
                    lengths[place] = length
    return lengths


class Random(unittest.TestCase):
    """Graphs at random, beside a search that takes every step again and again."""

    NAMES = ["app", "app2-built", "mac", "mac2-built", "a", "b-built", "c", "d-built", "e", "f"]

    def lines(self, random_source):
        """Returns dependencies at random, without a circle but for one through tests."""
        found = []
        for _ in range(random_source.randrange(3, 22)):
            first, second = sorted(random_source.sample(range(len(self.NAMES)), 2))
            kind = random_source.choice(["", "", "", "build ", "dev "])
            if kind == "dev " and random_source.random() < 0.3:
                first, second = second, first
            condition = random_source.choice([one or "" for one in CONDITIONS])
            found.append(f"{self.NAMES[first]} > {self.NAMES[second]} {kind}{condition}".rstrip())
        return list(dict.fromkeys(found))

    def test_values_and_ways(self):
        source, compared = random.Random(87), collections.Counter()
        for _ in range(500):
            lines = self.lines(source)
            rows = rows_of(graph_of(*lines))
            for platform in range(2):
                certain, possible = (shortest(lines, platform, one) for one in (False, True))
                for name, row in rows.items():
                    self.assert_row(row, platform, certain, possible, lines)
                    compared[row.values[platform].value] += 1
        self.assertGreater(min(compared[value] for value in ("yes", "no", "unknown")), 500)

    def assert_row(self, row, platform, certain, possible, lines):
        """Compares the values and the ways of a package on a platform."""
        name = row.package.name
        for is_host, values in ((False, row.for_target), (True, row.for_host)):
            wanted = "yes" if (name, is_host) in certain else (
                "unknown" if (name, is_host) in possible else "no")
            self.assertEqual(values[platform].value, wanted, (name, is_host, lines))
        for route in row.routes:
            lengths = certain if route.value is Value.YES else possible
            ways = [lengths[place] for place in ((name, False), (name, True)) if place in lengths]
            if route.platform == platform:
                self.assertEqual(len(route.legs), min(ways), (name, lines))
                self.assert_way(route, name, lines)

    def assert_way(self, route, name, lines):
        """Fails if a way is none: each step of it is a dependency."""
        rows = list(map(graphs.divided, lines))
        front = route.start.name
        self.assertTrue(front.startswith("app"), lines)
        for leg in route.legs:
            self.assertIn((front, leg.package.name, leg.kind, leg.condition), rows)
            front = leg.package.name
        self.assertEqual(front, name)
        is_certain = all(leg.value is Value.YES for leg in route.legs)
        self.assertEqual(is_certain, route.value is Value.YES)


class Formats(unittest.TestCase):
    """What is printed of a graph."""

    def report(self, *lines, platforms=(HOST, LINUX, WINDOWS)):
        """Returns the report on a graph."""
        rows = rows_of(graph_of(*lines), platforms)
        return Resolved("/Cargo.toml", "linux", tuple(platforms[1:] or platforms),
                        tuple(rows.values()), (), True)

    def test_a_table(self):
        made = self.report("app > a cfg(windows)", "app > mac", "app > b cfg(loom)")
        self.assertEqual(list(_resolved_formats.table_of(made, None, False)), [
            "package  version  linux       windows     shortest way",
            "a        0.1.0    no          yes         app > a [cfg(windows)]",
            "app      0.1.0    yes         yes         app",
            "b        0.1.0    unknown     unknown     app > b [cfg(loom)]",
            "mac      0.1.0    yes (host)  yes (host)  app > mac",
            "",
            "unknown: flags that RUSTFLAGS may set (see --cfg and --no-other-cfg)",
            "  loom",
            "    b 0.1.0",
            "host linux; 4 packages: 2 yes, 1 yes or no, 1 unknown",
        ])
        # A narrow table has room for a word at least.
        for width in (24, 1):
            self.assertEqual(list(_resolved_formats.table_of(made, width, False))[-7:-1], [
                "unknown: flags that", "  RUSTFLAGS may set (see", "  --cfg and",
                "  --no-other-cfg)", "  loom", "    b 0.1.0",
            ])

    def test_a_summary(self):
        made = self.report("app > a cfg(windows)", "app > b", "b > c mac")
        self.assertEqual(list(_resolved_formats.table_of(made, None, True)), [
            "package  version  yes  no  unknown  smaller group  shortest way",
            "a        0.1.0    1    1   0        yes: windows   app > a [cfg(windows)]",
            "app      0.1.0    2    0   0                       app",
            "b        0.1.0    2    0   0                       app > b",
            "c        0.1.0    0    2   0        never",
            "",
            "host linux; 4 packages: 2 yes, 1 no, 1 yes or no",
        ])

    def test_tsv(self):
        made = self.report("app > a cfg(windows)", "app > mac")
        self.assertEqual(list(_resolved_formats.tsv_of(made, False)), [
            "package\tversion\tsource\tlocation\tmember\tlinux\twindows\tway",
            "a\t0.1.0\tpath\t/a\tno\tno\tyes\tapp > a [cfg(windows)]",
            "app\t0.1.0\tpath\t/app\tyes\tyes\tyes\tapp",
            "mac\t0.1.0\tpath\t/mac\tno\tyes (host)\tyes (host)\tapp > mac",
        ])
        self.assertEqual(list(_resolved_formats.tsv_of(made, True))[:2], [
            "package\tversion\tsource\tlocation\tmember\tyes\tno\tunknown\tway",
            "a\t0.1.0\tpath\t/a\tno\t1\t1\t0\tapp > a [cfg(windows)]",
        ])

    def test_json(self):
        made = self.report("app > a build", "app > b-built cfg(loom)", "b-built > c build")
        text = "\n".join(_resolved_formats.json_of(made, False))
        found = json.loads(text)
        self.assertTrue(text.isascii())
        self.assertEqual([one["name"] for one in found["platforms"]], ["linux", "windows"])
        identity = {name: f"path+file:///{name}#0.1.0" for name in ("app", "b-built", "c")}
        self.assertEqual(found["packages"][3], {
            "name": "c", "version": "0.1.0", "id": identity["c"], "source": "path",
            "location": "/c", "manifest": "/c/Cargo.toml", "member": False, "features": [],
            "values": ["unknown"] * 2, "for_target": ["no"] * 2, "for_host": ["unknown"] * 2,
            "ways": [{
                "value": "unknown", "platform": 0, "omitted": 0,
                "start": {"name": "app", "version": "0.1.0", "id": identity["app"]},
                "steps": [
                    {"name": "b-built", "version": "0.1.0", "id": identity["b-built"],
                     "kind": "normal", "condition": "cfg(loom)", "value": "unknown",
                     "flags": ["loom"], "for_host": False},
                    {"name": "c", "version": "0.1.0", "id": identity["c"], "kind": "build",
                     "condition": None, "value": "yes", "flags": [], "for_host": True},
                ],
            }],
        })
        self.assertEqual([one["name"] for one in found["packages"]], ["a", "app", "b-built", "c"])

    def test_names_of_several_versions(self):
        made = self.report("app > a", "a > b")
        rows = [row if row.package.name != "b" else row.__class__(**{
            **vars(row), "package": row.package.__class__(**{**vars(row.package), "name": "a",
                                                             "version": "0.2.0"})})
                for row in made.rows]
        names = _resolved_formats.Names(Resolved("", "", made.platforms, tuple(rows), (), True))
        self.assertEqual(names.way(rows[0].routes[0]), "app > a@0.1.0")

    def test_what_is_not_printable(self):
        made = self.report("app > a\u202e\x1b", "a\u202e\x1b > b cfg(loom)")
        for is_summary in (False, True):
            for lines in (_resolved_formats.table_of(made, None, is_summary),
                          _resolved_formats.tsv_of(made, is_summary),
                          _resolved_formats.json_of(made, is_summary)):
                text = "".join(lines).replace("\t", "")
                self.assertTrue(text.isprintable())
                self.assertIn("a\\u202e\\", text)
