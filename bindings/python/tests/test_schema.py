"""The schema of the JSON, beside what is printed and beside the page."""
import json
import os
import re
import unittest

from . import ROOT
from .graphs import HOST, LINUX, WINDOWS, graph_of, rows_of
from .test_command import Made, dependency_of
from .test_formats import LOOM, report, row

import cfgx
from cfgx.manifest import _formats, _resolved_formats, _schema
from cfgx.manifest._conditions import Fault
from cfgx.manifest._resolved import Resolved

MANIFESTS_PAGE = os.path.join(ROOT, "docs", "MANIFESTS.md")
SCHEMA = json.loads(_schema.text())
TYPES = {"array": list, "boolean": bool, "integer": int, "null": type(None), "object": dict,
         "string": str}
NOTES = {"$schema", "$defs", "title", "description", "x-since"}


def resolved_of(schema):
    """Returns a schema, or the one that it refers to."""
    name = schema.get("$ref")
    return schema if name is None else SCHEMA["$defs"][name.rpartition("/")[2]]


def faults(value, schema, path=""):
    """Yields what a schema refuses of a value, and each member that it does not know. Raises
    `ValueError` for a word of a schema that is not known here."""
    schema = resolved_of(schema)
    for word, wanted in schema.items():
        if word not in NOTES:
            yield from FAULTS[word](value, wanted, path, schema)


def type_faults(value, wanted, path, schema):
    """Yields what is wrong with the type of a value."""
    types = [TYPES[one] for one in ([wanted] if isinstance(wanted, str) else wanted)]
    if type(value) not in types:
        yield f"{path} is {value!r}, and no {wanted}"


def property_faults(value, wanted, path, schema):
    """Yields what is wrong with the members of an object."""
    for name, member in (value or {}).items():
        if name not in wanted:
            yield f"{path}.{name} is not known"
        else:
            yield from faults(member, wanted[name], f"{path}.{name}")


def additional_faults(value, wanted, path, schema):
    """Yields what is wrong with members of any names."""
    for name, member in (value or {}).items():
        yield from faults(member, wanted, f"{path}.{name}")


def required_faults(value, wanted, path, schema):
    """Yields the members that are missing."""
    yield from (f"{path} has no {name}" for name in wanted
                if value is not None and name not in value)


def item_faults(value, wanted, path, schema):
    """Yields what is wrong with the items of a list."""
    for item in value:
        yield from faults(item, wanted, f"{path}[]")


def enum_faults(value, wanted, path, schema):
    """Yields a value that is none of those that are listed."""
    if value not in wanted:
        yield f"{path} is {value!r}, and none of {wanted}"


def name_faults(value, wanted, path, schema):
    """Yields what is wrong with the names of members."""
    for name in value:
        yield from faults(name, wanted, f"{path}.{name}")


def choice_faults(value, wanted, path, schema):
    """Yields that a value fits none or several of some schemas."""
    found = [list(faults(value, one, path)) for one in wanted]
    if sum(not one for one in found) != 1:
        yield f"{path} fits {sum(not one for one in found)} of {len(wanted)}: {found}"


FAULTS = {
    "type": type_faults, "properties": property_faults, "additionalProperties": additional_faults,
    "required": required_faults, "items": item_faults, "enum": enum_faults, "oneOf": choice_faults,
    "propertyNames": name_faults,
    "const": lambda value, wanted, path, schema: enum_faults(value, [wanted], path, schema),
}


def members_of(schema, path=""):
    """Yields each member that a schema has, with its schema."""
    schema = resolved_of(schema)
    for name, member in schema.get("properties", {}).items():
        yield f"{path}.{name}", member
        yield from members_of(member, f"{path}.{name}")
    if "items" in schema:
        yield from members_of(schema["items"], f"{path}[]")


def seen_in(value, path=""):
    """Yields the path of each member that is there and not null."""
    if isinstance(value, dict):
        for name, member in value.items():
            yield from [f"{path}.{name}"] if member is not None else []
            yield from seen_in(member, f"{path}.{name}")
    elif isinstance(value, list):
        for item in value:
            yield from seen_in(item, f"{path}[]")


def type_of(schema):
    """Returns the type of a member, as the page says it."""
    plural = {"string": "strings", "integer": "integers", "boolean": "booleans",
              "object": "objects"}
    types = schema["type"] if isinstance(schema["type"], list) else [schema["type"]]
    words = []
    for one in types:
        inner = resolved_of(schema.get("items", schema.get("additionalProperties", {})))
        if one == "array" or (one == "object" and inner):
            name = plural[inner.get("type", "string")]
            words.append(f"list of {name}" if one == "array" else f"object of {name}")
        else:
            words.append(one)
    return " or ".join(words)


def told_members():
    """Returns the rows of the tables of members on the page: the type and the version by the
    path."""
    with open(MANIFESTS_PAGE, encoding="utf-8") as file:
        text = file.read()
    rows = re.findall(r"^\| (`\..*?`) \| ([^|]+) \| ([\d.]+) \| [^|]+ \|$", text, re.M)
    return [(path, kind, since) for cell, kind, since in rows
            for path in re.findall(r"`(\.[^`]+)`", cell)]


class Schema(unittest.TestCase):
    """The schema by itself, and beside the page."""

    def members(self):
        """Returns the members of both forms. What both have is the same in both."""
        found = {}
        for name in ("report", "resolved"):
            for path, member in members_of(SCHEMA["$defs"][name]):
                found.setdefault(path, member)
                self.assertEqual(type_of(found[path]), type_of(member), path)
        return found

    def test_the_page(self):
        told, known = told_members(), self.members()
        self.assertEqual(len(told), len(dict.fromkeys(path for path, _, _ in told)))
        self.assertEqual(
            sorted(told),
            sorted((path, type_of(one), one["x-since"]) for path, one in known.items()),
        )

    def test_versions(self):
        now = tuple(map(int, cfgx.__version__.split(".")))
        for path, member in self.members().items():
            since = tuple(map(int, member["x-since"].split(".")))
            self.assertLessEqual(since, now, path)
            self.assertTrue(member["description"].endswith("."), path)

    def test_the_reader_of_schemas(self):
        refused = [
            ({"type": "string"}, 1), ({"type": "integer"}, True), ({"type": ["string", "null"]}, 1),
            ({"enum": ["a"]}, "b"), ({"const": 1}, 2), ({"required": ["a"]}, {}),
            ({"properties": {"a": {"type": "string"}}}, {"a": 1}), ({"properties": {}}, {"a": 1}),
            ({"items": {"type": "string"}}, ["a", 1]), ({"additionalProperties": {"type": "null"}},
                                                        {"a": 1}),
            ({"propertyNames": {"enum": ["a"]}}, {"b": 1}), ({"oneOf": [{"const": 1}]}, 2),
            ({"oneOf": [{"type": "integer"}, {"const": 1}]}, 1),
            ({"$ref": "#/$defs/platform"}, {"name": "a", "triple": "a"}),
        ]
        for schema, value in refused:
            self.assertTrue(list(faults(value, schema)), (schema, value))
        with self.assertRaises(KeyError):
            list(faults(1, {"minimum": 0}))


class Printed(Made):
    """The schema beside what is printed."""

    def reports(self):
        """Yields objects of both forms, with rows of each kind."""
        span = Fault(cfgx.Reason.UNEXPECTED, (4, 9))
        made = report(
            row("a", "-??", "cfg(loom)", [LOOM, LOOM], renamed_from="b", features=("x",)),
            row("c", "nnn", "cfg(panic)", is_never=True, fault=span), row("d", "-yn"),
            notes=["one"],
        )
        lines = "app > a cfg(loom)", "app > b", "a > c", "app > d cfg(windows)"
        rows = rows_of(graph_of(*lines, features={"app": ({"x": []}, ["x"])}))
        graph = Resolved("/Cargo.toml", "h", (LINUX, WINDOWS), tuple(rows.values()), ("one",), True)
        rows = rows_of(graph_of("app > a", "app > b cfg(windows)"), [HOST])
        host = Resolved("/Cargo.toml", "h", (HOST,), tuple(rows.values()), (), True)
        for is_summary in (False, True):
            yield json.loads("\n".join(_formats.json_of(made, is_summary)))
            for one in (graph, host):
                yield json.loads("\n".join(_resolved_formats.json_of(one, is_summary)))

    def test_each_member(self):
        seen = set()
        for printed in self.reports():
            self.assertEqual(list(faults(printed, SCHEMA)), [])
            seen.update(seen_in(printed))
        known = {path for name in ("report", "resolved")
                 for path, _ in members_of(SCHEMA["$defs"][name])}
        self.assertEqual(known - seen, set())

    def test_the_command(self):
        self.list(dependency_of("a", "cfg(loom)", features=["x"], optional=True),
                  dependency_of("b", rename="c", source="git+https://a.b/c?branch=d"),
                  dependency_of("d", source=None, path="/d"))
        for words in ([], ["--summary"]):
            status, text, _ = self.command("--format=json", "--target=x86_64-pc-windows-gnu",
                                           *words)
            self.assertEqual((status, list(faults(json.loads(text), SCHEMA))), (0, []))
        self.assertEqual(self.command("--schema"), (0, _schema.text(), ""))


class Rows(Made):
    """What is printed of a dependency, beside what Cargo lists of it."""

    # A source and a folder, and what is printed of them.
    SOURCES = [
        ("registry+https://github.com/rust-lang/crates.io-index", None,
         "registry", "https://github.com/rust-lang/crates.io-index"),
        ("sparse+https://a.b/index/", None, "registry", "sparse+https://a.b/index/"),
        ("git+https://a.b/c?branch=d", None, "git", "https://a.b/c?branch=d"),
        (None, "/d/e", "path", "/d/e"),
    ]

    def test_what_cargo_lists(self):
        self.list(*(
            dependency_of("a", source=origin, path=path, req=f"^1.{place}", features=["x"] * place,
                          uses_default_features=place % 2 == 0)
            for place, (origin, path, _, _) in enumerate(self.SOURCES)
        ))
        found = json.loads(self.command("--format=json")[1])["dependencies"]
        head, *lines = self.command("--format=tsv")[1].splitlines()
        self.assertEqual(head.split("\t")[-7:], [
            "package_version", "package_manifest", "requirement", "source", "location",
            "default_features", "features"])
        self.assertEqual((len(found), len(lines)), (4, 4))
        rows = zip(self.SOURCES, found, lines)
        for place, ((_, _, kind, location), row_found, line) in enumerate(rows):
            features = ["x"] * place
            wanted = {"source": kind, "location": location, "requirement": f"^1.{place}",
                      "features": features, "default_features": place % 2 == 0,
                      "package_version": "0.1.0", "package_manifest": self.path}
            self.assertEqual({name: row_found[name] for name in wanted}, wanted)
            self.assertEqual(line.split("\t")[-7:], [
                "0.1.0", self.path, f"^1.{place}", kind, location,
                "yes" if place % 2 == 0 else "no", ",".join(features)])
