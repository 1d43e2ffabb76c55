"""Findings in SARIF 2.1.0, the form of OASIS in which tools tell others what they find in files.

A text is given as it is shown to people. Lines and columns count from 1, and columns count
characters, as Python counts them.
"""
import enum
import functools
import json
import os
import urllib.parse
from typing import Any, Dict, Iterable, Iterator, NamedTuple, Optional, Sequence

from ._output import OutputError

VERSION = "2.1.0"
SCHEMA = ("https://docs.oasis-open.org/sarif/sarif/v2.1.0/errata01/os/schemas/"
          "sarif-schema-2.1.0.json")
# What a column counts.
COLUMNS = "unicodeCodePoints"
# The name of the folder that paths begin at.
BASE = "SRCROOT"
# In a message, braces may hold the number of an argument, and brackets the text of a link.
MEANINGFUL = str.maketrans({"{": "{{", "}": "}}", "[": "\\[", "]": "\\]"})


class Level(enum.Enum):
    """How grave a finding is."""

    NOTE = "note"
    WARNING = "warning"
    ERROR = "error"


class Rule(NamedTuple):
    """What findings of one kind have in common."""

    name: str
    """Its name, by which a finding refers to it."""
    text: str
    """What is found, in a sentence."""
    level: Level
    """How grave it is, if a finding does not say so."""


class Region(NamedTuple):
    """A part of a file: from a place up to but not including another."""

    line: int
    column: int
    end_line: int
    end_column: int


class Place(NamedTuple):
    """Where something is found."""

    path: str
    """The path of the file, from the folder where paths begin."""
    region: Optional[Region]
    """The part of the file, or `None` for the whole file."""


class Finding(NamedTuple):
    """What is found."""

    rule: str
    """The name of its rule."""
    level: Level
    """How grave it is."""
    text: str
    """What is found, in a sentence."""
    place: Place
    """Where it is found."""
    related: Sequence[Place] = ()
    """Other places that belong to it."""
    reason: Optional[str] = None
    """Why it is known, if it is. Who reads this passes over a known finding."""


class Tool(NamedTuple):
    """The tool that finds something."""

    name: str
    version: str
    rules: Sequence[Rule]


class Run(NamedTuple):
    """What else there is to say of a run."""

    base: str
    """Which folder paths begin at, in a sentence."""
    is_whole: bool = True
    """Whether nothing was left out."""
    notes: Sequence[str] = ()
    """What was found and not taken into account, a sentence each."""


def lines_of(tool: Tool, run: Run, findings: Iterable[Finding]) -> Iterator[str]:
    """Yields the lines of one object of JSON, which is ASCII."""
    rules = {rule.name: place for place, rule in enumerate(tool.rules)}
    yield f'{{"$schema": {json.dumps(SCHEMA)}, "version": {json.dumps(VERSION)}, "runs": [{{'
    yield f'"tool": {json.dumps({"driver": driver_of(tool)})},'
    yield f'"columnKind": {json.dumps(COLUMNS)},'
    base = {BASE: {"description": message_of(run.base)}}
    yield f'"originalUriBaseIds": {json.dumps(base)},'
    yield f'"invocations": {json.dumps([invocation_of(run)])},'
    yield '"results": ['
    before = None
    for finding in findings:
        if before is not None:
            yield f"{before},"
        before = json.dumps(result_of(finding, rules[finding.rule]))
    if before is not None:
        yield before
    yield "]}]}"


def driver_of(tool: Tool) -> Dict[str, Any]:
    """Returns the object of a tool."""
    rules = [
        {"id": rule.name, "shortDescription": message_of(rule.text),
         "defaultConfiguration": {"level": rule.level.value}}
        for rule in tool.rules
    ]
    return {"name": tool.name, "version": tool.version, "rules": rules}


def invocation_of(run: Run) -> Dict[str, Any]:
    """Returns the object of a run."""
    notes = [{"level": Level.NOTE.value, "message": message_of(note)} for note in run.notes]
    return {"executionSuccessful": run.is_whole, "toolExecutionNotifications": notes}


def result_of(finding: Finding, rule: int) -> Dict[str, Any]:
    """Returns the object of a finding whose rule has a number."""
    result: Dict[str, Any] = {
        "ruleId": finding.rule, "ruleIndex": rule, "level": finding.level.value,
        "message": message_of(finding.text), "locations": [location_of(finding.place)],
    }
    if finding.related:
        result["relatedLocations"] = list(map(location_of, finding.related))
    if finding.reason is not None:
        known = {"kind": "external", "status": "accepted", "justification": finding.reason}
        result["suppressions"] = [known]
    return result


def message_of(text: str) -> Dict[str, str]:
    """Returns the object of a message that shows a text as it is."""
    return {"text": text.translate(MEANINGFUL)}


def location_of(place: Place) -> Dict[str, Any]:
    """Returns the object of a place."""
    physical: Dict[str, Any] = {"artifactLocation": {"uri": uri_of(place.path), "uriBaseId": BASE}}
    if place.region is not None:
        line, column, end_line, end_column = place.region
        physical["region"] = {"startLine": line, "startColumn": column, "endLine": end_line,
                              "endColumn": end_column}
    return {"physicalLocation": physical}


@functools.lru_cache(maxsize=16)
def uri_of(path: str) -> str:
    """Returns the relative reference of a path. Most findings are of one file."""
    return "/".join(urllib.parse.quote(os.fsencode(part), safe="") for part in path.split(os.sep))


def base_of(paths: Sequence[str]) -> str:
    """Returns the folder at which paths begin: the current one, or the first above it that has all
    files with these whole paths. Raises `OutputError` if there is none."""
    try:
        return os.path.commonpath([os.getcwd(), *(os.path.dirname(path) for path in paths)])
    except OSError as error:
        raise OutputError(f"the current folder cannot be read: {error.strerror}") from error
    except ValueError as error:
        # As on Windows, where paths may begin at different drives.
        raise OutputError(f"no folder has the current one and all files: {error}") from error
