"""What is found in a report, and told by `--fail-on` and SARIF: conditions that are never true, and
values that are unknown."""
from typing import Callable, Dict, Iterable, Iterator, Mapping, NamedTuple, Optional, Sequence

from .. import __version__, _sarif
from .._known import Entry, Form, Known
from .._sarif import Level, Rule
from .._terminal import shown
from ._conditions import Unknown, groups_in
from ._names import FINDINGS, NEVER, UNKNOWN
from ._once import Once
from ._places import Places
from ._report import Report, Row, Value, has_unknown
from ._table import Names, full_name_of

# What an entry of a file of known rows may have, by the names of JSON.
FORM = Form(FINDINGS, ("package", "name", "kind", "condition"), ("name", "condition"))
# How a finding is told on stderr.
TOLD = {UNKNOWN: "unknown", NEVER: "never true"}
RULES = (
    Rule(UNKNOWN, "Whether Cargo takes a dependency depends on flags that RUSTFLAGS may set.",
         Level.NOTE),
    Rule(NEVER, "The condition of a dependency is false on each platform of the report.",
         Level.WARNING),
)
BASE = "The folder in which cfgx-deps ran, or the first above it that has all manifests."


class Finding(NamedTuple):
    """What is found of a row."""

    name: str
    """One of `FINDINGS`."""
    row: Row
    """The row."""
    known: Optional[Entry]
    """The entry for it in the file of known rows, if it has one."""

    def __str__(self) -> str:
        row = f"{full_name_of(self.row)} {self.row.dependency.condition}"
        return shown(f"{TOLD[self.name]}: {row}")


def findings_in(rows: Iterable[Row], known: Known) -> Iterator[Finding]:
    """Yields what is found of rows."""
    is_unknown = Once(has_unknown)
    for row in rows:
        names = [UNKNOWN] if is_unknown(row.values) else []
        for name in [*names, NEVER] if row.is_never else names:
            yield Finding(name, row, known.entry_for(name, members_of(row)))


def members_of(row: Row) -> Dict[str, str]:
    """Returns what an entry of a file of known rows may say of a row."""
    one = row.dependency
    return {"package": one.package, "name": one.name, "kind": one.kind,
            "condition": one.condition or ""}


def sarif_of(report: Report, known: Known, fail_on: Sequence[str]) -> Iterator[str]:
    """Yields the lines of one object of SARIF with what is found in a report: all, or what the
    command fails for. This is an error unless it is known."""
    findings = (one for one in findings_in(report.rows, known)
                if not fail_on or one.name in fail_on)
    manifests = {row.dependency.package_manifest for row in report.rows} or {report.manifest_path}
    base = _sarif.base_of(sorted(manifests))
    places = Places(base)
    tool = _sarif.Tool("cfgx-deps", __version__, RULES)
    run = _sarif.Run(BASE, report.is_tried, [shown(note) for note in report.notes])
    levels = {rule.name: rule.level for rule in RULES}
    flags = Once(flags_of)

    def told(finding: Finding) -> _sarif.Finding:
        is_error = finding.name in fail_on and finding.known is None
        place, related = places.of(finding.row.dependency)
        return _sarif.Finding(
            finding.name, Level.ERROR if is_error else levels[finding.name],
            sentence_of(finding, report, flags), place, related,
            finding.known.reason if finding.known else None,
        )

    return _sarif.lines_of(tool, run, map(told, findings))


def sentence_of(
    finding: Finding, report: Report, flags: Callable[[Mapping[int, Unknown]], str]
) -> str:
    """Returns a sentence that says what is found. `flags` names those of the reasons of a row."""
    row, count = finding.row, len(report.platforms)
    what = f"{full_name_of(row)}: {row.dependency.condition}"
    if finding.name == NEVER:
        platforms = "the host" if count == 1 else f"each of {count} platforms"
        return shown(f"{what} is false on {platforms}")
    places = row.values.count(Value.UNKNOWN)
    platforms = "the host" if count == 1 else f"{places} of {count} platforms"
    named = flags(row.unknown)
    return shown(f"{what} is unknown on {platforms}, by flags that RUSTFLAGS may set: {named}")


def flags_of(unknown: Mapping[int, Unknown]) -> str:
    """Returns the flags of reasons, of which the first ones are named."""
    names = Names()
    for reason, _ in groups_in(unknown):
        for flag in reason.flags:
            names.add(flag)
    return str(names)
