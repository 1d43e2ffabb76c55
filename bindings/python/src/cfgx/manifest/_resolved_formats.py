"""The packages of a lock file, as a table for a terminal and for programs."""
import collections
import json
from typing import Dict, FrozenSet, Iterator, List, Mapping, Optional, Sequence, Tuple

from .._terminal import shown, wrapped
from . import _table
from ._cargo import Package
from ._formats import TRUTH, VERSION, YES_OR_NO, list_of, members, platform_list, summary_members
from ._formats import tabbed
from ._once import Once
from ._report import Value
from ._resolved import Leg, Resolved, Route, Used
from ._summary import summary_of
from ._table import COUNTED, EXPLANATION, Grid

# What stands between the packages of a way, and in front of one whose first steps are left out.
STEP, OMITTED = " > ", ".."
# What stands behind a value of a package that is built for the host alone.
FOR_HOST = " (host)"


class Names:
    """The names of packages in a report: with the version, if several have the name."""

    def __init__(self, report: Resolved) -> None:
        counts = collections.Counter(row.package.name for row in report.rows)
        self._repeated: FrozenSet[str] = frozenset(
            name for name, count in counts.items() if count > 1
        )

    def way(self, route: Route) -> str:
        """Returns a way in a line: the packages, and behind each its kind and condition."""
        start = [OMITTED] if route.omitted else []
        return STEP.join([*start, self._name(route.start), *map(self._leg, route.legs)])

    def _name(self, package: Package) -> str:
        """Returns the name of a package."""
        name = package.name
        return f"{name}@{package.version}" if name in self._repeated else name

    def _leg(self, leg: Leg) -> str:
        """Returns a step of a way."""
        marks = [f"({leg.kind})"] if leg.kind != "normal" else []
        marks += [f"[{leg.condition}]"] if leg.condition is not None else []
        return " ".join([self._name(leg.package), *marks])


def table_of(
    report: Resolved, width: Optional[int], is_summary: bool, left_out: int = 0,
    is_coloured: bool = False,
) -> Iterator[str]:
    """Yields the lines of a table with a column for each platform, or with the number of platforms
    that have each value. Without a width, no line is cut. `left_out` is how many packages the
    report leaves out."""
    names = Names(report)
    fronts = [
        ["package", *(shown(row.package.name) for row in report.rows)],
        ["version", *(shown(row.package.version) for row in report.rows)],
    ]
    cells = Cells(report, is_summary, has_group=True)
    ways = [shown(names.way(row.routes[0])) if row.routes else "" for row in report.rows]
    values = [cells.of(row) for row in report.rows]
    grid = Grid(fronts, cells.heads(), values, ["shortest way", *ways])
    yield from _table.lines_of(grid, width, is_coloured)
    for line in explained(report):
        yield from wrapped(line, _table.width_below(width))
    yield counted(report, left_out)


class Cells:
    """The columns of the platforms, or of a summary. Rows with equal values share their cells."""

    def __init__(self, report: Resolved, is_summary: bool, has_group: bool = False) -> None:
        """`has_group` is whether a summary names the smaller group of platforms."""
        self._report = report
        self._is_summary = is_summary
        self._has_group = has_group
        # By the values, which are one object where they are equal, and are kept by the report.
        self._made: Dict[Tuple[int, int], List[str]] = {}

    def heads(self) -> List[str]:
        """Returns the heads of the columns."""
        if not self._is_summary:
            return [shown(platform.name) for platform in self._report.platforms]
        group = ["smaller group"] if self._has_group else []
        return [*(value.value for value in COUNTED), *group]

    def of(self, row: Used) -> List[str]:
        """Returns the cells of a row."""
        key = id(row.values), id(row.for_target)
        if key not in self._made:
            self._made[key] = self._summarized(row) if self._is_summary else self._words(row)
        return self._made[key]

    def _words(self, row: Used) -> List[str]:
        """Returns the values of a row as words. Where a package is built for the host alone, and
        there is a target, the word says so."""
        if self._report.platforms[0].is_host:
            return [value.value for value in row.values]
        return [
            value.value + (FOR_HOST if value is not Value.NO and target is Value.NO else "")
            for value, target in zip(row.values, row.for_target)
        ]

    def _summarized(self, row: Used) -> List[str]:
        """Returns the number of platforms with each value."""
        summary = summary_of(row.values, self._report.platforms)
        group = [_table.smaller_group(summary, row.is_never)] if self._has_group else []
        return [*(str(summary.counts[value]) for value in COUNTED), *group]


def explained(report: Resolved) -> Iterator[str]:
    """Yields lines with the flags on which ways depend, and the packages to which they lead."""
    found: Dict[Tuple[str, ...], _table.Names] = {}
    for row in report.rows:
        flags = flags_of(row)
        if flags:
            name = f"{row.package.name} {row.package.version}"
            found.setdefault(flags, _table.Names()).add(name)
    if found:
        yield EXPLANATION
    for flags, names in found.items():
        yield shown(f"  {', '.join(flags)}")
        yield shown(f"    {names}")


def flags_of(row: Used) -> Tuple[str, ...]:
    """Returns the flags on which the unknown conditions on the way to a package depend."""
    unknown = [route for route in row.routes if route.value is Value.UNKNOWN]
    return tuple(sorted({flag for route in unknown for leg in route.legs for flag in leg.flags}))


def counted(report: Resolved, left_out: int = 0) -> str:
    """Returns a line with the host and the number of packages by their values."""
    groups = collections.Counter(map(Once(_table.group_of), (row.values for row in report.rows)))
    order = ("yes", "no", "yes or no", "unknown")
    counts = [f"{groups[name]} {name}" for name in order if groups[name] > 0]
    packages = _table.number_of(len(report.rows), left_out, "package")
    return f"host {shown(report.host)}; {packages}: {', '.join(counts) or 'none'}"


def json_of(report: Resolved, is_summary: bool) -> Iterator[str]:
    """Yields the lines of one object of JSON, which is ASCII."""
    yield f'{{"version": {VERSION},'
    yield f'"manifest": {json.dumps(report.manifest_path)},'
    yield f'"host": {json.dumps(report.host)},'
    yield from list_of("platforms", platform_list(report.platforms))
    yield from list_of("packages", map(Entries(report, is_summary).entry, report.rows))
    yield f'"tried": {TRUTH[report.is_tried]},'
    yield f'"notes": {json.dumps(report.notes)}}}'


class Entries:
    """Makes the objects of packages. Values that many of them share are written once."""

    def __init__(self, report: Resolved, is_summary: bool) -> None:
        def counts(values: Sequence[Value]) -> str:
            return members(**summary_members(summary_of(values, report.platforms)))

        self._values = Once(words_of)
        self._summary = Once(counts) if is_summary else None

    def entry(self, row: Used) -> str:
        """Returns the object of a package."""
        one = row.package
        front = members(
            name=one.name, version=one.version, id=one.identity, source=one.source.kind,
            location=one.source.location, manifest=one.manifest_path, member=row.is_member,
            features=row.features,
        )
        ways = json.dumps([way_members(route) for route in row.routes])
        return f'{{{front}, {self._value_members(row)}, "ways": {ways}}}'

    def _value_members(self, row: Used) -> str:
        """Returns the members with the values of a package, or with their numbers."""
        if self._summary is not None:
            return self._summary(row.values)
        each = ("values", row.values), ("for_target", row.for_target), ("for_host", row.for_host)
        return ", ".join(f'"{name}": {self._values(values)}' for name, values in each)


def words_of(values: Sequence[Value]) -> str:
    """Returns a list of values."""
    return json.dumps([value.value for value in values])


def way_members(route: Route) -> Mapping[str, object]:
    """Returns the members of a way."""
    start = route.start
    return {
        "value": route.value.value, "platform": route.platform, "omitted": route.omitted,
        "start": {"name": start.name, "version": start.version, "id": start.identity},
        "steps": [step_members(leg) for leg in route.legs],
    }


def step_members(leg: Leg) -> Mapping[str, object]:
    """Returns the members of a step of a way."""
    return {
        "name": leg.package.name, "version": leg.package.version, "id": leg.package.identity,
        "kind": leg.kind, "condition": leg.condition, "value": leg.value.value,
        "flags": leg.flags, "for_host": leg.is_host,
    }


def tsv_of(report: Resolved, is_summary: bool) -> Iterator[str]:
    """Yields lines whose cells stand between tabs, the head first."""
    cells, names, joined = Cells(report, is_summary), Names(report), Once(tabs)
    head = "package", "version", "source", "location", "member", *cells.heads(), "way"
    yield tabbed(*head)
    for row in report.rows:
        one = row.package
        front = tabbed(one.name, one.version, *one.source, YES_OR_NO[row.is_member])
        way = names.way(row.routes[0]) if row.routes else ""
        yield "\t".join([front, joined(cells.of(row)), shown(way)])


def tabs(cells: Sequence[str]) -> str:
    """Returns cells with tabs between them."""
    return tabbed(*cells)
