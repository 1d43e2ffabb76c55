"""A report for programs."""
import json
from typing import Any, Iterable, Iterator, Mapping, Optional, Sequence

from .._terminal import shown
from ._cargo import Dependency
from ._conditions import Fault, Unknown, groups_in
from ._once import Once
from ._platforms import Platform
from ._report import Report, Row, Value
from ._summary import Summary, summary_of
from ._table import COUNTED

# The version of the form of the JSON. A later one may have more members.
VERSION = 1
TRUTH = {True: "true", False: "false"}
YES_OR_NO = {True: "yes", False: "no"}
# The columns of TSV behind the condition.
DETAILS = ("package_version", "package_manifest", "requirement", "source", "location",
           "default_features", "features")


def json_of(report: Report, is_summary: bool) -> Iterator[str]:
    """Yields the lines of one object of JSON, which is ASCII."""
    yield f'{{"version": {VERSION},'
    yield f'"manifest": {json.dumps(report.manifest_path)},'
    yield from list_of("platforms", platform_list(report.platforms))
    yield from list_of("dependencies", map(Entries(report, is_summary).entry, report.rows))
    yield f'"tried": {json.dumps(report.is_tried)},'
    yield f'"notes": {json.dumps(report.notes)}}}'


def platform_list(platforms: Iterable[Platform]) -> Iterator[str]:
    """Yields the objects of platforms."""
    for one in platforms:
        yield json.dumps({"name": one.name, "triple": one.triple, "host": one.is_host})


def list_of(name: str, items: Iterable[str]) -> Iterator[str]:
    """Yields the lines of a member that is a list, with an item on each line."""
    yield f'"{name}": ['
    before = None
    for item in items:
        if before is not None:
            yield f"{before},"
        before = item
    if before is not None:
        yield before
    yield "],"


class Entries:
    """Makes the objects of rows. What many rows share is written once."""

    def __init__(self, report: Report, is_summary: bool) -> None:
        def summary_member(values: Sequence[Value]) -> str:
            return members(**summary_members(summary_of(values, report.platforms)))

        self._values = Once(summary_member if is_summary else values_member)
        self._places = Once(number_list)
        self._unknown = Once(self._unknown_member)
        self._fault = Once(fault_member)

    def entry(self, row: Row) -> str:
        """Returns the object of a row."""
        one = row.dependency
        front = members(
            package=one.package, package_version=one.package_version,
            package_manifest=one.package_manifest, name=one.name, renamed_from=one.renamed_from,
            kind=one.kind, optional=one.is_optional, requirement=one.requirement,
            source=one.source.kind, location=one.source.location,
            default_features=one.uses_default_features, features=one.features,
            condition=one.condition,
        )
        never, tried = TRUTH[row.is_never], TRUTH[row.is_tried]
        return (
            f'{{{front}, {self._values(row.values)}, "never": {never},'
            f' {self._unknown(row.unknown)}, "tried": {tried}, {self._fault(row.fault)}}}'
        )

    def _unknown_member(self, unknown: Mapping[int, Unknown]) -> str:
        """Returns the member with the reasons why values of a row are unknown: each reason once,
        with the numbers of the platforms that have it."""
        reasons = (
            f'{{"platforms": {self._places(places)}, {reason_members(reason)}}}'
            for reason, places in groups_in(unknown)
        )
        return f'"unknown": [{", ".join(reasons)}]'


def number_list(numbers: Sequence[int]) -> str:
    """Returns a list of numbers."""
    return json.dumps(numbers)


def reason_members(reason: Unknown) -> str:
    """Returns the members of a reason."""
    return members(flags=reason.flags, if_yes=reason.if_yes, if_no=reason.if_no)


def members(**values: Any) -> str:
    """Returns members of an object, as JSON has them."""
    return json.dumps(values)[1:-1]


def values_member(values: Sequence[Value]) -> str:
    """Returns the member with the values of a row."""
    return members(values=[value.value for value in values])


def summary_members(summary: Summary) -> Mapping[str, Any]:
    """Returns the members with the numbers of platforms, and with the smaller group."""
    smaller = None
    if summary.smaller is not None:
        smaller = {"value": summary.smaller.value, "platforms": list(summary.names)}
    counts = {value.value: count for value, count in summary.counts.items()}
    return {"counts": counts, "smaller": smaller}


def fault_member(fault: Optional[Fault]) -> str:
    """Returns the member with the fault of a condition, or with null."""
    return members(fault=fault and {"reason": fault.reason.name, "span": list(fault.span)})


def tsv_of(report: Report, is_summary: bool) -> Iterator[str]:
    """Yields lines whose cells stand between tabs, the head first."""
    names = [platform.name for platform in report.platforms]
    if is_summary:
        names = [value.value for value in COUNTED] + ["never"]
    yield tabbed("package", "dependency", "kind", "optional", *names, "condition", *DETAILS)

    def counted(values: Sequence[Value]) -> str:
        counts = summary_of(values, report.platforms).counts
        return tabbed(*(str(counts[value]) for value in COUNTED))

    def listed(values: Sequence[Value]) -> str:
        return tabbed(*(value.value for value in values))

    cells = Once(counted if is_summary else listed)
    for row in report.rows:
        one = row.dependency
        front = tabbed(one.package, one.name, one.kind, YES_OR_NO[one.is_optional])
        never = [YES_OR_NO[row.is_never]] if is_summary else []
        end = tabbed(one.condition or "", *details_of(one))
        yield "\t".join([front, cells(row.values), *never, end])


def details_of(one: Dependency) -> Sequence[str]:
    """Returns the cells of a dependency behind its condition."""
    return (
        one.package_version, one.package_manifest, one.requirement, *one.source,
        YES_OR_NO[one.uses_default_features], ",".join(one.features),
    )


def tabbed(*cells: str) -> str:
    """Returns a line of cells, with what is not printable escaped."""
    return "\t".join(map(shown, cells))
