"""A report as a table for a terminal."""
import collections
import itertools
from typing import (
    Callable, Dict, Iterable, Iterator, List, Mapping, NamedTuple, Optional, Sequence, Tuple,
)

from .._terminal import CUT, Colour, cells_of, cut, padded, shown, wrapped
from ._conditions import Unknown, groups_in
from ._once import Once
from ._report import Report, Row, Value
from ._summary import MOST_NAMED, Summary, summary_of

GAP = "  "
# The least width of a condition that is cut.
LEAST = 24
# The values that a summary counts.
COUNTED = (Value.YES, Value.NO, Value.UNKNOWN)
# The colours of cells by their first words.
COLOURS = {"yes": Colour.GREEN, "no": Colour.RED, "unknown": Colour.YELLOW}
EXPLANATION = "unknown: flags that RUSTFLAGS may set (see --cfg and --no-other-cfg)"
NOT_TRIED = "not tried out, since a report tries a bounded number of answers"
# The cells of a column, from the head on.
Column = List[str]


def name_of(row: Row) -> str:
    """Returns the name of a dependency, with its kind and whether it is optional."""
    dependency = row.dependency
    marks = [] if dependency.kind == "normal" else [dependency.kind]
    marks += ["optional"] if dependency.is_optional else []
    return f"{dependency.name} ({', '.join(marks)})" if marks else dependency.name


def full_name_of(row: Row) -> str:
    """Returns the package that has a dependency, and the name of the dependency."""
    return f"{row.dependency.package} {name_of(row)}"


def table_of(
    report: Report, width: Optional[int], left_out: int = 0, is_coloured: bool = False
) -> Iterator[str]:
    """Yields the lines of a table with a column for each platform. Without a width, no line is cut
    and no column moves below the others. `left_out` is how many rows the report leaves out."""
    heads = [shown(platform.name) for platform in report.platforms]
    grid = Grid(fronts_of(report), heads, cells_by(report, value_cells), conditions_of(report))
    if width is not None and len(blocks_of(grid, width)) > 1:
        numbers = list(map(str, range(1, len(heads))))
        yield from map(": ".join, zip(numbers, heads[1:]))
        grid = grid._replace(heads=[heads[0], *numbers])
    yield from lines_of(grid, width, is_coloured)
    yield from ends_of(report, width, left_out)


def value_cells(values: Sequence[Value]) -> Sequence[str]:
    """Returns the cells with the values of a row."""
    return [value.value for value in values]


def summary_table_of(
    report: Report, width: Optional[int], left_out: int = 0, is_coloured: bool = False
) -> Iterator[str]:
    """Yields the lines of a table with the number of platforms that have each value. If it exceeds
    the width, the smaller groups are a table of their own, below the numbers."""
    def summarized(values: Sequence[Value]) -> Summary:
        return summary_of(values, report.platforms)

    def numbers_of(values: Sequence[Value]) -> Sequence[str]:
        return [str(summary.counts[value]) for summary in [summaries(values)] for value in COUNTED]

    summaries = Once(summarized)
    groups = ["smaller group"]
    groups += [smaller_group_of(row, summaries(row.values)) for row in report.rows]
    heads = [value.value for value in COUNTED]
    counts = Grid(fronts_of(report), heads, cells_by(report, numbers_of), conditions_of(report))
    whole = with_column(counts, groups)
    if width is None or len(blocks_of(whole, width)) == 1:
        yield from lines_of(whole, width, is_coloured)
    else:
        yield from lines_of(counts, width)
        yield from lines_of(Grid(counts.fronts, [], [[]] * len(report.rows), groups), width)
    yield from ends_of(report, width, left_out)


def smaller_group_of(row: Row, summary: Summary) -> str:
    """Returns the cell with the value of the smaller group, and the names of its platforms."""
    return smaller_group(summary, row.is_never)


def smaller_group(summary: Summary, is_never: bool) -> str:
    """Returns the value of the smaller group and the names of its platforms, or `never`."""
    if is_never or summary.smaller is None:
        return "never" if is_never else ""
    more = [CUT] if summary.counts[summary.smaller] > MOST_NAMED else []
    return shown(f"{summary.smaller.value}: {', '.join([*summary.names, *more])}")


class Grid(NamedTuple):
    """The cells of a table."""

    fronts: Sequence[Column]
    """The columns in front, each with its head."""
    heads: Sequence[str]
    """The heads of the columns behind them."""
    cells: Sequence[Sequence[str]]
    """The cells of each row in these columns. Many rows may share them."""
    last: Column
    """The last column, with its head."""


def cells_by(
    report: Report, cells: Callable[[Sequence[Value]], Sequence[str]]
) -> Sequence[Sequence[str]]:
    """Returns the cells of each row, which a function makes of its values."""
    made = Once(cells)
    return [made(row.values) for row in report.rows]


def with_column(grid: Grid, column: Column) -> Grid:
    """Returns a table with a column more in front of the last one."""
    head, *cells = column
    joined = [[*row, cell] for row, cell in zip(grid.cells, cells)]
    return grid._replace(heads=[*grid.heads, head], cells=joined)


def fronts_of(report: Report) -> List[Column]:
    """Returns the columns in front of the values: the packages if there are several, and the
    dependencies."""
    packages = [shown(row.dependency.package) for row in report.rows]
    names = ["dependency", *(shown(name_of(row)) for row in report.rows)]
    return [["package", *packages], names] if has_packages(report) else [names]


def has_packages(report: Report) -> bool:
    """Whether the rows are of several packages, so that names alone do not tell them apart."""
    return len({row.dependency.package for row in report.rows}) > 1


def conditions_of(report: Report) -> Column:
    """Returns the column of conditions."""
    return ["condition", *(shown(row.dependency.condition or "") for row in report.rows)]


def width_of(column: Iterable[str]) -> int:
    """Returns how many cells of a terminal a column takes, with the gap behind it."""
    return max(map(cells_of, column)) + len(GAP)


def widths_in(grid: Grid) -> List[int]:
    """Returns the widths of the columns between those in front and the last one."""
    distinct = {id(row): row for row in grid.cells}.values()
    return [width_of(column) for column in zip(grid.heads, *distinct)]


def blocks_of(grid: Grid, width: int) -> List[slice]:
    """Returns the columns in blocks that fit into a width, with those in front and with the last
    one, which may be cut. There is at least one block."""
    left = room = width - sum(map(width_of, grid.fronts)) - min(LEAST, width_of(grid.last))
    blocks = [slice(0, 0)]
    for place, size in enumerate(widths_in(grid)):
        if blocks[-1].start < place and size > left:
            blocks.append(slice(place, place))
            left = room
        blocks[-1] = slice(blocks[-1].start, place + 1)
        left -= size
    return blocks


def lines_of(grid: Grid, width: Optional[int], is_coloured: bool = False) -> Iterator[str]:
    """Yields the lines of columns, and an empty line. If they exceed a width, the columns come in
    blocks, and the last one is cut. Values below the heads may be coloured."""
    whole = [slice(0, len(grid.heads))]
    for block in whole if width is None else blocks_of(grid, width):
        yield from block_lines(grid, block, width, COLOURS if is_coloured else {})


def block_lines(
    grid: Grid, block: slice, width: Optional[int], colours: Mapping[str, Colour]
) -> Iterator[str]:
    """Yields the lines of a block of columns, and an empty line."""
    fronts, widths = [width_of(column) for column in grid.fronts], widths_in(grid)[block]
    room = None if width is None else max(width - sum(fronts) - sum(widths), LEAST - len(GAP))

    def joined(cells: Sequence[str]) -> str:
        known = {} if cells is grid.heads else colours
        return "".join(padded(cell, size, known.get(cell.partition(" ")[0]))
                       for cell, size in zip(cells[block], widths))

    middle = Once(joined)
    for front, cells, end in zip(zip(*grid.fronts), [grid.heads, *grid.cells], grid.last):
        yield "".join([*map(padded, front, fronts), middle(cells), cut(end, room)]).rstrip()
    yield ""


def width_below(width: Optional[int]) -> Optional[int]:
    """Returns the width for lines below a table."""
    return None if width is None else max(width, LEAST)


def ends_of(report: Report, width: Optional[int], left_out: int) -> Iterator[str]:
    """Yields the lines below a table."""
    for line in explained(report):
        yield from wrapped(line, width_below(width))
    yield counted(report, left_out)


def explained(report: Report) -> Iterator[str]:
    """Yields lines that explain the unknown values: each set of flags once, and below it the
    answers that lead to each value, with the rows for which they do."""
    reasons = reasons_in(report)
    if reasons:
        yield EXPLANATION
    for flags, examples in reasons.items():
        yield shown(f"  {', '.join(flags)}")
        yield from (shown(f"    {names}: {example}") for example, names in examples.items())


def reasons_in(report: Report) -> Dict[Tuple[str, ...], Dict[str, "Names"]]:
    """Returns the names of rows with unknown values, by their flags and by the clause with the
    answers that lead to each value."""
    reasons: Dict[Tuple[str, ...], Dict[str, Names]] = {}

    def names_for(reason: Unknown) -> Names:
        examples = reasons.setdefault(reason.flags, {})
        return examples.setdefault(examples_of(reason), Names())

    found, named = Once(names_for), full_name_of if has_packages(report) else name_of
    unknown = ((row, reason) for row in report.rows for reason, _ in groups_in(row.unknown))
    for row, reason in unknown:
        found(reason).add(named(row))
    return reasons


class Names:
    """Names of rows, of which the first ones are told."""

    def __init__(self) -> None:
        self._names: Dict[str, None] = {}

    def add(self, name: str) -> None:
        """Adds a name, unless it is there."""
        self._names[name] = None

    def __str__(self) -> str:
        told, left = itertools.islice(self._names, MOST_NAMED), len(self._names) - MOST_NAMED
        return ", ".join(told) + (f" and {left} more" if left > 0 else "")


def examples_of(reason: Unknown) -> str:
    """Returns a clause with the answers that lead to each value."""
    both = (("yes", reason.if_yes), ("no", reason.if_no))
    clauses = [f"{value} if {spelled(given)}" for value, given in both if given is not None]
    start = "for example, " if len(reason.flags) > 1 else ""
    return start + "; ".join(clauses) if reason.is_tried else NOT_TRIED


def spelled(given: Dict[str, bool]) -> str:
    """Returns flags, each in `not( )` if it is not set."""
    return " and ".join(flag if is_set else f"not({flag})" for flag, is_set in given.items())


def counted(report: Report, left_out: int = 0) -> str:
    """Returns a line with the host and the number of rows by their values, and with the number of
    those that were not tried out, if there are some."""
    groups = collections.Counter(map(Once(group_of), (row.values for row in report.rows)))
    order = ("yes", "no", "yes or no", "unknown", "not read")
    counts = [f"{groups[name]} {name}" for name in order if groups[name] > 0]
    host, left = shown(report.platforms[0].triple), sum(not row.is_tried for row in report.rows)
    end = f"; {number_of(left, 0, 'row')} not tried out" if left > 0 else ""
    rows = number_of(len(report.rows), left_out, "row")
    return f"host {host}; {rows}: {', '.join(counts) or 'none'}{end}"


def number_of(count: int, left_out: int, name: str) -> str:
    """Returns how many things with a name there are, and of how many if some are left out."""
    many = name if count + left_out == 1 else f"{name}s"
    return f"{count} of {count + left_out} {many}" if left_out else f"{count} {many}"


def group_of(values: Sequence[Value]) -> str:
    """Returns the values of a row on the platforms where Cargo reads it, or `unknown` if it is
    unknown on one of them."""
    found = set(values) - {Value.NOT_READ}
    if Value.UNKNOWN in found:
        return "unknown"
    return " or ".join(value.value for value in COUNTED if value in found) or "not read"
