"""The targets of a compiler, from a table in the package."""
import difflib
import functools
import pkgutil
import re
from typing import Dict, List, NamedTuple, Tuple

# The file, which `bindings/targets/update` of the repository makes.
NAME = "targets.tsv"
# What stands in a cell without a value, and the values that rustc prints then.
ABSENT = "-"
EMPTY = {"target_os": "none", "target_abi": "", "target_env": ""}
# The families that rustc also prints by themselves.
FLAGS = ("unix", "windows")


class Table(NamedTuple):
    """The table."""

    version: str
    """The version of the rustc that has these targets."""
    rows: Dict[str, Dict[str, str]]
    """The rows by their triples, in order. A row has cells by the names of their columns."""


@functools.lru_cache(maxsize=None)
def table() -> Table:
    """Returns the table, which is read once."""
    data = pkgutil.get_data(__package__, NAME)
    if data is None:
        raise OSError(f"the package cfgx lacks its file {NAME}")
    head, *lines = data.decode().splitlines()
    found = re.match(r"# Targets of rustc (\S+), ", head)
    if found is None:
        raise ValueError(f"the file {NAME} of the package cfgx names no version")
    columns, *cells = [line.split("\t") for line in lines]
    return Table(found[1], {row[0]: dict(zip(columns[1:], row[1:])) for row in cells})


def rustc_version() -> str:
    """Returns the version of the rustc that has the targets of `targets`, such as `"1.95.0"`."""
    return table().version


def targets() -> Tuple[str, ...]:
    """Returns the triples of all targets of one rustc, in order. `rustc_version` says of which one.
    They come from a table in the package, so no compiler is needed.

    >>> import cfgx
    >>> "x86_64-unknown-linux-gnu" in cfgx.targets()
    True
    """
    return tuple(table().rows)


def target_facts(triple: str) -> List[str]:
    """Returns the facts of one of `targets`, for `audit` and `Expression.answers`. Raises
    `ValueError` for any other triple.

    They are the lines that rustc prints if Cargo asks, without `proc_macro`, which Cargo passes
    over. Of some targets `rustc_facts` has a fact more, `target_feature="crt-static"`, which rustc
    leaves out for Cargo.

    >>> import cfgx
    >>> cfgx.audit(["unix", "windows"], [cfgx.target_facts("x86_64-pc-windows-msvc")])
    [[False], [True]]
    """
    version, rows = table()
    if triple not in rows:
        near = difflib.get_close_matches(str(triple), rows, n=1)
        hint = f". Did you mean {near[0]!r}?" if near else ""
        raise ValueError(f"{triple!r} is no target of rustc {version}{hint}")
    return sorted(fact for key, cell in rows[triple].items() for fact in facts_of(key, cell))


def facts_of(key: str, cell: str) -> List[str]:
    """Returns the lines that rustc prints for the cell in the column of a key."""
    if key == "debug_assertions":
        return [key] if cell == "yes" else []
    values = [] if cell == ABSENT else cell.split(" ")
    if not values and key in EMPTY:
        values = [EMPTY[key]]
    families = values if key == "target_family" else []
    return [f'{key}="{value}"' for value in values] + [one for one in FLAGS if one in families]
