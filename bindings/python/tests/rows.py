"""The recorded rows of crates/cfgx_vectors/data, whose README states their format."""
import os
import re
from typing import Iterator, List, Tuple

from . import ROOT

DATA = os.path.join(ROOT, "crates", "cfgx_vectors", "data")
ESCAPES = {"n": "\n", "t": "\t", "r": "\r", "0": "\0", "\\": "\\", "e": ""}
HEAD = re.compile(r"\[(.*): (\d+) rows?\]$")
# The name of the check of a table, and the fields of its rows.
Table = Tuple[str, List[List[str]]]
# The place of the condition among the words of a command. `pick` has none there.
PLACES = {"parse": 1, "eval": 1, "target": 2, "pick": None}


def lines_of(name: str) -> List[str]:
    """Returns the lines of a file. A line may hold characters that Python takes for the end of
    one."""
    with open(os.path.join(DATA, name), encoding="utf-8", newline="") as file:
        return file.read().split("\n")


def unescaped(field: str) -> str:
    """Returns the text that a field stands for."""
    field = re.sub(r"~(.*?)~(\d+)~", lambda piece: piece[1] * int(piece[2]), field)
    field = re.sub(r"\\u\{(\w+)\}", lambda number: chr(int(number[1], 16)), field)
    return re.sub(r"\\(.)", lambda escape: ESCAPES[escape[1]], field)


def rows_below(lines: List[str], head: int) -> Iterator[List[str]]:
    """Yields the fields of the rows of the table whose head is the line at a place. Its columns
    stand in the next line."""
    for line in lines[head + 2:]:
        if HEAD.match(line):
            return
        if line and not line.startswith("# "):
            yield line.split(" | ")


def tables_in(lines: List[str]) -> List[Table]:
    """Returns the tables of a file. Fails at a table that has other rows than its head counts."""
    heads = [(place, HEAD.match(line)) for place, line in enumerate(lines)]
    tables = [(head, list(rows_below(lines, place))) for place, head in heads if head]
    wrong = [(head[0], len(rows)) for head, rows in tables if len(rows) != int(head[2])]
    assert not wrong, f"these tables have other numbers of rows: {wrong}"
    return [(head[1], rows) for head, rows in tables]


def tables() -> Iterator[Table]:
    """Yields the tables of all files."""
    for name in sorted(os.listdir(DATA)):
        if name.endswith(".txt"):
            yield from tables_in(lines_of(name))


def rows_of(*checks: str) -> List[List[str]]:
    """Returns the fields of the rows with these checks. Fails if one of them has no row."""
    found = [(check, row) for check, rows in tables() if check in checks for row in rows]
    missing = set(checks) - {check for check, _ in found}
    assert checks and not missing, f"no row has the check {missing}"
    return [row for _, row in found]


def rust_crate() -> Iterator[Tuple[str, int, str]]:
    """Yields the text, the status and the output of each row of the Rust crate."""
    for line in lines_of("rust_crate.tsv"):
        if line.count("\t") == 2:
            text, status, output = line.split("\t")
            yield unescaped(text), int(status), unescaped(output)


def conditions_of_runs() -> List[str]:
    """Returns the condition of each run that accepts it."""
    accepted = [words for status, _, *words in rows_of("run") if int(status) == 0]
    places = [(words, PLACES[words[0]]) for words in accepted]
    texts = [unescaped(words[place]) for words, place in places if place is not None]
    # At a wrong place stand the names of commands or triples, of which there are few.
    assert len(texts) >= 79 and len(set(texts)) >= 50, texts
    assert not any(text in PLACES for text in texts), texts
    return texts


def accepted_texts() -> List[str]:
    """Returns each accepted text of the rows."""
    texts = [unescaped(row[0]) for row in rows_of("predicates", "fillings", "spelling")]
    texts += conditions_of_runs()
    return texts + [text for text, status, _ in rust_crate() if status == 0]
