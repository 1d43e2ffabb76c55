"""The arguments of the command `cfgx-deps`. The manual page on it is made of them where no library
is, so what stands here imports no module that needs it."""
import argparse
import os
import re
from typing import Callable, List, Sequence, Type, TypeVar

from .manifest._cargo import KINDS, TIMEOUT
from .manifest._names import CHOICES, FINDINGS

DESCRIPTION = (
    "Shows which dependencies of a Cargo.toml Cargo takes on the host and on each target, as far as"
    " their conditions say. Runs cargo for the list of the dependencies, and no code of the"
    " packages."
)
EPILOG = (
    "The status is 0. It is 1 if --fail-on finds something, 2 if an argument is wrong, and 3 if the"
    " manifest cannot be read, something else fails, or values were not tried out."
)
FORMATS = ("table", "json", "tsv", "sarif")
# A part of a list of flags: a text in quotes, which may have commas, a comma, or other text.
PART = re.compile(r'"[^"]*"?|,|[^",]+')

Parser = TypeVar("Parser", bound=argparse.ArgumentParser)


def listed(text: str) -> List[str]:
    """Returns the words of a list, which has commas between them."""
    return text.split(",")


def flags(text: str) -> List[str]:
    """Returns the flags of a list. A comma in quotes is one of a value."""
    found = [""]
    for part in PART.findall(text):
        if part == ",":
            found.append("")
        else:
            found[-1] += part
    return found


def features(text: str) -> List[str]:
    """Returns the features of a list, which has commas or blanks between them, as for cargo."""
    return text.replace(",", " ").split()


def paths(text: str) -> List[str]:
    """Returns the paths of a list, or the path that is one with its commas."""
    return [text] if os.path.exists(text) else listed(text)


def one_of(words: Sequence[str]) -> str:
    """Returns what stands for one of some words."""
    return f"{{{','.join(words)}}}"


def several(
    parser: argparse.ArgumentParser, *names: str, metavar: str, told: str,
    divided: Callable[[str], List[str]] = listed,
) -> None:
    """Adds an option that takes several values: it may be repeated, and takes lists."""
    parser.add_argument(*names, metavar=f"{metavar},..", action="extend", type=divided, default=[],
                        help=told)


def parser_of(kind: Type[Parser]) -> Parser:
    """Returns the parser of the arguments, which is of this kind."""
    made = kind("cfgx-deps", description=DESCRIPTION, epilog=EPILOG, allow_abbrev=False,
                add_help=False)
    for add in (add_platforms, add_rows, add_flags, add_resolved, add_output):
        add(made)
    return made


def add_platforms(made: argparse.ArgumentParser) -> None:
    """Adds the arguments that name a manifest and platforms."""
    add = made.add_argument
    add("manifest", metavar="MANIFEST", nargs="?",
        help="a Cargo.toml or its folder; without one, the first in this folder or above it")
    add("--manifest-path", metavar="MANIFEST", help="the same, by the name that cargo has for it")
    several(made, "--target", metavar="TRIPLE",
            told="a target, host-tuple, or all; without one, everything is built for the host")
    add("--host", metavar="TRIPLE",
        help="the host, if it is not the machine that runs cargo or, with --rustc, rustc")
    several(made, "--facts", metavar="FILE", divided=paths,
            told="a target by the lines that rustc prints; its triple is the name of the file")
    add("--rustc", action="store_true",
        help="ask $RUSTC, or the rustc on the path, in place of the built-in table")
    add("--cargo-timeout", metavar="SECONDS", type=float, default=TIMEOUT,
        help="how long to wait for each run of cargo (%(default)g)")


def add_rows(made: argparse.ArgumentParser) -> None:
    """Adds the arguments that choose rows."""
    made.add_argument("--workspace", action="store_true", help="all packages of the workspace")
    several(made, "--exclude", metavar="NAME",
            told="with --workspace, a package that is left out")
    several(made, "-p", "--package", metavar="NAME", told="a package of the workspace")
    several(made, "--kind", metavar=one_of(KINDS), told="only dependencies of this kind")
    several(made, "--only", metavar=one_of(CHOICES),
            told="print only rows with a condition, with values that differ, or with an unknown"
                 " one")


def add_flags(made: argparse.ArgumentParser) -> None:
    """Adds the arguments that say which flags are set."""
    several(made, "--cfg", metavar="FLAG", divided=flags,
            told='a flag that is set: NAME or KEY="VALUE"')
    add = made.add_argument
    add("--no-other-cfg", action="store_true", help="no other flag is set")
    add("--rustflags", action="store_true", help="read RUSTFLAGS as Cargo does")


def add_resolved(made: argparse.ArgumentParser) -> None:
    """Adds the arguments of a report on the lock file."""
    add = made.add_argument
    add("--resolved", action="store_true",
        help="the packages of the lock file, and which of them a build for each target has")
    several(made, "--features", metavar="NAME", divided=features,
            told="with --resolved, features that are on, as for cargo")
    add("--all-features", action="store_true", help="with --resolved, each feature is on")
    add("--no-default-features", action="store_true",
        help="with --resolved, the feature default is off")
    add("--config", metavar="SETTING", action="append", default=[],
        help="with --resolved, a setting for cargo: KEY=VALUE or a file of configuration")


def add_output(made: argparse.ArgumentParser) -> None:
    """Adds the arguments that say what is printed, and which status is returned."""
    add = made.add_argument
    add("--schema", action="store_true", help="print the schema of the JSON")
    add("--format", choices=FORMATS, default=FORMATS[0], help="what is printed")
    add("--summary", action="store_true", help="count the platforms with each value")
    several(made, "--fail-on", metavar=one_of(FINDINGS),
            told="status 1 for a value that is unknown, or a condition that is never true; the"
                 " rows are named on stderr")
    add("--known", metavar="FILE",
        help="rows that --fail-on passes over, each with a reason, in a file of TOML")
    add("--wide", action="store_true", help="cut nothing to the width of the terminal")
    add("-q", "--quiet", action="store_true", help="print neither notes nor progress on stderr")
    add("--version", action="store_true", help="print the version of the package")
    add("-h", "--help", action="store_true", help="print this")
