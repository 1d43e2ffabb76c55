"""The arguments of the command `cfgx-code`. The manual page on it is made of them where no library
is, so what stands here imports no module that needs it."""
import argparse
from typing import Type

from ._arguments import Parser, flags, one_of, paths, several
from .code._names import CHOICES, FINDINGS
from .manifest._cargo import TIMEOUT

NAME = "cfgx-code"
DESCRIPTION = (
    "Shows what the conditions in Rust code are on each target: of #[cfg], #[cfg_attr], cfg!,"
    " cfg_if! and cfg_select!. Compiles nothing, and runs no code of the files."
)
EPILOG = (
    "The status is 0. It is 1 if --fail-on finds something, 2 if an argument, the file of --ci or a"
    " line of --facts is wrong, and 3 if the command could not run, or values were not tried out. A"
    " file of Rust that cannot be read is passed over, with a note."
)
FORMATS = ("text", "json", "tsv", "sarif")


def parser_of(kind: Type[Parser]) -> Parser:
    """Returns the parser of the arguments, which is of this kind."""
    made = kind(NAME, description=DESCRIPTION, epilog=EPILOG, allow_abbrev=False, add_help=False)
    for add in (add_places, add_targets, add_output):
        add(made)
    return made


def add_places(made: argparse.ArgumentParser) -> None:
    """Adds the arguments that say what is read."""
    add = made.add_argument
    add("paths", metavar="PATH", nargs="*",
        help="a file, a folder, or a Cargo.toml, of whose packages each part is read; without one,"
             " and without a package, this folder")
    add("--manifest-path", metavar="MANIFEST", help="a Cargo.toml or its folder")
    several(made, "-p", "--package", metavar="NAME", told="a package of the workspace")
    add("--cargo-timeout", metavar="SECONDS", type=float, default=TIMEOUT,
        help="how long to wait for cargo, if there is a manifest (%(default)g)")


def add_targets(made: argparse.ArgumentParser) -> None:
    """Adds the arguments that say for what conditions are judged."""
    several(made, "--target", metavar="TRIPLE",
            told="a target, or all; without one, --ci and --facts, all")
    add = made.add_argument
    add("--ci", metavar="FILE", help="the targets that a file lists, one in a line")
    several(made, "--facts", metavar="FILE", divided=paths,
            told="a target by the lines that rustc prints; its triple is the name of the file")
    several(made, "--cfg", metavar="FLAG", divided=flags,
            told='a flag that is set: NAME or KEY="VALUE", such as feature="std"')
    add("--no-other-cfg", action="store_true",
        help="no other flag and no other feature is set, and each target is as rustc prints")


def add_output(made: argparse.ArgumentParser) -> None:
    """Adds the arguments that say what is printed, and which status is returned."""
    several(made, "--only", metavar=one_of(CHOICES),
            told="print only what is so; none and two are for what belongs together, of which JSON"
                 " has all")
    add = made.add_argument
    add("--format", choices=FORMATS, default=FORMATS[0], help="what is printed")
    add("--summary", action="store_true", help="count what the conditions of each file are")
    several(made, "--fail-on", metavar=one_of(FINDINGS),
            told="status 1 for a condition that is never true or that rustc refuses, or for an item"
                 " that is there twice; each is named on stderr")
    add("--known", metavar="FILE",
        help="what --fail-on passes over, each with a reason, in a file of TOML")
    add("--schema", action="store_true", help="print the schema of the JSON")
    add("--wide", action="store_true", help="break no line at the width of the terminal")
    add("-q", "--quiet", action="store_true", help="print no notes on stderr")
    add("--version", action="store_true", help="print the version of the package")
    add("-h", "--help", action="store_true", help="print this")
