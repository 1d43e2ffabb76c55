"""The pages on the commands `cfgx-deps` and `cfgx-code`, each made of what its `--help` prints."""
import argparse
import functools
import importlib
import os
import re
import sys
import types
from typing import List, NamedTuple, Tuple

from roff import Page, bold, code, escaped, italic, reference

ROOT = os.path.dirname(os.path.dirname(os.path.abspath(__file__)))
PACKAGE = "bindings/python/src/cfgx"
# The table of targets, whose lines begin with a triple and a tab, below two others.
TARGETS = f"{PACKAGE}/targets.tsv"
MANUAL = "User Commands"
# Wider than any line, so that no text is broken, whatever the width of a terminal is.
WIDE = 100000
# A word in capitals, which stands for others.
METAVAR = re.compile(r"\b[A-Z]{2,}\b")


class Command(NamedTuple):
    """A command of the package for Python."""
    name: str
    arguments: str
    """The module with its arguments."""
    explained: str
    """Where pip puts the page with all that it does, below the folder of the environment."""


DEPS = Command("cfgx-deps", "cfgx._arguments", "share/doc/cfgx/docs/MANIFESTS.md")
CODE = Command("cfgx-code", "cfgx._code_arguments", "share/doc/cfgx/docs/CODE.md")


class Help(NamedTuple):
    """What the command prints of itself: in its usage the words of each argument, what it does, its
    arguments with what each is, and how it ends."""
    usage: List[str]
    description: str
    arguments: List[Tuple[str, str]]
    ending: str


def text(command: Command) -> str:
    """Returns what `--help` of a command prints, with each argument in a line. The import of the
    package needs the library, so empty modules stand for the packages."""
    sys.dont_write_bytecode = True
    for name in ("cfgx", "cfgx.manifest", "cfgx.code"):
        module = types.ModuleType(name)
        module.__path__ = [os.path.join(ROOT, PACKAGE, *name.split(".")[1:])]
        sys.modules[name] = module
    made = importlib.import_module(command.arguments).parser_of(argparse.ArgumentParser)
    made.formatter_class = functools.partial(
        argparse.HelpFormatter, max_help_position=WIDE, width=2 * WIDE
    )
    # Later versions of Python colour what they print on a terminal.
    made.color = False
    return made.format_help()


def targets(table: str) -> List[str]:
    """Returns the triples in the table of targets."""
    return [line.split("\t")[0] for line in table.splitlines()[2:]]


def help_of(command: Command, printed: str) -> Help:
    """Returns the parts of what `--help` of a command prints."""
    usage, description, *lists, ending = printed.rstrip().split("\n\n")
    named = re.fullmatch(rf"usage: {command.name} (.*)", usage)
    if not named:
        raise ValueError(f"this is no usage of {command.name}: {usage!r}")
    arguments = re.findall(r"^  (\S.*?)  +(\S.*)$", "\n".join(lists), re.M)
    return Help(re.findall(r"\[.*?\]", named[1]), description, arguments, ending)


def words_of(argument: str) -> str:
    """Returns an argument. What stands for other words is told from what is typed."""
    return "".join(italic(part) if METAVAR.fullmatch(part) else bold(part) if part.strip("[], |.")
                   else escaped(part) for part in re.split(r"([A-Z]{2,}|[\[\], |]+|\.\.)", argument)
                   if part)


def page_of(command: Command, printed: str, version: str) -> str:
    """Returns the page on a command."""
    told, name = help_of(command, printed), command.name
    page = Page(name, 1, version, MANUAL, f"what {name} prints")
    summary = re.sub(r"\. .*", "", told.description).rstrip(".")
    page.section("NAME")
    page.paragraph(f"{escaped(name)} \\- {escaped(summary[:1].lower() + summary[1:])}")
    page.section("SYNOPSIS")
    shown = (words_of(one).replace(" ", "\\ ") for one in told.usage)
    page.paragraph(" ".join([bold(name), *shown]))
    page.section("DESCRIPTION")
    page.paragraph(escaped(told.description))
    page.section("OPTIONS")
    for argument, said in told.arguments:
        page.tagged(words_of(argument), escaped(said))
    page.section("EXIT STATUS")
    page.paragraph(escaped(told.ending))
    page.section("SEE ALSO")
    page.paragraph(", ".join(reference(*one) for one in (("cfgx", 1), ("cargo", 1), ("rustc", 1))))
    page.paragraph(f"{code(command.explained)}, below the folder into which pip puts the command.")
    return page.text()
