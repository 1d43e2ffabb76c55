"""The command `cfgx-code`."""
import argparse
import gc
import os
import pkgutil
import shutil
import sys
from typing import Iterator, List, Optional, Sequence, Tuple

from . import __version__, _known
from ._code_arguments import NAME, parser_of
from ._known import Known, KnownError
from ._output import (
    FAILED, FOUND, INTERRUPTED, MISUSED, OutputError, Parser, complain, write,
)
from ._terminal import has_colours, is_terminal, shown
from .code import CodeError, Report, RequestError, report
from .code import _findings, _formats, _text
from .code._findings import Finding
from .code._names import CHOICES, CONDITION, FINDINGS, LEAST, MEMBERS, PATH
from .code._report import read_list
from .manifest import ManifestError, _platforms
from .manifest._errors import RequestError as FactsRequestError

SCHEMA = "schema.json"
KNOWN = _known.Form(FINDINGS, MEMBERS, LEAST)
# What is found, with the reason why it is known if it is.
Judged = Tuple[Finding, Optional[str]]


def parser() -> Parser:
    """Returns the parser of the arguments."""
    return parser_of(Parser)


def expect_fit(words: argparse.Namespace) -> None:
    """Raises `RequestError` for a word that is none of an option, and for options that do not go
    together."""
    for option, given, known in (("--fail-on", words.fail_on, FINDINGS),
                                 ("--only", words.only, CHOICES)):
        wrong = [one for one in given if one not in known]
        if wrong:
            raise RequestError(f"{option} takes {', '.join(known)}, and not {wrong[0]}")
    if words.format == "sarif" and (words.summary or words.only):
        raise RequestError("--format sarif lists what is found, without --summary and --only")


def targets_of(words: argparse.Namespace) -> List[str]:
    """Returns the targets that arguments name."""
    listed = [] if words.ci is None else read_list(words.ci)
    named = [*words.target, *listed]
    return named or ([] if words.facts else [_platforms.ALL])


def report_of(words: argparse.Namespace) -> Report:
    """Returns the report that arguments ask for. Raises a `CodeError` or a `ManifestError`."""
    has_package = words.package or words.manifest_path is not None
    return report(
        words.paths or ([] if has_package else [os.curdir]), targets_of(words),
        manifest=words.manifest_path, packages=words.package,
        facts=_platforms.facts_of(words.facts), flags=words.cfg,
        has_other_flags=not words.no_other_cfg, cargo_timeout=words.cargo_timeout,
    )


def lines_of(found: Report, words: argparse.Namespace, known: Sequence[Judged]) -> Iterator[str]:
    """Returns the lines that are printed of a report."""
    if words.format == "sarif":
        return _formats.sarif_of(found, known)
    if words.format == "json":
        return _formats.json_of(found, words.only, words.summary)
    if words.format == "tsv":
        return _formats.tsv_of(found, words.only, words.summary)
    if words.summary:
        return _text.summary_lines(found)
    is_cut = is_terminal(sys.stdout) and not words.wide
    width = shutil.get_terminal_size().columns if is_cut else None
    return _text.Printer(found, words.only, width, has_colours(sys.stdout, os.environ)).lines()


def text_of(words: argparse.Namespace) -> Optional[str]:
    """Returns the text that arguments ask for in place of a report, if they do."""
    if words.help:
        return parser().format_help().rstrip()
    if words.version:
        return f"{NAME} {__version__}"
    if words.schema:
        data = pkgutil.get_data(f"{__package__}.code", SCHEMA)
        return None if data is None else data.decode().rstrip()
    return None


def found_in(found: Report, known: Known) -> List[Judged]:
    """Returns what is found in a report, each with the reason why it is known if it is."""
    findings = []
    # With one character more, the beginning of a longer one is none of those that are known.
    for one in _findings.findings_in(found, known.longest(CONDITION) + 1):
        entry = known.entry_for(one.name, {PATH: one.path, CONDITION: one.condition})
        findings.append((one, None if entry is None else entry.reason))
    return findings


def notes_on(found: Report, words: argparse.Namespace, known: Known) -> Iterator[str]:
    """Yields what was passed over, and the entries that match nothing."""
    yield from (f"{one.path} was passed over: {one.reason}" for one in found.passed)
    yield from (f"{words.known}: {one} matches nothing" for one in known.unmatched())


def run(words: argparse.Namespace) -> int:
    """Prints what the arguments ask for, and returns the status."""
    text = text_of(words)
    if text is not None:
        write([text])
        return 0
    expect_fit(words)
    known = Known() if words.known is None else _known.read(words.known, KNOWN)
    found = report_of(words)
    findings = found_in(found, known)
    for note in [] if words.quiet else notes_on(found, words, known):
        complain(NAME, f"note: {shown(note)}")
    write(lines_of(found, words, findings))
    failing = [one for one, reason in findings if reason is None and one.name in words.fail_on]
    for one in failing:
        complain(NAME, _findings.line_of(one))
    if not found.is_tried:
        complain(NAME, "not all values were tried out: the budget of a report is spent")
    return FOUND if failing else 0 if found.is_tried else FAILED


def main(arguments: Optional[Sequence[str]] = None) -> int:
    """Runs the command with the arguments of the process, and returns its status."""
    words = parser().parse_intermixed_args(arguments)
    # A report of many files has a million objects and no cycles.
    gc.disable()
    try:
        return run(words)
    except (RequestError, FactsRequestError) as error:
        complain(NAME, str(error))
        return MISUSED
    except (CodeError, ManifestError, KnownError, OutputError) as error:
        complain(NAME, str(error))
    except MemoryError:
        complain(NAME, "there is not enough memory")
    except KeyboardInterrupt:
        return INTERRUPTED
    return FAILED
