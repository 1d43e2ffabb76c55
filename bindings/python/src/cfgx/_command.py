"""The command `cfgx-deps`."""
import argparse
import dataclasses
import gc
import os
import shutil
import sys
from typing import Any, Dict, Iterator, Optional, Sequence, Union

from . import __version__, _known
from ._arguments import parser_of
from ._known import Known, KnownError
from ._output import (
    FAILED, FOUND, INTERRUPTED, MISUSED, OutputError, Parser, complain, write,
)
from ._terminal import Progress, has_colours, is_terminal, shown
from .manifest import (
    Features, ManifestError, Report, RequestError, Resolved, Row, Used, report, resolved,
)
from .manifest import (
    _findings, _flags, _formats, _platforms, _resolved_formats, _schema, _table,
)
from .manifest._cargo import KINDS
from .manifest._findings import TOLD
from .manifest._names import CHOICES, CONDITIONAL, DIFFERING, FINDINGS, NEVER, UNKNOWN
from .manifest._once import Once
from .manifest._report import differ, has_unknown

NAME = "cfgx-deps"
# A report of either kind.
Found = Union[Report, Resolved]


def parser(name: str = NAME) -> Parser:
    """Returns the parser of the arguments, for a command that is called by a name."""
    made = parser_of(Parser)
    made.prog = name
    return made


def report_of(words: argparse.Namespace) -> Found:
    """Returns the report that arguments ask for. Raises a `ManifestError`."""
    progress = Progress(None if words.quiet else sys.stderr, "asked rustc of targets")
    asked: Dict[str, Any] = {
        "packages": words.package, "workspace": words.workspace, "exclude": words.exclude,
        "kinds": words.kind or KINDS, "facts": _platforms.facts_of(words.facts), "cfg": words.cfg,
        "no_other_cfg": words.no_other_cfg, "rustc": words.rustc, "host": words.host,
        "rustflags": (_flags.rustflags_of(os.environ) or []) if words.rustflags else None,
        "cargo_timeout": words.cargo_timeout, "progress": progress,
    }
    manifest = words.manifest_path if words.manifest is None else words.manifest
    try:
        if words.resolved:
            settings: Dict[str, Any] = {"features": features_of(words), "config": words.config}
            return resolved(manifest, words.target, **settings, **asked)
        return report(manifest, words.target, **asked)
    finally:
        progress.clear()


def features_of(words: argparse.Namespace) -> Features:
    """Returns the features that arguments ask for."""
    return Features(
        tuple(words.features), has_default=not words.no_default_features,
        has_all=words.all_features,
    )


def expect_fit(words: argparse.Namespace) -> None:
    """Raises `RequestError` for a word that is none of an option, and for options that do not go
    together."""
    for option, given, known in (("--fail-on", words.fail_on, FINDINGS),
                                 ("--only", words.only, CHOICES)):
        wrong = [one for one in given if one not in known]
        if wrong:
            raise RequestError(f"{option} takes {' and '.join(known)}, and not {wrong[0]}")
    if words.manifest is not None and words.manifest_path is not None:
        raise RequestError("MANIFEST and --manifest-path name a manifest: give one")
    if words.format == "sarif" and words.summary:
        raise RequestError("--summary counts rows, and --format sarif lists what is found")
    resolving = {
        "--features": words.features, "--all-features": words.all_features,
        "--no-default-features": words.no_default_features, "--config": words.config,
    }
    listing = {
        "--known": words.known, "--format sarif": words.format == "sarif",
        f"--only {CONDITIONAL}": CONDITIONAL in words.only,
    }
    for name, value in (listing if words.resolved else resolving).items():
        if value and words.resolved:
            raise RequestError(f"{name} is for dependencies, and --resolved lists packages")
        if value:
            raise RequestError(f"{name} needs --resolved: without it, each dependency is listed")


def only(found: Found, wanted: Sequence[str]) -> Found:
    """Returns a report with those of its rows that are wanted."""
    if not wanted:
        return found
    is_differing, is_unknown = Once(differ), Once(has_unknown)

    def is_wanted(row: Union[Row, Used]) -> bool:
        return (
            (CONDITIONAL in wanted and isinstance(row, Row) and row.is_conditional)
            or (DIFFERING in wanted and is_differing(row.values))
            or (UNKNOWN in wanted and is_unknown(row.values))
        )

    # The rows of a report are of its own kind, which a type of both reports does not say.
    rows: Any = tuple(filter(is_wanted, found.rows))
    return dataclasses.replace(found, rows=rows)


def width_of(words: argparse.Namespace) -> Optional[int]:
    """Returns how many columns a table may have, or `None` if it is not cut."""
    is_cut = is_terminal(sys.stdout) and not words.wide
    return shutil.get_terminal_size().columns if is_cut else None


def lines_of(found: Found, words: argparse.Namespace, known: Known) -> Iterator[str]:
    """Returns the lines that are printed of a report."""
    chosen = only(found, words.only)
    left_out = len(found.rows) - len(chosen.rows)
    if isinstance(chosen, Resolved):
        return lines_of_resolved(chosen, words, left_out)
    if words.format == "sarif":
        return _findings.sarif_of(chosen, known, words.fail_on)
    if words.format == "json":
        return _formats.json_of(chosen, words.summary)
    if words.format == "tsv":
        return _formats.tsv_of(chosen, words.summary)
    table = _table.summary_table_of if words.summary else _table.table_of
    return table(chosen, width_of(words), left_out, has_colours(sys.stdout, os.environ))


def lines_of_resolved(
    found: Resolved, words: argparse.Namespace, left_out: int
) -> Iterator[str]:
    """Returns the lines that are printed of a report on a lock file, which leaves out packages."""
    if words.format == "json":
        return _resolved_formats.json_of(found, words.summary)
    if words.format == "tsv":
        return _resolved_formats.tsv_of(found, words.summary)
    return _resolved_formats.table_of(
        found, width_of(words), words.summary, left_out, has_colours(sys.stdout, os.environ)
    )


def reasons_to_fail(found: Found, wanted: Sequence[str], known: Known) -> Iterator[str]:
    """Yields a line for each row of a report for which the command is to fail."""
    if isinstance(found, Report):
        # The file of known rows is asked of each row, also of those that nothing fails for.
        findings = _findings.findings_in(found.rows, known)
        yield from (str(one) for one in findings if one.name in wanted and one.known is None)
        return
    is_unknown = Once(has_unknown)
    for row in found.rows:
        what = f"{row.package.name} {row.package.version}"
        if UNKNOWN in wanted and is_unknown(row.values):
            yield shown(f"{TOLD[UNKNOWN]}: {what}")
        if NEVER in wanted and row.is_never:
            yield shown(f"{TOLD[NEVER]}: {what}")


def text_of(words: argparse.Namespace) -> Optional[str]:
    """Returns the text that arguments ask for in place of a report, if they do."""
    if words.help:
        return parser(words.name).format_help().rstrip()
    if words.version:
        return f"{NAME} {__version__}"
    return _schema.text().rstrip() if words.schema else None


def run(words: argparse.Namespace) -> int:
    """Prints what the arguments ask for, and returns the status."""
    text = text_of(words)
    if text is not None:
        write([text])
        return 0
    expect_fit(words)
    known = Known() if words.known is None else _known.read(words.known, _findings.FORM)
    found = report_of(words)
    is_judged = words.fail_on or words.known is not None
    reasons = list(reasons_to_fail(found, words.fail_on, known)) if is_judged else []
    notes = [*found.notes, *(f"{words.known}: {one} matches nothing" for one in known.unmatched())]
    for note in [] if words.quiet else notes:
        complain(NAME, f"note: {shown(note)}")
    write(lines_of(found, words, known))
    for reason in reasons:
        complain(NAME, reason)
    if not found.is_tried:
        what = "answers to flags"
        what += " and ways to packages" if isinstance(found, Resolved) else ""
        complain(NAME, f"not all {what} were tried out: the budget of a report is spent")
    return FOUND if reasons else 0 if found.is_tried else FAILED


def main(arguments: Optional[Sequence[str]] = None, name: str = NAME) -> int:
    """Runs the command, which was called by a name, with arguments, or with those of the process.
    Returns its status."""
    words = parser(name).parse_intermixed_args(arguments)
    words.name = name
    # A report of a large manifest has a million objects and no cycles.
    gc.disable()
    try:
        return run(words)
    except RequestError as error:
        complain(NAME, str(error))
        return MISUSED
    except (ManifestError, KnownError) as error:
        complain(NAME, str(error))
    except OutputError as error:
        complain(NAME, str(error))
    except MemoryError:
        complain(NAME, "there is not enough memory")
    except KeyboardInterrupt:
        return INTERRUPTED
    return FAILED
