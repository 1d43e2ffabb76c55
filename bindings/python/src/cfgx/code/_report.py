"""What the conditions of many files are on targets."""
import collections
import contextlib
import dataclasses
import json
import os
import re
from typing import Dict, Iterable, Iterator, List, Mapping, Optional, Sequence, Tuple

from .. import _files
from ..manifest import CargoError, ManifestError, _cargo, _platforms
from ..manifest._platforms import Flags, Platform
from . import _folders
from ._errors import CodeError, PackageError, RequestError
from ._folders import Passed, Source
from ._made import read
from ._model import Code
from ._modules import Modules
from ._values import Answer, GroupRow, Row, judged

# The name that stands for all targets of the package's table.
ALL = _platforms.ALL
# What a file has with a condition, or with a module that has a file of its own. Other files need no
# closer look.
MATTERING = re.compile(r"cfg|\bmod\s+[\w#]+\s*;")
# The facts that are the same in each build for a target.
LASTING = re.compile(r"unix|windows|target_(?!feature\b).*", re.DOTALL)
SYSTEM = re.compile(r'target_os="(.*)"')
MANIFEST = "Cargo.toml"


@dataclasses.dataclass(frozen=True)
class File:
    """A file that was read."""

    path: str
    """Its path, as it was found."""
    text: str
    """Its text."""
    code: Code
    """What was read of it."""
    rows: Tuple[Row, ...]
    """Its conditions, in the order of their places."""
    groups: Tuple[GroupRow, ...]
    """What belongs together in it, in the order of places."""
    context: Tuple[str, ...]
    """What has to hold for the file to be compiled, as far as the modules say that lead to it."""
    answer: Optional[Answer]
    """Where this holds, or `None` if there is nothing that has to hold."""

    @property
    def is_never(self) -> bool:
        """Whether it is compiled on none of the targets."""
        return self.answer is not None and self.answer.is_never


@dataclasses.dataclass(frozen=True)
class Report:
    """What the conditions of many files are on targets."""

    platforms: Tuple[Platform, ...]
    """The targets. A value has the place of its target among them."""
    files: Tuple[File, ...]
    """The files with a condition, in the order in which they were found."""
    passed: Tuple[Passed, ...]
    """What was passed over."""
    count: int
    """How many files were read, with those that have no condition."""

    @property
    def is_tried(self) -> bool:
        """Whether each value was tried out."""
        return all(is_tried(one) for file in self.files for one in (*file.rows, *file.groups))


def is_tried(row: object) -> bool:
    """Whether the values of a row were tried out."""
    if isinstance(row, Row):
        is_asked = row.condition.text is None or row.answer is not None
        return is_asked and (row.answer is None or row.answer.is_tried)
    answers = (row.none, row.two) if isinstance(row, GroupRow) else ()
    return all(one is None or one.is_tried for one in answers)


def systems_of(platforms: Sequence[Platform]) -> List[str]:
    """Returns the operating system of each platform, as `target_os` has it."""
    found = (next(filter(None, map(SYSTEM.fullmatch, one.facts)), None) for one in platforms)
    return ["none" if one is None else one[1] for one in found]


def counted(
    answer: Answer, systems: Sequence[str], value: Optional[bool] = True
) -> Dict[str, Tuple[int, int]]:
    """Returns for each system on how many of its targets an answer has a value, and how many
    targets it has, if there are some with the value."""
    all_of = collections.Counter(systems)
    some = collections.Counter(one for one, is_so in zip(systems, answer.on) if is_so is value)
    return {system: (count, all_of[system]) for system, count in some.most_common()}


def report(
    paths: Sequence[str] = (), targets: Sequence[str] = (ALL,), *,
    manifest: Optional[str] = None, packages: Sequence[str] = (),
    facts: Optional[Mapping[str, Iterable[str]]] = None, flags: Sequence[str] = (),
    has_other_flags: bool = True, cargo_timeout: float = _cargo.TIMEOUT,
) -> Report:
    """Returns what the conditions of files are on targets.

    `paths` are files, folders, and manifests, of whose packages each part is read. `manifest` and
    `packages` name a manifest and packages of its workspace beside them. For a manifest, `cargo`
    is started, which has `cargo_timeout` seconds. Nothing else is started.

    A target is a triple of `cfgx.targets()`, or `all` for each of them. `facts` has the lines that
    rustc prints for others, by their triples. `flags` are set on each of them, as `rustc --cfg`
    takes them. Anything that is not on the target may be set or not, unless `has_other_flags` is
    false: then it is as rustc prints, and what it does not print is false.

    Raises `RequestError` for a path, a target, a package or a flag that is none, `PackageError` if
    cargo refuses a manifest, and another `CodeError` if the current folder is gone.

    >>> import cfgx.code
    >>> try:
    ...     cfgx.code.report(["/nowhere.rs"])
    ... except cfgx.code.CodeError as error:
    ...     print(type(error).__name__, error)
    RequestError there is no /nowhere.rs
    """
    for name, value in (("paths", paths), ("targets", targets), ("packages", packages),
                        ("flags", flags)):
        if isinstance(value, str):
            raise TypeError(f"{name} is a text, and no list of texts")
    with raising_own():
        platforms = platforms_of(targets, facts or {}, Flags(tuple(flags), (), has_other_flags))
        where = [*places_of(paths, manifest, packages, cargo_timeout)]
        return report_on(_folders.sources_in(where), platforms)


@contextlib.contextmanager
def raising_own() -> Iterator[None]:
    """Raises a `CodeError` for another error that what is inside raises."""
    try:
        yield
    except CargoError as error:
        raise PackageError(str(error)) from error
    except ManifestError as error:
        raise RequestError(str(error)) from error
    except OSError as error:
        # A file that cannot be read is passed over.
        raise CodeError(f"the current folder cannot be read: {error.strerror}") from error


def report_on(entries: Iterable[_folders.Entry], platforms: Sequence[Platform]) -> Report:
    """Returns the report on files that were read."""
    passed: List[Passed] = []
    sources: List[Source] = []
    codes: List[Code] = []
    count = 0
    for one in entries:
        if isinstance(one, Passed):
            passed.append(one)
            continue
        count += 1
        if MATTERING.search(one.text):
            sources.append(one)
            codes.append(read(one.text))
    modules = Modules([one.path for one in sources], codes)
    contexts = [modules.context(number) for number in range(len(codes))]
    judgements = judged(codes, contexts, platforms, sum(len(one.text) for one in sources))
    files = [
        File(source.path, source.text, code, tuple(found.rows), tuple(found.groups),
             tuple(context), found.file)
        for source, code, context, found in zip(sources, codes, contexts, judgements)
        if code.conditions or code.unread
    ]
    return Report(tuple(platforms), tuple(files), tuple(passed), count)


def platforms_of(
    names: Sequence[str], facts: Mapping[str, Iterable[str]], flags: Flags
) -> List[Platform]:
    """Returns the platforms with some names, and those with facts."""
    table, texts = _platforms.Table(flags), flags.texts()
    triples = [triple for name in names
               for triple in (table.targets() if name == ALL else [name])]
    lines = {triple: table.lines(triple, True) for triple in triples}
    lines.update({triple: _platforms.lines_in(of) for triple, of in facts.items()})
    if not lines:
        raise RequestError("there is no target")
    return [platform_of(triple, of, texts, flags.has_others) for triple, of in lines.items()]


def platform_of(
    triple: str, lines: Iterable[str], flags: Iterable[str], has_others: bool
) -> Platform:
    """Returns a platform with flags. If others may be set, it has only those facts that are the
    same in each build."""
    facts = _platforms.facts_in(lines, triple)
    if has_others:
        facts = frozenset(filter(LASTING.fullmatch, facts))
    return _platforms.platform(triple, triple, facts | frozenset(flags), has_others)


def places_of(
    paths: Sequence[str], manifest: Optional[str], packages: Sequence[str], seconds: float
) -> Iterator[str]:
    """Yields the files and folders that are read: those at paths, and those of packages."""
    manifests = [one for one in paths if os.path.basename(one) == MANIFEST]
    yield from (one for one in paths if one not in manifests)
    if manifest is not None or packages and not manifests:
        manifests.append(_cargo.manifest_at(manifest))
    _cargo.expect_time(seconds)
    for one in manifests:
        yield from parts_of(os.path.abspath(one), packages, seconds)


def parts_of(manifest: str, packages: Sequence[str], seconds: float) -> Iterator[str]:
    """Yields the folders with the parts of packages, and the files of their build scripts."""
    _cargo.expect_fit(manifest)
    words = ("metadata", "--no-deps", "--format-version", "1", "--manifest-path", manifest)
    text = _cargo.output_of(*words, seconds=seconds)
    try:
        listed = {
            one["name"]: [(part["src_path"], "custom-build" in part["kind"])
                          for part in one["targets"]]
            for one in json.loads(text)["packages"]
        }
    except (ValueError, LookupError, TypeError, RecursionError) as error:
        raise PackageError(f"cargo lists no packages of {manifest}: {error}") from error
    for name in packages:
        if name not in listed:
            raise RequestError(f"the workspace has no package {name}")
    found = [path if is_script else os.path.dirname(path)
             for name in packages or listed for path, is_script in listed[name]]
    yield from dict.fromkeys(found)


def read_list(path: str) -> List[str]:
    """Returns the triples that a file lists, one in a line. What stands behind a `#` is a comment.
    Raises `RequestError`."""
    try:
        text = _files.bytes_of(path).decode("utf-8-sig")
    except UnicodeDecodeError as error:
        raise RequestError(f"{path} is not UTF-8: {error}") from error
    except OSError as error:
        raise RequestError(f"{path} cannot be read: {error.strerror}") from error
    lines = (line.split("#")[0].strip() for line in text.split("\n"))
    found = [line for line in lines if line]
    if not found:
        raise RequestError(f"{path} lists no target")
    return found

