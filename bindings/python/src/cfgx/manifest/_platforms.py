"""The platforms of a report: the host, and the targets that are named."""
import codecs
import dataclasses
import io
import os
from concurrent import futures
from typing import (
    Callable, Dict, FrozenSet, Iterable, List, Mapping, Optional, Sequence, Tuple, Union,
)

import cfgx

from .. import _files, _process
from .._facts import lines_of
from . import _cargo, _flags
from ._errors import CompilerError, FactsError, RequestError

# The names that stand for all targets and for the host.
ALL, HOST_TUPLE = "all", "host-tuple"
# The name of the platform that is the host.
HOST = "host"
# The ends of the name of a file of facts that do not belong to the triple.
FILE_ENDS = (".cfg", ".txt")
# The keys that rustc prints for every target.
REQUIRED = ("target_arch", "target_endian", "target_pointer_width")


@dataclasses.dataclass(frozen=True)
class Platform:
    """A platform, as Cargo sees it."""

    name: str
    """`host`, or the triple of a target."""
    triple: str
    """The triple."""
    is_host: bool
    """Whether it is the host, for which Cargo builds build scripts and proc-macros."""
    facts: FrozenSet[str]
    """The facts and flags that are true there: texts `key` and `key="value"`."""
    has_other_flags: bool
    """Whether a flag that is not among the facts may be set there."""


@dataclasses.dataclass(frozen=True)
class Flags:
    """What is known of the flags that Cargo passes to rustc."""

    names: Tuple[str, ...] = ()
    """The flags that are set, as `rustc --cfg` takes them."""
    rustflags: Tuple[str, ...] = ()
    """The arguments of rustc in `RUSTFLAGS`, divided."""
    has_others: bool = True
    """Whether other flags may be set."""

    def texts(self) -> FrozenSet[str]:
        """Returns the texts of all flags that are set. Raises `RequestError`."""
        named = map(_flags.flag_of, self.names)
        return frozenset([*named, *_flags.divided(self.rustflags)[0]])


# What is called with the number of targets of which a compiler was asked, and with that of all.
Progress = Callable[[int, int], None]


def no_progress(done: int, count: int) -> None:
    """Does nothing."""


class Table:
    """The facts in the package's own table of targets."""

    def __init__(self, flags: Flags, cargo_timeout: float = _cargo.TIMEOUT) -> None:
        """`cargo_timeout` is how long to wait for cargo, in seconds. Raises `RequestError` if an
        argument of rustc changes facts, as only a compiler knows."""
        self._cargo_timeout = cargo_timeout
        _, others = _flags.divided(flags.rustflags)
        if others:
            raise RequestError(f"RUSTFLAGS has {others[0]}: what it changes needs --rustc")

    def host(self) -> str:
        """Returns the triple of the host."""
        return _cargo.host(self._cargo_timeout)

    def targets(self) -> Sequence[str]:
        """Returns the triples of all targets."""
        return cfgx.targets()

    def each(self, triples: Sequence[str]) -> Iterable[Iterable[str]]:
        """Returns the facts of targets with flags. Raises `RequestError`."""
        return (self.lines(triple, True) for triple in triples)

    def lines(self, triple: str, is_with_flags: bool) -> Iterable[str]:
        """Returns the facts of a target. Raises `RequestError` if the table does not have it."""
        try:
            return cfgx.target_facts(triple)
        except ValueError as error:
            hint = "--rustc asks a compiler, and --facts reads a file"
            raise RequestError(f"{error} ({hint})") from error


class Compiler:
    """The facts that a compiler prints: `$RUSTC`, or the `rustc` on the path."""

    def __init__(
        self, flags: Flags, environment: Mapping[str, str], progress: Progress = no_progress
    ) -> None:
        self._flags = flags
        self._progress = progress
        named = environment.get("RUSTC") or "rustc"
        # The process starts in another folder.
        self._program = os.path.abspath(named) if os.path.dirname(named) else named

    def host(self) -> str:
        """Returns the triple of the host. Raises `CompilerError`."""
        for line in self._printed("-vV"):
            if line.startswith("host: "):
                return line[6:]
        raise CompilerError(f"{self._program} -vV names no host")

    def targets(self) -> Sequence[str]:
        """Returns the triples of all targets that the compiler knows."""
        return self._printed("--print", "target-list")

    def each(self, triples: Sequence[str]) -> Iterable[Iterable[str]]:
        """Returns the facts of targets with flags. As many compilers run at once as there are
        processors. Raises the `CompilerError` of the first target that has one."""
        found = []
        with futures.ThreadPoolExecutor(_process.processors()) as pool:
            waiting = [pool.submit(self.lines, triple, True) for triple in triples]
            try:
                for one in waiting:
                    found.append(one.result())
                    self._progress(len(found), len(waiting))
            finally:
                for one in waiting:
                    one.cancel()
        return found

    def lines(self, triple: str, is_with_flags: bool) -> Iterable[str]:
        """Returns the facts of a target. Raises `CompilerError`."""
        flags = self._flags.rustflags if is_with_flags else ()
        # Cargo asks for this type of crate too, for which `crt-static` is no feature.
        kind = ("--crate-type", "proc-macro")
        return self._printed("--print", "cfg", *kind, "--target", triple, *flags)

    def _printed(self, *words: str) -> List[str]:
        """Returns the lines that the compiler prints with these words."""
        try:
            run = _process.run([self._program, *words])
        except (OSError, ValueError) as error:
            raise CompilerError(f"{self._program} could not be run: {error}") from error
        if run.status != 0:
            message = _cargo.quoted(run.stderr)
            raise CompilerError(f"{self._program} refuses {' '.join(words)}:{message}")
        return lines_of(run.stdout.decode(errors="replace"))


Source = Union[Table, Compiler]


def source_of(
    flags: Flags, environment: Mapping[str, str], asks_rustc: bool, cargo_timeout: float,
    progress: Optional[Progress] = None,
) -> Source:
    """Returns what says the facts: the compiler if it is asked, and else the table. Raises
    `RequestError`."""
    if asks_rustc:
        return Compiler(flags, environment, progress or no_progress)
    return Table(flags, cargo_timeout)


def facts_in(lines: Iterable[str], where: str) -> FrozenSet[str]:
    """Returns the texts of lines of facts. Raises `FactsError` for one that is no fact."""
    facts = []
    for number, line in enumerate(lines, 1):
        fact = _flags.fact_of(line.strip())
        if fact is not None:
            facts.append(fact)
        elif line.strip():
            raise FactsError(f"line {number} of {where} is no fact: {line}")
    return frozenset(facts)


def encoding_of(data: bytes) -> str:
    """Returns the encoding of a file of facts: that of the mark with which it begins. Shells of
    Windows write UTF-8 with a mark, or UTF-16. Without one it is UTF-8."""
    is_wide = data.startswith((codecs.BOM_UTF16_LE, codecs.BOM_UTF16_BE))
    return "utf-16" if is_wide else "utf-8-sig"


def read_facts(path: str) -> Tuple[str, List[str]]:
    """Returns the triple that the name of a file of facts has, and its lines. Raises `FactsError`,
    also if it is no regular file or too large, and if a key is missing that each target has. Then
    rustc wrote no or half a file."""
    name = os.path.basename(path)
    stem, end = os.path.splitext(name)
    try:
        data = _files.bytes_of(path)
        text = io.TextIOWrapper(io.BytesIO(data), encoding=encoding_of(data))
        lines = text.read().split("\n")
    except UnicodeDecodeError as error:
        raise FactsError(f"{path} is not UTF-8: {error}") from error
    except OSError as error:
        raise FactsError(f"{path} cannot be read: {error.strerror}") from error
    keys = {(_flags.fact_of(line.strip()) or "").split("=")[0] for line in lines}
    for key in REQUIRED:
        if key not in keys:
            raise FactsError(f"{path} has no `{key}`: did rustc fail?")
    return stem if end in FILE_ENDS else name, lines


def facts_of(paths: Iterable[str]) -> Dict[str, List[str]]:
    """Returns the lines of each file of facts by the triple that its name has. Raises `FactsError`,
    and `RequestError` if two files have one triple."""
    facts: Dict[str, List[str]] = {}
    for path in paths:
        triple, lines = read_facts(path)
        if triple in facts:
            raise RequestError(f"two files of facts have the name {triple}")
        facts[triple] = lines
    return facts


def platforms_of(
    source: Source, targets: Sequence[str], facts: Mapping[str, Iterable[str]], flags: Flags,
    host: Optional[str] = None,
) -> List[Platform]:
    """Returns the host, the targets with these names, and those with these facts. No flag reaches
    the host if there is a target. Without a triple, the host is that of the source."""
    host = source.host() if host is None else host
    if HOST in [*targets, *facts]:
        raise RequestError(f"{HOST} is no target: {HOST_TUPLE} is the host as a target")
    named = [triple for name in targets for triple in triples_of(source, name, host)]
    texts, is_alone = flags.texts(), not named and not facts
    read = {triple: lines_in(lines) for triple, lines in facts.items()}
    on_host = facts_in(lines_on_host(source, host, read, is_alone), host)
    if is_alone:
        return [platform(HOST, host, on_host | texts, flags.has_others)]
    asked = [triple for triple in dict.fromkeys(named) if triple not in read]
    lines_of = {**dict(zip(asked, source.each(asked))), **read}
    return [platform(HOST, host, on_host, False), *(
        platform(triple, triple, facts_in(lines_of[triple], triple) | texts, flags.has_others)
        for triple in dict.fromkeys([*named, *read])
    )]


def lines_in(lines: Iterable[str]) -> List[str]:
    """Returns the lines of a text, or those that are listed."""
    return lines.split("\n") if isinstance(lines, str) else list(lines)


def lines_on_host(
    source: Source, host: str, facts: Mapping[str, List[str]], is_with_flags: bool
) -> Iterable[str]:
    """Returns the facts of the host. Those of a caller may have flags, which do not reach the host
    beside a target. So they are taken only if the source does not have the host."""
    if host in facts and host not in source.targets():
        return facts[host]
    return source.lines(host, is_with_flags)


def platform(name: str, triple: str, facts: FrozenSet[str], has_other_flags: bool) -> Platform:
    """Returns a platform. Cargo takes `proc_macro` for false, even if rustc prints it."""
    return Platform(name, triple, name == HOST, facts - {"proc_macro"}, has_other_flags)


def triples_of(source: Source, name: str, host: str) -> Sequence[str]:
    """Returns the triples that the name of a target stands for."""
    if name == ALL:
        return source.targets()
    return [host if name == HOST_TUPLE else name]
