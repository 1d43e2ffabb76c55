"""Facts and flags as Cargo compares them: as texts `key` and `key="value"`."""
import os
import re
from typing import Iterable, Iterator, List, Mapping, Optional, Tuple

from .. import _files
from ._errors import RequestError

KEY = r"(?:r#)?([A-Za-z_][A-Za-z0-9_]*)"
# A line of facts as rustc prints it, or a flag as it takes one.
FACT = re.compile(KEY + r' *(?:= *("[^"]*"))?')
FLAG = re.compile(rf'\s*{KEY}\s*(?:=\s*("[^"\\]*")\s*)?')
LITERALS = ("true", "false")
# The variables of the environment that have flags. Cargo takes the first that is set.
ENCODED, PLAIN = VARIABLES = ("CARGO_ENCODED_RUSTFLAGS", "RUSTFLAGS")
# Those that stand for `rustflags` of a configuration file.
CONFIGURING = re.compile("CARGO_(BUILD|TARGET_.+)_RUSTFLAGS")
# The flags of rustc, beside `--cfg`, that change which facts it prints.
CODEGEN = ("target-feature", "target-cpu", "panic", "debug-assertions", "opt-level",
           "overflow-checks", "relocation-model", "soft-float")
# The word that a file has if it configures flags, where no comment begins before it.
CONFIGURED = re.compile(r"^[^#\n]*\brustflags\b", re.MULTILINE)
CONFIGURATIONS = ("config.toml", "config")
# How many of these files are read. A path may lead through two thousand folders.
MOST_CONFIGURATIONS = 32


def text_of(found: "re.Match[str]") -> str:
    """Returns the text that Cargo compares. It drops the `r#` of a key."""
    return found[1] if found[2] is None else f"{found[1]}={found[2]}"


def fact_of(line: str) -> Optional[str]:
    """Returns the text of a line of facts, or `None` if it is no fact."""
    found = FACT.fullmatch(line)
    return None if found is None else text_of(found)


def flag_of(word: str) -> str:
    """Returns the text of a flag as `rustc --cfg` takes it. Raises `RequestError`."""
    found = FLAG.fullmatch(word)
    if found is None or (found[1] in LITERALS and not word.lstrip().startswith("r#")):
        raise RequestError(f"{word} is no flag: one is NAME or KEY=\"VALUE\"")
    return text_of(found)


def rustflags_of(environment: Mapping[str, str]) -> Optional[List[str]]:
    """Returns the arguments in the variables of the environment that Cargo reads, as it divides
    them, or `None` if they are not set."""
    encoded = environment.get(ENCODED)
    if encoded is not None:
        return encoded.split("\x1f") if encoded else []
    plain = environment.get(PLAIN)
    return None if plain is None else [word.strip() for word in plain.split(" ") if word.strip()]


def divided(arguments: Iterable[str]) -> Tuple[List[str], List[str]]:
    """Returns the flags that arguments of rustc set, and the arguments that change other facts."""
    flags: List[str] = []
    others: List[str] = []
    words = iter(arguments)
    for word in words:
        if word == "--cfg":
            flags.append(flag_of(next(words, "")))
        elif word.startswith("--cfg="):
            flags.append(flag_of(word[len("--cfg="):]))
        elif word in ("-C", "--codegen", "-Z"):
            others += changing("-Z" if word == "-Z" else "-C", next(words, ""))
        elif word.startswith("--codegen="):
            others += changing("-C", word[len("--codegen="):])
        elif word[:2] in ("-C", "-Z", "-O"):
            others += changing(word[:2], word[2:])
    return flags, others


def changing(option: str, value: str) -> Iterator[str]:
    """Yields an option of rustc with its value if it may change which facts are printed."""
    if option in ("-Z", "-O") or value.split("=")[0].replace("_", "-") in CODEGEN:
        yield f"{option} {value}".rstrip()


def notes_on_configurations(folder: str, environment: Mapping[str, str]) -> Iterator[str]:
    """Yields a sentence for each file of configuration that Cargo would read in a folder and that
    has `rustflags`, or is there and was not read."""
    there = [path for path in configurations(folder, environment) if os.path.lexists(path)]
    for path in there[:MOST_CONFIGURATIONS]:
        try:
            if has_flags(path):
                yield f"{path} has rustflags, which are not read; --cfg says which flags are set"
        except OSError as error:
            yield f"{path} was not read: {error.strerror}"
    reason = f"was not read: it is behind {MOST_CONFIGURATIONS} others"
    yield from (f"{path} {reason}" for path in there[MOST_CONFIGURATIONS:])


def configurations(folder: str, environment: Mapping[str, str]) -> Iterable[str]:
    """Returns the paths at which Cargo looks for a file of configuration in a folder."""
    folders, above = [folder], os.path.dirname(folder)
    while above != folders[-1]:
        folders.append(above)
        above = os.path.dirname(above)
    paths = [os.path.join(one, ".cargo", name) for one in folders for name in CONFIGURATIONS]
    own = environment.get("CARGO_HOME") or os.path.join(os.path.expanduser("~"), ".cargo")
    paths += [os.path.join(own, name) for name in CONFIGURATIONS]
    return dict.fromkeys(paths)


def has_flags(path: str) -> bool:
    """Whether a file has the word `rustflags` outside of comments. Raises `OSError` if it cannot be
    read."""
    return CONFIGURED.search(_files.bytes_of(path).decode(errors="replace")) is not None
