"""The stamps of `out/cfgx` and of `out/platforms`, which say of what sources and by which kit the
files there were built."""
import functools
import os
from typing import Dict, List

import repository
from packing import sum_of
from repository import BUILT, ROOT, STAMP, ToolError, read

# What the stamp says of the kit, by the names under which `repository.kit` has it.
KIT = {"version": "kit", "archive": "archive", "commit": "commit", "compiler": "compiler"}
# Where `release/platforms` puts the libraries for all platforms, and its stamp there.
PLATFORMS = "out/platforms"
PLATFORMS_STAMP = "stamp"
# What makes them, beside the folder `release/runtime`.
MAKERS = ("crates/cfgx_c/examples/cfgx.c", "crates/cfgx_c/examples/support.h",
          "release/compiling.py", "release/modules.py", "release/platforms", "release/targets.py")
# How each folder is filled anew.
AGAIN = {BUILT: f"run crates/cfgx_c/install {BUILT}", PLATFORMS: "run release/platforms"}
STAMPS = {BUILT: STAMP, PLATFORMS: PLATFORMS_STAMP}


@functools.lru_cache(maxsize=None)
def sources() -> str:
    """Returns the sum of the sources of the program and the library that stand here."""
    return repository.output_of(repository.STAMPER, "sources").strip()


def makers() -> str:
    """Returns the sum of what makes the libraries for all platforms out of modules."""
    runtime = "release/runtime"
    inside = (f"{runtime}/{name}" for name in sorted(os.listdir(os.path.join(ROOT, runtime))))
    return sum_of(b"".join(read(path) for path in (*MAKERS, *inside)))


def files_in(folder: str, stamp: str) -> Dict[str, str]:
    """Returns the files in a folder but for its stamp, by their paths there, as a stamp has them:
    with their sum, or where a link leads."""
    found, top = {}, os.path.join(ROOT, folder)
    for place, _, names in os.walk(top):
        for path in (os.path.join(place, name) for name in names):
            is_link = os.path.islink(path)
            told = f"link {os.readlink(path)}" if is_link else sum_of(read(path))
            found[os.path.relpath(path, top)] = told
    found.pop(stamp, None)
    return found


def lines_of(folder: str) -> List[str]:
    """Returns the lines of the stamp of a folder. Raises `ToolError` if it has none."""
    try:
        return repository.read_text(f"{folder}/{STAMPS[folder]}").splitlines()
    except FileNotFoundError as error:
        raise ToolError(f"{folder} has no stamp: {AGAIN[folder]}") from error


def check(folder: str = BUILT) -> None:
    """Raises `ToolError` unless the folder has the files of one installation, as they were built of
    the sources that stand here by the kit on the path."""
    lines, again = lines_of(folder), AGAIN[folder]
    installed = dict(line.split("  ", 1)[::-1] for line in lines if "  " in line)
    told = dict(line.split(" ", 1) for line in lines if " " in line and "  " not in line)
    kit = repository.kit()
    if told.get("sources") != sources():
        raise ToolError(f"{folder} was not built of the sources that stand here: {again}")
    if any(told.get(name) != kit.get(field) for field, name in KIT.items()):
        raise ToolError(f"{folder} was built by another kit: {again}")
    if folder == PLATFORMS and told.get("makers") != makers():
        raise ToolError(f"{folder} was not made by what stands here: {again}")
    found = files_in(folder, STAMPS[folder])
    paths = sorted({*found, *installed})
    wrong = [path for path in paths if found.get(path) != installed.get(path)]
    if wrong:
        raise ToolError(f"{folder}/{wrong[0]} is not as it was installed: {again}")


def write(folder: str, told: List[str]) -> None:
    """Writes the stamp of a folder of libraries: what that of `out/cfgx` says of sources and the
    kit, these lines, and a line for each file."""
    built = [line for line in lines_of(BUILT) if "  " not in line]
    files = [f"{sum_or_link}  {path}"
             for path, sum_or_link in sorted(files_in(folder, PLATFORMS_STAMP).items())]
    with open(os.path.join(folder, PLATFORMS_STAMP), "w", encoding="utf-8") as file:
        lines = [*built, f"makers {makers()}", *told, *files]
        file.write("".join(f"{line}\n" for line in lines))


def told_of(what: str) -> Dict[str, str]:
    """Returns what the stamp of the libraries for all platforms says of `checked`, `frame` or
    `tool`, by the name behind that word."""
    lines = [line.split(" ", 2) for line in lines_of(PLATFORMS) if "  " not in line]
    return {words[1]: words[2] for words in lines if words[0] == what}
