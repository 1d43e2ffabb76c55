"""What is asked of the repository, of its commit, and of the kit that built it."""
import functools
import json
import os
import re
import subprocess
import sys
import time
from typing import Dict, List, NamedTuple

ROOT = os.path.dirname(os.path.dirname(os.path.abspath(__file__)))
BUILT = "out/cfgx"
# What `crates/cfgx_c/install` says there of the files that it installed, and what knows of what
# they have to be built.
STAMP = "share/cfgx/stamp"
STAMPER = "crates/cfgx_c/stamp"
HEADER = "crates/cfgx_c/include/cfgx.h"
PROJECT = "bindings/python/pyproject.toml"


class Commit(NamedTuple):
    """The commit that files are made of."""
    name: str
    seconds: int
    is_changed: bool

    def date(self) -> str:
        """Returns its time, in UTC."""
        return time.strftime("%Y-%m-%d %H:%M:%S UTC", time.gmtime(self.seconds))


class ToolError(Exception):
    """A tool or a file of the kit is missing, or a tool fails. The message says which."""


def output_of(*words: str) -> str:
    """Returns what a command prints at the top of the repository. Raises `ToolError` if it fails,
    and then prints that on standard error."""
    try:
        run = subprocess.run(words, cwd=ROOT, check=True, stdout=subprocess.PIPE)
    except FileNotFoundError as error:
        raise ToolError(f"there is no `{words[0]}` on the path") from error
    except subprocess.CalledProcessError as error:
        sys.stderr.write(error.stdout.decode(errors="replace"))
        raise ToolError(f"`{' '.join(words)}` ends with status {error.returncode}") from error
    return run.stdout.decode()


def read(path: str) -> bytes:
    """Returns the bytes of a file of the repository."""
    with open(os.path.join(ROOT, path), "rb") as file:
        return file.read()


def read_text(path: str) -> str:
    """Returns the text of a file of the repository."""
    return read(path).decode()


def version() -> str:
    """Returns the version of everything that a release has, which stands in the header."""
    numbers = re.findall(r"^#define CFGX_VERSION_[A-Z]+ (\d+)$", read_text(HEADER), re.M)
    return ".".join(numbers)


def soname() -> str:
    """Returns the name by which the loader of Linux finds the shared object: it has the first two
    numbers of the version."""
    return "libcfgx.so." + version().rsplit(".", 1)[0]


def first_line(tool: str) -> str:
    """Returns the first line of what a tool prints of its version. Raises `ToolError`."""
    return output_of(tool, "--version").split("\n")[0]


def project(name: str) -> List[str]:
    """Returns what stands in quotes in the line of this name in the project of the package."""
    line, = re.findall(rf"^{name} = (.*)$", read_text(PROJECT), re.M)
    return re.findall(r'"(.*?)"', line)


def project_list(name: str) -> List[str]:
    """Returns what stands in quotes in the list of this name in the project of the package, which
    is one of several lines."""
    found, = re.findall(rf"^{name} = \[\n(.*?)^\]$", read_text(PROJECT), re.M | re.S)
    return re.findall(r'"(.*?)"', found)


def rust_field(manifest: str, name: str) -> str:
    """Returns what a line of the manifest of a package in `bindings/rust` has in quotes."""
    text = read_text(f"bindings/rust/{manifest}")
    found, = re.findall(rf'^{name} = "(.*)"$', text, re.M)
    return found


def node_version() -> str:
    """Returns the least version of Node that the package for JavaScript needs."""
    package = json.loads(read_text("bindings/js/package.json"))
    return str(package["engines"]["node"]).lstrip(">=")


def commit() -> Commit:
    """Returns the commit of the repository."""
    name, seconds = output_of("git", "log", "-1", "--format=%H %ct").split()
    words = ["git", "--no-optional-locks", "status", "--porcelain", "--untracked-files=no"]
    is_changed = bool(output_of(*words))
    return Commit(name, int(seconds), is_changed)


def tracked(*paths: str) -> List[str]:
    """Returns the files of the commit below these paths."""
    return [path for path in output_of("git", "ls-files", "-z", "--", *paths).split("\0") if path]


@functools.lru_cache(maxsize=None)
def kit() -> Dict[str, str]:
    """Returns what `rt version` prints, and what the kit says of its origin, line by line. Raises
    `ToolError`."""
    path = os.path.join(os.path.dirname(output_of("rt", "doc").strip()), "WHAT")
    try:
        with open(path, encoding="utf-8") as file:
            told = dict(line.split() for line in file)
    except FileNotFoundError as error:
        raise ToolError(f"the kit has no file {path}") from error
    return {**told, "version": output_of("rt", "version").strip()}
