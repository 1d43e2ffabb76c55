"""The tests of the package. They take the library that CFGX_LIBRARY names, or else the one that
`crates/cfgx_c/install out/cfgx` leaves in the repository, or else link the archive that `rt lib`
leaves in crates/cfgx_c.

If CFGX_PACKAGE names a folder, into which pip put a wheel, they take the package and the library
there. If CFGX_PYTHON has words, they start Python by these: for another processor, which this
machine does not run by itself."""
import atexit
import functools
import importlib.util
import os
import shutil
import subprocess
import sys
import tempfile
import unittest

HERE = os.path.dirname(os.path.abspath(__file__))
INSTALLED_PACKAGE = os.environ.get("CFGX_PACKAGE")
PACKAGE = INSTALLED_PACKAGE or os.path.join(HERE, "..", "src")
PYTHON = os.environ.get("CFGX_PYTHON", "").split() or [sys.executable]
ROOT = os.path.abspath(os.path.join(HERE, "..", "..", ".."))
ARCHIVE = os.path.join(ROOT, "crates", "cfgx_c", "out", "libcfgx_c.a")
INSTALLED = os.path.join(ROOT, "out", "cfgx", "lib", "libcfgx.so")


def linked() -> str:
    """Returns the path of a library that is made of the archive and that of the kit, and removed at
    the end."""
    page = subprocess.run(["rt", "doc"], stdout=subprocess.PIPE, check=True).stdout.decode()
    kit = os.path.join(os.path.dirname(page.strip()), "c", "liblibc_c.a")
    folder = tempfile.mkdtemp()
    atexit.register(shutil.rmtree, folder)
    path = os.path.join(folder, "libcfgx.so")
    whole = ["-Wl,--whole-archive", ARCHIVE, kit, "-Wl,--no-whole-archive"]
    subprocess.run(["cc", "-shared", "-o", path, *whole], check=True)
    return path


@functools.lru_cache(maxsize=None)
def is_there(name):
    """Whether something that tests need is there: a file by its path, a tool by its name, or one of
    several."""
    if " or " in name:
        return any(map(is_there, name.split(" or ")))
    if name.startswith("/"):
        return os.path.exists(name)
    if name == "Python 3.11":
        return sys.version_info >= (3, 11)
    if name == "Linux":
        return sys.platform == "linux"
    if name == "limit of memory":
        return "qemu" not in PYTHON[0]
    if name == "a builder of wheels":
        modules = ("setuptools", "wheel")
        return all(importlib.util.find_spec(one) is not None for one in modules)
    if name == "tomli":
        return importlib.util.find_spec(name) is not None
    if name not in ("bash", "cargo", "cc", "fish", "jq", "mypy", "rustc", "zsh"):
        raise ValueError(name)
    # A tool that rustup stands in for may lack its toolchain.
    pipe = subprocess.PIPE
    return shutil.which(name) is not None and subprocess.run(
        [name, "--version"], stdout=pipe, stderr=pipe, check=False
    ).returncode == 0


def needs(*names, untested):
    """Returns what skips a test if something that it needs is missing, and prints what is missing
    and what is therefore not tested, in a line that begins with `skipped: `."""
    missing = [name for name in names if not is_there(name)]
    reason = f"there is no {' and no '.join(missing)} here, so this was not tested: {untested}"
    if missing:
        print(f"skipped: {reason}", file=sys.stderr, flush=True)
    return unittest.skipIf(missing, reason)


if "CFGX_LIBRARY" not in os.environ and not INSTALLED_PACKAGE:
    if os.path.exists(INSTALLED):
        os.environ["CFGX_LIBRARY"] = INSTALLED
    elif os.path.exists(ARCHIVE):
        os.environ["CFGX_LIBRARY"] = linked()
# The folder of other tests, below, stays as it is.
sys.dont_write_bytecode = True
sys.path.insert(0, PACKAGE)
# The reader of conditions that the calls from C are compared with.
sys.path.append(os.path.join(ROOT, "crates", "cfgx_c", "tests"))
