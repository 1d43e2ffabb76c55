"""Puts the library into the wheel, and names the system for which the wheel then is. Without the
library there is no wheel: it would be for each system, and run on none."""
import ast
import ctypes
import os
import re
import shutil
import sys

from setuptools import Distribution, setup
from setuptools.command.build_py import build_py

try:
    from setuptools.command.bdist_wheel import bdist_wheel
except ImportError:
    from wheel.bdist_wheel import bdist_wheel

HERE = os.path.dirname(os.path.abspath(__file__))
PACKAGE = os.path.join(HERE, "src", "cfgx")
# Where `crates/cfgx_c/install out/cfgx` puts the library, from this folder on.
INSTALLED = os.path.join(HERE, "..", "..", "out", "cfgx", "lib")


def numbers():
    """Returns the first two numbers of the version of the package, which are those of the
    library."""
    with open(os.path.join(PACKAGE, "__init__.py"), encoding="utf-8") as file:
        found = re.search(r'^__version__ = "(\d+)\.(\d+)\.', file.read(), re.M)
    return [int(number) for number in found.groups()]


def name():
    """Returns the name of the library on this system, by which the package looks for it."""
    with open(os.path.join(PACKAGE, "_library.py"), encoding="utf-8") as file:
        found = re.search(r"^NAMES = (\{.*\})$", file.read(), re.M)
    return ast.literal_eval(found[1]).get(sys.platform, "libcfgx.so.{}.{}".format(*numbers()))


NAME = name()


def library():
    """Returns the path of the library: the one that `CFGX_LIBRARY` names, or one that was put where
    this looks. Ends with a message if there is none, or one that the package cannot call."""
    named = os.environ.get("CFGX_LIBRARY")
    places = [named] if named else [os.path.join(PACKAGE, NAME), os.path.join(INSTALLED, NAME)]
    found = next(filter(os.path.exists, places), None)
    if found is None:
        raise SystemExit(
            f"cfgx: there is no library to put into the wheel: {' and '.join(places)} are not"
            " there. Let CFGX_LIBRARY name it, or install a wheel of a release."
        )
    try:
        version = ctypes.CDLL(os.path.abspath(found)).cfgx_version()
    except (OSError, AttributeError) as error:
        raise SystemExit(f"cfgx: {found} is no library for this system: {error}") from error
    if [version // 1000000, version // 1000 % 1000] != numbers():
        raise SystemExit(f"cfgx: {found} is version {version}, and the package calls {NAME}")
    return found


class BuildWithLibrary(build_py):
    """Builds the package with the library in its folder."""

    def run(self):
        super().run()
        # Who works on the package in its folder names the library when it is imported.
        if not getattr(self, "editable_mode", False):
            shutil.copy(library(), os.path.join(self.build_lib, "cfgx", NAME))


class WheelOfSystem(bdist_wheel):
    """A wheel for each Python 3 on this system."""

    def get_tag(self):
        return ("py3", "none", super().get_tag()[2])


class OfSystem(Distribution):
    """A package for this system alone, although none of its modules is compiled."""

    def has_ext_modules(self):
        return True


setup(distclass=OfSystem, cmdclass={"build_py": BuildWithLibrary, "bdist_wheel": WheelOfSystem})
