"""The wheels: each has the library of its system, by the name that the package asks for there, and
pip takes it there."""
import email
import os
import shutil
import tempfile
import unittest

from . import INFORMATION, VERSION, WHEELS, User, files_of_wheel, machines, path_of, wheel_for

import repository

# What differs between two wheels, beside the library.
OWN = (f"{INFORMATION}/RECORD", f"{INFORMATION}/WHEEL")
# What Python calls the system of a library.
SYSTEMS = {"Linux": "linux", "Windows": "win32", "macOS": "darwin"}
# Imports the package as on another system, and prints what the loader is asked for.
IMPORTING = """
import ctypes, subprocess, sys, unittest.mock
library = unittest.mock.Mock()
library.cfgx_version.return_value = {version}
sys.path.insert(0, "site")
sys.platform = "{system}"
with unittest.mock.patch("ctypes.CDLL", return_value=library) as load:
    import cfgx
print(*load.call_args.args)
"""
# Platforms by the names that pip has for them, and the wheel that it takes there.
TAKEN = (
    ("manylinux_2_17_x86_64", 0), ("manylinux2014_x86_64", 0), ("manylinux_2_17_aarch64", 1),
    ("manylinux2014_aarch64", 1), ("musllinux_1_1_x86_64", 2), ("musllinux_1_1_aarch64", 3),
    ("win_amd64", 4), ("macosx_11_0_x86_64", 5), ("macosx_14_0_x86_64", 5),
    ("macosx_11_0_arm64", 6), ("macosx_15_0_arm64", 6),
)
# Those for which it takes none.
REFUSED = (
    "win32", "win_arm64", "linux_armv7l", "manylinux_2_17_i686", "manylinux_2_17_ppc64le",
    "manylinux_2_17_riscv64", "macosx_10_15_x86_64", "musllinux_1_1_i686",
)


class Wheels(unittest.TestCase):
    """What stands in each wheel."""

    def test_there_are_these(self):
        names = [name for name in os.listdir(path_of("")) if name.endswith(".whl")]
        self.assertEqual(sorted(names), sorted(wheel_for(row[0]) for row in WHEELS))

    def test_tags(self):
        for systems, *_ in WHEELS:
            said = email.message_from_bytes(files_of_wheel(wheel_for(systems))[OWN[1]])
            wanted = [f"py3-none-{system}" for system in systems.split(".")]
            self.assertEqual(said.get_all("Tag"), wanted)

    def test_libraries(self):
        for systems, library, folder, machine in WHEELS:
            data = files_of_wheel(wheel_for(systems))[f"cfgx/{library}"]
            self.assertEqual(data, repository.read(f"out/platforms/{folder}/{library}"))
            self.assertEqual(machines.machine_of(data), machine)

    def test_they_differ_in_nothing_else(self):
        found = []
        for systems, library, *_ in WHEELS:
            files = files_of_wheel(wheel_for(systems))
            for path in (f"cfgx/{library}", *OWN):
                del files[path]
            found.append(files)
        self.assertEqual(found, found[:1] * len(WHEELS))


class Users(User):
    """Someone with one of these systems."""

    def installed(self, name):
        """Unpacks a wheel into the folder `site`."""
        site = os.path.join(self.folder, "site")
        shutil.rmtree(site, ignore_errors=True)
        self.succeed("python3", "-m", "zipfile", "-e", name, "site")
        return site

    def test_the_package_asks_for_the_library_of_the_wheel(self):
        language, major, minor = map(int, VERSION.split("."))
        version = language * 1000000 + major * 1000 + minor
        for systems, library, _, machine in WHEELS:
            site = self.installed(wheel_for(systems))
            program = IMPORTING.format(version=version, system=SYSTEMS[machine.split()[0]])
            said = self.succeed("python3", "-c", program)
            self.assertEqual(said, f"{os.path.realpath(site)}/cfgx/{library}\n")

    def test_pip_takes_the_wheel_of_the_system(self):
        self.need("which wheel pip takes", "python3 -m pip")
        for platform, number in TAKEN:
            with self.subTest(platform=platform), tempfile.TemporaryDirectory() as folder:
                self.succeed(*self.words_for(platform, folder))
                self.assertEqual(os.listdir(folder), [wheel_for(WHEELS[number][0])])
        for platform in REFUSED:
            with self.subTest(platform=platform), tempfile.TemporaryDirectory() as folder:
                run = self.run_words(*self.words_for(platform, folder))
                self.assertEqual((run.returncode, os.listdir(folder)), (1, []))

    def words_for(self, platform, folder):
        """Returns the command with which pip takes a wheel for a platform into a folder."""
        return ["python3", "-m", "pip", "download", "-q", "--no-index", "--find-links", ".",
                "--only-binary=:all:", "--no-deps", "--python-version", "3.11",
                "--platform", platform, "-d", folder, "cfgx"]
