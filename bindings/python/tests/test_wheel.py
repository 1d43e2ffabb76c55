"""Wheels that are built of the folder of the package."""
import os
import re
import shutil
import subprocess
import sys
import sysconfig
import zipfile

from . import HERE, needs
from .made import Folder

import cfgx
from cfgx import _library

PROJECT = os.path.join(HERE, "..")
BUILD = ("import sys; from setuptools import build_meta;"
         " print(build_meta.build_wheel(sys.argv[1]))")
LICENSES = {"LICENSE-APACHE", "LICENSE-MIT", "LicenseRef-cfgx-kit.txt", "NOTICE"}


@needs("a builder of wheels", untested="wheels that are built of the folder of the package")
class Wheels(Folder):
    """What the folder is built to."""

    def setUp(self):
        super().setUp()
        self.project = os.path.join(self.folder, "cfgx")
        unwanted = shutil.ignore_patterns("tests", "build", "*.egg-info", "__pycache__")
        shutil.copytree(PROJECT, self.project, ignore=unwanted)

    def build(self, library=""):
        """Builds a wheel with a library. Returns the status, what is printed, and the wheels."""
        wheels = os.path.join(self.folder, "wheels")
        os.makedirs(wheels, exist_ok=True)
        run = subprocess.run(
            [sys.executable, "-c", BUILD, wheels], cwd=self.project, check=False,
            stdout=subprocess.PIPE, stderr=subprocess.STDOUT,
            env={**os.environ, "CFGX_LIBRARY": library},
        )
        return run.returncode, run.stdout.decode(), os.listdir(wheels)

    def test_a_library(self):
        status, printed, [name] = self.build(_library.path_of())
        self.assertEqual(status, 0, printed)
        system = sysconfig.get_platform().replace("-", "_").replace(".", "_")
        self.assertEqual(name, f"cfgx-{cfgx.__version__}-py3-none-{system}.whl")
        with zipfile.ZipFile(os.path.join(self.folder, "wheels", name)) as wheel:
            names, metadata, tags, scripts = wheel.namelist(), *(
                wheel.read(f"cfgx-{cfgx.__version__}.dist-info/{one}").decode()
                for one in ("METADATA", "WHEEL", "entry_points.txt")
            )
            with open(_library.path_of(), "rb") as file:
                self.assertEqual(wheel.read(f"cfgx/{_library.NAME}"), file.read())
        self.assertIn("Root-Is-Purelib: false\n", tags)
        self.assertIn(f"Tag: py3-none-{system}\n", tags)
        found = {os.path.basename(name) for name in names}
        self.assertLessEqual(LICENSES, found)
        self.assertIn("\nAuthor: the Puksiev maintainers\n", metadata)
        self.assertGreater(len(re.findall("^Classifier: ", metadata, re.M)), 5)
        self.assertIn("cfgx-deps = cfgx_deps:main\n", scripts)
        self.assertIn("cargo-cfgx-deps = cfgx_deps:cargo_main\n", scripts)
        files = {os.path.relpath(os.path.join(folder, one), os.path.join(self.project, "src"))
                 for folder, _, ones in os.walk(os.path.join(self.project, "src")) for one in ones
                 if "egg-info" not in folder}
        self.assertLessEqual(files, {*names})

    def test_no_library(self):
        none = os.path.join(self.folder, "none.so")
        rows = [
            ("", rf"there is no library to put into the wheel: .*{_library.NAME} and .*/out/cfgx/"),
            (none, "there is no library to put into the wheel: .*none.so"),
            (os.path.join(self.project, "pyproject.toml"), "is no library for this system"),
        ]
        for library, wanted in rows:
            with self.subTest(library=library):
                status, printed, wheels = self.build(library)
                self.assertNotEqual(status, 0)
                self.assertEqual(wheels, [])
                self.assertRegex(printed.replace("\n", " "), f"cfgx: .*{wanted}")

    @needs("cc", untested="a wheel with a library of another version")
    def test_another_version(self):
        source = self.write("v.c", "unsigned cfgx_version(void) { return 2004000; }\n")
        other = os.path.join(self.folder, "other.so")
        subprocess.run(["cc", "-shared", "-fPIC", "-o", other, source], check=True)
        status, printed, wheels = self.build(other)
        self.assertEqual((status != 0, wheels), (True, []))
        self.assertIn(f"is version 2004000, and the package calls {_library.NAME}", printed)
