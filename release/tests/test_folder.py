"""The package for Python as `setuptools` reads it in its folder, without a release."""
import email
import os
import re
import shutil

from . import LICENSE, LICENSES, VERSION, User

import repository

SETUP = "from setuptools import setup; setup()"


class Folder(User):
    """A copy of the folder `bindings/python`, outside of the repository."""

    def setUp(self):
        super().setUp()
        self.folder = os.path.join(self.folder, "python")
        top = "bindings/python/"
        for path in repository.tracked(top):
            place = os.path.join(self.folder, path[len(top):])
            os.makedirs(os.path.dirname(place), exist_ok=True)
            shutil.copyfile(os.path.join(repository.ROOT, path), place)

    def need_module(self, name):
        """Skips a test if Python does not have a module."""
        if self.run_words("python3", "-c", f"import {name}").returncode:
            self.skipTest(f"the package built from its folder, since python3 has no {name}")

    def check_fields(self, text):
        """Expects what a package says of its terms."""
        fields = email.message_from_string(text)
        said = {fields.get("License"), fields.get("License-Expression")}
        self.assertEqual(said - {None}, {LICENSE})
        self.assertEqual(sorted(fields.get_all("License-File")), sorted(LICENSES))
        self.assertEqual((fields["Name"], fields["Version"]), ("cfgx", VERSION))

    def test_what_it_says(self):
        self.need_module("setuptools")
        self.succeed("python3", "-W", "ignore", "-c", SETUP, "-q", "egg_info")
        path = os.path.join(self.folder, "src/cfgx.egg-info/PKG-INFO")
        with open(path, encoding="utf-8") as file:
            self.check_fields(file.read())

    def test_a_wheel(self):
        """Each text lies in it, in the folder or at the place that this `setuptools` has."""
        self.need_module("setuptools")
        self.need_module("wheel")
        self.succeed("python3", "-W", "ignore", "-c", SETUP, "-q", "bdist_wheel")
        wheel, = os.listdir(os.path.join(self.folder, "dist"))
        names = self.succeed("python3", "-m", "zipfile", "-l", f"dist/{wheel}")
        for path in LICENSES:
            name = re.escape(os.path.basename(path))
            self.assertRegex(names, rf"cfgx-{VERSION}\.dist-info/(\S*/)?{name} ")
