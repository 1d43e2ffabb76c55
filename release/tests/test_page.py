"""The commands of docs/RELEASE.md, as they are printed."""
import os
import re
import shlex

from . import FOLDER, User

import repository

PAGE = repository.read_text("docs/RELEASE.md")


def shown(section):
    """Returns the lines of the commands of a section, and of what they print."""
    text, = re.findall(rf"^## {re.escape(section)}\n(.*?)(?=^## |\Z)", PAGE, re.M | re.S)
    return "".join(re.findall(r"^```console\n(.*?)^```$", text, re.M | re.S)).splitlines()


def script_of(lines):
    """Returns a script that prints each command and runs it. A command goes on in the lines that
    begin with `>`."""
    parts = []
    for line in lines:
        if line.startswith("$ "):
            parts.append([line])
        elif line == ">" or line.startswith("> "):
            parts[-1].append(line)
    script = ""
    for part in parts:
        command = "\n".join(line[2:] for line in part)
        script += f"printf '%s\\n' {' '.join(map(shlex.quote, part))}\n{command}\n"
    return script


class Shown(User):
    """The sections in a shell. If the variable SHOW is set, what is printed is shown too."""

    def check(self, *sections):
        """Expects that the commands of these sections print what the page shows."""
        wanted = [line for section in sections for line in shown(section)]
        self.assertTrue(wanted)
        run = self.run_words("bash", "-ec", script_of(wanted))
        self.assertEqual(run.stdout.splitlines(), wanted)
        self.assertEqual(run.returncode, 0)
        if os.environ.get("SHOW"):
            print("", run.stdout, sep="\n")


class Page(Shown):
    """Each section in a folder of its own."""

    def test_c(self):
        self.need("the library of a release", "cc", "pkg-config")
        self.check("From C")

    def test_python(self):
        """The command comes with the package, so both are tested in one environment."""
        self.need("the wheel of a release", "python3 -m ensurepip")
        if self.runs("cargo"):
            self.check("From Python", "For a Cargo.toml")
        else:
            self.check("From Python")
            self.need("cfgx-deps of a release", "cargo")

    def test_rust(self):
        self.need("the crate of a release", "cargo", "rustc", "cc")
        self.need_crates("the crate of a release")
        # Both programs of the page share what is built of the crate.
        self.variables["CARGO_TARGET_DIR"] = os.path.join(self.folder, "target")
        self.check("From Rust")

    def test_javascript(self):
        self.need("the package for JavaScript of a release", "npm", "node")
        self.check("From JavaScript")

    def test_windows(self):
        """The C library of Windows ends each line otherwise, which is read here as a line feed."""
        self.need("the library of a release on Windows", "x86_64-w64-mingw32-gcc",
                  "/usr/lib/wine/wine64")
        self.check("On Windows")

    def test_musl(self):
        self.need("the library of a release with musl", "musl-gcc", "python3")
        self.check("With musl")

    def test_sums(self):
        # Both compare each file, since all are there.
        commands = re.findall(r"`(sha256sum .*?)`", PAGE)
        self.assertEqual(len(commands), 2)
        count = len({*os.listdir(FOLDER)} - {"SHA256SUMS"})
        for command in commands:
            self.assertEqual(len(self.lines_of(*command.split())), count, command)
