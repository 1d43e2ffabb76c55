"""What stands in the archives, and that nothing of it depends on who made them, or where."""
import base64
import email
import hashlib
import re
import sys
import tarfile
import time
import unittest
import zipfile

from . import (
    C, DATA, INFORMATION, LICENSE, LICENSES, RUST, SONAME, VERSION, WHEEL,
    files_of, files_of_wheel, path_of,
)

import repository

# What a wheel says of itself.
WHEEL_FIELDS = (
    ("Wheel-Version", ["1.0"]),
    ("Root-Is-Purelib", ["false"]),
    ("Tag", ["py3-none-manylinux_2_17_x86_64", "py3-none-manylinux2014_x86_64"]),
)
METADATA_FIELDS = (
    ("Name", ["cfgx"]),
    ("Version", [VERSION]),
    ("License-Expression", [LICENSE]),
    ("License-File", list(LICENSES)),
    ("Requires-Python", [">=3.8"]),
    ("Author", ["the Puksiev maintainers"]),
    ("Keywords", ["cargo,cfg,dependencies,platform,target"]),
    # The first version in which a licence is an expression.
    ("Metadata-Version", ["2.4"]),
    ("Summary", repository.project("description")),
    ("Description-Content-Type", ["text/markdown"]),
)

# The manual page of the command, and what shells read to complete its words: bash as its package
# `bash-completion` says, fish in a folder for vendors, and zsh where `fpath` has its functions.
MANUAL = f"{DATA}/data/share/man/man1/cfgx-deps.1"
CODE_MANUAL = f"{DATA}/data/share/man/man1/cfgx-code.1"
COMPLETING = {
    "bash": f"{DATA}/data/share/bash-completion/completions/cfgx-deps",
    "fish": f"{DATA}/data/share/fish/vendor_completions.d/cfgx-deps.fish",
    "zsh": f"{DATA}/data/share/zsh/site-functions/_cfgx-deps",
}

# The programs and shared objects in the archives; every other file has the mode 644.
PROGRAMS = {f"{C}/bin/cfgx", f"{C}/lib/libcfgx.so.{VERSION}", f"cfgx/{SONAME}"}


class Archives(unittest.TestCase):
    """The archives for C and for Rust."""

    def test_heads(self):
        for name in (C, RUST):
            with tarfile.open(path_of(f"{name}.tar.gz")) as archive:
                members = archive.getmembers()
            paths = [one.name for one in members]
            self.assertEqual(paths, sorted(paths))
            self.assertEqual({path.split("/")[0] for path in paths}, {name})
            self.assertEqual({one.mtime for one in members}, {repository.commit().seconds})
            owners = {(one.uid, one.gid, one.uname, one.gname) for one in members}
            self.assertEqual(owners, {(0, 0, "", "")})
            modes = {one.name for one in members if one.mode != 0o644 and one.isfile()}
            self.assertEqual(modes, {path for path in PROGRAMS if path.startswith(name)})

    def test_links(self):
        with tarfile.open(path_of(f"{C}.tar.gz")) as archive:
            links = {one.name: one.linkname for one in archive if one.issym()}
        self.assertEqual(links, {f"{C}/lib/libcfgx.so": SONAME,
                                 f"{C}/lib/{SONAME}": f"libcfgx.so.{VERSION}"})

    def test_heads_of_gzip(self):
        """Neither names a file or a time: flags and time are zero, and the system is unknown."""
        for name in (C, RUST):
            with open(path_of(f"{name}.tar.gz"), "rb") as file:
                self.assertEqual(file.read(10).hex(), "1f8b080000000000" "02ff", name)

    def test_no_path_of_this_machine(self):
        for files in (files_of(C), files_of(RUST), files_of_wheel()):
            for path, data in files.items():
                self.assertNotIn(repository.ROOT.encode(), data, path)

    def test_each_has_its_own_files(self):
        """What is installed, as its stamp has it, and examples; the crate, and the library. Pages
        and licences have tests of their own."""
        stamp = repository.read_text("out/cfgx/share/cfgx/stamp")
        c = re.findall("^[0-9a-f]{64}  (.*)$", stamp, re.M)
        self.assertLessEqual({"bin/cfgx", "include/cfgx.h", "lib/libcfgx.a"}, {*c})
        top = "crates/cfgx_c/"
        c += [path[len(top):] for path in repository.tracked(top + "examples")
              if path.endswith((".c", ".h"))]
        top = "bindings/rust/"
        code = [path[len(top):] for path in repository.tracked(
            *(top + path for path in ("src", "cfg-expr", "Cargo.toml"))
        )]
        rust = [path for path in code if ".gitignore" not in path]
        for name, wanted in ((C, c), (RUST, rust)):
            found = {path[len(name) + 1:] for path in files_of(name)}
            others = {path for path in found
                      if path.endswith((".md", ".png")) or path in LICENSES
                      or path.startswith(("cfg-expr/LIC", "cfg-expr/NOTICE"))}
            self.assertEqual(sorted(found - others), sorted({*wanted} - others))

    def test_the_code_is_that_of_the_commit(self):
        files, top = files_of(RUST), "bindings/rust/"
        for path in repository.tracked(top + "src", top + "cfg-expr/src"):
            self.assertEqual(files[f"{RUST}/{path[len(top):]}"], repository.read(path), path)
        files, top = files_of(C), "crates/cfgx_c/"
        for path in (*repository.tracked(top + "include"), top + "examples/cfgx.c"):
            self.assertEqual(files[f"{C}/{path[len(top):]}"], repository.read(path), path)

    def test_the_file_for_pkg_config_can_be_moved(self):
        lines = files_of(C)[f"{C}/lib/pkgconfig/cfgx.pc"].decode().splitlines()
        self.assertEqual(lines[0], "prefix=${pcfiledir}/../..")
        self.assertEqual([line for line in lines[1:] if "/" in line.replace("${prefix}/", "")
                          and not line.startswith(("Description", "URL"))], [])

    def test_one_library(self):
        with zipfile.ZipFile(path_of(WHEEL)) as archive:
            inside = archive.read(f"cfgx/{SONAME}")
        self.assertEqual(inside, repository.read(f"out/cfgx/lib/libcfgx.so.{VERSION}"))
        found = files_of(C)[f"{C}/lib/libcfgx.a"]
        self.assertEqual(found, repository.read("out/cfgx/lib/libcfgx.a"))

    def test_the_crate_has_no_library(self):
        """It is text alone, but for the pictures of its pages."""
        for path, data in files_of(RUST).items():
            if not path.endswith(".png"):
                self.assertNotIn(b"\0", data, path)


class Licenses(unittest.TestCase):
    """Each package has both licences, NOTICE, and the text that stands in its licence field for
    what the compilers of the kit added."""

    def test_texts(self):
        wheel = files_of_wheel()
        places = (
            ("", files_of(C), f"{C}/"), ("", files_of(RUST), f"{RUST}/"),
            ("cfg-expr", files_of(RUST), f"{RUST}/cfg-expr/"),
            ("", wheel, f"{INFORMATION}/licenses/"), ("", wheel, f"{DATA}/data/share/doc/cfgx/"),
        )
        for package, files, folder in places:
            for path in LICENSES:
                with self.subTest(package=package, folder=folder, path=path):
                    self.assertEqual(files[folder + path], repository.read(path))

    def test_copies(self):
        """What builds a package in a folder of the repository finds the texts in this folder."""
        for path in LICENSES:
            self.assertEqual(repository.read(f"bindings/python/{path}"), repository.read(path))

    def test_the_texts_are_those_of_their_names(self):
        heads = {"LICENSE-APACHE": "Apache License", "LICENSE-MIT": "MIT License"}
        for path, head in heads.items():
            self.assertIn(head.lower(), repository.read_text(path).lower()[:200])

    def test_fields(self):
        project = repository.read_text("bindings/python/pyproject.toml")
        self.assertIn(f'\nlicense = {{text = "{LICENSE}"}}\n', project)
        files, = re.findall(r"^license-files = \[(.*)\]$", project, re.M)
        self.assertEqual(re.findall(r'"(.*?)"', files), list(LICENSES))
        crate = files_of(RUST)[f"{RUST}/Cargo.toml"].decode()
        self.assertIn('\nlicense = "MIT OR Apache-2.0"\n', crate)

    def test_the_kit_in_both_texts(self):
        """The text for the licence field says of what is compiled what NOTICE says of it."""
        notice = repository.read_text("NOTICE")
        said = notice[notice.index("\n- of the crates smallvec"):]
        self.assertEqual(len(said.split("\n\n")), 2)
        self.assertIn(said, repository.read_text("LICENSES/LicenseRef-cfgx-kit.txt"))


class Wheel(unittest.TestCase):
    """The wheel for Python on this machine. The others have tests of their own."""

    def setUp(self):
        self.archive = zipfile.ZipFile(path_of(WHEEL))
        self.addCleanup(self.archive.close)

    def check_fields(self, name, wanted):
        """Expects that a file of the wheel has these fields."""
        fields = email.message_from_bytes(self.archive.read(f"{INFORMATION}/{name}"))
        for field, values in wanted:
            self.assertEqual(fields.get_all(field), values, field)

    def test_fields(self):
        self.check_fields("WHEEL", WHEEL_FIELDS)
        self.check_fields("METADATA", METADATA_FIELDS)

    def test_heads(self):
        seconds = time.gmtime(repository.commit().seconds)
        for one in self.archive.infolist():
            mode = 0o755 if one.filename in PROGRAMS else 0o644
            # The modes count where the system is Unix.
            self.assertEqual((one.create_system, one.external_attr >> 16), (3, 0o100000 | mode),
                             one.filename)
            # A zip file counts in pairs of seconds.
            self.assertEqual(one.date_time, (*seconds[:5], seconds[5] // 2 * 2))
            self.assertEqual(one.compress_type, zipfile.ZIP_DEFLATED, one.filename)

    def test_record(self):
        path = f"{INFORMATION}/RECORD"
        rows = [row.split(",") for row in self.archive.read(path).decode().splitlines()]
        self.assertEqual([row[0] for row in rows], self.archive.namelist())
        self.assertEqual(rows.pop(), [path, "", ""])
        for name, told, size in rows:
            data = self.archive.read(name)
            kind, digest = told.split("=")
            self.assertEqual((kind, len(data)), ("sha256", int(size)))
            # Without padding, and with the signs of a URL.
            self.assertRegex(digest, r"^[A-Za-z0-9_-]{43}$")
            padded = base64.urlsafe_b64decode(digest + "=")
            self.assertEqual(padded.hex(), hashlib.sha256(data).hexdigest(), name)

    def test_entry_points(self):
        """The commands are those that a wheel from the folder of the package would have."""
        scripts = re.findall(r'^(\S*cfgx-\w+) = "(.*)"$',
                             repository.read_text("bindings/python/pyproject.toml"), re.M)
        self.assertEqual(len(scripts), 3)
        lines = sorted(" = ".join(script) for script in scripts)
        self.assertEqual(self.archive.read(f"{INFORMATION}/entry_points.txt").decode(),
                         "\n".join(["[console_scripts]", *lines, ""]))

    def test_classifiers(self):
        text = self.archive.read(f"{INFORMATION}/METADATA").decode()
        found = re.findall("^Classifier: (.*)$", text.split("\n\n")[0], re.M)
        project = repository.read_text("bindings/python/pyproject.toml")
        self.assertGreater(len(found), 5)
        self.assertEqual([f'    "{one}",' for one in found],
                         [line for line in project.splitlines() if " :: " in line])
        # The expression says the licence, and no classifier may say it again.
        self.assertFalse([one for one in found if one.startswith("License")])

    def test_completion(self):
        for shell, path in COMPLETING.items():
            text = self.archive.read(path).decode()
            self.assertEqual(text, repository.output_of(
                sys.executable, "-B", "manual/make", "completion", shell), shell)
            self.assertIn("fail-on", text, shell)
            self.assertIn("x86_64-pc-windows-gnullvm", text, shell)
        self.assertTrue(self.archive.read(COMPLETING["zsh"]).startswith(b"#compdef cfgx-deps\n"))

    def test_the_manual_page_is_that_of_the_command(self):
        pages = {path: re.sub(r"\\(?:f[BIP]|%)?", "", self.archive.read(path).decode())
                 for path in (MANUAL, CODE_MANUAL)}
        for path, name in ((MANUAL, "CFGX-DEPS"), (CODE_MANUAL, "CFGX-CODE")):
            head = f'.TH "{name}" 1 "" "cfgx {VERSION}" "User Commands"\n'
            self.assertIn(head, pages[path])
        page = pages[MANUAL]
        tags = re.findall(r"^\.TP\n(.*)$", page, re.M)
        words = {word for tag in tags for word in re.split("[, ]+", tag)}
        self.assertLessEqual({"MANIFEST", "--target", "TRIPLE", "--fail-on", "--help"}, words)

    def test_it_has_these_files(self):
        """But for pages and licences, which have tests of their own."""
        top = "bindings/python/src/"
        code = [path[len(top):] for path in repository.tracked(top)]
        told = [f"{INFORMATION}/{name}"
                for name in ("METADATA", "RECORD", "WHEEL", "entry_points.txt")]
        told += [MANUAL, CODE_MANUAL, *COMPLETING.values()]
        others = (f"{INFORMATION}/licenses/", f"{DATA}/data/share/doc/cfgx/")
        names = self.archive.namelist()
        self.assertEqual(len(names), len({*names}))
        self.assertEqual(sorted(name for name in names if not name.startswith(others)),
                         sorted([*code, *told, f"cfgx/{SONAME}"]))

    def test_the_code_is_that_of_the_commit(self):
        top = "bindings/python/src/"
        for path in repository.tracked(top):
            self.assertEqual(self.archive.read(path[len(top):]), repository.read(path), path)
