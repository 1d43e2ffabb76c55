"""The package for JavaScript, and the page."""
import base64
import json
import os
import tarfile

from . import HTML, LICENSE, LICENSES, PACKAGE, User, files_in, path_of

import repository

MODULE = "out/platforms/wasm32-unknown-unknown/cfgx.wasm"
SOURCES = "bindings/js/"
PROGRAM = """
import { audit, parse, targetFacts } from "cfgx";
console.log(parse('all(unix, not(feature = "x"))').decide([undefined, true]).ifTrue.join());
console.log(audit(["windows"], [targetFacts("x86_64-pc-windows-msvc")])[0][0]);
"""


class Package(User):
    """The file that npm installs."""

    def test_heads(self):
        with tarfile.open(path_of(PACKAGE)) as archive:
            members = archive.getmembers()
        self.assertEqual({one.name.split("/")[0] for one in members}, {"package"})
        self.assertEqual({(one.mode, one.type) for one in members}, {(0o644, tarfile.REGTYPE)})
        self.assertEqual({one.mtime for one in members}, {repository.commit().seconds})

    def test_its_files(self):
        files = {path[len("package/"):]: data for path, data in files_in(PACKAGE).items()}
        code = [path[len(SOURCES):] for path in repository.tracked(SOURCES + "src")]
        pages = [path for path in files if path.endswith((".md", ".png"))]
        self.assertLessEqual({"README.md", "docs/JAVASCRIPT.md", "docs/RULES.md"}, {*pages})
        wanted = [*code, *pages, *LICENSES, "package.json", "src/cfgx.wasm"]
        self.assertEqual(sorted(files), sorted(wanted))
        for path in (*code, "package.json"):
            self.assertEqual(files[path], repository.read(SOURCES + path), path)
        for path in LICENSES:
            self.assertEqual(files[path], repository.read(path), path)
            self.assertEqual(repository.read(SOURCES + path), repository.read(path), path)
        self.assertEqual(files["src/cfgx.wasm"], repository.read(MODULE))
        self.assertEqual(json.loads(files["package.json"])["license"], LICENSE)

    def test_npm_packs_the_same_package(self):
        """But for the pages that are not below its folder `docs`."""
        self.need("what npm packs of the package for JavaScript", "npm")
        os.mkdir(os.path.join(self.folder, "unpacked"))
        self.succeed("tar", "-xzf", PACKAGE, "-C", "unpacked")
        told = self.succeed("npm", "pack", "--json", "--offline", "./unpacked/package",
                            "--pack-destination", "unpacked")
        packed, = json.loads(told)
        found = {f"package/{one['path']}": one["size"] for one in packed["files"]}
        wanted = {
            path: len(data) for path, data in files_in(PACKAGE).items()
            if not path.endswith(".md") or path.startswith(("package/README", "package/docs/"))
        }
        self.assertEqual(found, wanted)

    def test_a_program(self):
        self.need("a program over the package for JavaScript", "npm", "node")
        self.write("first/package.json", '{ "name": "first", "type": "module" }')
        self.write("first/first.js", PROGRAM)
        self.succeed("npm", "install", "--offline", "--no-audit", "--no-fund", "--prefix", "first",
                     PACKAGE)
        self.assertEqual(self.succeed("node", "first/first.js"), "false,true\ntrue\n")

    def write(self, path, text):
        """Writes a file below the folder."""
        path = os.path.join(self.folder, path)
        os.makedirs(os.path.dirname(path), exist_ok=True)
        with open(path, "w", encoding="utf-8") as file:
            file.write(text)


class Page(User):
    """The page."""

    def test_it_has_the_module_inside(self):
        page = repository.read(f"out/release/{HTML}")
        self.assertIn(base64.b64encode(repository.read(MODULE)), page)
        self.assertIn(b"default-src 'none'", page)
        self.assertNotIn(b"@", page.split(b"<body>")[0].split(b"</style>")[1])
