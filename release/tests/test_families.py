"""The archives for C for other platforms: what stands in them, and the examples in C over them, by
emulators."""
import os
import re
import shutil
import tarfile

from . import C, FAMILIES, LICENSES, SONAME, VERSION, User, c_for, files_of, path_of

import repository

# The libraries and the program of each archive: the folder of `out/platforms`, and the file there.
LIBRARIES = {
    "aarch64-linux": {
        "bin/cfgx": ("aarch64-unknown-linux-gnu", "cfgx"),
        "lib/libcfgx.a": ("aarch64-unknown-linux-gnu", "libcfgx.a"),
        f"lib/libcfgx.so.{VERSION}": ("aarch64-unknown-linux-gnu", SONAME),
    },
    "x86_64-windows": {
        "LICENSES/mingw-w64.txt": ("x86_64-pc-windows-gnu", "mingw-w64.txt"),
        "bin/cfgx.dll": ("x86_64-pc-windows-gnu", "cfgx.dll"),
        "bin/cfgx.exe": ("x86_64-pc-windows-gnu", "cfgx.exe"),
        "lib/cfgx.dll.lib": ("x86_64-pc-windows-msvc", "cfgx.dll.lib"),
        "lib/cfgx.lib": ("x86_64-pc-windows-msvc", "cfgx.lib"),
        "lib/libcfgx.a": ("x86_64-pc-windows-gnu", "libcfgx.a"),
        "lib/libcfgx.dll.a": ("x86_64-pc-windows-gnu", "libcfgx.dll.a"),
    },
    "x86_64-macos": {
        "lib/libcfgx.a": ("x86_64-apple-darwin", "libcfgx.a"),
        "lib/libcfgx.dylib": ("x86_64-apple-darwin", "libcfgx.dylib"),
    },
    "aarch64-macos": {
        "lib/libcfgx.a": ("aarch64-apple-darwin", "libcfgx.a"),
        "lib/libcfgx.dylib": ("aarch64-apple-darwin", "libcfgx.dylib"),
    },
}
# An example, its words, and what it prints.
WORDS = ("predicates", 'all(unix, k = "\u00e9")', 'family unix\nkey_value k \u00e9\n')
# The words of the program, its status, and what it prints.
RUNS = (
    (["parse", "all(a, any(b), c)"], 0, "b\na\nc\n"),
    (["eval", 'any(unix, k = "\u00e9")', 'k = "\u00e9"'], 0, "true\n"),
    (["parse", "foo ("], 1, "foo (\n    ^ expected one of `=`, `,`, `)` here\n"),
)
CFLAGS = ("-std=c99", "-O2", "-Wall", "-Wextra", "-Werror")


class Families(User):
    """The archives for C but for the one for this machine."""

    def test_each_has_its_own_files(self):
        """Its libraries, and all else that the one for this machine has."""
        whole = {path[len(C) + 1:]: data for path, data in files_of(C).items()}
        both = {path: data for path, data in whole.items()
                if not path.startswith(("bin/", "lib/libcfgx", "share/man/man1/"))}
        self.assertLessEqual({"include/cfgx.h", "lib/pkgconfig/cfgx.pc", *LICENSES}, {*both})
        manual = {"share/man/man1/cfgx.1": whole["share/man/man1/cfgx.1"]}
        for family, _ in FAMILIES:
            own = {path: repository.read("/".join(("out/platforms", *place)))
                   for path, place in LIBRARIES[family].items()}
            has_program = {"bin/cfgx", "bin/cfgx.exe"} & {*own}
            wanted = {**both, **own, **(manual if has_program else {})}
            found = {path[len(c_for(family)) + 1:]: data
                     for path, data in files_of(c_for(family)).items()}
            self.assertEqual(sorted(found), sorted(wanted), family)
            self.assertEqual([path for path in found if found[path] != wanted[path]], [], family)

    def test_links_and_modes(self):
        for family, _ in FAMILIES:
            name = c_for(family)
            with tarfile.open(path_of(f"{name}.tar.gz")) as archive:
                members = archive.getmembers()
            links = {one.name: one.linkname for one in members if one.issym()}
            linux = {f"{name}/lib/libcfgx.so": SONAME,
                     f"{name}/lib/{SONAME}": f"libcfgx.so.{VERSION}"}
            self.assertEqual(links, linux if family.endswith("linux") else {})
            programs = {one.name for one in members if one.isfile() and one.mode == 0o755}
            marked = re.compile(r"/(bin/.*|lib/libcfgx\.(dylib|so.*))$")
            self.assertEqual(programs, {one.name for one in members
                                        if one.isfile() and marked.search(one.name)})

    def test_the_notice_of_mingw(self):
        name = c_for("x86_64-windows")
        self.assertIn(b"Upstream-Name: mingw-w64", files_of(name)[f"{name}/LICENSES/mingw-w64.txt"])

    def check_runs(self, *program, **variables):
        """Expects what the program cfgx prints."""
        for words, status, wanted in RUNS:
            run = self.run_words(*program, *words, **variables)
            self.assertEqual((run.returncode, run.stdout), (status, wanted), words)

    def check_example(self, compiler, source, library, *runner, **variables):
        """Compiles an example with a library, and expects what it prints."""
        _, word, wanted = WORDS
        include = os.path.join(os.path.dirname(os.path.dirname(source)), "include")
        self.succeed(*compiler, *CFLAGS, "-I", include, "-o", "example.exe", source, *library)
        self.assertEqual(self.succeed(*runner, "./example.exe", word, **variables), wanted)

    def test_aarch64(self):
        self.need("the archive for C on aarch64", "aarch64-linux-gnu-gcc", "qemu-aarch64-static")
        top = self.unpacked(c_for("aarch64-linux"))
        libraries = os.path.join(top, "lib")
        run = ("qemu-aarch64-static", "-L", "/usr/aarch64-linux-gnu")
        source = os.path.join(top, "examples/predicates.c")
        self.check_runs(*run, os.path.join(top, "bin/cfgx"))
        self.check_example(("aarch64-linux-gnu-gcc",), source, (f"{libraries}/libcfgx.a",), *run)
        self.check_example(("aarch64-linux-gnu-gcc",), source, ("-L", libraries, "-lcfgx"), *run,
                           "-E", f"LD_LIBRARY_PATH={libraries}")

    def test_windows(self):
        wine = "/usr/lib/wine/wine64"
        self.need("the archive for C on Windows", "x86_64-w64-mingw32-gcc", wine)
        top = self.unpacked(c_for("x86_64-windows"))
        libraries = os.path.join(top, "lib")
        variables = {"WINEDEBUG": "-all", "WINEPREFIX": os.path.join(self.folder, "wine"),
                     "LC_ALL": "C.UTF-8"}
        source = os.path.join(top, "examples/predicates.c")
        # The first program also shows what wine says of the folder that it makes.
        self.succeed(wine, os.path.join(top, "bin/cfgx.exe"), "parse", "a", **variables)
        self.check_runs(wine, os.path.join(top, "bin/cfgx.exe"), **variables)
        compiler = ("x86_64-w64-mingw32-gcc",)
        self.check_example(compiler, source, (f"{libraries}/libcfgx.a",), wine, **variables)
        shutil.copy(os.path.join(top, "bin/cfgx.dll"), self.folder)
        self.check_example(compiler, source, ("-L", libraries, "-lcfgx"), wine, **variables)

    def test_musl(self):
        self.need("the archive for C with musl", "musl-gcc")
        top = self.unpacked(C)
        self.check_example(("musl-gcc", "-static"), os.path.join(top, "examples/predicates.c"),
                           (os.path.join(top, "lib/libcfgx.a"),))
