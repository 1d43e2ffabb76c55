"""What stands in each archive of a release, by paths in the archive."""
import os
import sys
from typing import Dict, NamedTuple, Tuple

from packing import File
from pages import named, pictures, reached, relinked
from repository import (
    BUILT, ROOT, STAMP, output_of, project, project_list, read, soname, tracked, version,
)
from stamp import PLATFORMS as LIBRARIES
from targets import (
    ARM_LINUX, ARM_MAC, ELF, FAMILIES, WASM_32, WINDOWS_GNU, X86_LINUX, X86_MAC, Platform,
)

Files = Dict[str, File]

LICENSES = ("LICENSE-APACHE", "LICENSE-MIT", "LICENSES/LicenseRef-cfgx-kit.txt", "NOTICE")

# The first pages of the archives for C, Rust, Python and JavaScript.
README = "README.md"
RUST_README = "bindings/rust/README.md"
PYTHON_README = "bindings/python/README.md"
JAVASCRIPT_README = "bindings/js/README.md"
# Where the archives for Rust and JavaScript have the page whose place its own README takes.
MOVED = "docs/CFGX.md"
# Where pip puts the pages of a wheel, below the folder of the environment.
DOCUMENTS = "share/doc/cfgx"
# Where it puts what is made of the commands: manual pages, and what shells complete its words by,
# where they look for it. Behind each stands what it is made by.
MAKER = ("-B", "manual/make")
MADE = {
    "share/man/man1/cfgx-code.1": ("code",),
    "share/man/man1/cfgx-deps.1": ("deps",),
    "share/bash-completion/completions/cfgx-deps": ("completion", "bash"),
    "share/fish/vendor_completions.d/cfgx-deps.fish": ("completion", "fish"),
    "share/zsh/site-functions/_cfgx-deps": ("completion", "zsh"),
}

# What makes the page.
PAGE_MAKER = ("-B", "bindings/js/page/make")

# The file for pkg-config leads from its own folder to the others.
PC = "lib/pkgconfig/cfgx.pc"
RELATIVE = "prefix=${pcfiledir}/../..\n"

# The commands of the package.
SCRIPTS = ("cargo-cfgx-deps", "cfgx-code", "cfgx-deps")


class Wheel(NamedTuple):
    """A wheel: the systems that it is for, and the platform whose library it has. Several names of
    one system are a new one and one for an older pip."""
    systems: Tuple[str, ...]
    platform: Platform

    def name(self) -> str:
        """Returns the name of its file."""
        return f"cfgx-{version()}-py3-none-{'.'.join(self.systems)}.whl"

    def library(self) -> str:
        """Returns the name of its library, by which the package looks for it."""
        return soname() if self.platform.form == ELF else self.platform.shared


# Linux has two C libraries, and both load the same library.
WHEELS = (
    Wheel(("manylinux_2_17_x86_64", "manylinux2014_x86_64"), X86_LINUX),
    Wheel(("manylinux_2_17_aarch64", "manylinux2014_aarch64"), ARM_LINUX),
    Wheel(("musllinux_1_1_x86_64",), X86_LINUX),
    Wheel(("musllinux_1_1_aarch64",), ARM_LINUX),
    Wheel(("win_amd64",), WINDOWS_GNU),
    Wheel(("macosx_11_0_x86_64",), X86_MAC),
    Wheel(("macosx_11_0_arm64",), ARM_MAC),
)
METADATA = """Metadata-Version: 2.4
Name: {name}
Version: {version}
Summary: {summary}
Author: {author}
Keywords: {keywords}
License-Expression: {license}
{licenses}{classifiers}Requires-Python: {python}
Description-Content-Type: text/markdown

This wheel has the library inside, and pip installs it without `setuptools`. A release has one for
each system, which the end of its name says. They differ in the library alone. pip puts the pages
into the folder `{documents}` of the environment, the manual pages of `cfgx-deps` and `cfgx-code`
into `share/man`, and what bash, fish and zsh complete the words of `cfgx-deps` by into the folders
below `share` where they look for it.

{description}"""
WHEEL = "Wheel-Version: 1.0\nGenerator: release/make of cfgx\nRoot-Is-Purelib: false\n"


def licenses(folder: str = "") -> Files:
    """Returns the texts of all licences, and what is to be said of others' work, in a folder whose
    name ends with `/`."""
    return {folder + path: File(read(path)) for path in LICENSES}


def pages(first: str, moved: Dict[str, str]) -> Files:
    """Returns a page and all those to which its links lead, with the pictures that they show, by
    their places in an archive: each has the path that it has in the repository, or the one in
    `moved`. At the top of the archive stand the licences."""
    places = {page: moved.get(page, page) for page in reached(first)}
    shown = {path: path for page in places for path in pictures(page)}
    others = {path: path for path in LICENSES}
    told = {
        place: File(relinked(page, {**others, **shown, **places}).encode())
        for page, place in places.items()
    }
    return {**told, **{path: File(read(path)) for path in shown}}


def installed() -> Files:
    """Returns what `crates/cfgx_c/install` put into its folder, which a user can move. The stamp is
    left out, since MANIFEST.txt says more."""
    files = {}
    for folder, _, names in os.walk(os.path.join(ROOT, BUILT)):
        for name in names:
            path = os.path.join(folder, name)
            place = os.path.relpath(path, os.path.join(ROOT, BUILT))
            if os.path.islink(path):
                files[place] = File(b"", link=os.readlink(path))
            else:
                files[place] = File(read(path), os.access(path, os.X_OK))
    del files[STAMP]
    _, rest = files[PC].data.decode().split("\n", 1)
    files[PC] = File((RELATIVE + rest).encode())
    return files


def library(platform: Platform, name: str) -> File:
    """Returns a file of the libraries of a platform."""
    path = f"{LIBRARIES}/{platform.triple}/{name}"
    return File(read(path), os.access(os.path.join(ROOT, path), os.X_OK))


def linux_files(platform: Platform) -> Files:
    """Returns the libraries for Linux and the program, by the paths that `crates/cfgx_c/install`
    gives them."""
    whole = f"libcfgx.so.{version()}"
    return {
        f"bin/{platform.program}": library(platform, platform.program),
        f"lib/{platform.archive}": library(platform, platform.archive),
        f"lib/{whole}": library(platform, soname()),
        f"lib/{soname()}": File(b"", link=whole),
        f"lib/{platform.shared}": File(b"", link=soname()),
    }


def other_files(platform: Platform) -> Files:
    """Returns the libraries for a platform that is not Linux, and the program if there is one.
    Windows looks for a library beside a program."""
    files = {}
    for name in platform.files:
        folder = "bin" if name.endswith((".dll", ".exe")) else "lib"
        files[f"{folder}/{name}"] = library(platform, name)
    if platform.program:
        files["LICENSES/mingw-w64.txt"] = library(platform, "mingw-w64.txt")
    return files


def libraries(family: str) -> Files:
    """Returns what stands in the archive for C of a family of platforms because of its platforms:
    libraries, and the program with its manual page."""
    if FAMILIES[family] == (X86_LINUX,):
        return installed()
    files = {}
    for platform in FAMILIES[family]:
        made = linux_files(platform) if platform.form == ELF else other_files(platform)
        files.update(made)
    has_program = any(path.startswith("bin/cfgx") and path[-4:] != ".dll" for path in files)
    shared = {path: file for path, file in installed().items()
              if path == PC or path.startswith(("include/", "share/man/man3/"))
              or (has_program and path.startswith("share/man/man1/"))}
    return {**files, **shared}


def c_files(family: str) -> Files:
    """Returns the files of the archive for C of a family of platforms."""
    sources = [path for path in tracked("crates/cfgx_c/examples") if path.endswith((".c", ".h"))]
    examples = {f"examples/{os.path.basename(path)}": File(read(path)) for path in sources}
    return {**libraries(family), **licenses(), **pages(README, {}), **examples}


def rust_files() -> Files:
    """Returns the files of the archive for Rust: the crate `cfgx`, and in its folder the package
    `cfg-expr`. Each of both packages has the licences."""
    top = "bindings/rust/"
    parts = ("Cargo.toml", "src", "cfg-expr")
    sources = tracked(*(top + path for path in parts))
    sources = [path for path in sources if not path.endswith(".gitignore")]
    code = {path[len(top):]: File(read(path)) for path in sources}
    told = pages(RUST_README, {RUST_README: README, README: MOVED})
    return {**code, **licenses(), **licenses("cfg-expr/"), **told}


def javascript_files() -> Files:
    """Returns the files of the package for JavaScript, with the module inside, as `npm` unpacks
    them."""
    top = "bindings/js/"
    sources = tracked(top + "package.json", top + "src")
    code = {path[len(top):]: File(read(path)) for path in sources}
    module = {f"src/{WASM_32.shared}": library(WASM_32, WASM_32.shared)._replace(is_program=False)}
    told = pages(JAVASCRIPT_README, {JAVASCRIPT_README: README, README: MOVED})
    files = {**code, **module, **licenses(), **told}
    return {f"package/{path}": file for path, file in files.items()}


def page() -> bytes:
    """Returns the page that shows where a condition is true, with the module inside."""
    return output_of(sys.executable, *PAGE_MAKER).encode()


def information(wheel: Wheel) -> Files:
    """Returns what a wheel says of the package, by paths in the folder `.dist-info`."""
    fields = {
        "name": "name", "summary": "description", "license": "license", "author": "authors",
        "python": "requires-python",
    }
    told = {field: project(name)[0] for field, name in fields.items()}
    listed = {
        "licenses": "".join(f"License-File: {path}\n" for path in LICENSES),
        "classifiers": "".join(f"Classifier: {one}\n" for one in project_list("classifiers")),
        "keywords": ",".join(project("keywords")),
    }
    metadata = METADATA.format(**told, **listed, version=version(), documents=DOCUMENTS,
                               description=named(PYTHON_README, DOCUMENTS))
    scripts = "".join(f"{name} = {project(name)[0]}\n" for name in SCRIPTS)
    texts = {
        "METADATA": metadata,
        "WHEEL": WHEEL + "".join(f"Tag: py3-none-{system}\n" for system in wheel.systems),
        "entry_points.txt": f"[console_scripts]\n{scripts}",
    }
    return {**{path: File(text.encode()) for path, text in texts.items()}, **licenses("licenses/")}


def documents() -> Files:
    """Returns the pages and the licences of a wheel, by paths in the folder `.data`, whose part
    `data` pip puts into the folder of the environment."""
    made = {path: File(output_of(sys.executable, *MAKER, *words).encode())
            for path, words in MADE.items()}
    told = {f"{DOCUMENTS}/{path}": file
            for path, file in {**licenses(), **pages(PYTHON_README, {})}.items()}
    return {f"data/{path}": file for path, file in {**told, **made}.items()}


def python_files(named_version: str, wheel: Wheel) -> Files:
    """Returns the files of a wheel but for its record. `named_version` begins the names of the
    folders `.dist-info` and `.data`."""
    top = "bindings/python/src/"
    code = {path[len(top):]: File(read(path)) for path in tracked(top)}
    name = wheel.library()
    own = {f"cfgx/{name}": library(wheel.platform, name)._replace(is_program=True)}
    told = {f"{named_version}.dist-info/{path}": file for path, file in information(wheel).items()}
    data = {f"{named_version}.data/{path}": file for path, file in documents().items()}
    return {**code, **own, **told, **data}
