"""The text of MANIFEST.txt: what a release is made of, and what of it is proved and trusted."""
import platform
import re
import zlib
from typing import Dict, List

import repository
import stamp
from packing import File, sum_of
from targets import FAMILIES, PLATFORMS

# The latest version of glibc that the program and the shared object may need.
PROGRAM_GLIBC, GLIBC = "2.34", "2.17"

# What has the engine inside.
ENGINE = re.compile(
    r"/(bin/cfgx(\.exe|\.dll)?|libcfgx\.(a|dylib|so[.0-9]*)|cfgx\.(dll|lib|wasm))$"
)
# Where the sections of a wheel and of the archive for Rust begin in the text, by their names.
SECTION = re.compile(r"^(?=@(?:PYTHON|RUST)_NAME@$)", re.M)

# What the section of an archive for C says of its program, and what its files need.
GLIBC_IS_NEEDED = f"""The program needs glibc {PROGRAM_GLIBC} or later, and the shared object glibc
{GLIBC} or later."""
PROGRAM = "The program is examples/cfgx.c over the library, and is only tested beside it."
FAMILY = {
    "x86_64-linux": GLIBC_IS_NEEDED,
    "aarch64-linux": f"{PROGRAM} {GLIBC_IS_NEEDED}",
    "x86_64-windows": f"""{PROGRAM} It holds parts of MinGW-w64. libcfgx.a and libcfgx.dll.a are for
its linker, and cfgx.lib and cfgx.dll.lib for that of Microsoft. Nothing was linked with the last
two. cfgx.dll needs msvcrt.dll, which Windows has.""",
    "x86_64-macos": "There is no program. The libraries are for macOS 10.12 or later.",
    "aarch64-macos": "There is no program. The libraries are for macOS 11.0 or later.",
}


def rows(files: Dict[str, File]) -> str:
    """Returns a line for each file of an archive."""
    lines: List[str] = []
    for path, file in sorted(files.items()):
        if file.link:
            lines.append(f"{'link':64}  {path} -> {file.link}\n")
        else:
            mark = "  (engine)" if ENGINE.search(path) else ""
            lines.append(f"{sum_of(file.data)}  {path}{mark}\n")
    return "".join(lines)


def c_section(name: str, files: Dict[str, File]) -> str:
    """Returns the section of an archive for C, whose name ends with that of its platforms."""
    family, = (family for family in FAMILIES if name.endswith(f"-{family}.tar.gz"))
    return f"""{name}

The library for C with its header, manual pages, pages and examples, and the program if one is
listed. The header and the examples are only tested, and the declarations of the header are trusted.
{FAMILY[family]}

{rows(files)}"""


def platforms() -> str:
    """Returns a line for each platform: for which target the module was checked that is compiled
    for it, what runs it in the tests, and its largest frame."""
    frames = stamp.told_of("frame")
    lines = [f"{'platform':27}{'the crate was checked for':27}{'run by':16}largest frame\n"]
    for one in PLATFORMS:
        size = frames[one.triple].split(" ")[0]
        lines.append(f"{one.triple:27}{one.checked:27}{one.runner or 'not run':16}{size} bytes\n")
    return "".join(lines)


def verdicts() -> str:
    """Returns what the kit said of the crate for each target."""
    return "".join(f"{target}\n  {verdict}\n"
                   for target, verdict in stamp.told_of("checked").items())


def linker() -> str:
    """Returns the versions of the C compiler and of binutils."""
    return ", ".join(repository.first_line(tool) for tool in ("cc", "ld"))


def filled(form: str, places: Dict[str, str]) -> str:
    """Returns a part of the text with what stands in its places."""
    return re.sub(r"@(\w+)@", lambda found: places[found[1]], form)


def text(version: str, commit: repository.Commit, held: Dict[str, Dict[str, File]]) -> str:
    """Returns the text. `held` has the files of each archive, by the name of the archive: those for
    C, for Python, for Rust and for JavaScript."""
    kit, changes = repository.kit(), ", and changes after it" if commit.is_changed else ""
    c_names = [name for name in held if name.endswith(".tar.gz")]
    wheels = [name for name in held if name.endswith(".whl")]
    javascript, = (name for name in held if name.endswith(".tgz"))
    rust = c_names.pop()
    places = {
        "VERSION": version, "COMMIT": commit.name + changes, "DATE": commit.date(),
        "KIT": kit["version"], "KIT_COMMIT": kit["commit"], "COMPILER": kit["compiler"],
        "SOURCES": stamp.sources(), "LINKER": linker(),
        "LINKERS": "\n".join(f"          {line}" for line in stamp.told_of("tool").values()),
        "PACKED": f"Python {platform.python_version()}, zlib {zlib.ZLIB_RUNTIME_VERSION}",
        "PLATFORMS": platforms(), "VERDICTS": verdicts(),
        "PYTHON": repository.project("requires-python")[0].lstrip(">="),
        "CFG_EXPR": repository.rust_field("cfg-expr/Cargo.toml", "version"),
        "RUST": repository.rust_field("Cargo.toml", "rust-version"),
        "C_SECTIONS": "\n".join(c_section(name, held[name]) for name in c_names),
        "RUST_NAME": rust, "RUST_FILES": rows(held[rust]),
        "NODE": repository.node_version(),
        "JAVASCRIPT_NAME": javascript, "JAVASCRIPT_FILES": rows(held[javascript]),
    }
    head, python, end = SECTION.split(repository.read_text("release/MANIFEST.in"))
    own = [{"PYTHON_NAME": name, "PYTHON_FILES": rows(held[name])} for name in wheels]
    sections = [filled(python, {**places, **one}) for one in own]
    return "".join([filled(head, places), *sections, filled(end, places)])
