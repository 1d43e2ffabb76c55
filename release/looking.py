"""Looks at the libraries of a platform: what they show, what they ask for, and for what machine
they are. Nothing is run."""
import os
import re
from typing import Dict, FrozenSet, List, Set

import repository
from compiling import calls
from modules import tool
from repository import ToolError, output_of
from targets import COFF, ELF, MACHO, WASM, Platform

# What llvm-readobj says of the objects of a platform, by the first part of its name and the form.
MACHINES = {
    ("x86_64", ELF): "elf64-x86-64", ("aarch64", ELF): "elf64-littleaarch64",
    ("x86_64", COFF): "COFF-x86-64", ("x86_64", MACHO): "Mach-O 64-bit x86-64",
    ("aarch64", MACHO): "Mach-O arm64",
}
# What a linker puts into each shared object for Linux, and into each library for macOS.
STARTED = frozenset({
    "_ITM_deregisterTMCloneTable", "_ITM_registerTMCloneTable", "__cxa_finalize", "__gmon_start__",
})
BINDER = "dyld_stub_binder"
SYSTEM = "/usr/lib/libSystem.B.dylib"
# The names of constants, which each object for the linker of Microsoft shares with others that have
# the same constant.
CONSTANT = re.compile(r"__(real|xmm)@[0-9a-f]+$")
# How the module of WebAssembly is called, beside the calls of the header.
HOST = {"memory", "cfgx_take", "cfgx_forget"}


class Look:
    """A look at a library, which fails if something is not as it should be."""

    def __init__(self, platform: Platform, path: str):
        self.platform, self.path = platform, path

    def expect(self, what: str, found: object, wanted: object) -> None:
        """Raises `ToolError` unless both are the same."""
        if found != wanted:
            name = f"{self.platform.triple}/{os.path.basename(self.path)}"
            raise ToolError(f"{name}: {what}: found {found}, and wanted {wanted}")

    def printed(self, *words: str) -> str:
        """Returns what a tool prints of the library."""
        return output_of(*words, self.path)

    def symbols(self, *words: str) -> Dict[str, str]:
        """Returns the letter of each symbol that others see, by its name in C."""
        found = re.findall(r"^(\S+) (\w) \S+ \S*$",
                           self.printed("llvm-nm", "--format=posix", "--extern-only", *words), re.M)
        is_marked = self.platform.form == MACHO
        return {self.plain(name, is_marked): letter for name, letter in found
                if letter != "R" or not CONSTANT.match(name)}

    def plain(self, name: str, is_marked: bool) -> str:
        """Returns the name in C of a symbol."""
        name = name.split("@")[0]
        return name[1:] if is_marked and name != BINDER else name

    def look_at_symbols(self, others: FrozenSet[str], *words: str) -> None:
        """Looks at what the library shows and asks for. `others` are what a linker adds."""
        symbols = self.symbols(*words)
        shown = {name for name, letter in symbols.items() if letter == "T"}
        asked = {name for name, letter in symbols.items() if letter in "Uw"}
        self.expect("what it shows", sorted(shown), sorted(calls()))
        self.expect("symbols of another kind", sorted(set(symbols) - shown - asked), [])
        self.look_at_needs(asked - others)

    def look_at_needs(self, asked: Set[str]) -> None:
        """Looks at what the library asks for, which is a part of what it may ask for."""
        self.expect("what it asks for, beside what it may", sorted(asked - self.platform.needs), [])
        heap = {"malloc", "realloc", "free"}
        self.expect("what it takes memory by", asked & heap, heap)

    def look_at_machine(self) -> None:
        """Looks at the machine for which each object of the library is."""
        found = re.findall(r"^Format: (.*)$", self.printed("llvm-readobj", "--file-headers"), re.M)
        machine = MACHINES[self.platform.triple.split("-")[0], self.platform.form]
        self.expect("the form of its objects", found, [machine])


def look_at_archive(look: Look) -> None:
    """Looks at an archive: it has one object, in which no section asks for a stack with code."""
    look.look_at_machine()
    look.look_at_symbols(frozenset())
    if look.platform.form == ELF:
        stack = re.findall(r"\.note\.GNU-stack +PROGBITS( +\w+){4}( +[A-Z]+)? +0 ",
                           look.printed("readelf", "-SW"))
        look.expect("the flags of its stack", [flags for _, flags in stack], [""])


def look_at_elf(look: Look) -> None:
    """Looks at a shared object for Linux."""
    look.look_at_machine()
    look.look_at_symbols(STARTED, "-D")
    text = look.printed("readelf", "-dlW")
    look.expect("its name", re.findall(r"\(SONAME\).*\[(.*)\]", text), [repository.soname()])
    look.expect("what it needs", re.findall(r"\(NEEDED\).*\[(.*)\]", text), ["libc.so.6"])
    look.expect("its stack", re.findall(r"^ *GNU_STACK .*? (RWE?) ", text, re.M), ["RW"])
    look.expect("relocations of its code", "TEXTREL" in text, False)
    look.expect("whether it is bound at once", "BIND_NOW" in text and "GNU_RELRO" in text, True)


def look_at_coff(look: Look) -> None:
    """Looks at a library for Windows."""
    look.look_at_machine()
    text = look.printed("llvm-readobj", "--file-headers", "--coff-exports", "--coff-imports",
                        "--sections")
    exports = re.findall(r"^Export \{$.*?^  Name: (\S+)$", text, re.M | re.S)
    look.expect("what it shows", sorted(exports), sorted(calls()))
    look.expect("what it needs", re.findall(r"^Import \{\n  Name: (\S+)", text, re.M),
                ["msvcrt.dll"])
    look.look_at_needs(set(re.findall(r"^  Symbol: (\S+) ", text, re.M)))
    for flag in ("DYNAMIC_BASE", "HIGH_ENTROPY_VA", "NX_COMPAT"):
        look.expect(flag, f"IMAGE_DLL_CHARACTERISTICS_{flag} " in text, True)
    sections = [part for part in text.split("  Section {\n") if "MEM_EXECUTE" in part]
    look.expect("the sections with code", [re.search(r"Name: (\S+)", part)[1] for part in sections],
                [".text"])
    look.expect("code that can be written", "MEM_WRITE" in sections[0], False)
    look.expect("no table of frames", re.search(r"ExceptionTableSize: 0x0$", text, re.M), None)


def look_at_macho(look: Look) -> None:
    """Looks at a library for macOS. A processor of ARM runs only what is signed."""
    look.look_at_machine()
    look.look_at_symbols(frozenset({BINDER}))
    printed = look.printed("llvm-objdump", "--macho", "--private-headers")
    name = f"@rpath/{look.platform.shared}"
    found = re.findall(r"cmd LC_(ID|LOAD)_DYLIB\n.*\n +name (\S+) ", printed)
    look.expect("its name, and what it needs", found, [("ID", name), ("LOAD", SYSTEM)])
    look.expect("whether its stack can have code", "ALLOW_STACK_EXECUTION" in printed, False)
    look.expect("segments with code that can be written",
                re.findall(r"initprot rwx", printed), [])
    if look.platform.triple.startswith("aarch64"):
        look.expect("whether it is signed", "LC_CODE_SIGNATURE" in printed, True)


def look_at_wasm(look: Look) -> None:
    """Looks at the module of WebAssembly, which asks a host for nothing."""
    printed = look.printed("wasm-objdump", "-x")
    look.expect("what it shows", set(re.findall(r'-> "(.*)"$', printed, re.M)),
                {*calls(), *HOST})
    look.expect("what it asks for", re.findall(r"^Import.*$", printed, re.M), [])
    memory = re.findall(r"^ - memory\[0\] pages: initial=\d+(.*)$", printed, re.M)
    look.expect("its memory, which can grow and has addresses of 32 bits", memory, [""])


def look_at_imports(look: Look) -> None:
    """Looks at what a linker takes in place of a library for Windows."""
    names = [name for name, letter in look.symbols().items() if letter == "T"]
    look.expect("what it leads to", sorted(names), sorted(calls()))
    data = repository.read(look.path)
    others = [call for call in calls() if f"{call}\0cfgx.dll\0".encode() not in data]
    look.expect("calls that it looks for elsewhere", others, [])


LOOKS = {ELF: look_at_elf, COFF: look_at_coff, MACHO: look_at_macho, WASM: look_at_wasm}


def look_at(platform: Platform, folder: str) -> None:
    """Looks at the libraries of a platform in a folder. Raises `ToolError` if one is not as it
    should be."""
    if platform.archive:
        look_at_archive(Look(platform, os.path.join(folder, platform.archive)))
    if platform.shared:
        LOOKS[platform.form](Look(platform, os.path.join(folder, platform.shared)))
    for name in platform.imports:
        look_at_imports(Look(platform, os.path.join(folder, name)))


def look_at_layout(platform: Platform) -> None:
    """Expects that the C compiler of a platform gives the structs of the header the layout that the
    engine fills. Raises `ToolError`."""
    headers = output_of("cc", "-print-file-name=include").strip()
    words: List[str] = ["-std=c11", "-Wall", "-Wextra", "-Werror", "-fsyntax-only",
                        "-ffreestanding", "-nostdinc", "-isystem", headers]
    output_of(tool("clang"), f"--target={platform.target}", *words, "-I",
              "crates/cfgx_c/include", "crates/cfgx_c/tests/layout.c")
