"""Compiles a module of the kit for a platform, and links the libraries."""
import os
import re
import shutil
from typing import Callable, Dict, List, NamedTuple, Tuple

import repository
from modules import Module, tool
from repository import ROOT, ToolError, output_of
from targets import (
    COFF, ELF, MACHO, WASM, WINDOWS_GNU, WINDOWS_MSVC, X86, X86_LINUX, Platform,
)

HERE = os.path.join(ROOT, "release/runtime")
# What Debian says of the licences of MinGW-w64, of which a program for Windows holds a part.
MINGW_NOTICE = "/usr/share/doc/mingw-w64-x86-64-dev/copyright"
# What two words are returned as, by the target of a module. Both types stand for two registers.
PAIRS = {True: "{ i64, i64 }", False: "[2 x i64]"}
# The functions of the heap, which a module declares.
HEAP = ("rattle_alloc", "rattle_realloc", "rattle_dealloc")
DECLARATION = r"^declare (?P<answer>.*?) @{name}\((?P<takes>.*?)\).*\n"
DEFINITION = r"^define internal (?P<answer>.*?) @{name}\((?P<takes>[^)]*)\)"

# What the kit says of functions for Linux and another platform does otherwise.
PROBE = re.compile(r' "probe-stack"="[^"]*"')
PROBE_SIZE = re.compile(r' "stack-probe-size"="[^"]*"')
PROCESSOR = re.compile(r' "target-cpu"="[^"]*"')

# The least page of memory: a function with a larger frame has to touch each page of it in turn, so
# that it cannot step over the guard of the stack.
PAGE = 4096
# The frame of a function, as `-fstack-usage` tells it.
FRAME = re.compile(r"^(?P<name>.*)\t(?P<bytes>\d+)\t(?P<kind>.*)$", re.M)


class Compiled(NamedTuple):
    """What clang made for a platform."""
    path: str
    # the function with the largest frame, and how many bytes that takes
    largest: Tuple[int, str]


def signature(form: str, name: str, text: str) -> Tuple[str, List[str]]:
    """Returns the types of what a function returns and takes."""
    found = re.search(form.format(name=name), text, re.M)
    if not found:
        raise ToolError(f"there is no {name} where the heap and the module meet")
    takes = [re.split(r" noundef| %", one)[0] for one in re.split(r",\s+", found["takes"]) if one]
    return found["answer"], takes


def with_heap(module: Module, checked: str) -> str:
    """Returns the text of a module with the heap in it. Raises `ToolError` unless the module
    declares the functions of the heap as these are defined."""
    heap = repository.read_text("release/runtime/heap.ll.in")
    heap = heap.replace("@PAIR@", PAIRS[checked == X86])
    text = module.text
    for name in HEAP:
        wanted, found = signature(DECLARATION, name, text), signature(DEFINITION, name, heap)
        if wanted != found:
            raise ToolError(f"the module declares {name} as {wanted}, and the heap has {found}")
        text = re.sub(DECLARATION.format(name=name), "", text, flags=re.M)
    return f"{text}\n{heap}"


def heads_of(target: str) -> Dict[str, str]:
    """Returns how a module for a target begins: the layout of data, and the target."""
    empty = output_of(tool("clang"), f"--target={target}", "-S", "-emit-llvm", "-x", "c",
                      "/dev/null", "-o", "-")
    return dict(re.findall(r"^target (\w+) = (.*)$", empty, re.M))


def moved(text: str, platform: Platform) -> str:
    """Returns the text of a module as one for a platform."""
    heads = heads_of(platform.target)
    text = re.sub(r"^target (\w+) = .*$", lambda found: f"target {found[1]} = {heads[found[1]]}",
                  text, flags=re.M)
    # Windows has its own probes of the stack, for which such a name would be that of a function.
    # There each function can be unwound.
    if platform.form == COFF:
        text = PROBE_SIZE.sub("", PROBE.sub(" uwtable", text))
    if platform.form == WASM:
        text = PROCESSOR.sub("", PROBE_SIZE.sub("", PROBE.sub("", text)))
    return text


def words_for(module: Module, platform: Platform) -> List[str]:
    """Returns the words of clang for a platform: those of the kit, but for what it lacks. An object
    for Windows has no time in it."""
    lacks = {COFF: ("-fPIC",), WASM: ("-fPIC", "-march=")}.get(platform.form, ())
    words = [word for word in module.words if not (lacks and word.startswith(lacks))]
    more = ["-mno-incremental-linker-compatible"] if platform.form == COFF else []
    return [tool("clang"), f"--target={platform.target}", *words, *more]


def compiled(module: Module, platform: Platform, folder: str) -> Compiled:
    """Returns the object of a module for a platform: with a heap in it, unless the kit has one."""
    is_whole = platform == X86_LINUX
    text = module.text if is_whole else moved(with_heap(module, platform.checked), platform)
    source, path = (os.path.join(folder, f"cfgx.{kind}") for kind in ("ll", "o"))
    with open(source, "w", encoding="utf-8") as file:
        file.write(text)
    output_of(*words_for(module, platform), "-fstack-usage", "-c", "-x", "ir", source, "-o", path)
    with open(os.path.join(folder, "cfgx.su"), encoding="utf-8") as file:
        found = FRAME.finditer(file.read())
    frames = [(int(one["bytes"]), one["name"].split(".ll:", 1)[1], one["kind"]) for one in found]
    others = [name for _, name, kind in frames if kind != "static"]
    if others:
        raise ToolError(f"{platform.triple}: a frame has no fixed size: {others[0]}")
    size, name, _ = max(frames)
    if size > PAGE and platform.form in (ELF, MACHO) and not PROBE.search(text):
        raise ToolError(f"{platform.triple}: nothing probes the stack of {name}")
    return Compiled(path, (size, name))


def calls() -> List[str]:
    """Returns the names of the calls of the header, in its order."""
    return re.findall(r"^uint32_t (cfgx_\w+)\(", repository.read_text(repository.HEADER), re.M)


def archive(name: str, form: str, object_path: str, folder: str) -> None:
    """Makes an archive of an object."""
    kind = {ELF: "gnu", MACHO: "darwin", COFF: "coff" if name.endswith(".lib") else "gnu"}[form]
    output_of(tool("llvm-ar"), f"--format={kind}", "rcsD", os.path.join(folder, name), object_path)


def link_elf(platform: Platform, made: Compiled, folder: str) -> None:
    """Links the shared object for Linux. Its soname is the name of the file, to which a link that
    the linker looks for leads."""
    soname = repository.soname()
    output_of("aarch64-linux-gnu-gcc", "-shared", "-o", os.path.join(folder, soname), made.path,
              f"-Wl,-soname,{soname}", "-Wl,-z,defs,-z,text,-z,relro,-z,now,-z,noexecstack")
    os.symlink(soname, os.path.join(folder, platform.shared))


def link_coff(platform: Platform, made: Compiled, folder: str) -> None:
    """Links the library for Windows, and makes what a linker takes in its place. The system has
    the C library that it asks for."""
    if not platform.shared:
        return
    room, out = os.path.dirname(made.path), os.path.join(folder, platform.shared)
    dlltool, runtime = os.path.join(room, "llvm-dlltool"), os.path.join(room, "msvcrt.lib")
    os.symlink(tool("llvm-ar"), dlltool)
    output_of(dlltool, "-m", "i386:x86-64", "-d", os.path.join(HERE, "msvcrt.def"), "-l", runtime)
    # It has the probes of the stack.
    support = output_of(platform.compiler[0], "-print-libgcc-file-name").strip()
    output_of(tool("ld.lld"), "-flavor", "link", "/lldmingw", "/dll", "/noentry", "/machine:x64",
              "/Brepro", "/nodefaultlib", "/dynamicbase", "/highentropyva", "/nxcompat",
              *(f"/export:{call}" for call in calls()), f"/out:{out}",
              f"/implib:{os.path.join(folder, platform.imports[0])}", made.path, runtime, support)


def link_macho(platform: Platform, made: Compiled, folder: str) -> None:
    """Links the library for macOS, which a program looks for along its own paths."""
    version = re.search(r"\d+\.\d+$", platform.target)[0]
    numbers = repository.version()
    output_of(tool("ld.lld"), "-flavor", "darwin", "-arch", platform.target.split("-")[0],
              "-platform_version", "macos", version, version, "-dylib", "-dead_strip",
              "-install_name", f"@rpath/{platform.shared}", "-headerpad_max_install_names",
              "-compatibility_version", numbers.rsplit(".", 1)[0], "-current_version", numbers,
              "-o", os.path.join(folder, platform.shared), made.path,
              os.path.join(HERE, "libSystem.tbd"))


def link_wasm(platform: Platform, made: Compiled, folder: str) -> None:
    """Links the module of WebAssembly, whose memory has 32-bit addresses at last."""
    room = os.path.dirname(made.path)
    memory, wide = os.path.join(room, "memory.o"), os.path.join(room, "wide.wasm")
    output_of(tool("clang"), f"--target={platform.target}", "-std=c11", "-Wall", "-Wextra",
              "-Werror", "-O2", "-ffreestanding", "-fno-builtin", "-mbulk-memory", "-c",
              os.path.join(HERE, "memory.c"), "-o", memory)
    output_of("wasm-ld", "-mwasm64", "--no-entry", "--stack-first", "-z", f"stack-size={1 << 20}",
              "--gc-sections", "--strip-all", *(f"--export={call}" for call in calls()),
              made.path, memory, "-o", wide)
    features = ("memory64", "bulk-memory", "sign-ext", "nontrapping-float-to-int", "multivalue",
                "reference-types", "mutable-globals")
    output_of("wasm-opt", *(f"--enable-{feature}" for feature in features), "--memory64-lowering",
              "-O3", wide, "-o", os.path.join(folder, platform.shared))


LINKERS: Dict[str, Callable[[Platform, Compiled, str], None]] = {
    ELF: link_elf, COFF: link_coff, MACHO: link_macho, WASM: link_wasm,
}


def link_program(platform: Platform, folder: str) -> None:
    """Makes the program of a platform over its archive, with the notice of what is linked with
    it on Windows."""
    output_of(*platform.compiler, "-std=c99", "-D_POSIX_C_SOURCE=200809L", "-O2", "-s", "-I",
              "crates/cfgx_c/include", "-o", os.path.join(folder, platform.program),
              "crates/cfgx_c/examples/cfgx.c", os.path.join(folder, platform.archive))
    if platform == WINDOWS_GNU:
        shutil.copy(MINGW_NOTICE, os.path.join(folder, "mingw-w64.txt"))


def copy_imports(folder: str) -> None:
    """Copies what a linker takes in place of the library for Windows to where the linker of
    Microsoft looks for it: both linkers read the same."""
    shutil.copy(os.path.join(folder, WINDOWS_GNU.triple, WINDOWS_GNU.imports[0]),
                os.path.join(folder, WINDOWS_MSVC.triple, WINDOWS_MSVC.imports[0]))


def link(platform: Platform, made: Compiled, folder: str) -> None:
    """Makes the libraries of a platform in a folder."""
    os.makedirs(folder)
    if platform.archive:
        archive(platform.archive, platform.form, made.path, folder)
    LINKERS[platform.form](platform, made, folder)
    if platform.program:
        link_program(platform, folder)
