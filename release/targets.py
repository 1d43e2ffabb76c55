"""The platforms of a release: for which there is a library, and of which module it is compiled."""
from typing import FrozenSet, NamedTuple, Tuple

# The targets for which the kit checks the crate: both are for 64 bits and the order of bytes that
# each platform has.
X86, ARM = "x86_64-unknown-linux-gnu", "aarch64-unknown-linux-gnu"

# The forms of objects.
ELF, COFF, MACHO, WASM = "ELF", "COFF", "Mach-O", "WebAssembly"

# The functions of C that the engine takes memory by, and those that a compiler puts in for loops.
HEAP = frozenset({"free", "malloc", "realloc"})
BLOCKS = frozenset({"memcmp", "memcpy", "memmove", "memset"})
LINUX = HEAP | BLOCKS | {"bcmp"}


class Platform(NamedTuple):
    """A platform with a library."""
    # its name as Rust has it, which is that of its folder too
    triple: str
    # the target by the names of clang
    target: str
    # the target for which the crate is checked whose module is compiled for it
    checked: str
    form: str
    # what to link: for a static library, for a shared one, and others in place of the last
    archive: str = ""
    shared: str = ""
    imports: Tuple[str, ...] = ()
    # the program, where one is made of examples/cfgx.c, and what compiles and links it
    program: str = ""
    compiler: Tuple[str, ...] = ()
    # what its libraries may ask of its C library, and of its compiler for a large frame, by the
    # names in C
    needs: FrozenSet[str] = HEAP | BLOCKS
    # what runs its libraries in the tests, or nothing
    runner: str = ""

    @property
    def files(self) -> Tuple[str, ...]:
        """The names of its files, but for those of licences."""
        return tuple(filter(None, (self.archive, self.shared, *self.imports, self.program)))


# The archive of the kit serves x86-64 Linux, which `crates/cfgx_c/install` puts into `out/cfgx`.
X86_LINUX = Platform(X86, X86, X86, ELF, "libcfgx.a", "libcfgx.so", needs=LINUX,
                     runner="this processor")
ARM_LINUX = Platform(ARM, ARM, ARM, ELF, "libcfgx.a", "libcfgx.so", program="cfgx",
                     compiler=("aarch64-linux-gnu-gcc",), needs=LINUX,
                     runner="qemu-aarch64")
WINDOWS_GNU = Platform("x86_64-pc-windows-gnu", "x86_64-pc-windows-gnu", X86, COFF, "libcfgx.a",
                       "cfgx.dll", ("libcfgx.dll.a",), "cfgx.exe",
                       ("x86_64-w64-mingw32-gcc", "-static", "-Wl,--no-insert-timestamp"),
                       needs=HEAP | BLOCKS | {"___chkstk_ms"}, runner="wine")
WINDOWS_MSVC = Platform("x86_64-pc-windows-msvc", "x86_64-pc-windows-msvc", X86, COFF, "cfgx.lib",
                        imports=("cfgx.dll.lib",), needs=HEAP | BLOCKS | {"__chkstk"})
X86_MAC = Platform("x86_64-apple-darwin", "x86_64-apple-macosx10.12", X86, MACHO, "libcfgx.a",
                   "libcfgx.dylib", needs=HEAP | BLOCKS | {"bzero", "__bzero"})
ARM_MAC = Platform("aarch64-apple-darwin", "arm64-apple-macosx11.0", ARM, MACHO, "libcfgx.a",
                   "libcfgx.dylib", needs=HEAP | BLOCKS | {"bzero"})
WASM_32 = Platform("wasm32-unknown-unknown", "wasm64-unknown-unknown", X86, WASM,
                   shared="cfgx.wasm", needs=frozenset(), runner="Node")
# Those that are compiled here, and all of them.
COMPILED = (ARM_LINUX, WINDOWS_GNU, WINDOWS_MSVC, X86_MAC, ARM_MAC, WASM_32)
PLATFORMS = (X86_LINUX, *COMPILED)

# What an archive for C is for, and the platforms whose libraries it has.
FAMILIES = {
    "x86_64-linux": (X86_LINUX,),
    "aarch64-linux": (ARM_LINUX,),
    "x86_64-windows": (WINDOWS_GNU, WINDOWS_MSVC),
    "x86_64-macos": (X86_MAC,),
    "aarch64-macos": (ARM_MAC,),
}
