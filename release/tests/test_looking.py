"""What `release/platforms` looks at: a library that is not as it should be is refused, with what is
wrong. Bytes of the libraries in `out/platforms` are changed."""
import os
import shutil
import struct
import tempfile
import unittest

import looking
import repository
from targets import PLATFORMS

from . import SONAME

# A folder and a file of it, bytes that stand there, others in their place, and what is said.
CHANGES = (
    *((folder, name, b"cfgx_check\0", b"cfgx_cheek\0", "what it shows")
      for folder, name in (
          ("x86_64-unknown-linux-gnu", "libcfgx.a"), ("x86_64-unknown-linux-gnu", SONAME),
          ("aarch64-unknown-linux-gnu", "libcfgx.a"), ("aarch64-unknown-linux-gnu", SONAME),
          ("x86_64-pc-windows-gnu", "libcfgx.a"), ("x86_64-pc-windows-gnu", "cfgx.dll"),
          ("x86_64-pc-windows-msvc", "cfgx.lib"), ("x86_64-apple-darwin", "libcfgx.a"),
          ("aarch64-apple-darwin", "libcfgx.a"),
      )),
    ("x86_64-pc-windows-gnu", "libcfgx.dll.a", b"cfgx_check\0", b"cfgx_cheek\0",
     "what it leads to"),
    ("x86_64-pc-windows-msvc", "cfgx.dll.lib", b"cfgx_check\0", b"cfgx_cheek\0",
     "what it leads to"),
    ("wasm32-unknown-unknown", "cfgx.wasm", b"cfgx_take", b"cfgx_tape", "what it shows"),
    *((folder, name, b"realloc\0", b"reallot\0", "what it asks for, beside what it may")
      for folder, name in (
          ("x86_64-unknown-linux-gnu", "libcfgx.a"), ("aarch64-unknown-linux-gnu", "libcfgx.a"),
          ("x86_64-pc-windows-gnu", "libcfgx.a"), ("x86_64-pc-windows-gnu", "cfgx.dll"),
          ("x86_64-pc-windows-msvc", "cfgx.lib"), ("x86_64-apple-darwin", "libcfgx.a"),
          ("x86_64-apple-darwin", "libcfgx.dylib"), ("aarch64-apple-darwin", "libcfgx.a"),
          ("aarch64-apple-darwin", "libcfgx.dylib"),
      )),
    # The flags of sections that are in no memory: that of the stack would ask for code.
    ("aarch64-unknown-linux-gnu", "libcfgx.a", struct.pack("<IQQ", 1, 0, 0),
     struct.pack("<IQQ", 1, 4, 0), "the flags of its stack"),
    ("aarch64-unknown-linux-gnu", SONAME, SONAME.encode(), b"libcfgx.so.0.0", "its name"),
    ("aarch64-unknown-linux-gnu", SONAME, b"libc.so.6", b"libm.so.6", "what it needs"),
    # The flags of the stack, and those by which the loader binds at once.
    ("aarch64-unknown-linux-gnu", SONAME, b"\x51\xe5\x74\x64\x06", b"\x51\xe5\x74\x64\x07",
     "its stack"),
    ("aarch64-unknown-linux-gnu", SONAME, struct.pack("<QQ", 30, 8), struct.pack("<QQ", 30, 4),
     "relocations of its code"),
    ("aarch64-unknown-linux-gnu", SONAME, struct.pack("<QQ", 30, 8), struct.pack("<QQ", 30, 0),
     "whether it is bound at once"),
    ("x86_64-pc-windows-gnu", "cfgx.dll", b"msvcrt.dll", b"other1.dll", "what it needs"),
    ("x86_64-pc-windows-gnu", "libcfgx.dll.a", b"cfgx.dll\0", b"cfgy.dll\0",
     "calls that it looks for elsewhere"),
    ("aarch64-apple-darwin", "libcfgx.dylib", b"@rpath/libcfgx", b"/lib02/libcfgx",
     "its name, and what it needs"),
    ("x86_64-apple-darwin", "libcfgx.dylib", b"libSystem.B", b"libSystem.C",
     "its name, and what it needs"),
    # What the segment with code allows.
    ("x86_64-apple-darwin", "libcfgx.dylib", struct.pack("<II", 5, 5), struct.pack("<II", 7, 7),
     "segments with code that can be written"),
    # The command for a signature becomes another one.
    ("aarch64-apple-darwin", "libcfgx.dylib", struct.pack("<II", 0x1D, 16),
     struct.pack("<II", 0x2B, 16), "whether it is signed"),
)
# Where the optional header of a library for Windows has its flags, and the size of the table of
# frames; the least flag of each name.
FLAGS, FRAMES = 70, 140
WINDOWS = (
    (FLAGS, 0x40, "DYNAMIC_BASE"), (FLAGS, 0x20, "HIGH_ENTROPY_VA"), (FLAGS, 0x100, "NX_COMPAT"),
)


class Looking(unittest.TestCase):
    """A copy of a folder of `out/platforms`, in which a file is changed."""

    def setUp(self):
        for tool in ("llvm-nm", "llvm-readobj", "llvm-objdump", "readelf", "wasm-objdump"):
            if shutil.which(tool) is None:
                self.skipTest(f"what the libraries are looked at for, since {tool} does not run")
        room = tempfile.TemporaryDirectory()
        self.addCleanup(room.cleanup)
        self.room = room.name

    def look(self, triple, name, change, to=None):
        """Returns what is said of a folder, with a change to the bytes of a file. It is looked at
        as the one of the platform `to`."""
        folder = os.path.join(self.room, "changed")
        shutil.rmtree(folder, ignore_errors=True)
        shutil.copytree(os.path.join(repository.ROOT, "out/platforms", triple), folder,
                        symlinks=True)
        path = os.path.join(folder, name)
        with open(path, "rb") as file:
            data = change(file.read())
        with open(path, "wb") as file:
            file.write(data)
        platform, = (one for one in PLATFORMS if one.triple == (to or triple))
        with self.assertRaises(repository.ToolError) as caught:
            looking.look_at(platform, folder)
        return str(caught.exception)

    def test_all_are_as_they_should_be(self):
        for platform in PLATFORMS:
            looking.look_at(platform, os.path.join(repository.ROOT, "out/platforms",
                                                   platform.triple))
            looking.look_at_layout(platform)

    def test_changes(self):
        for triple, name, old, new, said in CHANGES:
            with self.subTest(triple=triple, name=name, old=old):
                def change(data):
                    self.assertIn(old, data)
                    return data.replace(old, new)

                self.assertIn(f": {said}: found ", self.look(triple, name, change))

    def test_the_head_of_a_library_for_windows(self):
        def changed(data, place, size, put):
            start, = struct.unpack_from("<I", data, 60)
            at = start + 24 + place
            value = int.from_bytes(data[at:at + size], "little")
            return data[:at] + put(value).to_bytes(size, "little") + data[at + size:]

        for place, flag, said in WINDOWS:
            told = self.look("x86_64-pc-windows-gnu", "cfgx.dll",
                             lambda data: changed(data, place, 2, lambda value: value & ~flag))
            self.assertIn(f": {said}: found False", told)
        told = self.look("x86_64-pc-windows-gnu", "cfgx.dll",
                         lambda data: changed(data, FRAMES, 4, lambda value: 0))
        self.assertIn(": no table of frames: found ", told)

    def test_the_library_of_another_platform(self):
        for one, other in ((0, 1), (1, 0), (4, 5), (5, 4), (2, 4), (1, 5)):
            triple, to = PLATFORMS[one].triple, PLATFORMS[other].triple
            if PLATFORMS[one].archive == PLATFORMS[other].archive:
                told = self.look(triple, PLATFORMS[one].archive, lambda data: data, to)
                self.assertIn(": the form of its objects: found ", told)
