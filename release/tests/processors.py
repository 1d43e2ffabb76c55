"""A release on 64-bit ARM: the commands of docs/RELEASE.md, as they are printed, and an example in
C with musl. `.ci/aarch64` runs them. CFGX_ARM64 is a folder with a Python for this processor,
CFGX_MUSL one with musl, and CFGX_RUSTC a `rustc` with this target.
"""
import os
import re

from . import C, SONAME, wheel_for
from .test_page import Shown

GCC, QEMU = "aarch64-linux-gnu-gcc", "qemu-aarch64-static"
ARM = C.replace("x86_64", "aarch64")


class Processors(Shown):
    """The sections of the page that a program has from others, and that for this processor."""

    def test_arm(self):
        self.need("a release on 64-bit ARM", "cargo", GCC, QEMU, "python3 -m ensurepip")
        self.variables["CARGO_TARGET_DIR"] = os.path.join(self.folder, "target")
        self.variables["RUSTC"] = os.environ["CFGX_RUSTC"]
        self.variables["debian"] = os.environ["CFGX_ARM64"]
        # Outside of an environment of its own, pip would warn the user root.
        self.variables["PIP_ROOT_USER_ACTION"] = "ignore"
        for section in ("From Python", "From Rust", "On 64-bit ARM"):
            self.check(section)

    def specs(self, musl):
        """Writes how the compiler finds musl in a folder, and returns the path."""
        with open(os.path.join(musl, "usr/lib/aarch64-linux-musl/musl-gcc.specs"),
                  encoding="utf-8") as file:
            text = re.sub(r"(?<=[ L])/usr/", f"{musl}/usr/", file.read())
        path = os.path.join(self.folder, "specs")
        with open(path, "w", encoding="utf-8") as file:
            file.write(text)
        return path

    def test_musl(self):
        """With the archive, and with the library of the wheel."""
        self.need("a release on 64-bit ARM with musl", GCC, QEMU)
        musl, top = os.environ["CFGX_MUSL"], self.unpacked(ARM)
        self.succeed("python3", "-m", "zipfile", "-e", wheel_for("musllinux_1_1_aarch64"), "wheel")
        compiler = [GCC, "-specs", self.specs(musl), "-O2", "-I", f"{top}/include", "-o"]
        source = f"{top}/examples/predicates.c"
        self.succeed(*compiler, "alone", source, f"{top}/lib/libcfgx.a", "-static")
        # The library names versions of functions that musl has without one.
        self.succeed(*compiler, "shared", source, f"wheel/cfgx/{SONAME}",
                     "-Wl,--allow-shlib-undefined")
        for name in ("alone", "shared"):
            said = self.succeed(QEMU, "-L", musl, "-E", "LD_LIBRARY_PATH=wheel/cfgx", f"./{name}",
                                'all(unix, feature = "x")')
            self.assertEqual(said, "family unix\nfeature x\n")
