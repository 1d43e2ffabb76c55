"""The LLVM modules of the library for C, each of which the kit makes of a crate that it has
checked, and hands to its clang."""
import os
import re
import shutil
from typing import List, NamedTuple

import repository
from repository import ROOT, ToolError, output_of
from targets import X86

# Where `.ci/c` leaves what the kit checked, in a folder for each target, and the archive.
CHECKED = os.path.join(ROOT, "out/checked")
BUILT = os.path.join(ROOT, "crates/cfgx_c/out/libcfgx_c.a")
# Runs a command of `rattle` on the crate.
RATTLE = "crates/cfgx_c/rattle"

# In the place of the kit's clang: keeps the words of the last call and what it reads.
RECORDER = """#!/usr/bin/env bash
set -eu
printf '%s\\n' "$@" > '{folder}/words'
for word in "$@"; do
  case $word in *.bc | *.ll) if [ -e "$word" ]; then cp "$word" '{folder}/module'; fi ;; esac
done
exec '{clang}' "$@"
"""


class Module(NamedTuple):
    """A module as the kit handed it to its clang."""
    # what LLVM prints of it
    text: str
    # the words of clang, without those that name the target and files
    words: List[str]
    # the last line of the check, which says `logic=proved`
    verdict: str


def tool(name: str) -> str:
    """Returns the path of a tool of the kit."""
    kit = os.path.dirname(output_of("rt", "doc").strip())
    return os.path.join(kit, "toolchain/bin", name)


def recording(folder: str) -> str:
    """Makes a folder of tools that keeps in it what clang is called with, and returns its path."""
    tools, kit = os.path.join(folder, "tools"), os.path.dirname(os.path.dirname(tool("clang")))
    os.makedirs(os.path.join(tools, "bin"))
    for path in ("lib", *(f"bin/{name}" for name in os.listdir(os.path.join(kit, "bin")))):
        if path != "bin/clang":
            os.symlink(os.path.join(kit, path), os.path.join(tools, path))
    clang = os.path.join(tools, "bin/clang")
    with open(clang, "w", encoding="utf-8") as file:
        file.write(RECORDER.format(folder=folder, clang=tool("clang")))
    os.chmod(clang, 0o755)
    return tools


def built(target: str, tools: str, archive: str) -> str:
    """Builds the archive for a target of what was checked, and returns what is printed. What was
    checked for other sources, or is missing, is checked now."""
    checked = os.path.join(CHECKED, target)
    build = (RATTLE, "build", "--target", target, "--crate-checked", checked, "--toolchain", tools,
             "--backend", "llvm", "-o", archive)
    if os.path.exists(checked):
        try:
            return output_of(*build)
        except ToolError:
            shutil.rmtree(checked)
    os.makedirs(CHECKED, exist_ok=True)
    output_of(RATTLE, "check", "--target", target, "-o", checked)
    return output_of(*build)


def module_of(target: str, folder: str) -> Module:
    """Returns the module of the crate that was checked for a target. The folder is an empty one.
    Raises `ToolError`, also if the archive of it is not the one that was built for that target."""
    archive = os.path.join(folder, "libcfgx_c.a")
    printed = built(target, recording(folder), archive)
    verdict, = re.findall(r"^logic=proved .*$", printed, re.M)
    if target not in verdict.replace("=", " ").split():
        raise ToolError(f"the kit says of another target that it is proved: {verdict}")
    if " cpu=" in verdict:
        raise ToolError(f"the code is not for each processor of the target: {verdict}")
    if target == X86 and not is_same(archive, BUILT):
        raise ToolError("crates/cfgx_c/out has another archive: run `rt lib --cpu x86-64` in"
                        " crates/cfgx_c")
    text = os.path.join(folder, "module.ll")
    output_of(tool("clang"), f"--target={target}", "-S", "-emit-llvm", "-Xclang",
              "-disable-llvm-passes", "-x", "ir", os.path.join(folder, "module"), "-o", text)
    with open(text, encoding="utf-8") as file:
        return Module(file.read(), words_of(os.path.join(folder, "words")), verdict)


def is_same(one: str, other: str) -> bool:
    """Returns whether two files are there and have the same bytes."""
    try:
        return repository.read(one) == repository.read(other)
    except FileNotFoundError:
        return False


def words_of(path: str) -> List[str]:
    """Returns the words of a recorded call, but for those that name the target and files."""
    with open(path, encoding="utf-8") as file:
        words = file.read().splitlines()
    kept = [word for word in words if not word.startswith(("--target=", "--sysroot="))]
    for flag, count in (("-x", 3), ("-o", 2), ("-c", 1)):
        at = kept.index(flag)
        del kept[at:at + count]
    return kept
