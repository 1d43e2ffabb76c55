"""compare.py NAME MANIFEST SETTING..: compares the packages that builds of a workspace have with
those that `cargo tree` shows, for five targets and three lists of kinds, and prints the counts.

It ends with status 1 if `cargo tree` shows a package that the report lacks, unless only a
build-dependency of a package without a build script leads to it: `cargo tree` shows such a one, and
no build has it."""
import dataclasses
import os
import re
import subprocess
import sys
import unittest.mock

HERE = os.path.dirname(os.path.abspath(__file__))
sys.path.insert(0, os.path.join(HERE, "..", "..", "src"))

from cfgx import manifest
from cfgx.manifest import Value, _cargo

TARGETS = ("x86_64-unknown-linux-gnu", "x86_64-pc-windows-msvc", "aarch64-apple-darwin",
           "wasm32-unknown-unknown", "x86_64-unknown-freebsd")
KINDS = (("normal", "build", "dev"), ("normal", "build"), ("normal",))
LINE = re.compile(r"(\S+) v(\S+)")
PACKAGE_OF = _cargo.package_of


def tree(path, settings, target, kinds):
    """Returns the names and versions of the packages that `cargo tree` shows."""
    words = ["cargo", "tree", "--offline", "--locked", "--manifest-path", path, "--workspace",
             "--target", target, "--edges", ",".join(kinds), "--prefix", "none"]
    words += [f"--config={setting}" for setting in settings]
    run = subprocess.run(words, cwd="/", stdout=subprocess.PIPE, check=True)
    return {LINE.match(line).groups() for line in run.stdout.decode().splitlines() if line}


def packages_in(report, place):
    """Returns the names and versions of the packages that a build for a platform has."""
    return {(row.package.name, row.package.version) for row in report.rows
            if row.values[place] is Value.YES}


def with_scripts(listed):
    """Returns a package that Cargo lists, with a build script if it has build-dependencies."""
    package = PACKAGE_OF(listed)
    is_needed = any(one.kind == "build" for one in package.dependencies)
    return dataclasses.replace(package, has_build_script=package.has_build_script or is_needed)


def main(name, path, *settings):
    """Prints what differs, and the counts."""
    same = more = unread = lost = count = 0
    for kinds in KINDS:
        options = {"workspace": True, "kinds": kinds, "config": settings,
                   "no_other_cfg": True, "cargo_timeout": 600}
        report = manifest.resolved(path, TARGETS, **options)
        with unittest.mock.patch.object(_cargo, "package_of", with_scripts):
            scripted = manifest.resolved(path, TARGETS, **options)
        for place, target in enumerate(TARGETS):
            shown, found = tree(path, settings, target, kinds), packages_in(report, place)
            for kind, ones in (("more", found - shown), ("fewer", shown - found)):
                for one in sorted(ones):
                    print(f"  {kind} {target} {','.join(kinds)}: {' '.join(one)}")
            left = shown - packages_in(scripted, place)
            count += len(report.rows)
            same += len(report.rows) - len(found ^ shown)
            more += len(found - shown)
            unread += len(shown - found - left)
            lost += len(left)
    print(f"{name}: {len(report.rows)} packages; of {count} values, {same} are the same, {more} are"
          f" more, {unread} are fewer for want of a build script, and {lost} are fewer")
    return 1 if lost else 0


if __name__ == "__main__":
    sys.exit(main(*sys.argv[1:]))
