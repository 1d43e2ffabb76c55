"""stand_in.py MANIFEST FOLDER: makes the lock file of a workspace whose packages stand in a folder
of vendored packages of Debian. Debian takes packages for other systems out of that folder. For each
that Cargo misses, this puts a package without code and dependencies there, with the name, the
versions and the features that manifests ask for."""
import glob
import json
import os
import re
import subprocess
import sys
import tomllib

TABLES = ("dependencies", "dev-dependencies", "build-dependencies")
MISSING = re.compile(r"(?:package named|package name:) `([^`]+)`")
UNFIT = re.compile(r"for the requirement `(\S+) = \"([^\"]*)\"`")
# How many packages may be missing.
MOST = 200


def tables_in(manifest):
    """Yields the tables of dependencies of a manifest, and of a workspace."""
    places = [manifest, manifest.get("workspace", {}), *manifest.get("target", {}).values()]
    yield from (place[name] for place in places for name in TABLES if name in place)


def asked_of(name, manifests):
    """Returns the versions and the features of a package that manifests ask for."""
    versions, features = set(), set()
    for manifest in manifests:
        for table in tables_in(manifest):
            for key, row in table.items():
                row = {"version": row} if isinstance(row, str) else row
                if row.get("package", key) == name:
                    versions.add(row.get("version", "*"))
                    features.update(row.get("features", []))
        for words in manifest.get("features", {}).values():
            features.update(one.split("/")[1] for one in words
                            if re.match(rf"{re.escape(name)}\??/", one))
    return versions, features


def lowest(requirement):
    """Returns the lowest version that fits a requirement."""
    numbers = re.findall(r"\d+", requirement.split(",")[0])[:3] or ["1"]
    return ".".join([*numbers, "0", "0"][:3])


def write(folder, name, version, features):
    """Writes a package without code."""
    place = os.path.join(folder, f"{name}-{version}-stand-in")
    os.makedirs(os.path.join(place, "src"), exist_ok=True)
    lines = "".join(f'"{one}" = []\n' for one in sorted(features - {"default"}))
    text = f'[package]\nname = "{name}"\nversion = "{version}"\n[features]\ndefault = []\n{lines}'
    for path, content in (("Cargo.toml", text), ("src/lib.rs", ""),
                          (".cargo-checksum.json", json.dumps({"files": {}}))):
        with open(os.path.join(place, path), "w", encoding="utf-8") as file:
            file.write(content)


def main(manifest, folder):
    """Makes the lock file, and prints how many packages stand in."""
    paths = glob.glob(f"{folder}/*/Cargo.toml")
    paths += glob.glob(f"{os.path.dirname(manifest)}/**/Cargo.toml", recursive=True)
    manifests = []
    for path in paths:
        with open(path, "rb") as file:
            try:
                manifests.append(tomllib.load(file))
            except tomllib.TOMLDecodeError:
                # A test of Cargo has it.
                continue
    words = ["cargo", "generate-lockfile", "--offline", "--manifest-path", manifest,
             "--config", 'source.crates-io.replace-with="vendored"',
             "--config", f'source.vendored.directory="{folder}"']
    made = set()
    for _ in range(MOST):
        run = subprocess.run(words, cwd="/", stderr=subprocess.PIPE, check=False)
        message = run.stderr.decode()
        found, unfit = MISSING.search(message), UNFIT.search(message)
        if run.returncode == 0 or not (found or unfit):
            break
        name = (unfit or found)[1]
        versions, features = asked_of(name, manifests)
        new = {(name, lowest(version)) for version in versions} - made
        if not new:
            break
        for _, version in new:
            write(folder, name, version, features)
        made |= new
    print(f"{len(made)} stand-ins: {' '.join(sorted({name for name, _ in made}))}")
    if run.returncode != 0:
        sys.exit(message)


if __name__ == "__main__":
    main(*sys.argv[1:])
