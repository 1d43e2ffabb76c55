"""Graphs that are made for a test, of one line for each dependency."""
from cfgx import manifest
from cfgx.manifest import _graph, _resolved
from cfgx.manifest._reach import Build

LINUX = manifest.Platform("linux", "linux", False, frozenset({"unix", 'target_os="linux"'}), True)
WINDOWS = manifest.Platform(
    "windows", "windows", False, frozenset({"windows", 'target_os="windows"'}), True)
HOST = manifest.Platform("host", "linux", True, LINUX.facts, False)
# What a package is built for on a platform, by whether it is built for the platform and the host.
LETTERS = {("yes", "no"): "t", ("no", "yes"): "h", ("yes", "yes"): "b", ("no", "no"): "n"}


def listed(name):
    """Returns a package as Cargo lists it. A name that begins with `app` is that of a member, one
    with `mac` or `appmac` that of a proc-macro, and one that ends with `-built` has a build
    script."""
    kind = "proc-macro" if name.startswith(("mac", "appmac")) else "lib"
    targets = [{"kind": [kind], "crate_types": [kind]}]
    if name.endswith("-built"):
        targets.append({"kind": ["custom-build"], "crate_types": ["bin"], "test": False,
                        "doctest": False})
    return {"name": name, "version": "0.1.0", "id": f"path+file:///{name}#0.1.0", "source": None,
            "manifest_path": f"/{name}/Cargo.toml", "targets": targets, "dependencies": [],
            "features": {}}


def divided(line):
    """Returns what a line says of a dependency: the package that has it, the package behind it, the
    kind and the condition."""
    front, _, end = line.partition(" > ")
    name, *words = end.split(" ")
    kind = words.pop(0) if words and words[0] in ("dev", "build") else "normal"
    return front, name, kind, " ".join(words) or None


def metadata(*lines, features=None, optional=()):
    """Returns what Cargo lists of packages with these dependencies. `features` has the table of
    features of a package and those that are on, and `optional` the packages that are optional."""
    rows = list(map(divided, lines))
    names = sorted({name for front, name, _, _ in rows for name in (front, name)})
    packages = {name: listed(name) for name in names}
    deps = {name: {} for name in names}
    for front, name, kind, condition in rows:
        said = None if kind == "normal" else kind
        packages[front]["dependencies"].append({
            "name": name, "rename": None, "kind": said, "optional": name in optional,
            "target": condition, "source": None, "req": "*", "uses_default_features": True,
            "features": [], "path": f"/{name}",
        })
        deps[front].setdefault(name, []).append({"kind": said, "target": condition})
    on = {name: features.get(name, ({}, []))[1] if features else [] for name in names}
    for name, (table, _) in (features or {}).items():
        packages[name]["features"] = table
    nodes = [
        {"id": packages[name]["id"], "features": on[name], "deps": [
            {"name": used.replace("-", "_"), "pkg": packages[used]["id"], "dep_kinds": kinds}
            for used, kinds in deps[name].items()]}
        for name in names
    ]
    members = [packages[name]["id"] for name in names if name.startswith("app")]
    return {"packages": list(packages.values()), "resolve": {"nodes": nodes},
            "workspace_members": members}


def graph_of(*lines, **options):
    """Returns the graph of packages with these dependencies."""
    found = metadata(*lines, **options)
    return _graph.read(found, found["packages"])


def rows_of(graph, platforms=(HOST, LINUX, WINDOWS), roots=None, kinds=("normal", "dev", "build")):
    """Returns the rows of the packages of a graph by their names. A build begins with the members,
    or with the packages that have these names."""
    numbers = graph.members if roots is None else {
        number for number, one in enumerate(graph.packages) if one.name in roots}
    found = _resolved.Found(Build(graph, frozenset(numbers), kinds), list(platforms))
    rows = map(found.row, range(len(graph.packages)))
    return {row.package.name: row for row in rows}


def letters_of(row):
    """Returns a letter for each platform: whether a package is built for it, for the host, for both
    or for none, or `?` if this is unknown."""
    return "".join(
        LETTERS.get((target.value, host.value), "?")
        for target, host in zip(row.for_target, row.for_host)
    )
