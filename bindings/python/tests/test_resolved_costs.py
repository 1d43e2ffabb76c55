"""What the command takes for large graphs, on 320 targets."""
import json

from . import graphs
from .test_budget import LETTERS, Measured

import cfgx
from cfgx.manifest import _cargo

TARGETS = cfgx.targets()


def chain():
    """Returns packages of which each depends on the next one."""
    return ["app > p00000", *(f"p{n:05} > p{n + 1:05}" for n in range(26_000))]


def comb():
    """Returns packages that each target reaches by a way of another length, and what is behind
    them, which each target reaches first on another package."""
    found = ["app > c000"]
    for place, triple in enumerate(TARGETS[:-1]):
        found += [f"c{place:03} > c{place + 1:03}", f"c{place:03} > x {triple}"]
    for number in range(1500):
        found.append(f"x > y{number:04} {TARGETS[number % len(TARGETS)]}")
        found += [f"y{number:04} > z{place}" for place in range(20)]
    return found


def layers():
    """Returns layers of packages, each of which depends on all of the next layer."""
    names = [[f"l{layer:02}x{place:02}" for place in range(50)] for layer in range(14)]
    found = [f"app > {name}" for name in names[0]]
    return found + [f"{one} > {other}" for before, behind in zip(names, names[1:])
                    for one in before for other in behind]


def conditions():
    """Returns dependencies on 50 packages with many conditions, of which each has its flags."""
    flags = ", ".join(LETTERS[:8])
    return [f"app > a{number % 50} cfg(any(f{number}, {flags}))" for number in range(7_000)]


# Graphs, and whether all answers are tried out and all ways are found.
GRAPHS = {
    "a chain": (chain, False), "ways of many lengths": (comb, False), "layers": (layers, True),
    "conditions": (conditions, True),
}


class Graphs(Measured):
    """How much time and memory the command takes for a graph."""

    WHAT = "answers to flags and ways to packages"

    def test_graphs(self):
        for name, (lines, is_whole) in GRAPHS.items():
            found = json.dumps(graphs.metadata(*lines()))
            # A good part of what cargo may print.
            self.assertTrue(_cargo.MOST_PRINTED // 32 < len(found) <= _cargo.MOST_PRINTED, name)
            self.write("metadata.json", found)
            for words in (["--format=json"], ["--format=tsv", "--summary"]):
                with self.subTest(name=name, words=words):
                    self.assert_bounded("--resolved", *words, is_whole=is_whole, what=self.WHAT)

    def test_packages_of_one_name(self):
        found = graphs.metadata(*(f"app > p{number:05}" for number in range(15_000)))
        for package in found["packages"]:
            package["name"] = "app" if package["dependencies"] else "x"
            for one in package["dependencies"]:
                one["name"], one["rename"] = "x", one["name"]
        self.write("metadata.json", json.dumps(found))
        self.assert_bounded("--resolved", "--format=json", is_whole=True, what=self.WHAT)
