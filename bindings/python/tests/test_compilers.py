"""Many targets of which a compiler is asked."""
import os
import sys
import unittest.mock

from .test_command import Made, dependency_of

from cfgx import _process, manifest
from cfgx.manifest import _platforms

# A compiler that says which others run while it does, and fails for targets whose names say so.
RUSTC = """#!{python}
import os, sys, time
folder, words = {folder!r}, sys.argv[1:]
if words == ["-vV"]:
    print("host: h")
elif "--target" in words:
    name = words[words.index("--target") + 1]
    mark = os.path.join(folder, name)
    open(mark, "w").close()
    # The others are waited for, as they take some time to start.
    end = time.monotonic() + {seconds}
    while len(os.listdir(folder)) < {others} and time.monotonic() < end:
        time.sleep(0.01)
    print('running="%d"' % len(os.listdir(folder)))
    os.remove(mark)
    if name.startswith("bad"):
        sys.exit(f"no target {{name}}")
"""


class Compilers(Made):
    """Compilers that run at once."""

    def write_compiler(self, others, seconds=20):
        """Writes a compiler that waits for others. Returns its path."""
        folder = os.path.join(self.folder, "running")
        os.makedirs(folder, exist_ok=True)
        text = RUSTC.format(python=sys.executable, folder=folder, others=others, seconds=seconds)
        return self.write_program("own/rustc", text)

    def compiler(self, path, progress=_platforms.no_progress):
        """Returns the compiler at a path."""
        return _platforms.Compiler(_platforms.Flags(), {"RUSTC": path}, progress)

    def test_as_many_as_there_are_processors(self):
        # Of six compilers each waits until three run, and a fourth is never there.
        path = self.write_compiler(others=3)
        with unittest.mock.patch.object(_process, "processors", return_value=3):
            found = list(self.compiler(path).each([f"t{number}" for number in range(6)]))
        self.assertEqual(len(found), 6)
        self.assertEqual(max(int(line.split('"')[1]) for [line] in found), 3)

    def test_one_processor(self):
        path = self.write_compiler(others=2, seconds=0.2)
        with unittest.mock.patch.object(_process, "processors", return_value=1):
            found = list(self.compiler(path).each(["a", "b", "c"]))
        self.assertEqual(found, [['running="1"']] * 3)

    def test_the_number_of_processors(self):
        wanted = len(os.sched_getaffinity(0)) if sys.platform == "linux" else os.cpu_count()
        self.assertEqual(_process.processors(), wanted)

    def test_the_order(self):
        self.list(dependency_of("a", "cfg(t3)"))
        text = '#!/bin/sh\ncase "$1" in -vV) echo host: h ;; *) shift 5; echo "$1" ;; esac\n'
        rustc = self.write_program("own/echo", text)
        names = [f"t{number}" for number in range(20)]
        platforms = _platforms.platforms_of(
            _platforms.Compiler(_platforms.Flags(), {"RUSTC": rustc}), names, {}, _platforms.Flags()
        )
        self.assertEqual([(one.name, one.facts) for one in platforms[1:]],
                         [(name, frozenset([name])) for name in names])

    def test_progress(self):
        told = []
        path = self.write_compiler(others=1)
        list(self.compiler(path, lambda *numbers: told.append(numbers)).each(["a", "b", "c"]))
        self.assertEqual(told, [(1, 3), (2, 3), (3, 3)])

    def test_the_first_that_fails(self):
        path = self.write_compiler(others=1)
        for names in (["a", "bad1", "b", "bad2"], ["bad1", "bad2", "a"]):
            with self.assertRaises(manifest.CompilerError) as caught:
                list(self.compiler(path).each(names))
            self.assertIn("no target bad1", str(caught.exception))

    def test_progress_on_a_terminal(self):
        rustc = self.write_compiler(others=1)
        script = "import pty, sys; sys.exit(pty.spawn(sys.argv[1:]) >> 8)"
        start = ["-c", script, sys.executable, self.script]
        for words, is_told in ([], True), (["--quiet"], False):
            given = ("--rustc", "--target", "a,b", *words)
            status, output, _ = self.command(*given, start=start, RUSTC=rustc, TERM="dumb")
            self.assertEqual(status, 0)
            self.assertEqual("\rasked rustc of targets: 2 of 2\r     " in output, is_told)
        # In a pipe there is none.
        self.assertEqual(self.command("--rustc", "--target", "a,b", RUSTC=rustc)[2], "")

    def test_colours_on_a_terminal(self):
        script = "import pty, sys; sys.exit(pty.spawn(sys.argv[1:]) >> 8)"
        start = ["-c", script, sys.executable, self.script]
        yes = "\x1b[32myes\x1b[0m"
        for variables, is_coloured in (({"TERM": "xterm"}, True), ({"TERM": "dumb"}, False),
                                       ({"TERM": "xterm", "NO_COLOR": "1"}, False),
                                       ({"TERM": "xterm", "NO_COLOR": ""}, True)):
            for words in ([], ["--wide"]):
                output = self.command(*words, start=start, **variables)[1]
                self.assertEqual((yes in output, "\x1b[" in output), (is_coloured, is_coloured))
        for words in ([], ["--format", "json"], ["--format", "tsv"], ["--format", "sarif"]):
            self.assertNotIn("\x1b", self.command(*words, TERM="xterm")[1])
            if words:
                self.assertNotIn("\x1b", self.command(*words, start=start, TERM="xterm")[1])
