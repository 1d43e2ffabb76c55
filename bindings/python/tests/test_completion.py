"""What shells complete the words of `cfgx-deps` by."""
import os
import re
import subprocess
import sys

from . import ROOT, needs
from .made import Folder

from cfgx import _command, targets

# What stands behind the command, and what a shell offers for the last word.
ROWS = [
    ("--fo", ["--format"]), ("--no", ["--no-default-features", "--no-other-cfg"]),
    ("--rust", ["--rustc", "--rustflags"]),
    ("--format t", ["table", "tsv"]), ("--format json,t", []), ("--cfg n", []),
    ("--kind n", ["normal"]), ("--kind normal,d", ["normal,dev"]), ("--kind x", []),
    ("--only conditional,differing,u", ["conditional,differing,unknown"]),
    ("--fail-on ", ["never", "unknown"]), ("--fail-on never,n", ["never,never"]),
    ("--target x86_64-pc-windows-gnu", ["x86_64-pc-windows-gnu", "x86_64-pc-windows-gnullvm"]),
    ("--target all,host", ["all,host-tuple"]), ("--target al", ["all"]), ("--host host-tup", []),
    ("--host wasm32v", ["wasm32v1-none"]), ("--cargo-timeout 1", []), ("-p a", []),
    ("--known some-f", ["some-file.toml"]), ("some-f", ["some-file.toml"]),
    ("--manifest-path some-f", ["some-file.toml"]), ("--rustc some-f", ["some-file.toml"]),
    ("--kind normal --facts some-f", ["some-file.toml"]),
]
BASH = """
source "$1"
compopt() { :; }
read -r -a COMP_WORDS <<< "cfgx-deps $2"
[[ $2 != *' ' ]] || COMP_WORDS+=('')
COMP_CWORD=$((${#COMP_WORDS[@]} - 1))
_cfgx_deps
printf '%s\\n' "${COMPREPLY[@]}"
"""
# In a terminal of its own, zsh completes lines and prints each.
ZSH = r"""
zmodload zsh/zpty
zpty shell zsh -f
zpty -w shell "PS1= PS2=; fpath=($1 \$fpath); autoload -U compinit; compinit -u -D"
zpty -w shell "tell() { print -r -- \"<<\$BUFFER>>\" }; zle -N tell; bindkey '^T' tell"
zpty -w shell "setopt no_auto_menu no_beep no_list_beep; print -r -- REA''DY"
zpty -r shell said '*READY*'
for line in "${@[2,-1]}"; do
  zpty -w -n shell $'\x15'"cfgx-deps $line"$'\t\x14'
  zpty -r shell said '*<<*>>*'
  print -r -- "${${said##*<<}%%>>*}"
done
zpty -d shell
"""
# Lines, and what zsh makes of them: it adds what all words that it offers begin with.
ZSH_ROWS = [
    ("--fo", "--format="), ("--no", "--no-"), ("--rust", "--rust"),
    ("--format=j", "--format=json "), ("--format ts", "--format tsv "),
    ("--kind normal,d", "--kind normal,dev,"), ("--only=u", "--only=unknown,"),
    ("--target=all,wasm32v", "--target=all,wasm32v1-none,"),
    ("--host wasm32v", "--host wasm32v1-none "), ("--known some-f", "--known some-file.toml "),
    ("some-f", "some-file.toml "), ("--cfg n", "--cfg n"),
]


class Shells(Folder):
    """What shells offer."""

    def setUp(self):
        super().setUp()
        self.write("some-file.toml")

    def script_for(self, shell, name="script"):
        """Writes the script for a shell, and returns its path."""
        make = os.path.join(ROOT, "manual", "make")
        run = subprocess.run([sys.executable, "-B", make, "completion", shell], check=True,
                             stdout=subprocess.PIPE)
        return self.write(name, run.stdout.decode())

    def output_of(self, *words):
        """Returns what a command prints in the folder of the test."""
        run = subprocess.run(words, cwd=self.folder, check=True, stdout=subprocess.PIPE,
                             env={**os.environ, "HOME": self.folder, "TERM": "dumb"}, timeout=60)
        return run.stdout.decode()

    def bash(self, script, line):
        """Returns the words that bash offers for a line."""
        found = self.output_of("bash", "--norc", "-c", BASH, "bash", script, line)
        return sorted(found.split())

    def fish(self, script, line):
        """Returns the words that fish offers for a line."""
        command = f"source {script}; complete -C $argv"
        found = self.output_of("fish", "--no-config", "-c", command, f"cfgx-deps {line}")
        return sorted(each.split("\t")[0] for each in found.splitlines())

    @needs("bash", untested="completion in bash")
    def test_bash(self):
        script = self.script_for("bash")
        for line, wanted in [*ROWS, ("--format = j", ["json"]), ("--kind = dev,n", ["dev,normal"])]:
            with self.subTest(line=line):
                self.assertEqual(self.bash(script, line), wanted)

    @needs("fish", untested="completion in fish")
    def test_fish(self):
        script = self.script_for("fish")
        rows = [*ROWS, ("--format=j", ["--format=json"]), ("--kind=dev,n", ["--kind=dev,normal"])]
        for line, wanted in rows:
            with self.subTest(line=line):
                self.assertEqual(self.fish(script, line), wanted)

    @needs("zsh", untested="completion in zsh")
    def test_zsh(self):
        self.script_for("zsh", "functions/_cfgx-deps")
        lines, wanted = zip(*ZSH_ROWS)
        functions = os.path.join(self.folder, "functions")
        found = self.output_of("zsh", "-f", "-c", ZSH, "zsh", functions, *lines)
        self.assertEqual(found.split("\n")[:-1], [f"cfgx-deps {line}" for line in wanted])

    @needs("bash", "fish", untested="whether completion offers each option")
    def test_each_option(self):
        known = {name for one in _command.parser()._actions for name in one.option_strings}
        self.assertGreater(len(known), 20)
        self.assertEqual(set(self.bash(self.script_for("bash"), "-")), known)
        script = self.script_for("fish")
        offered = {*self.fish(script, "--"), *self.fish(script, "-")}
        short = {one[:2] for one in offered if not one.startswith("--")}
        self.assertEqual({one for one in offered if one.startswith("--")} | short, known)
        with open(self.script_for("zsh"), encoding="utf-8") as file:
            told = re.findall(r"^  '(?:\*|\(.*?\))(--?[a-z][\w-]*)", file.read(), re.M)
        self.assertEqual(sorted(told), sorted(known))

    @needs("bash", untested="whether completion offers each target")
    def test_each_target(self):
        found = self.bash(self.script_for("bash"), "--target ")
        self.assertEqual(found, sorted([*targets(), "all", "host-tuple"]))
