"""What shells read to complete the words of a command, which is made of what its `--help` prints.

A value in braces is one of the words there, one that is named `TRIPLE` is a target, and one that is
named as in `FILES` is a file. `,..` behind the name of a value says that commas stand between
several.
"""
import re
from typing import Callable, Dict, List, NamedTuple, Sequence, Tuple

FILES, TRIPLE = ("FILE", "MANIFEST"), "TRIPLE"
# The words that stand for targets where an option takes several.
NAMED_TARGETS = ("all", "host-tuple")
OPTION = re.compile(r"(?<![\w-])--?[a-z][\w-]*")
VALUE = re.compile(r"(?<= )(\{(.*?)\}|[A-Z]+)(,\.\.)?$")


class Option(NamedTuple):
    """An option of a command."""

    names: List[str]
    """Its names, such as `-p` and `--package`."""
    value: str
    """The name of its value, or nothing if it takes none."""
    is_list: bool
    """Whether it takes several values, with commas between them, and may be repeated."""
    words: List[str]
    """The words that the value may be, if they are known."""
    said: str
    """What it does."""

    @property
    def is_file(self) -> bool:
        """Whether the value is a file."""
        return self.value in FILES


def options_of(arguments: Sequence[Tuple[str, str]], targets: Sequence[str]) -> List[Option]:
    """Returns the options among arguments of which `--help` says something."""
    return [option_of(argument, said, targets) for argument, said in arguments
            if OPTION.match(argument)]


def option_of(argument: str, said: str, targets: Sequence[str]) -> Option:
    """Returns an option, which `--help` prints as an argument."""
    names, found = OPTION.findall(argument), VALUE.search(argument)
    if found is None:
        return Option(names, "", False, [], said)
    value, is_list = found[1], found[3] is not None
    words = found[2].split(",") if found[2] else []
    if value == TRIPLE:
        words = [*(NAMED_TARGETS if is_list else ()), *targets]
    return Option(names, "WORD" if found[2] else value, is_list, words, said)


def head_of(name: str) -> str:
    """Returns the first line of a script."""
    return f"# Completes the words of {name}. Made by manual/make of what {name} prints.\n"


BASH = """\
_{function}() {{
  local word=${{COMP_WORDS[COMP_CWORD]}} option=${{COMP_WORDS[COMP_CWORD - 1]}} words= head=
  # Bash takes the sign of equality for a word.
  if [[ $word == '=' ]]; then
    word=
  elif [[ $option == '=' ]]; then
    option=${{COMP_WORDS[COMP_CWORD - 2]}}
  fi
  # Of a list, the word behind the last comma is completed.
  local list=${{word%"${{word##*,}}"}}
  case $option in
{cases}
    *) if [[ $word == -* ]]; then words='{options}'; fi ;;
  esac
  if [[ $words ]]; then
    mapfile -t COMPREPLY < <(compgen -P "$head" -W "$words" -- "${{word#"$head"}}")
  else
    compopt -o filenames
    mapfile -t COMPREPLY < <(compgen -f -- "$word")
  fi
}}
complete -F _{function} {name}
"""


def bash_of(name: str, options: Sequence[Option]) -> str:
    """Returns the script for bash."""
    cases = []
    for option in options:
        names = "|".join(option.names)
        if option.words:
            head = " head=$list" if option.is_list else ""
            cases.append(f"    {names}) words='{' '.join(option.words)}'{head} ;;")
        elif option.is_file:
            cases.append(f"    {names}) ;;")
        elif option.value:
            cases.append(f"    {names}) COMPREPLY=(); return ;;")
    names = " ".join(one for option in options for one in option.names)
    function = name.replace("-", "_")
    return head_of(name) + BASH.format(function=function, cases="\n".join(cases), options=names,
                                       name=name)


def zsh_of(name: str, options: Sequence[Option]) -> str:
    """Returns the script for zsh."""
    specs = [f"  {quoted(spec)}" for option in options for spec in zsh_specs_of(option)]
    lines = [f"#compdef {name}", head_of(name).rstrip(), "_arguments -S \\",
             *(f"{spec} \\" for spec in specs), "  '*:MANIFEST:_files'"]
    return "\n".join(lines) + "\n"


def zsh_specs_of(option: Option) -> List[str]:
    """Returns what `_arguments` of zsh is told of an option, by each of its names."""
    said = re.sub(r"([\[\]\\:])", r"\\\1", option.said)
    others = "" if option.is_list else f"({' '.join(option.names)})"
    action = " "
    if option.words:
        listed = "-s , " if option.is_list else ""
        action = f"_values {listed}{option.value} {' '.join(option.words)}"
    elif option.is_file:
        action = "_files"
    specs = []
    for name in option.names:
        sign = "=" if option.value and name.startswith("--") else ""
        value = f":{option.value}:{action}" if option.value else ""
        specs.append(f"{'*' if option.is_list else others}{name}{sign}[{said}]{value}")
    return specs


FISH = """\
# Of a list, the word behind the last comma is completed.
function __{function}_list
    set -l head (commandline -ct | string replace -r -- '^--[^=]*=' '' | string match -r '^.*,')
    printf '%s\\n' "$head"$argv
end
"""


def fish_of(name: str, options: Sequence[Option]) -> str:
    """Returns the script for fish."""
    function = name.replace("-", "_")
    lines = [fish_line_of(name, f"__{function}_list", option) for option in options]
    return head_of(name) + FISH.format(function=function) + "\n".join(lines) + "\n"


def fish_line_of(name: str, function: str, option: Option) -> str:
    """Returns the line for an option."""
    words = ["complete", "-c", name]
    for one in option.names:
        words += ["-l", one[2:]] if one.startswith("--") else ["-s", one[1:]]
    if option.is_file:
        words.append("-rF")
    elif option.value:
        words.append("-x")
    if option.words:
        told = " ".join(option.words)
        words += ["-a", quoted(f"({function} {told})" if option.is_list else told)]
    return " ".join([*words, "-d", fish_quoted(option.said)])


def quoted(text: str) -> str:
    """Returns a text in quotes, as shells read it."""
    return "'" + text.replace("'", "'\\''") + "'"


def fish_quoted(text: str) -> str:
    """Returns a text in quotes, as fish reads it, where a backslash stands before a quote."""
    return "'" + text.replace("\\", "\\\\").replace("'", "\\'") + "'"


SHELLS: Dict[str, Callable[[str, Sequence[Option]], str]] = {
    "bash": bash_of, "fish": fish_of, "zsh": zsh_of,
}
