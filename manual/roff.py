"""Text for `man`, by the macros of man(7)."""
import re
from typing import Callable, Iterable, List, Pattern

# The characters that mean something to roff, or that it shows as others.
ESCAPES = str.maketrans({
    "\\": "\\e", "-": "\\-", "'": "\\(aq", "`": "\\(ga", '"': "\\(dq", "^": "\\(ha", "~": "\\(ti",
})

# The longest code, in characters, that is not broken where a line ends.
MOST_IN_ONE_LINE = 40


def escaped(text: str) -> str:
    """Returns a text whose characters roff shows as they are."""
    return text.translate(ESCAPES)


def bold(text: str) -> str:
    """Returns a text in the font for what is typed as it stands."""
    return f"\\fB{escaped(text)}\\fP"


def italic(text: str) -> str:
    """Returns a text in the font for what stands for something else."""
    return f"\\fI{escaped(text)}\\fP"


def code(text: str) -> str:
    """Returns a text in the font for what is typed as it stands, in one line if it is short."""
    if len(text) <= MOST_IN_ONE_LINE:
        return bold(text).replace(" ", "\\ ")
    return " ".join(map(bold, text.split(" ")))


def reference(name: str, section: int) -> str:
    """Returns the name of a page, as pages name each other."""
    return f"{bold(name)}({section})"


def replaced(pattern: Pattern[str], put: Callable[["re.Match[str]"], str], text: str) -> str:
    """Returns a text in the form of roff, with what `put` returns for each match of a pattern."""
    parts, at = [], 0
    for found in pattern.finditer(text):
        parts += [escaped(text[at:found.start()]), put(found)]
        at = found.end()
    return "".join([*parts, escaped(text[at:])])


def line(text: str) -> str:
    """Returns a line that roff does not take for a request."""
    return re.sub(r"^(?=\.)", r"\\&", text)


def filled(text: str) -> str:
    """Returns a text that roff fills. No word with another font is hyphenated, so no name is."""
    words = re.split(r"(?<!\\) ", text)
    return line(" ".join(f"\\%{word}" if "\\f" in word else word for word in words))


class Page:
    """A page. Texts are in the form of roff, but for those of titles and examples."""

    def __init__(self, name: str, section: int, version: str, manual: str, source: str) -> None:
        """Makes a page of a section of the manual, which has a name. `source` is of what the page
        is made. A page has no date: it is that of a version."""
        self.lines = [
            f'.\\" Made by manual/make of {source}.',
            f'.TH "{escaped(name.upper())}" {section} "" "cfgx {version}" "{manual}"',
            # No line is spread to the margin.
            ".ad l",
        ]

    def section(self, title: str) -> None:
        """Begins a section."""
        self.lines.append(f'.SH "{escaped(title)}"')

    def subsection(self, title: str) -> None:
        """Begins a part of a section."""
        self.lines.append(f'.SS "{escaped(title)}"')

    def paragraph(self, text: str) -> None:
        """Adds a paragraph."""
        self.lines += [".PP", filled(text)]

    def tagged(self, tag: str, *texts: str) -> None:
        """Adds texts below a tag. Each begins a line."""
        self.lines += [".TP", filled(tag)]
        for at, text in enumerate(texts):
            self.lines += ([".br"] if at else []) + [filled(text)]

    def item(self, mark: str, text: str) -> None:
        """Adds an item of a list, with a mark before it."""
        self.lines += [f'.IP "{mark}" 4', filled(text)]

    def lines_as_they_are(self, lines: Iterable[str]) -> None:
        """Adds lines that are not filled."""
        self.lines += [".PP", ".nf", *map(line, lines), ".fi"]

    def example(self, text: str) -> None:
        """Adds lines of code."""
        shown = [line(escaped(one)) for one in text.rstrip("\n").split("\n")]
        self.lines += [".PP", ".EX", *shown, ".EE"]

    def text(self) -> str:
        """Returns the page."""
        lines: List[str] = []
        for one in self.lines:
            # A heading begins a paragraph by itself.
            if one == ".PP" and lines[-1].startswith((".SH", ".SS")):
                continue
            lines.append(one)
        return "\n".join(lines) + "\n"
