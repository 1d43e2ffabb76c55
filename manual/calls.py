"""The pages on the calls for C, which are made of the header."""
import re
import textwrap
from typing import Dict, Iterable, Iterator, List, Set

from header import Block, Call, Header, Number, Numbers, Struct
from roff import Page, bold, code, escaped, italic, reference, replaced

HEADER = "crates/cfgx_c/include/cfgx.h"
EXAMPLE = "crates/cfgx_c/examples/values.c"
MANUAL = "Library Functions"
# The library, for those who link it.
LIBRARY = f"The library of cfgx {escaped('(libcfgx, -lcfgx)')}."
FLAGS = f"{code('pkg-config --cflags --libs cfgx')} prints the flags for a compiler."
# What is said once, of all calls.
COMMON = ("has the structs and the numbers, and says of all calls how texts, lists and buffers are"
          " passed, what a fault tells, which status is returned if several apply, and of what a"
          " caller takes care.")
# How many columns a line that is not filled has beside its indent.
WIDTH = 72
# What is marked in a comment: code, and the name of a number or the beginning of several.
MARKED = re.compile(r"`([^`]+)`|\b(CFGX_\w+(?:\.\.)?)")
# A word that is one item of what a call is passed, or of what a struct has.
NAMED = re.compile(r"\*?(\w+)")


class Marker:
    """Gives texts of the header the form of a page."""

    def __init__(self, header: Header) -> None:
        self.calls = {call.name for call in header.calls}
        lines = (line for call in header.calls for line in call.arguments)
        structs = (part for part in header.parts if isinstance(part, Struct))
        members = (name for struct in structs for one in struct.members for name in one.names)
        self.items = {*re.findall(r"(\w+)(?=,|$)", "\n".join(lines), re.M), *members}

    def text(self, text: str, page: str) -> str:
        """Returns a text as a page has it. A page does not name itself as another one."""
        def marked(found: "re.Match[str]") -> str:
            marks = found[1] or found[2]
            item = NAMED.fullmatch(marks)
            if marks in self.calls and marks != page:
                return reference(marks, 3)
            return italic(marks) if item and item[1] in self.items else code(marks)

        return replaced(MARKED, marked, text)

    def add(self, page: Page, blocks: Iterable[Block], name: str) -> None:
        """Adds the paragraphs and items of a comment to a page."""
        for block in blocks:
            add = (lambda text: page.item("\\(bu", text)) if block.is_item else page.paragraph
            add(self.text(block.text, name))


def summary_of(text: str) -> str:
    """Returns what the first words of a comment say, in a line for the list of all pages."""
    words = re.split(r"[.:,;]", text, maxsplit=1)[0].replace("`", "")
    return words[:1].lower() + words[1:]


def wrapped(call: Call) -> Iterator[str]:
    """Yields the lines of the declaration of a call, as a page has them. Lines of the header that
    are too long are broken between two arguments."""
    start, width = call.start, WIDTH - len(call.start)
    *lines, last = call.arguments
    for line in [*lines, f"{last});"]:
        # No break between the type and the name of an argument.
        line = re.sub(r"(?<!,) ", "\0", line)
        for piece in textwrap.wrap(line, width, break_long_words=False, break_on_hyphens=False):
            piece = piece.replace("\0", " ")
            names = re.split(r"(\w+)(?=[,)])", piece)
            shown = (italic(one) if at % 2 else bold(one) for at, one in enumerate(names) if one)
            yield bold(start) + "".join(shown)
            start = " " * len(start)


def add_numbers(page: Page, marker: Marker, numbers: Iterable[Number]) -> None:
    """Adds numbers, each with what it means or, if that is not said, in a line of its own."""
    for one in numbers:
        tag = f"{bold(one.name)} ({one.value})"
        if one.meaning:
            page.tagged(tag, marker.text(one.meaning, ""))
        elif one.value.isdigit():
            page.paragraph(tag)
        else:
            page.tagged(bold(one.name), escaped(one.value))


def add_struct(page: Page, marker: Marker, struct: Struct) -> None:
    """Adds a struct, and what each member is."""
    page.subsection(f"struct {struct.name}")
    marker.add(page, struct.comment, "")
    page.example(struct.declaration)
    for one in struct.members:
        texts = (marker.text(block.text, "") for block in one.comment)
        page.tagged(", ".join(map(italic, one.names)), *texts)


def add_part(page: Page, marker: Marker, part: Numbers) -> None:
    """Adds numbers below a heading, which is the first sentence of their comment."""
    first, *others = part.comment
    title, _, rest = first.text.partition(". ")
    page.subsection(title.rstrip(".").replace("`", ""))
    marker.add(page, [Block(rest, False)] * bool(rest) + others, "")
    add_numbers(page, marker, part.numbers)


def page_of(header: Header, call: Call) -> str:
    """Returns the page on a call."""
    marker, name = Marker(header), call.name
    page = Page(name, 3, header.version(), MANUAL, HEADER)
    page.section("NAME")
    page.paragraph(f"{name} \\- {escaped(summary_of(call.comment[0].text))}")
    add_library(page)
    page.section("SYNOPSIS")
    page.lines_as_they_are([bold("#include <cfgx.h>"), "", *wrapped(call)])
    page.section("DESCRIPTION")
    marker.add(page, call.comment, name)
    add_returned(page, marker, header, call)
    page.section("NOTES")
    page.paragraph(f"{reference('cfgx', 3)} {COMMON}")
    page.section("SEE ALSO")
    others = sorted(named_in(call) & marker.calls - {name})
    program = [reference("cfgx", 1)] if name == "cfgx_run" else []
    page.paragraph(", ".join([*program, reference("cfgx", 3),
                              *(reference(other, 3) for other in others)]))
    return page.text()


def named_in(call: Call) -> Set[str]:
    """Returns the words that the comment of a call marks as code."""
    return set(re.findall(r"`(\w+)`", " ".join(block.text for block in call.comment)))


def add_library(page: Page) -> None:
    """Adds how the library is linked."""
    page.section("LIBRARY")
    page.paragraph(f"{LIBRARY} {FLAGS}")


def add_returned(page: Page, marker: Marker, header: Header, call: Call) -> None:
    """Adds what a call returns: one of its statuses, with what each means, or what its comment
    says."""
    page.section("RETURN VALUE")
    statuses = header.statuses(call)
    if statuses:
        page.paragraph("One of these statuses, as the description says:")
        add_numbers(page, marker, statuses)
    else:
        said, = re.findall(r"^Returns .*?\.(?= |$)", call.comment[0].text)
        page.paragraph(marker.text(said, call.name))


def overview_of(header: Header, example: str) -> str:
    """Returns the page on all calls. `example` is the text of a program."""
    marker, name = Marker(header), "cfgx"
    page = Page(name, 3, header.version(), MANUAL, HEADER)
    page.section("NAME")
    page.paragraph(f"{name} \\- {escaped(summary_of(header.first[0].text))}")
    add_library(page)
    page.section("SYNOPSIS")
    page.lines_as_they_are([bold("#include <cfgx.h>")])
    page.section("DESCRIPTION")
    marker.add(page, header.first, name)
    page.section("CALLS")
    for call in header.calls:
        page.tagged(reference(call.name, 3), escaped(summary_of(call.comment[0].text)))
    page.section("STRUCTS AND NUMBERS")
    for part in header.parts:
        if isinstance(part, Struct):
            add_struct(page, marker, part)
        else:
            add_part(page, marker, part)
    page.section("NOTES")
    marker.add(page, header.last, name)
    for macro, comment in header.macros.items():
        page.tagged(bold(macro), *(marker.text(block.text, "") for block in comment))
    page.section("EXAMPLES")
    page.example(example)
    page.section("SEE ALSO")
    page.paragraph(", ".join([reference("cfgx", 1), reference("pkg-config", 1),
                              *(reference(call.name, 3) for call in header.calls)]))
    return page.text()


def pages_of(header: Header, example: str) -> Dict[str, str]:
    """Returns the pages on the calls, by the names of their files."""
    pages = {f"{call.name}.3": page_of(header, call) for call in header.calls}
    return {"cfgx.3": overview_of(header, example), **pages}
