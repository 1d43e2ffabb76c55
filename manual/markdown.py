"""The pages of the repository, which are in Markdown, as parts of pages for `man`."""
import re
from typing import Iterator, List, NamedTuple

from roff import Page, bold, code, italic, replaced

# How many columns a line that is not filled has beside its indent.
WIDTH = 72
# What is marked in a text: code in two forms, a strong text, a word that is defined, or a link.
MARKED = re.compile(
    r"`` ?(.+?) ?``|`([^`]+)`|\*\*(.+?)\*\*|\*(\w[^*]*)\*|\[([^\]]+)\]\([^)\s]+\)"
)
FENCE, INDENT = "```", " " * 4
ITEM = re.compile(r"^(-|\d+\.) +")


class Block(NamedTuple):
    """A part of a page: a `heading`, a `paragraph`, an `item` of a list, `code` or a `table`. A
    heading has no marks. An item begins with its mark. `language` is that of fenced code."""
    kind: str
    lines: List[str]
    language: str = ""

    def text(self) -> str:
        """Returns the lines as one."""
        return " ".join(line.strip() for line in self.lines)


def kind_of(line: str) -> str:
    """Returns of which kind a part is that begins with a line."""
    if line.startswith("#"):
        return "heading"
    if line.startswith("|"):
        return "table"
    if line.startswith((FENCE, INDENT)):
        return "code"
    return "item" if ITEM.match(line) else "paragraph"


def blocks_of(text: str) -> List[Block]:
    """Returns the parts of a page."""
    blocks: List[Block] = []
    is_fenced, is_new = False, True
    for line in text.split("\n"):
        if is_fenced and line != FENCE:
            blocks[-1].lines.append(line)
        elif line.startswith(FENCE):
            is_fenced = not is_fenced
            if is_fenced:
                blocks.append(Block("code", [], line[len(FENCE):]))
        elif line and (is_new or kind_of(line) in ("heading", "item")):
            blocks.append(Block(kind_of(line), [line.lstrip("# ") if line[0] == "#" else line]))
        elif line:
            blocks[-1].lines.append(line)
        is_new = not is_fenced and (not line or line[0] == "#" or line == FENCE)
    return blocks


def sections_of(text: str) -> Iterator[List[Block]]:
    """Yields the sections of a page, each from its heading on."""
    section: List[Block] = []
    for block in blocks_of(text):
        if block.kind == "heading" and section:
            yield section
            section = []
        section.append(block)
    yield section


def marked(text: str) -> str:
    """Returns a text of a page in the form of roff."""
    def shown(found: "re.Match[str]") -> str:
        if found[3]:
            return bold(found[3].replace("`", ""))
        if found[4]:
            return italic(found[4])
        return marked(found[5]) if found[5] else code(found[1] or found[2])

    return replaced(MARKED, shown, text)


def rows_of(table: Block) -> List[List[str]]:
    """Returns the cells of a table. The first row is its head."""
    rows = [line for line in table.lines if not line.startswith("|---")]
    return [[cell.strip().replace("\\|", "|") for cell in re.split(r"(?<!\\)\|", row)[1:-1]]
            for row in rows]


def plain(cell: str) -> str:
    """Returns a cell without the marks of code and links."""
    return MARKED.sub(lambda found: next(filter(None, found.groups())), cell)


def add_table(page: Page, table: Block) -> None:
    """Adds a table: in columns if they have room, and else row by row, below the first cell."""
    rows = rows_of(table)
    shown = [list(map(plain, row)) for row in rows]
    widths = [max(map(len, column)) for column in zip(*shown)]
    if sum(widths) + 2 * len(widths) - 2 <= WIDTH:
        page.example("\n".join("  ".join(map(str.ljust, row, widths)).rstrip() for row in shown))
        return
    (head, *heads), *others = rows
    page.paragraph(f"{italic(plain(head))}:")
    for first, *cells in others:
        told = (f"{italic(plain(name))}: {marked(cell)}"
                for name, cell in zip(heads, cells) if cell)
        page.tagged(marked(first), *told)


def add(page: Page, block: Block) -> None:
    """Adds a part of a page in Markdown to one for `man`."""
    if block.kind == "table":
        add_table(page, block)
    elif block.kind == "code":
        indent = "" if block.language else INDENT
        page.example("\n".join(line[len(indent):] for line in block.lines))
    elif block.kind == "item":
        mark = ITEM.match(block.text())
        page.item("\\(bu" if mark[1] == "-" else mark[1], marked(block.text()[mark.end():]))
    else:
        page.paragraph(marked(block.text()))
