"""The page on the program `cfgx`, which is made of what `cfgx --help` prints and of RULES."""
import re
from typing import Dict, List, NamedTuple

from markdown import Block, add, marked, plain, rows_of, sections_of
from roff import Page, bold, escaped, italic, reference

RULES = "docs/RULES.md"
DESCRIBED = "crates/cfgx_c/cfgx.pc.in"
MANUAL = "User Commands"
# The sections of RULES that are first on the page, and what stands below which no part is shown.
FIRST, TESTS = "The program", "Tests:"
# What stands above examples there.
EXAMPLES = "For example:"
# The head of the table of commands there, and how a paragraph on a status begins.
HEAD = ["command", "what is printed", "status"]
STATUS = re.compile(r"\*\*Status (\d)\*\*")


class Row(NamedTuple):
    """What the program does in a case: what it prints, and the status with which it ends."""
    case: str
    printed: str
    status: str


def synopsis_of(usage: str) -> List[str]:
    """Returns a line for each command that the usage names."""
    found = re.fullmatch(r"usage: (\S+) (.*)\n", usage)
    if not found:
        raise ValueError(f"this is no usage: {usage!r}")
    name, commands = found.groups()
    return [f"{bold(name)} {words_of(command)}" for command in commands.split(" | ")]


def words_of(command: str) -> str:
    """Returns the words of a command. Those in capitals stand for others."""
    return " ".join(italic(word) if word[:1].isupper() else bold(word)
                    for word in command.split())


def summary_of(pc: str) -> str:
    """Returns what the file for pkg-config says in a line."""
    said, = re.findall(r"^Description: (.*)$", pc, re.M)
    return escaped(said[:1].lower() + said[1:])


def add_status(page: Page, rows: List[Row], others: Dict[str, List[str]]) -> None:
    """Adds in which cases the program ends with which status. `others` has what is said of those
    that are in no row."""
    page.section("EXIT STATUS")
    statuses = sorted({*(row.status for row in rows), *others})
    for status in statuses:
        cases = [f"{row.case}." for row in rows if row.status == status]
        page.tagged(bold(status), *map(marked, [*cases, *others.get(status, [])]))


def page_of(usage: str, rules: str, pc: str, version: str) -> str:
    """Returns the page. `pc` is the text of the file for pkg-config."""
    page = Page("cfgx", 1, version, MANUAL, f"what cfgx prints, and of {RULES}")
    first, *sections = sections_of(rules)
    page.section("NAME")
    page.paragraph(f"cfgx \\- {summary_of(pc)}")
    page.section("SYNOPSIS")
    page.lines_as_they_are(synopsis_of(usage))
    page.section("DESCRIPTION")
    add(page, first[1])
    for heading, *blocks in sections:
        if heading.text() == FIRST:
            add_program(page, blocks)
    page.section("CONDITIONS")
    for heading, *blocks in sections:
        if heading.text() != FIRST:
            page.subsection(plain(heading.text()))
            add_parts(page, blocks)
    page.section("SEE ALSO")
    page.paragraph(", ".join([reference("cfgx", 3), reference("cfgx-deps", 1),
                              reference("rustc", 1), reference("cargo", 1)]))
    return page.text()


def add_parts(page: Page, blocks: List[Block]) -> None:
    """Adds parts of RULES but for what says how they are tested."""
    for block in blocks:
        if not block.text().startswith(TESTS):
            add(page, block)


def add_program(page: Page, blocks: List[Block]) -> None:
    """Adds what RULES says of the program."""
    rows: List[Row] = []
    statuses: Dict[str, List[str]] = {}
    examples, others = [], []
    for block in blocks:
        status = STATUS.match(block.text())
        if status:
            statuses[status[1]] = [block.text()]
        elif block.kind == "table" and rows_of(block)[0] == HEAD:
            rows = [Row(*row) for row in rows_of(block)[1:]]
        elif block.language == "console":
            examples.append(block)
        elif block.text() != EXAMPLES:
            others.append(block)
    page.section("COMMANDS")
    for row in rows:
        page.tagged(marked(row.case), marked(row.printed))
    add_parts(page, others)
    add_status(page, rows, statuses)
    page.section("EXAMPLES")
    add_parts(page, examples)
