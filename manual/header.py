"""What stands in the header for C."""
import re
from typing import Dict, List, NamedTuple, Union

# A comment and, behind it, the lines up to the next one or to an empty line.
COMMENT = re.compile(r"\A/\*(.*?)\*/\n?(.*)\Z", re.S)
CALL = re.compile(r"^(uint32_t (cfgx_\w+)\()(.*?)\);$", re.M | re.S)
STRUCT = re.compile(r"^struct (cfgx_\w+) \{\n(.*?)^\};$", re.M | re.S)
# A number or another macro, and what is said of it.
DEFINE = re.compile(r"^#define (CFGX_\w+) +([^/\n]+?)(?: */\*(.*?)\*/)?$", re.M | re.S)
# The comment on one or several members of a struct, and these.
MEMBERS = re.compile(r"/\*(.*?)\*/((?:\s*[^/;{}]+;)+)", re.S)


class Block(NamedTuple):
    """A paragraph of a comment, or an item of a list there."""
    text: str
    is_item: bool


class Number(NamedTuple):
    """A number that has a name, as it stands in the header."""
    name: str
    value: str
    meaning: str


class Numbers(NamedTuple):
    """Numbers below one comment."""
    comment: List[Block]
    numbers: List[Number]


class Members(NamedTuple):
    """Members of a struct that have one comment."""
    names: List[str]
    comment: List[Block]


class Struct(NamedTuple):
    """A struct. The declaration has no comments."""
    name: str
    comment: List[Block]
    declaration: str
    members: List[Members]


class Call(NamedTuple):
    """A call. `start` is its declaration up to the parenthesis, and `arguments` has the lines up to
    the other one."""
    name: str
    comment: List[Block]
    start: str
    arguments: List[str]


class Header(NamedTuple):
    """The header: the comment on all of it, that on the functions at its end, its calls, its
    structs and numbers in their order, and the comments on its other macros by their names."""
    first: List[Block]
    last: List[Block]
    calls: List[Call]
    parts: List[Union[Struct, Numbers]]
    macros: Dict[str, List[Block]]

    def numbers(self, prefix: str) -> List[Number]:
        """Returns the numbers whose names begin with a prefix."""
        rows = (one for part in self.parts if isinstance(part, Numbers) for one in part.numbers)
        return [one for one in rows if one.name.startswith(prefix)]

    def version(self) -> str:
        """Returns the version of the calls, behind that of the language."""
        found = self.numbers("CFGX_VERSION_")
        return ".".join(one.value for one in found)

    def statuses(self, call: Call) -> List[Number]:
        """Returns the statuses that the comment of a call names, or that of the call that returns
        the same."""
        text = " ".join(block.text for block in call.comment)
        same = re.search(r"Returns what `(\w+)` returns", text)
        if same:
            other, = (one for one in self.calls if one.name == same[1])
            return self.statuses(other)
        named = set(re.findall(r"CFGX_STATUS_\w+", text))
        return [one for one in self.numbers("CFGX_STATUS_") if one.name in named]


def blocks_of(comment: str) -> List[Block]:
    """Returns the paragraphs and items of what stands between the marks of a comment."""
    blocks: List[Block] = []
    is_new = True
    for line in comment.split("\n"):
        text = re.sub(r"^\s*\*", "", line).strip()
        if text.startswith("- "):
            blocks.append(Block(text[2:], True))
        elif text and is_new:
            blocks.append(Block(text, False))
        elif text:
            blocks[-1] = Block(f"{blocks[-1].text} {text}", blocks[-1].is_item)
        is_new = not text
    return blocks


def number_of(found: "re.Match[str]") -> Number:
    """Returns a number that a line defines."""
    meaning = " ".join(block.text for block in blocks_of(found[3] or ""))
    return Number(found[1], " ".join(found[2].split()), meaning)


def struct_of(found: "re.Match[str]", comment: List[Block]) -> Struct:
    """Returns a struct that is declared, below its comment."""
    members = [
        Members(re.findall(r"(\w+);", declared), blocks_of(said))
        for said, declared in MEMBERS.findall(found[2])
    ]
    declaration = re.sub(r"^ */\*.*?\*/\n", "", found[0], flags=re.M | re.S)
    return Struct(found[1], comment, declaration, members)


def header_of(text: str) -> Header:
    """Returns what stands in the text of the header. No line within a comment is empty, so empty
    lines divide the text into parts, each below its comment."""
    # A macro that goes on in the next line becomes one line.
    divided = re.sub(r"\\\n\s*", "", text).split("\n\n")
    commented = [found for found in map(COMMENT.match, divided) if found]
    made = Header(blocks_of(commented[0][1]), [], [], [], {})
    for found in commented[1:]:
        comment, code = blocks_of(found[1]), found[2]
        call, struct = CALL.search(code), STRUCT.search(code)
        if call:
            lines = [line.strip() for line in call[3].split("\n")]
            made.calls.append(Call(call[2], comment, call[1], lines))
        elif struct:
            made.parts.append(struct_of(struct, comment))
        elif code.startswith("#define"):
            made.parts.append(Numbers(comment, list(map(number_of, DEFINE.finditer(code)))))
        elif code.startswith("#ifdef"):
            made.macros.update(dict.fromkeys(re.findall(r"^#define (\w+)", code, re.M), comment))
        elif not code:
            made.last.extend(comment)
    return made
