"""Where that ends which an outer attribute stands on, and what its name is.

An attribute stands on an item, a statement, a field, a variant, an arm, a parameter or another
expression. Its end is found by the tokens beside it, where each group between delimiters counts as
one token. In doubt it is found too early: so nothing counts as a part of it that is none.
"""
import enum
import re
from typing import List, NamedTuple, Optional

from ._attributes import level_tokens
from ._lexer import Kind, Skim, Token


class Space(enum.Enum):
    """What may not have one name twice in a scope."""

    TYPE = "type"
    """Structs, enums, unions, traits, types, modules and crates."""
    VALUE = "value"
    """Functions, constants and statics."""


SPACES = {
    **dict.fromkeys(("struct", "enum", "union", "trait", "type", "mod", "crate"), Space.TYPE),
    **dict.fromkeys(("fn", "const", "static"), Space.VALUE),
}
# The items that end with their body, or with a `;` in its place. The others end with a `;`.
WITH_BODY = ("fn", "struct", "enum", "union", "trait", "impl", "mod", "macro", "extern")
# What may stand in front of the word for the kind of an item.
QUALIFIERS = ("default", "auto", "safe", "unsafe", "async", "const", "gen")
# Expressions that end with a block, also as a statement or an arm without a mark behind it.
HEADED_BLOCKS = ("if", "match", "while", "for")
BLOCKS = ("unsafe", "loop", "async", "const", "try", "gen")
# What continues an expression that ends with a block.
CONTINUING = (".", "?")
# How many tokens may stand between `<` and `>`, which need not be delimiters.
MOST_LISTED = 1000
# How many attributes of values a thing may have. Each of them is that of a thing inside of it.
MOST_VALUES = 16
# What stands behind a group in a pattern, in front of the body.
BEHIND_PATTERN = ("=", "|", "in")


# An item of a usual form, which is found at once: a constant, a static or a type without groups
# between delimiters, literals with quotes and comments, or a function without a body.
PLAIN = r"[^;(){}\[\]\"'/#]*"
USUAL = re.compile(
    rf"(?:pub(?:\([a-z]+\))?\s+)?(?:(const|static|type)\s+([A-Za-z_]\w*)\s*[:=]{PLAIN};"
    rf"|(fn)\s+([A-Za-z_]\w*)\({PLAIN}\){PLAIN};)"
)


class Thing(NamedTuple):
    """What an attribute stands on."""

    start: int
    """Where it begins, behind all of its attributes."""
    end: int
    """Where it ends."""
    kind: str
    """The word for its kind, such as `fn`, or nothing if it is no item."""
    name: str
    """Its name, or nothing if it has none."""
    body: Optional[int]
    """Where its body begins, if it is an item with one."""


class Cursor:
    """Goes over the tokens of one level. A group is one token, which begins with its delimiter."""

    def __init__(self, skim: Skim, place: int, end: int) -> None:
        self._skim = skim
        self._tokens = level_tokens(skim, place, end)
        self._ahead: List[Token] = []
        self.place = place
        self.before = ""
        self._values = 0

    def token(self, number: int = 0) -> Optional[Token]:
        """Returns the next token, or one behind it by its number, or `None` at the end."""
        while len(self._ahead) <= number:
            found = next(self._tokens, None)
            if found is None:
                return None
            self._ahead.append(found)
        return self._ahead[number]

    def word(self, number: int = 0) -> str:
        """Returns the text of this token, the delimiter of a group, or nothing at the end."""
        token = self.token(number)
        if token is None:
            return ""
        if token.kind is Kind.OPEN:
            return self._skim.text[token.start]
        return self._skim.text[token.start:token.end]

    def is_word(self, number: int = 0) -> bool:
        """Whether this token is an identifier or a keyword."""
        token = self.token(number)
        return token is not None and token.kind in (Kind.WORD, Kind.RAW_WORD)

    def ends(self, *words: str) -> bool:
        """Whether one of some words is next, or the level ends, or another thing begins: that is so
        at an attribute, unless it stands on an expression."""
        word = self.word()
        is_attribute = word == "#" and self.word(1) in ("[", "!")
        is_inside = self.before == "=" and self._values < MOST_VALUES
        return word in words or word == "" or is_attribute and not is_inside

    def step(self) -> None:
        """Passes the next token."""
        token = self.token()
        if token is not None:
            word = self.word()
            self._values += word == "#" and self.before == "="
            self.before = word
            self.place = token.end
            del self._ahead[0]


def thing_at(skim: Skim, place: int, end: int) -> Optional[Thing]:
    """Returns what begins at a place, behind its attributes, in a group that ends at another place.
    Returns `None` if nothing does."""
    usual = USUAL.match(skim.text, place)
    if usual is not None:
        kind, name = (usual[1], usual[2]) if usual[1] else (usual[3], usual[4])
        return Thing(place, usual.end(), kind, "" if name == "_" else name, None)
    cursor = Cursor(skim, place, end)
    first = cursor.token()
    if first is None:
        return None
    pass_qualifiers(cursor)
    kind = kind_of(cursor)
    if kind:
        return item_of(cursor, first.start, kind)
    if pass_start(cursor) or cursor.word() == "let":
        is_arm = pass_statement(cursor)
    else:
        is_arm = pass_rest(cursor)
    if is_arm:
        pass_arm(cursor)
    return Thing(first.start, cursor.place, "", "", None)


def pass_start(cursor: Cursor) -> bool:
    """Passes a label, and returns whether an expression is next that ends with a block."""
    if cursor.word() in HEADED_BLOCKS + BLOCKS or cursor.word() == "{":
        return True
    if not is_label(cursor):
        return False
    cursor.step()
    cursor.step()
    return True


def is_label(cursor: Cursor) -> bool:
    """Whether a label stands there."""
    token = cursor.token()
    return token is not None and token.kind is Kind.LIFETIME and cursor.word(1) == ":"


def pass_qualifiers(cursor: Cursor) -> None:
    """Passes the visibility of an item, and words such as `unsafe` in front of its kind."""
    if cursor.word() == "pub":
        cursor.step()
        if cursor.word() == "(":
            cursor.step()
    while cursor.word() in QUALIFIERS and cursor.word(1) in (
        "fn", "impl", "trait", "mod", "extern", "struct", "type", "const", "static", *QUALIFIERS
    ):
        cursor.step()
    token = cursor.token(1)
    if cursor.word() == "extern":
        has_name = token is not None and token.kind in (Kind.STRING, Kind.RAW_STRING)
        if cursor.word(1 + has_name) == "fn":
            for _ in range(1 + has_name):
                cursor.step()


def kind_of(cursor: Cursor) -> str:
    """Returns the word for the kind of the item that stands there, or nothing if it is none."""
    word = cursor.word()
    if word in ("fn", "struct", "enum", "trait", "mod", "type"):
        return word if cursor.is_word(1) else ""
    if word in ("union", "macro"):
        return word if cursor.is_word(1) else ""
    if word in ("impl", "use"):
        return word
    if word == "extern":
        return "crate" if cursor.word(1) == "crate" else "extern"
    if word == "macro_rules":
        return word if cursor.word(1) == "!" else ""
    if word in ("const", "static"):
        return word if cursor.is_word(1) and cursor.word(1) != "move" else ""
    return ""


def item_of(cursor: Cursor, start: int, kind: str) -> Thing:
    """Returns the item of a kind whose word is next."""
    cursor.step()
    while cursor.word() in ("mut", "crate", "!"):
        cursor.step()
    name = name_of(cursor, kind)
    body = None
    if kind in WITH_BODY:
        body = pass_body(cursor)
    elif kind == "macro_rules" and cursor.word(1) == "{":
        cursor.step()
        cursor.step()
    else:
        pass_mark(cursor)
    return Thing(start, cursor.place, kind, name, body)


def name_of(cursor: Cursor, kind: str) -> str:
    """Returns the name of an item of a kind, which is next, or nothing if it has none."""
    if kind in ("impl", "use", "extern"):
        return ""
    name = cursor.word(2) if kind == "crate" and cursor.word(1) == "as" else cursor.word()
    name = name[2:] if name.startswith("r#") else name
    return "" if name == "_" else name


def pass_mark(cursor: Cursor) -> None:
    """Goes on to behind the next `;`."""
    while not cursor.ends(";"):
        cursor.step()
    if cursor.word() == ";":
        cursor.step()


def pass_body(cursor: Cursor) -> Optional[int]:
    """Goes on to behind the body of an item or a `;` in its place, and returns where the body
    begins. Braces between `<` and `>` are no body."""
    angles, listed = 0, 0
    while listed < MOST_LISTED and (angles > 0 and cursor.word() or not cursor.ends(";")):
        token, word = cursor.token(), cursor.word()
        cursor.step()
        if word == "{" and angles == 0:
            return None if token is None else token.start
        angles = max(0, angles + (word == "<") - (word == ">"))
        listed = listed + 1 if angles > 0 else 0
    if cursor.word() == ";":
        cursor.step()
    return None


def pass_statement(cursor: Cursor) -> bool:
    """Goes on to behind a statement with `let`, or an expression that ends with a block. Returns
    whether that of an arm follows, whose `=>` is passed."""
    is_on = True
    while is_on:
        word = cursor.word()
        if word == "let":
            pass_mark(cursor)
            return False
        if not pass_block(cursor, word):
            return pass_rest(cursor)
        is_on = word == "if" and cursor.word() == "else"
        if is_on:
            cursor.step()
            is_on = cursor.word() in ("if", "{")
    return cursor.word() in CONTINUING and pass_rest(cursor)


def pass_block(cursor: Cursor, word: str) -> bool:
    """Goes on to behind the block of an expression that begins with a word. Returns whether it has
    a block."""
    if word != "{":
        cursor.step()
    if word in HEADED_BLOCKS:
        pass_head(cursor)
    elif word in BLOCKS:
        while not cursor.ends("{", ";", ","):
            cursor.step()
    if cursor.word() != "{":
        return False
    cursor.step()
    return True


def pass_head(cursor: Cursor) -> None:
    """Goes on to the body behind a condition. A pattern may have braces in front of it."""
    while not cursor.ends(";"):
        is_body = cursor.word() == "{" and cursor.before != "!"
        if is_body and cursor.word(1) not in BEHIND_PATTERN:
            return
        cursor.step()


def pass_rest(cursor: Cursor) -> bool:
    """Goes on to the end of an expression, a field, a variant or a parameter, or to behind the `=>`
    of an arm, and returns whether it is an arm. A `<` behind a `:` begins a list with commas, if a
    `>` ends it."""
    angles, listed, is_path, is_typed = 0, 0, True, False
    comma: Optional[int] = None
    while not cursor.ends(";") and listed < MOST_LISTED:
        word, before = cursor.word(), cursor.before
        if word in (",", ">") and angles == 0:
            return False
        if word == "," and comma is None:
            comma = cursor.place
        cursor.step()
        if word == "=>":
            return True
        if word == "{" and is_path and before == "!" and cursor.word() not in CONTINUING:
            return False
        is_path = is_path and (word in ("::", "!") or word.isidentifier())
        is_typed = is_typed or word == ":"
        angles += (word == "<" and (is_typed or before == "::")) - (word == ">")
        listed = listed + 1 if angles > 0 else 0
    if cursor.word() == ";":
        cursor.step()
    if angles > 0 and comma is not None:
        cursor.place = comma
    return False


def pass_arm(cursor: Cursor) -> None:
    """Goes on to the end of an arm, behind its `=>`."""
    while pass_start(cursor):
        if not pass_statement(cursor):
            return
    pass_expression(cursor)


def pass_expression(cursor: Cursor) -> None:
    """Goes on to the `,` behind an expression. One between the `|` of a closure, or behind `::<`,
    is a part of it."""
    angles = 0
    while not cursor.ends():
        word, before = cursor.word(), cursor.before
        if word == "," and angles == 0:
            return
        cursor.step()
        if word == "|" and before in ("=>", ",", "=", "move", "return", "static", "async"):
            while not cursor.ends("|"):
                cursor.step()
            cursor.step()
        angles += word == "<" and (before == "::" or angles > 0)
        angles -= word == ">" and angles > 0
