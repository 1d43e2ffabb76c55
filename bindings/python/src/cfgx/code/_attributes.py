"""Attributes, and the conditions in them."""
import re
from typing import Iterator, List, NamedTuple, Optional, Sequence, Tuple

from ._lexer import SPACE, Kind, Skim, Token, next_token

# White space in front of what is neither an attribute nor a comment.
NO_ATTRIBUTE = re.compile(rf"[{SPACE}]*(?=[^#/{SPACE}])")


class Attribute(NamedTuple):
    """An attribute."""

    start: int
    """The place of its `#`."""
    is_inner: bool
    """Whether it has a `!`, and so stands on what is around it."""
    inside: int
    """The place behind its `[`."""
    end: int
    """The place of its `]`."""


class Meta(NamedTuple):
    """What an attribute says: a name, and what stands in round brackets behind it."""

    name: Token
    """The name."""
    inside: Optional[int]
    """The place behind the `(`, or `None` if something else stands there."""
    end: int
    """The place of the `)`, or of what stands there."""


def following(text: str, place: int) -> Optional[Token]:
    """Returns the first token at a place or behind it, or `None` at the end of the text."""
    while place < len(text):
        token, place = next_token(text, place)
        if token is not None:
            return token
    return None


def word_at(text: str, token: Optional[Token]) -> str:
    """Returns the text of a token, or nothing if there is none."""
    return "" if token is None else text[token.start:token.end]


def plain(text: str, token: Optional[Token]) -> str:
    """Returns the name that an identifier is, or the text of another token."""
    word = word_at(text, token)
    return word[2:] if token is not None and token.kind is Kind.RAW_WORD else word


def attribute_at(skim: Skim, place: int) -> Optional[Attribute]:
    """Returns the attribute at a `#`, or `None` if none begins there."""
    token, is_inner = following(skim.text, place + 1), False
    if word_at(skim.text, token) == "!" and token is not None:
        token, is_inner = following(skim.text, token.end), True
    if token is None or word_at(skim.text, token) != "[":
        return None
    return Attribute(place, is_inner, token.end, skim.end_of(token.start))


def attributes_from(skim: Skim, place: int, end: int) -> Tuple[List[Attribute], int]:
    """Returns the attributes from a place on that stand on the same, and the place of the token
    behind them."""
    found: List[Attribute] = []
    other = NO_ATTRIBUTE.match(skim.text, place)
    if other is not None and other.end() < end:
        return found, other.end()
    while place < end:
        token, behind = next_token(skim.text, place)
        if token is None or token.kind is Kind.DOC:
            place = behind
            continue
        if token.start >= end:
            break
        one = attribute_at(skim, token.start) if skim.text[token.start] == "#" else None
        if one is None or (found and found[0].is_inner is not one.is_inner):
            return found, token.start
        found.append(one)
        place = one.end + 1
    return found, end


def meta_at(skim: Skim, place: int, end: int) -> Optional[Meta]:
    """Returns what begins with a name at a place or behind it, up to the place `end`."""
    name = following(skim.text, place)
    if name is None or name.start >= end or name.kind not in (Kind.WORD, Kind.RAW_WORD):
        return None
    behind = following(skim.text, name.end)
    if behind is not None and behind.start < end and word_at(skim.text, behind) == "(":
        return Meta(name, behind.end, skim.end_of(behind.start))
    return Meta(name, None, end if behind is None else min(behind.start, end))


def level_tokens(skim: Skim, place: int, end: int) -> Iterator[Token]:
    """Yields the tokens of one level up to a place. A group is one token."""
    while place < end:
        token, place = next_token(skim.text, place)
        if token is None:
            continue
        if token.start >= end:
            return
        if token.kind is Kind.OPEN:
            place = min(skim.end_of(token.start) + 1, end)
            token = token._replace(end=place)
        yield token


def list_at(skim: Skim, place: int, end: int) -> Sequence[Tuple[int, int]]:
    """Returns where each item of a list with commas begins and ends."""
    items: List[Tuple[int, int]] = []
    for token in level_tokens(skim, place, end):
        if word_at(skim.text, token) == ",":
            items.append((place, token.start))
            place = token.end
    return [*items, (place, end)]
