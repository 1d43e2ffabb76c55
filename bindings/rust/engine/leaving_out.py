"""Leaves the contracts out of a file of Rattle, so that what is left is Rust.

It works on tokens, and knows each form that it leaves out. What it does not know, it refuses.
"""
import re
from typing import Callable, Collection, Dict, Iterator, List, NamedTuple, Set, Tuple

# What stands in the place of Rattle's library.
LIBRARY = "crate::engine::rattle"

# What Rust has not, or means otherwise, or what the engine does without.
REFUSED = frozenset({
    "\"", "'", "/*", "Box", "also_owns", "also_shares", "async", "await", "decreases", "dyn",
    "extern", "invariant", "macro_rules", "static", "union", "unsafe",
})
# Methods that take memory. In Rattle each returns a `Result`, and in Rust it ends the process.
REFUSED_METHODS = frozenset({
    "clone", "cloned", "collect", "concat", "repeat", "replace", "replacen", "to_owned",
    "to_string", "to_vec",
})
ATTRIBUTES = frozenset({"cold", "default", "inline"})
PAIRS = {"(": ")", "[": "]", "{": "}"}

TOKEN = re.compile(r"""
    (?P<space>\s+)
  | (?P<comment>//[^\n]*)
  | (?P<literal>b?r(?P<hashes>\#*)".*?"(?P=hashes) | [bc]?"(?:[^"\\]|\\.)*"
      | b?'(?:[^'\\\n]|\\x[0-9a-fA-F]{2}|\\u\{[0-9a-fA-F_]+\}|\\.)')
  | (?P<lifetime>'[A-Za-z_]\w*)
  | (?P<number>[0-9]\w*)
  | (?P<word>[^\W\d]\w*)
  | (?P<mark>::|->|=>|\.\.=?|/\*|.)
    """, re.VERBOSE | re.DOTALL)


class Refused(Exception):
    """A form that is not known, with the file and the line where it stands."""


class Token(NamedTuple):
    """A token, a comment or white space."""
    kind: str
    text: str
    line: int


def tokens_of(text: str) -> List[Token]:
    """Cuts a text into tokens, comments and white space. Joined, they are the text."""
    tokens, line = [], 1
    for found in TOKEN.finditer(text):
        tokens.append(Token(found.lastgroup or "", found.group(), line))
        line += found.group().count("\n")
    return tokens


class Reader:
    """A file of a crate, which is read from its first token to its last.

    `crates` are the crates that are made, and `modules` those that are not needed. Places count
    tokens of code alone.
    """

    macros = frozenset({"matches", "unreachable", "write"})
    # The modules of `std` that Rust has too, and those that the library has.
    same_modules = frozenset({"cmp", "fmt", "hash", "io", "marker", "mem", "ops", "str"})
    own_modules = frozenset({"alloc", "borrow"})
    # What each file of Rattle has without an import, and Rust's has not: names, and the traits of
    # methods, those of formatters in files that name one.
    prelude = frozenset({"String", "Vec", "vec"})
    traits: Dict[str, str] = {}
    formatter_traits = {"slice": "ListExt", "write": "FormatterExt"}

    def __init__(self, name: str, text: str, crate: str, crates: Collection[str],
                 modules: Collection[str]) -> None:
        self.name, self.crate, self.crates, self.modules = name, crate, crates, modules
        self.tokens = tokens_of(text)
        self.kept = [token.text for token in self.tokens]
        self.code = [index for index, token in enumerate(self.tokens)
                     if token.kind not in ("space", "comment")]
        # The words of code that was left out, for which no import is needed, and the methods that
        # are called.
        self.unasked: Set[str] = set()
        self.called: Set[str] = set()
        self.steps: Dict[str, Callable[[int], int]] = {
            "ghost": self.ghost, "requires": self.clause, "ensures": self.clause,
            "#": self.attribute, "impl": self.impl, "mod": self.module, "fmt": self.formatter,
            ",": self.writer, "W": self.writer, "Drop": self.bound, ".": self.method,
            "::": self.method,
        }

    # What stands where.

    def text(self, at: int) -> str:
        """Returns the token at a place, and an empty text past the last one."""
        return self.tokens[self.code[at]].text if 0 <= at < len(self.code) else ""

    def has(self, at: int, *texts: str) -> bool:
        """Whether these tokens stand at a place, one after another."""
        return all(self.text(at + place) == text for place, text in enumerate(texts))

    def is_word(self, at: int) -> bool:
        """Whether a word stands at a place."""
        return at < len(self.code) and self.tokens[self.code[at]].kind == "word"

    def refuse(self, at: int, what: str) -> Refused:
        """Returns the refusal of what stands at a place."""
        line = self.tokens[self.code[min(at, len(self.code) - 1)]].line
        return Refused(f"{self.name}:{line}: {what}")

    def behind_pair(self, at: int) -> int:
        """Returns the place behind the bracket that closes the one at a place."""
        open_ones = [at]
        if self.text(at) not in PAIRS:
            raise self.refuse(at, f"an opening bracket in place of `{self.text(at)}`")
        for place in range(at + 1, len(self.code)):
            text = self.text(place)
            if text in PAIRS:
                open_ones.append(place)
            elif text in PAIRS.values():
                if PAIRS[self.text(open_ones.pop())] != text:
                    raise self.refuse(place, f"`{text}` closes another bracket")
                if not open_ones:
                    return place + 1
        raise self.refuse(at, f"`{self.text(at)}` is never closed")

    def behind(self, at: int, text: str) -> int:
        """Returns the place behind the first such token outside of brackets."""
        while self.text(at) != text:
            if at >= len(self.code):
                raise self.refuse(at, f"no `{text}` follows")
            at = self.behind_pair(at) if self.text(at) in PAIRS else at + 1
        return at + 1

    def begins_line(self, index: int) -> bool:
        """Whether what has this index among all tokens is the first of its line."""
        return index == 0 or "\n" in self.tokens[index - 1].text

    # What is left out.

    def leave_out(self, begin: int, end: int) -> int:
        """Leaves out the tokens from a place to another, with the comments between them."""
        return self.leave_out_from(self.code[begin], begin, end)

    def leave_out_with_comment(self, begin: int, end: int) -> int:
        """Leaves out tokens, and the comment right above them, which speaks of them."""
        first = self.code[begin]
        while first > 1 and self.tokens[first - 1].text.count("\n") == 1 \
                and self.tokens[first - 2].kind == "comment" and self.begins_line(first - 2) \
                and not self.tokens[first - 2].text.startswith("//!"):
            first -= 2
        return self.leave_out_from(first, begin, end)

    def leave_out_from(self, first: int, begin: int, end: int) -> int:
        """Leaves out tokens, and what stands above them from an index among all tokens on."""
        for at in range(begin, end):
            if self.has(at, "⟦", "<"):
                self.unasked |= {self.text(at + 2), self.text(at + 4)}
            if self.has(at, "-", "-") or self.text(at) == "/*":
                raise self.refuse(at, "a comment that is none of Rust's lines")
        behind = self.code[end - 1] + 1
        for index in range(first, behind):
            self.kept[index] = ""
        # The line goes too, if it has nothing else.
        if self.begins_line(first) and self.tokens[behind:] and self.kept[behind][:1] == "\n":
            if first == 0:
                self.kept[behind] = self.kept[behind][1:]
            else:
                self.kept[first - 1] = self.kept[first - 1].rpartition("\n")[0]
        return end

    def ghost(self, at: int) -> int:
        """`ghost use ..;`, `ghost name = {..};`, `ghost name: {..};` and `ghost name: {..},`"""
        if self.has(at + 1, "use"):
            return self.leave_out_with_comment(at, self.behind(at, ";"))
        if not self.is_word(at + 1) or self.text(at + 2) not in ("=", ":"):
            raise self.refuse(at, f"`ghost {self.text(at + 1)}` is not known")
        end = self.behind_pair(at + 3)
        if self.text(end) != ";" and not (self.text(end) == "," and self.has(at + 2, ":")):
            raise self.refuse(end, f"`{self.text(end)}` behind a ghost member is not known")
        begin = at - 1 if self.has(at - 1, "pub") else at
        return self.leave_out_with_comment(begin, end + 1)

    def clause(self, at: int) -> int:
        """`requires {..}`, `ensures {..}`, and both with a name"""
        opening = at + 2 if self.is_word(at + 1) else at + 1
        if self.text(opening) != "{":
            raise self.refuse(at, f"`{self.text(at)}` without a clause")
        end = self.behind_pair(opening)
        if self.text(end) not in ("requires", "ensures", "{", ";"):
            raise self.refuse(end, f"`{self.text(end)}` behind a clause is not known")
        return self.leave_out_with_comment(at, end)

    def attribute(self, at: int) -> int:
        """`#[tactic(..)]`, `#[derive(..)]`, `#[inline]` and so on"""
        opening = at + 2 if self.has(at + 1, "!") else at + 1
        name, end = self.text(opening + 1), self.behind_pair(opening)
        if name == "tactic":
            return self.leave_out(at, end)
        if name in ("derive", "derive_where"):
            return self.derive(at, opening + 1, end)
        if name == "derived" or self.has(opening, "[", "test", "]") \
                or self.has(opening, "[", "cfg", "(", "test", ")", "]"):
            return self.item(at, end, name == "derived")
        if name not in ATTRIBUTES:
            raise self.refuse(at, f"the attribute `{name}` is not known")
        return end

    def derive(self, at: int, name: int, end: int) -> int:
        """`derive` without `Drop`, and `derive_where` as `derive`"""
        names = [self.text(place) for place in range(name + 2, end - 2)]
        if names[1::2] != [","] * (len(names) // 2):
            raise self.refuse(at, "a derive of more than names")
        self.kept[self.code[name]] = "derive"
        if "Drop" not in names:
            return end
        if len(names) == 1:
            return self.leave_out(at, end)
        place = name + 2 + names.index("Drop")
        self.leave_out(*((place - 1, place + 1) if place > name + 2 else (place, place + 2)))
        return end

    def item(self, at: int, begin: int, is_ghost: bool) -> int:
        """An item that is left out with its attributes: a test, or the law of a derive"""
        end = begin
        while self.text(end) not in ("{", ";"):
            if self.text(end) in ("requires", "ensures"):
                end = self.clause(end)
            else:
                end = self.behind_pair(end) if self.text(end) in PAIRS else end + 1
        if is_ghost:
            self.check_ghosts(end)
        end = end + 1 if self.text(end) == ";" else self.behind_pair(end)
        return self.leave_out_with_comment(at, end)

    def check_ghosts(self, opening: int) -> None:
        """Refuses a block in which more than ghost members stand."""
        at, end = opening + 1, self.behind_pair(opening) - 1
        while at < end:
            if not self.has(at, "ghost"):
                raise self.refuse(at, "code among ghost members")
            at = self.behind(at, ";")

    def impl(self, at: int) -> int:
        """`impl Model for`, and an `impl Drop for` that only takes the value apart"""
        opening = at
        while self.text(opening) not in ("{", ";"):
            opening = self.behind_pair(opening) if self.text(opening) in PAIRS else opening + 1
        head = [self.text(place) for place in range(at, opening)]
        trait = head[head.index("for") - 1] if "for" in head else ""
        if trait == "Model":
            self.check_ghosts(opening)
            self.unasked.add("Model")
        elif trait == "Drop":
            self.check_drop(opening)
        else:
            return at + 1
        return self.leave_out_with_comment(at, self.behind_pair(opening))

    def check_drop(self, opening: int) -> None:
        """Refuses a `drop` that does more than to take the value apart."""
        inner = opening + 1
        end = self.behind_pair(opening) - 1
        if self.has(inner, "fn", "drop", "(", "self", ")", "{", "let") and self.is_word(inner + 7):
            behind = self.behind_pair(inner + 8)
            parts = [self.text(place) for place in range(inner + 9, behind - 1)]
            if self.has(behind, "=", "self", ";", "}") and behind + 4 == end \
                    and all(re.fullmatch(r"\w+|\.\.|[:,]", part) for part in parts):
                return
        raise self.refuse(opening, "a `drop` with an effect")

    def bound(self, at: int) -> int:
        """`: Drop` and `+ Drop`"""
        if self.has(at - 1, "+") or self.has(at - 1, ":") and self.text(at + 1) in (",", ">", "{"):
            return self.leave_out(at - 1, at + 1)
        if self.has(at - 1, ":") and self.has(at + 1, "+"):
            return self.leave_out(at, at + 2)
        raise self.refuse(at, "`Drop` elsewhere than in a bound")

    def module(self, at: int) -> int:
        """`mod name;` of a module that is not needed"""
        if self.text(at + 1) not in self.modules:
            return at + 1
        if self.text(at + 2) != ";" or self.has(at - 1, ")"):
            raise self.refuse(at, f"the module `{self.text(at + 1)}` is no file for all")
        begin = at - 1 if self.has(at - 1, "pub") else at
        return self.leave_out_with_comment(begin, at + 3)

    def writer(self, at: int) -> int:
        """The parameter of a function for what a formatter writes to"""
        if self.has(at - 1, "<") and self.has(at, "W", ":", "fmt", "::", "Write", ">"):
            return self.leave_out(at - 1, at + 6)
        if self.has(at, ",", "W", ":", "fmt", "::", "Write", ">"):
            return self.leave_out(at, at + 6)
        return at + 1

    def formatter(self, at: int) -> int:
        """`fmt::Formatter<W>`"""
        if self.has(at, "fmt", "::", "Formatter", "<", "W", ">"):
            return self.leave_out(at + 3, at + 6)
        if self.has(at, "fmt", "::", "Write"):
            raise self.refuse(at, "`fmt::Write` elsewhere than for a formatter")
        return at + 1

    # What is looked at, and what is rewritten.

    def method(self, at: int) -> int:
        """A method or a field, or what follows `::`. No method may take memory"""
        name = self.text(at + 1)
        is_called = self.has(at, "::") or self.text(at + 2) in ("(", "::")
        if name in REFUSED_METHODS and is_called and not self.has(at - 1, "mem", "::", "replace"):
            raise self.refuse(at + 1, f"the method `{name}` takes memory in Rust")
        self.called.add(name)
        return at + 1

    def macro(self, at: int) -> int:
        """A call of a macro: `prove!(..);` is left out"""
        name, end = self.text(at), self.behind_pair(at + 2)
        if name == "prove" and self.text(end) == ";":
            self.unasked |= {self.text(place) for place in range(at, end) if self.is_word(place)}
            return self.leave_out_with_comment(at, end + 1)
        if name in self.macros or name == "vec" and self.has(at + 2, "[", "in"):
            return at + 2
        raise self.refuse(at, f"the macro `{name}` is not known")

    def path(self, at: int) -> int:
        """The head of a path, which names a crate"""
        head, index = self.text(at), self.code[at]
        if self.has(at - 1, "::") or self.has(at - 1, "."):
            return at + 1
        if head == "crate":
            self.kept[index] = f"crate::engine::{self.crate}"
        elif head in self.crates:
            self.kept[index] = f"crate::engine::{head}"
        elif head == "smallvec":
            self.kept[index] = f"{LIBRARY}::smallvec"
        elif head == "std":
            self.standard(at)
        return at + 1

    def standard(self, at: int) -> None:
        """A path into `std`, to modules that Rust has too or to those of the library"""
        if self.text(at + 2) == "{":
            names = {self.text(place) for place in range(at + 3, self.behind_pair(at + 2) - 1)}
            if not names - {",", "::", "self"} <= self.same_modules:
                raise self.refuse(at, "a group of modules of `std` that are not known")
        elif self.text(at + 2) in self.own_modules:
            self.kept[self.code[at]] = LIBRARY
        elif self.text(at + 2) not in self.same_modules:
            raise self.refuse(at, f"the module `{self.text(at + 2)}` of `std` is not known")

    def read(self, at: int) -> int:
        """Reads what begins at a place, and returns the place behind it."""
        text = self.text(at)
        if text in self.steps:
            return self.steps[text](at)
        if text in REFUSED:
            raise self.refuse(at, f"`{text}` is not known")
        if not text.isascii() and self.tokens[self.code[at]].kind != "literal":
            raise self.refuse(at, f"`{text}` is no code")
        if self.is_word(at) and self.has(at + 1, "!") and self.text(at + 2) in PAIRS \
                and self.code[at] + 1 == self.code[at + 1]:
            return self.macro(at)
        if self.is_word(at) and self.has(at + 1, "::"):
            return self.path(at)
        return at + 1

    # The imports, which stand outside of brackets.

    def imports(self) -> Iterator[Tuple[int, int]]:
        """Yields where each import that is kept begins and ends."""
        at = 0
        while at < len(self.code):
            if self.text(at) in PAIRS:
                at = self.behind_pair(at)
            elif self.has(at, "use") and self.kept[self.code[at]]:
                end = self.behind(at, ";")
                yield (at - 1 if self.has(at - 1, "pub") else at), end
                at = end
            else:
                at += 1

    def kept_words(self) -> Set[str]:
        """Returns the words that are kept outside of imports."""
        imported = {place for begin, end in self.imports() for place in range(begin, end)}
        return {self.text(place) for place, index in enumerate(self.code)
                if self.kept[index] and place not in imported}

    def leave_out_imports(self) -> None:
        """Leaves out the imports of what only left out code asked for."""
        unasked = self.unasked - self.kept_words()
        for begin, end in list(self.imports()):
            for at in range(begin, end):
                if self.text(at) in unasked and not self.has(at + 1, "::"):
                    self.leave_out_import(begin, at, end)

    def leave_out_import(self, begin: int, at: int, end: int) -> None:
        """Leaves out a name at a place of an import, and the import if it has no other"""
        if self.text(at + 1) == ";":
            self.leave_out(begin, end)
        elif self.has(at - 1, "{") and self.has(at + 1, ",") and self.has(at + 3, "}", ";"):
            self.leave_out(at - 1, at + 2)
            self.leave_out(at + 3, at + 4)
        elif self.text(at + 1) == ",":
            self.leave_out(at, at + 2)
        else:
            raise self.refuse(at, f"`{self.text(at)}` is left out where it stands in an import")

    def import_prelude(self) -> None:
        """Imports what the code asks of the prelude, behind the last import"""
        words = self.kept_words()
        traits = {**self.traits, **(self.formatter_traits if "Formatter" in words else {})}
        names = words & self.prelude | {traits[method] for method in self.called & set(traits)}
        ends = [end for _, end in self.imports()]
        if names and not ends:
            raise self.refuse(0, "a file that asks for the prelude has no import")
        if names:
            line = f"use {LIBRARY}::prelude::{{{', '.join(sorted(names))}}};"
            self.kept[self.code[ends[-1] - 1]] += f"\n{line}"


    def rust(self) -> str:
        """Returns the Rust of the file: its text without contracts."""
        at = 0
        while at < len(self.code):
            at = self.read(at)
        self.leave_out_imports()
        self.import_prelude()
        return "".join(self.kept)
