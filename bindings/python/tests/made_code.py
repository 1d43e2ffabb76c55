"""Code of Rust that is made at random, of tokens that are easily taken for others."""
import random
from typing import List

# What stands between tokens.
TRIVIA = [
    " ", " ", " ", "\n", "\t", "\r\n", " /* c */ ", "/**/", " /* /* #[cfg(a)] */ \" */ ",
    " // #[cfg(never)] \" ' {\n", " /*/ */ ", "/* ' */", " //// not a doc\n", " /***/ ", "\u2028",
    "\u200e", " /* \u00e9 */ ", "//\n", " /* r#\" */ ",
]
# Words that begin as the prefix of a literal.
NAMES = ["a", "b", "r", "br", "c", "cr", "rb", "unix", "windows", "feature", "test", "r#fn",
         "r#unix", "cfg_if_", "xcfg", "_x", "b1"]
# Literals whose ends are easily missed.
LITERALS = [
    '"x"', '"\\""', '"\\\\"', '"#[cfg(no)]"', 'r"\\"', 'r#"" #"#', 'r##""#"##', 'b"\\""', "b'\\''",
    "b'\"'", "'\"'", "'\\''", "'/'", "'{'", "'#'", "'\\\\'", "'\\u{1F600}'", "'\u00e9'", 'c"x"',
    'cr#"""#', 'br#"\'"#', '"//"', '"/*"', "'\\n'", "1", "1.0", "0x1f_u8", "1e3", '"a\\\n  b"',
    '"\u00e9\u4e2d"', "b'\\x41'", '""', 'r""', '"\'"', "1.", "'r'", "'b'", "'a'",
]
LIFETIMES = ["'a", "'r", "'b", "'static", "'_", "'br"]
VALUES = ['"x"', 'r"x"', 'r#"x"#', '"\\u{78}"', '"\\x78"', '""', '"a b"', '"\\n"', 'r#"a/*b"#']
STRUCTURE = "()[]{}"


class Maker:
    """Makes code from a seed."""

    def __init__(self, seed: int) -> None:
        self._random = random.Random(seed)

    def pick(self, items: List[str]) -> str:
        """Returns one of some texts."""
        return items[int(self._random.random() * len(items))]

    def is_so(self, chance: float) -> bool:
        """Returns true by chance."""
        return self._random.random() < chance

    def trivia(self) -> str:
        """Returns what may stand between two tokens, perhaps nothing."""
        return self.pick(TRIVIA) if self.is_so(0.3) else ""

    def joined(self, *tokens: str) -> str:
        """Returns tokens with something between them."""
        return "".join(self.trivia() + token for token in tokens) + self.trivia()

    def condition(self, depth: int = 2) -> str:
        """Returns a condition."""
        if depth > 0 and self.is_so(0.5):
            name = self.pick(["all", "any", "not", "r#any"])
            count = 1 if name == "not" else int(self._random.random() * 3)
            members: List[str] = []
            for number in range(count):
                members += [","] * (number > 0) + [self.condition(depth - 1)]
            return self.joined(name, "(", *members, *[","] * (count > 0 and self.is_so(0.2)), ")")
        if self.is_so(0.5):
            return self.joined(self.pick(NAMES), "=", self.pick(VALUES))
        return self.joined(self.pick([*NAMES, "true", "false"]))

    def attribute(self, is_inner: bool = False) -> str:
        """Returns an attribute, mostly with a condition."""
        mark = ["!"] if is_inner else []
        if self.is_so(0.2):
            name = self.pick(["inline", "must_use", "rustfmt::skip"])
            return self.joined("#", *mark, "[", name, "]")
        return self.joined("#", *mark, "[", self.meta(2), "]")

    def meta(self, depth: int) -> str:
        """Returns what an attribute with a condition says."""
        if depth > 0 and self.is_so(0.35):
            others = ["inline", 'doc = "cfg"']
            metas = [self.meta(depth - 1) if self.is_so(0.6) else self.pick(others)
                     for _ in range(int(self._random.random() * 3))]
            inside = [token for one in metas for token in (",", one)] or [","]
            name = self.pick(["cfg_attr", "cfg_attr", "r#cfg_attr"])
            return self.joined(name, "(", self.condition(), *inside, ")")
        return self.joined(self.pick(["cfg", "cfg", "r#cfg"]), "(", self.condition(), ")")

    def tokens(self) -> str:
        """Returns tokens for a macro, with groups between delimiters that fit."""
        parts: List[str] = []
        for _ in range(int(self._random.random() * 6)):
            parts += [" ", self.piece()]
        return "".join(parts) + " "

    def piece(self) -> str:
        """Returns a token for a macro, an attribute, a macro, or a group."""
        if self.is_so(0.2):
            opened = int(self._random.random() * 3) * 2
            return STRUCTURE[opened] + self.tokens() + STRUCTURE[opened + 1]
        if self.is_so(0.2):
            return self.attribute()
        if self.is_so(0.2):
            return self.macro()
        marks = ["#", "!", "->", "=>", "::", "//x\n", ",", ";"]
        return self.pick([*LITERALS, *LIFETIMES, *NAMES, *marks])

    def macro(self) -> str:
        """Returns a macro with a condition."""
        name = self.pick(["cfg", "std::cfg", "r#cfg", "::core::cfg"])
        opened = int(self._random.random() * 3) * 2
        behind = [","] if self.is_so(0.2) else []
        inside = (STRUCTURE[opened], self.condition(), *behind, STRUCTURE[opened + 1])
        return self.joined(name, "!", *inside)

    def chain(self) -> str:
        """Returns a `cfg_if!` or a `cfg_select!`."""
        if self.is_so(0.5):
            parts = ["cfg_if", "!", "{"]
            for number in range(1 + int(self._random.random() * 2)):
                parts += ["else "] * (number > 0)
                parts += ["if ", "#", "[", "cfg", "(", self.condition(), ")", "]"]
                parts += ["{", self.item(0), "}"]
            parts += ["else", "{", self.item(0), "}"] if self.is_so(0.5) else []
            return self.joined(*parts, "}")
        parts = ["cfg_select", "!", "{"]
        for _ in range(1 + int(self._random.random() * 2)):
            parts += [self.condition(), "=>", "{", self.item(0), "}"]
        return self.joined(*parts, "_", "=>", "{", self.item(0), "}", "}")

    def item(self, depth: int) -> str:
        """Returns an item, perhaps with attributes."""
        front = "".join(self.attribute() for _ in range(int(self._random.random() * 3)))
        kind = self.pick(["fn", "mod", "const", "struct", "m", "chain", "enum"] if depth > 0 else
                         ["fn", "const", "m"])
        if kind == "mod":
            inner = self.attribute(True) if self.is_so(0.3) else ""
            return f"{front} mod m {{{inner}{self.items(depth - 1)}}}"
        if kind == "const":
            return f"{front} const C: u8 = {self.pick(LITERALS)};"
        if kind == "struct":
            return (f"{front} struct S<'a> {{ {self.attribute()} a: &'a u8, {self.attribute()}"
                    " b: A<B, C> }")
        if kind == "enum":
            return f"{front} enum E {{ {self.attribute()} A(u8), {self.attribute()} B }}"
        if kind == "m":
            return f"{front} m! {{{self.tokens()}}}"
        if kind == "chain":
            return f"{front} {self.chain()}"
        return f"{front} fn f<'a>(x: &'a str) {{{self.body()}}}"

    def body(self) -> str:
        """Returns statements."""
        parts: List[str] = []
        for _ in range(int(self._random.random() * 4)):
            front = self.attribute() if self.is_so(0.5) else ""
            arm = f"{self.attribute()} 1 => {{ {self.macro()} }}, {self.attribute()} _ => g(),"
            parts.append(self.pick([
                f"{front} let x = {self.macro()};", f"{front} g({self.pick(LITERALS)});",
                f"{front} {{ {self.macro()}; }}", f"{front} match y {{ {arm} }}",
                f"{front} m!({self.tokens()});", f"{front} if a {{ {self.macro()}; }}",
                f"{front} 'r: loop {{ break 'r; }}",
            ]))
        return " ".join(parts)

    def items(self, depth: int) -> str:
        """Returns some items."""
        return "\n".join(self.item(depth) for _ in range(int(self._random.random() * 4)))

    def file(self) -> str:
        """Returns a file."""
        mark = "\ufeff" if self.is_so(0.1) else ""
        front = self.pick(["", "", "#!/bin/sh [\n", "#!//x\n[doc]\n", "// c\n"])
        inner = self.attribute(True) if self.is_so(0.3) else ""
        return mark + front.replace("[doc]", '[doc = "x"]') + inner + "\n".join(
            self.item(2) for _ in range(1 + int(self._random.random() * 5))
        )


def file_of(seed: int) -> str:
    """Returns the code that is made of a seed."""
    return Maker(seed).file()
