#!/usr/bin/env python3
"""Writes texts made at random, by which the libraries of two platforms are compared.

usage: generated.py COUNT   The texts go to standard output. Each stands behind its length, which is
                            four bytes, the lowest first. The same count gives the same texts.

Half of the texts are conditions. The others are conditions with a few bytes changed, and bytes at
random.
"""
import random
import sys

KEYS = ("a", "b", "loom", "_x1", "größe", "test", "debug_assertions", "proc_macro", "unix",
        "windows", "true", "false", "not", "all", "any")
VALUED = ("feature", "k", "target_feature", "target_abi", "target_arch", "target_env", "target_os",
          "target_family", "target_vendor", "panic", "target_has_atomic", "target_endian",
          "target_pointer_width", "target_", "größe")
VALUES = ("", "x", "é€🦀", "a\0b", "linux", "x86_64", "unix", "windows", "8", "64", "ptr", "little",
          "big", "255", "256", "65536", "abort", "with blanks", "eabihf")
BLANKS = ("", "", "", " ", "  ", "\t", "\n", "\u3000", "\u00a0")
PIECES = (b"(", b")", b",", b'"', b"=", b"not(", b"all(", b"cfg(", b" ", b"\0", b"\xff", b"\xc3",
          b"\xe2\x82", b"?", b"8", b"-", b"\xf0\x9f\xa6\x80")


def leaf(source):
    """Returns a predicate."""
    if source.random() < 0.5:
        return source.choice(KEYS)
    blanks = [source.choice(BLANKS) for _ in range(2)]
    return f'{source.choice(VALUED)}{blanks[0]}={blanks[1]}"{source.choice(VALUES)}"'


def tree(source, depth):
    """Returns a condition of at most this depth."""
    if depth == 0 or source.random() < 0.35:
        return leaf(source)
    name = source.choice(("all", "any", "not"))
    count = 1 if name == "not" else source.choice((0, 1, 2, 2, 3, 3, 4, 8))
    members = [source.choice(BLANKS) + tree(source, depth - 1) + source.choice(BLANKS)
               for _ in range(count)]
    end = "," if members and source.random() < 0.2 else ""
    return f"{name}{source.choice(BLANKS)}({','.join(members)}{end})"


def condition(source):
    """Returns a text that is a condition but for keys that are none."""
    text = tree(source, source.choice((1, 2, 3, 4, 6)))
    return (f"cfg({text})" if source.random() < 0.3 else text).encode()


def damaged(source):
    """Returns a condition in which a few bytes are changed."""
    text = bytearray(condition(source))
    for _ in range(source.choice((1, 1, 2, 3))):
        at = source.randrange(len(text) + 1)
        end = min(len(text), at + source.choice((0, 0, 1, 2, 5)))
        text[at:end] = source.choice(PIECES) if source.random() < 0.7 else b""
    return bytes(text)


def noise(source):
    """Returns pieces of texts and bytes at random."""
    parts = []
    for _ in range(source.randrange(12)):
        is_piece = source.random() < 0.8
        parts.append(source.choice(PIECES) if is_piece else bytes(source.choices(range(256), k=3)))
    return b"".join(parts)


def main():
    """Writes the texts."""
    source = random.Random(86)
    kinds = (condition, condition, condition, damaged, damaged, noise)
    for number in range(int(sys.argv[1])):
        text = kinds[number % len(kinds)](source)
        sys.stdout.buffer.write(len(text).to_bytes(4, "little") + text)


if __name__ == "__main__":
    main()
