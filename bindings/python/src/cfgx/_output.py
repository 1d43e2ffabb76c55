"""How the commands of the package print, and with which status they end."""
import argparse
import errno
import io
import os
import sys
from typing import Iterable, Iterator, List, NoReturn, TextIO

from . import _process
from ._terminal import shown

FOUND, MISUSED, FAILED, INTERRUPTED = 1, 2, 3, 130
# How many characters are printed at once.
PIECE = 1 << 20


class Parser(argparse.ArgumentParser):
    """A parser whose messages have only printable characters."""

    def error(self, message: str) -> NoReturn:
        """Prints what is wrong with the arguments, and ends."""
        complain(self.prog, f"error: {shown(message)}", self.format_usage())
        sys.exit(MISUSED)


class OutputError(Exception):
    """The output does not take what is printed. The message says why."""


def write(lines: Iterable[str]) -> None:
    """Prints lines. A character that the output does not have is escaped. Raises `OutputError`."""
    if sys.stdout is None:
        raise OutputError("the output is closed")
    encoding = sys.stdout.encoding or "utf-8"
    if isinstance(sys.stdout, io.TextIOWrapper):
        # On Windows, a line would end with a carriage return, which a reader takes for a text.
        sys.stdout.reconfigure(newline="\n")
    try:
        for text in pieces_of(lines):
            print(text.encode(encoding, "backslashreplace").decode(encoding), flush=True)
    except OSError as error:
        abandon(sys.stdout)
        # If the pipe is broken, whoever reads has enough. Windows has another error for it.
        is_broken = isinstance(error, BrokenPipeError) or (
            _process.IS_WINDOWS and error.errno == errno.EINVAL
        )
        if not is_broken:
            raise OutputError(f"the output could not be written: {error.strerror}") from error


def pieces_of(lines: Iterable[str]) -> Iterator[str]:
    """Yields lines in texts of some size. A table of a hundred thousand rows does not fit into
    memory at once."""
    piece: List[str] = []
    size = 0
    for line in lines:
        piece.append(line)
        size += len(line) + 1
        if size > PIECE:
            yield "\n".join(piece)
            piece, size = [], 0
    if piece:
        yield "\n".join(piece)


def abandon(stream: TextIO) -> None:
    """Drops what a stream could not write. Python tries again at its end, which would fail too."""
    os.dup2(os.open(os.devnull, os.O_WRONLY), stream.fileno())


def complain(program: str, message: str, above: str = "") -> None:
    """Prints a message of a program in several lines on stderr, below other lines. If that fails,
    only the status tells."""
    if sys.stderr is None:
        return
    try:
        print(f"{above}{program}: {message}", file=sys.stderr, flush=True)
    except OSError:
        abandon(sys.stderr)
