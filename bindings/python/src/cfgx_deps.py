"""The command `cfgx-deps`. It stands beside the package `cfgx`, whose import needs the library: so
a library that is missing is a message, and no traceback. As a script, it finds the package beside
itself, and Python takes no module of the current folder."""
import sys
from typing import Sequence

NAME = "cfgx-deps"


def main() -> int:
    """Runs the command with the arguments of the process, and returns its status."""
    return run(NAME, sys.argv[1:])


def cargo_main() -> int:
    """Runs the command as `cargo cfgx-deps`, and returns its status. Cargo starts it by the name
    `cargo-cfgx-deps`, and passes the name without `cargo-` in front of the arguments."""
    words = sys.argv[1:]
    return run(f"cargo {NAME}", words[1:] if words[:1] == [NAME] else words)


def run(name: str, words: Sequence[str]) -> int:
    """Runs the command, which was called by a name."""
    try:
        from cfgx import _command
    except ImportError as error:
        message = "".join(one if one.isprintable() else repr(one)[1:-1] for one in str(error))
        print(f"{NAME}: {message}", file=sys.stderr)
        return 3
    return _command.main(words, name)


if __name__ == "__main__":
    sys.exit(main())
