"""The command `cfgx-code`. It stands beside the package `cfgx`, whose import needs the library: so
a library that is missing is a message, and no traceback. As a script, it finds the package beside
itself, and Python takes no module of the current folder."""
import sys


def main() -> int:
    """Runs the command, and returns its status."""
    try:
        from cfgx import _code_command
    except ImportError as error:
        message = "".join(one if one.isprintable() else repr(one)[1:-1] for one in str(error))
        print(f"cfgx-code: {message}", file=sys.stderr)
        return 3
    return _code_command.main()


if __name__ == "__main__":
    sys.exit(main())
