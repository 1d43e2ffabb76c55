"""The command `cfgx-deps` by the name of the package."""
import sys

from ._command import main

if __name__ == "__main__":
    sys.exit(main())
