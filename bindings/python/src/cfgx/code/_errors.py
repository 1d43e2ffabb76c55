"""The errors of `cfgx.code`."""
from .._terminal import ShownError


class CodeError(ShownError):
    """What every error of `cfgx.code` is. Its message is made of printable characters and line
    feeds, whatever stands in a file."""


class RequestError(CodeError):
    """What is asked for does not exist, such as a path or a target, or a flag is no flag."""


class PackageError(CodeError):
    """`cargo` does not list the parts of a package. The message then has that of Cargo."""
