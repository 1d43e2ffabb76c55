"""The errors of `cfgx.manifest`."""
from .._terminal import ShownError


class ManifestError(ShownError):
    """What every error of `cfgx.manifest` is. Its message is made of printable characters and line
    feeds, whatever stands in a manifest."""


class CargoError(ManifestError):
    """There is no `cargo`, or it refuses the manifest. The message then has that of Cargo."""


class CompilerError(ManifestError):
    """There is no `rustc`, or it refuses a target or a flag."""


class FactsError(ManifestError):
    """A file of facts cannot be read or lacks what each target has, or one of its lines is no
    fact."""


class RequestError(ManifestError):
    """What is asked for does not exist, such as a target, a package or a kind, or a flag is no
    flag."""
