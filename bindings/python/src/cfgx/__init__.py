"""Conditions of `#[cfg(..)]`, such as `all(unix, feature = "x")`: parses them, lists their
predicates, evaluates and decides them.

>>> import cfgx
>>> expression = cfgx.parse('cfg(all(unix, not(feature = "x")))')
>>> [str(predicate) for predicate in expression.predicates]
['feature = "x"', 'target_family = "unix"']
>>> expression.eval([False, True])
True
>>> print(expression.eval({cfgx.target_family("unix"): True}))
None

`None` is an unknown answer, and an unknown value.

The package calls the engine in the shared object `libcfgx.so.2.3`, on macOS `libcfgx.dylib` and on
Windows `cfgx.dll`. It loads this when it is imported: the file that the environment variable
`CFGX_LIBRARY` names, else the one in the folder of the package, else the one that the loader finds.
`ImportError` says what to do if there is none.
`__version__` is the version of the package, and `version()` that of the library.

Every call raises `MemoryError` if the engine gets no memory. A `str` with a lone surrogate, which
UTF-8 cannot encode, raises `UnicodeEncodeError`, but `target_facts` raises `ValueError` for it.

Threads may share all objects. A function that `signal.signal` is passed may call, since Python runs
it between two calls. Nothing may call from a signal handler itself, as native code can, nor in the
child of a fork if its parent had threads. `os.fork` makes such a child, and so does
`multiprocessing` if it starts processes by `fork`, but not by `spawn` or `forkserver`.
"""
__version__ = "2.3.0"

from ._audit import audit
from ._error import FactError, ParseError, Reason, RustcError
from ._expression import Decision, Expression, Kind, Predicate, parse
from ._facts import rustc_facts
from ._library import version
from ._predicates import (
    debug_assertions, feature, flag, key_value, panic, proc_macro, target_abi, target_arch,
    target_endian, target_env, target_family, target_feature, target_has_atomic, target_os,
    target_pointer_width, target_vendor, test,
)
from ._targets import rustc_version, target_facts, targets

__all__ = [
    "Decision", "Expression", "FactError", "Kind", "ParseError", "Predicate", "Reason",
    "RustcError", "audit", "debug_assertions", "feature", "flag", "key_value", "panic", "parse",
    "proc_macro", "rustc_facts", "rustc_version", "target_abi", "target_arch", "target_endian",
    "target_env", "target_facts", "target_family", "target_feature", "target_has_atomic",
    "target_os", "target_pointer_width", "target_vendor", "targets", "test", "version",
]

# Tracebacks and pages name the module that callers import from.
for _name in __all__:
    globals()[_name].__module__ = __name__
