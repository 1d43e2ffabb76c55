"""Conditions in the code of Rust: those of `#[cfg(..)]`, `#[cfg_attr(.., ..)]`, `cfg!(..)`,
`cfg_if!` and `cfg_select!`, and what they are on targets.

`read` finds them in a text, and `report` is what the command `cfgx-code` prints of files. Nothing
is compiled or expanded, so what a macro makes is not seen.

>>> import cfgx.code
>>> code = cfgx.code.read("#[cfg(unix)] mod a { fn f() -> bool { cfg!(windows) } }")
>>> [(one.form.value, one.text, one.guard and one.guard.text) for one in code.conditions]
[('cfg', 'unix', None), ('cfg!', 'windows', 'unix')]
"""
from ._errors import CodeError, PackageError, RequestError
from ._folders import Passed
from ._made import read
from ._model import Code, Condition, Form, Group, Guard, Item, Piece, Place, Problem, Reason
from ._report import File, Report, report
from ._values import Answer, GroupRow, Row, Verdict

__all__ = [
    "Answer", "Code", "CodeError", "Condition", "File", "Form", "Group", "GroupRow", "Guard",
    "Item", "PackageError", "Passed", "Piece", "Place", "Problem", "Reason", "Report",
    "RequestError", "Row", "Verdict", "read", "report",
]

# Tracebacks and pages name the module that callers import from.
for _name in __all__:
    globals()[_name].__module__ = __name__
