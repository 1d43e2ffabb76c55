"""The values of many conditions on many targets."""
from bisect import bisect_right
from typing import Iterable, List, Optional, Union

from . import _facts, _library
from ._error import fact_error, parse_error
from ._expression import Expression


def audit(
    conditions: Iterable[Union[Expression, str]], targets: Iterable[_facts.Facts],
    otherwise: Optional[bool] = None,
) -> List[List[Optional[bool]]]:
    """Returns for each condition its values on the targets.

    A target is what is known of it: a text whose lines are facts, such as `rustc --print cfg`
    prints, or a list of facts. The predicates in a fact are true. If a fact begins with `?`, the
    predicates in the rest of it are unknown, except those that another fact makes true. Empty lines
    of a text are no facts.

    A predicate that no fact names is false if it is on the target, and otherwise it is `otherwise`,
    which is `None` for unknown, or `False`.

    Raises `FactError` for the first faulty fact, or else `ParseError` for the first text that is no
    condition; and for another `otherwise` `ValueError` if it is `True`, or else `TypeError`.

    >>> import cfgx
    >>> cfgx.audit(['any(windows, feature = "x")', "unix"], ["unix", ["windows", "?test"]])
    [[None, True], [True, False]]
    >>> cfgx.audit(["not(test)"], ["unix"], otherwise=False)
    [[True]]
    """
    if isinstance(conditions, str) or isinstance(targets, str):
        raise TypeError("conditions and targets are lists")
    number = _facts.number_of(otherwise)
    texts = [item.text if isinstance(item, Expression) else item for item in conditions]
    encoded = [_library.utf8_of(text) for text in texts]
    facts: List[str] = []
    ends: List[int] = []
    for target in targets:
        facts += _facts.listed(target)
        ends.append(len(facts))
    status, fault, values = _library.audit(
        encoded, [_library.utf8_of(fact) for fact in facts], ends, number
    )
    if status == _library.FAULTY_FACT:
        place = bisect_right(ends, fault.item)
        first = [0, *ends][place]
        raise fact_error(place, fault.item - first, facts[fault.item], fault)
    if status == _library.FAULTY:
        raise parse_error(texts[fault.item], encoded[fault.item], fault)
    count = len(ends)
    rows = (values[row * count:(row + 1) * count] for row in range(len(texts)))
    return [[_library.VALUES[number] for number in row] for row in rows]
