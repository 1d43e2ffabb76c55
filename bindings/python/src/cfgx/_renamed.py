"""Names of parameters that changed. The old ones go on, with a `DeprecationWarning`."""
import functools
import warnings
from typing import Any, Callable, Dict, Tuple, TypeVar

Function = TypeVar("Function", bound=Callable[..., Any])
# What an old argument is by a new name.
Meaning = Callable[[Any], Any]


def same(value: Any) -> Any:
    """Returns a value, for a parameter that has only another name."""
    return value


def opposite(value: Any) -> bool:
    """Returns whether a value is false, for a parameter that now says the opposite."""
    return not value


def warn(old: str, new: str) -> None:
    """Warns whoever called the function that calls this one."""
    warnings.warn(f"{old} is now called {new}", DeprecationWarning, stacklevel=3)


def parameters(**changes: Tuple[str, Meaning]) -> Callable[[Function], Function]:
    """Returns what lets a function take old names of parameters, each with the new one."""
    def accepting(function: Function) -> Function:
        @functools.wraps(function)
        def accept(*arguments: Any, **named: Any) -> Any:
            given: Dict[str, Any] = {}
            for name, value in named.items():
                new, meaning = changes.get(name, (name, same))
                if name in changes:
                    warn(f"the parameter {name}", new)
                if new in given or (new != name and new in named):
                    raise TypeError(f"{name} and {new} are the same parameter")
                given[new] = meaning(value)
            return function(*arguments, **given)

        return accept  # type: ignore[return-value]

    return accepting
