"""What is made once of an object that many rows share."""
from typing import Callable, Dict, Generic, Tuple, TypeVar

Given = TypeVar("Given")
Made = TypeVar("Made")


class Once(Generic[Given, Made]):
    """A function that is called once with each object, whatever it is equal to."""

    def __init__(self, make: Callable[[Given], Made]) -> None:
        self._make = make
        # Each object is kept too, since the number of one that is gone may be that of another.
        self._made: Dict[int, Tuple[Given, Made]] = {}

    def __call__(self, given: Given) -> Made:
        """Returns what the function makes of an object."""
        found = self._made.get(id(given))
        if found is None:
            found = self._made[id(given)] = given, self._make(given)
        return found[1]
