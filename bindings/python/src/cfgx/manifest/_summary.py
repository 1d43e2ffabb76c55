"""How many platforms give a dependency each value."""
import collections
import dataclasses
import itertools
from typing import Dict, Optional, Sequence, Tuple

from ._platforms import Platform
from ._report import Value

# How many platforms of the smaller group are named.
MOST_NAMED = 3


@dataclasses.dataclass(frozen=True)
class Summary:
    """How many platforms give a dependency each value."""

    counts: Dict[Value, int]
    """The number of platforms with each value."""
    smaller: Optional[Value]
    """The value that the fewest platforms have among those that some have, or `None` if all
    platforms on which Cargo reads the dependency have the same value."""
    names: Tuple[str, ...]
    """The names of the first platforms with this value, three at most."""


def summary_of(values: Sequence[Value], platforms: Sequence[Platform]) -> Summary:
    """Returns the summary of the values of a row."""
    found = collections.Counter(value.value for value in values)
    counts = {value: found[value.value] for value in Value}
    read = [value for value in Value if value is not Value.NOT_READ and counts[value] > 0]
    if len(read) < 2:
        return Summary(counts, None, ())
    smaller = min(read, key=lambda value: counts[value])
    both = zip(values, platforms)
    names = (platform.name for value, platform in both if value is smaller)
    return Summary(counts, smaller, tuple(itertools.islice(names, MOST_NAMED)))
