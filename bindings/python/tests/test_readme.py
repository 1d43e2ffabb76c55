"""The example of docs/README.md, which runs as it is printed there."""
import doctest
import os
import re

from . import ROOT

README = os.path.join(ROOT, "docs/README.md")


def load_tests(loader, tests, pattern):
    """Adds a test for each block of Python."""
    with open(README, encoding="utf-8") as file:
        blocks = re.findall(r"^```python\n(.*?)^```$", file.read(), re.M | re.S)
    if not blocks:
        raise ValueError(f"{README} has no block of Python")
    parser = doctest.DocTestParser()
    examples = [parser.get_doctest(block, {}, README, README, 0) for block in blocks]
    tests.addTests(map(doctest.DocTestCase, examples))
    return tests
