"""Which file has the code of a module, and what has to hold for a file to be compiled.

A file is looked for where rustc looks for it. If several modules have one file, or a module may
have several files, each of them counts, where the `cfg_attr` with its path has its condition. A
file that no module has is compiled by itself.
"""
import os
from typing import Dict, Iterator, List, NamedTuple, Optional, Sequence, Set, Tuple

from ._model import Code, Guard, Module
from ._values import MOST_CHARACTERS, all_of, guard_texts

# The files whose modules stand beside them, and those that no module has.
BESIDE, ROOTS = ("mod.rs", "lib.rs", "main.rs"), ("lib.rs", "main.rs", "build.rs")
# How many characters the path of a file has at most. Linux opens no longer one.
MOST_PATH = 4096
# How many modules of one file tell what has to hold for it.
MOST_USES = 256


class Use(NamedTuple):
    """A module that has a file."""

    file: int
    """The number of the file where the module stands."""
    module: Module
    guard: Optional[Guard]
    """What has to hold beside the guard of the module for this to be its file."""


class Modules:
    """The modules of files."""

    def __init__(self, paths: Sequence[str], codes: Sequence[Code]) -> None:
        """The numbers of paths are those of codes."""
        self._paths = [os.path.abspath(path) for path in paths]
        self._numbers = {path: number for number, path in enumerate(self._paths)}
        self._uses: Dict[int, List[Use]] = {}
        self._contexts: Dict[int, Optional[List[str]]] = {}
        for number, code in enumerate(codes):
            for module in code.modules:
                for found, guard in self._files_of(number, module):
                    self._uses.setdefault(found, []).append(Use(number, module, guard))

    def _files_of(self, number: int, module: Module) -> Iterator[Tuple[int, Optional[Guard]]]:
        """Yields the numbers of the files that may have the code of a module, each with what has to
        hold for it beside the guard of the module."""
        folder, name = os.path.split(self._paths[number])
        stem = os.path.splitext(name)[0]
        folders = [folder] if name in BESIDE else [os.path.join(folder, stem), folder]
        for path, guard in zip(module.paths, module.path_guards):
            found = [*self._number_of(folder, *module.folders, path)]
            if module.folders:
                found += self._number_of(folder, stem, *module.folders, path)
            yield from ((file, guard) for file in found)
        for one in folders if module.has_usual_path else []:
            found = [*self._number_of(one, *module.folders, f"{module.name}.rs"),
                     *self._number_of(one, *module.folders, module.name, "mod.rs")]
            if found:
                yield from ((file, module.usual_guard) for file in found)
                return

    def _number_of(self, *parts: str) -> Iterator[int]:
        """Yields the number of the file at a path, if it was read and is no root."""
        if sum(map(len, parts)) > MOST_PATH:
            return
        path = os.path.normpath(os.path.join(*parts))
        if path in self._numbers and os.path.basename(path) not in ROOTS:
            yield self._numbers[path]

    def context(self, number: int) -> List[str]:
        """Returns what has to hold for a file to be compiled, as far as that is known."""
        self._find(number)
        return self._contexts.get(number) or []

    def _find(self, number: int) -> None:
        """Finds what has to hold for a file and for those whose modules lead to it."""
        waiting: List[int] = [number]
        begun: Set[int] = set()
        while waiting:
            one = waiting[-1]
            before = dict.fromkeys(use.file for use in self._uses.get(one, []))
            missing = [file for file in before if file not in self._contexts and file not in begun]
            begun.add(one)
            if missing and one not in self._contexts:
                waiting += missing
                continue
            waiting.pop()
            if one not in self._contexts:
                self._contexts[one] = self._of_uses(self._uses.get(one, []))

    def _of_uses(self, uses: Sequence[Use]) -> List[str]:
        """Returns what has to hold for one of some modules to be there, or nothing if that is too
        much to tell."""
        if len(uses) > MOST_USES:
            return []
        each = [self._of_use(use) for use in uses]
        if not each or not all(each):
            return []
        if len(each) == 1:
            return each[0]
        text = f"any({', '.join(dict.fromkeys(map(all_of, each)))})"
        return [text] if len(text) <= MOST_CHARACTERS else []

    def _of_use(self, use: Use) -> List[str]:
        """Returns what has to hold for a module to be there."""
        texts = [*(self._contexts.get(use.file) or []), *(guard_texts(use.module.guard) or []),
                 *(guard_texts(use.guard) or [])]
        return list(dict.fromkeys(texts)) if sum(map(len, texts)) <= MOST_CHARACTERS else []
