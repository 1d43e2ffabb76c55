"""Finds the conditions in the code of a file, and what each of them is about.

A *guard* is a condition that has to hold for a piece of the code to be compiled. Guards stand
inside of one another, as the pieces do.
"""
import contextlib
import heapq
import re
from array import array
from bisect import bisect_left, bisect_right
from typing import (
    Callable, Dict, Iterable, Iterator, List, NamedTuple, Optional, Sequence, Set, Tuple,
)

from ._attributes import (
    Attribute, Meta, attribute_at, attributes_from, following, level_tokens, list_at, meta_at,
    plain, word_at,
)
from ._grammar import ConditionError, Written, read_condition
from ._lexer import Kind, Skim, Token, TokenError, tokens_in
from ._model import Form, Reason
from ._things import SPACES, Cursor, Space, Thing, pass_arm, thing_at

# How many `cfg_attr` inside of one another tell what an attribute stands on when it is there.
MOST_NESTED = 16
# How many characters, beside as many as the file has, are copied from the conditions of `cfg_attr`
# into what has to hold by what stands inside.
MOST_COPIED = 1 << 16
# White space, and a variable of a macro.
BLANK, VARIABLE = "\t\n\x0b\x0c\r \x85\u200e\u200f\u2028\u2029", re.compile(r"\$")
# How many characters in front of a group have its name.
MOST_FRONT = 2000
# The name of a module, in front of its group.
INLINE = re.compile(r"\bmod\s+(?:r#)?(\w+)\s*\Z")
# A path that an attribute gives a module.
PATH = re.compile(r'\bpath\s*=\s*"([^"\\]*)"')


ATTRIBUTES = {"cfg": Form.CFG, "cfg_attr": Form.CFG_ATTR}
MACROS = {"cfg": Form.MACRO, "cfg_if": Form.CFG_IF, "cfg_select": Form.CFG_SELECT}


class Guard(NamedTuple):
    """What has to hold for a piece of code, beside the guards around it."""

    outer: Optional["Guard"]
    """The guard around it."""
    end: int
    """Where the piece ends."""
    text: Optional[str]
    """The condition, or `None` if it is not known."""
    number: int
    """The number of the condition that was found."""
    is_negated: bool = False
    """Whether the condition must not hold."""


class Found(NamedTuple):
    """A condition that was found."""

    form: Form
    is_inner: bool
    """Whether it stands in `#![..]`."""
    start: int
    """Where it begins."""
    end: int
    """Where it ends."""
    written: Optional[Written]
    """What was read of it, if it has a text."""
    error: Optional[ConditionError]
    """Why it has none."""
    guard: Optional[Guard]
    """The innermost guard around it."""

    @property
    def text(self) -> Optional[str]:
        """Its text, if it has one."""
        return None if self.written is None else self.written.text


class Chain(NamedTuple):
    """The branches of a `cfg_if!` or a `cfg_select!`, of which the first is taken that holds."""

    form: Form
    start: int
    """Where the name of the macro begins."""
    numbers: Sequence[int]
    """The numbers of the conditions of the branches."""
    has_last: bool
    """Whether a branch is taken if no condition holds."""
    guard: Optional[Guard]
    """The innermost guard around it."""


class Member(NamedTuple):
    """One of the items with one name in a scope."""

    thing: Thing
    guard: Optional[Guard]
    """The innermost guard of the item."""


class Twins(NamedTuple):
    """Items with one name in a scope."""

    members: Sequence[Member]
    guard: Optional[Guard]
    """The innermost guard around the scope."""


class Declared(NamedTuple):
    """A module that has a file of its own."""

    name: str
    start: int
    """Where it begins."""
    folders: Tuple[str, ...]
    """The names of the modules around it in the same file."""
    paths: Tuple[str, ...]
    """The paths that attributes give it."""
    has_usual_path: bool
    """Whether its file may also be the one that its name says."""
    guard: Optional[Guard]
    """The innermost guard of the module."""
    path_guards: Tuple[Optional[Guard], ...]
    """For each of the paths, the guard by a `cfg_attr` around it, if there is one."""
    usual_guard: Optional[Guard]
    """The guards by which no path in a `cfg_attr` is there."""


class Reading:
    """What was found in a text."""

    def __init__(self, text: str) -> None:
        """Reads a text."""
        self.skim = Skim(text)
        self.problem = self.skim.problem
        # What has no tokens would be met again from each thing in front of it.
        self._is_cut = self.skim.end < len(text)
        if self._is_cut:
            self.skim = Skim(text[:self.skim.end])
        self.text = self.skim.text
        self.conditions: List[Found] = []
        self.chains: List[Chain] = []
        self.twins: List[Twins] = []
        self.modules: List[Declared] = []
        # Where white space begins at the end, and where variables of macros stand.
        self._last = len(self.text.rstrip(BLANK))
        self._variables = array("q", (one.start() for one in VARIABLE.finditer(self.text)))
        # How many characters of conditions may yet be copied.
        self._copies = len(self.text) + MOST_COPIED
        # From which places on which guard is the innermost one, in order; and that of now.
        self._starts: List[int] = []
        self._guards: List[Optional[Guard]] = []
        self._now: Optional[Guard] = None
        # The guards of the branches that are yet to come.
        self._waiting: List[Tuple[int, int, Guard]] = []
        # The places of attributes that were read with one before them.
        self._read: Set[int] = set()
        # The guards that a group has by inner attributes, by its number.
        self._inner: Dict[int, List[Guard]] = {}
        # The groups in which an item has a condition, by the number of the group for their scope.
        self._scopes: Dict[int, Dict[int, None]] = {}
        self._scope_of: Dict[int, int] = {}
        # The guards of the paths in a `cfg_attr`, by the places of their values.
        self._path_guards: Dict[int, Guard] = {}
        # The names of modules, by the places of their groups.
        self._inline: Dict[int, Optional[str]] = {}
        self._read_all()

    def _read_all(self) -> None:
        """Reads what stands at each place."""
        pounds = ((*one, True) for one in self.skim.pounds)
        names = ((*one, False) for one in self.skim.names)
        for place, group, is_attribute in heapq.merge(pounds, names):
            while self._waiting and self._waiting[0][0] <= place:
                start, _, guard = heapq.heappop(self._waiting)
                self._begin(start, guard)
            with self._keeping_problem():
                if not is_attribute:
                    self._read_macro(place, group)
                elif place not in self._read:
                    self._read_attributes(place, group)
        while self._waiting:
            start, _, guard = heapq.heappop(self._waiting)
            self._begin(start, guard)
        self._now_at(len(self.text))
        for scope, groups in self._scopes.items():
            with self._keeping_problem():
                self.twins += self._twins_in(scope, groups)
        with self._keeping_problem():
            self._read_modules()

    @contextlib.contextmanager
    def _keeping_problem(self) -> Iterator[None]:
        """Keeps the first problem, which ends what is read inside."""
        try:
            yield
        except TokenError as problem:
            self.problem = self.problem or problem

    def expect_end(self, end: int) -> None:
        """Raises the problem if what ends at a place goes on in what was cut off."""
        if self.problem is not None and self._is_cut and end == len(self.text):
            raise self.problem

    def _end_of(self, group: int) -> int:
        """Returns where a group ends, or the text."""
        return len(self.text) if group < 0 else self.skim.ends[group]

    def _begin(self, start: int, guard: Guard) -> None:
        """Begins a guard."""
        self._now_at(start)
        self._starts.append(start)
        self._guards.append(guard)
        self._now = guard

    def _now_at(self, place: int) -> Optional[Guard]:
        """Returns the innermost guard at a place, which is that of the last call or a later one."""
        while self._now is not None and self._now.end <= place:
            self._starts.append(self._now.end)
            self._now = self._now.outer
            self._guards.append(self._now)
        return self._now

    def _guard_at(self, place: int) -> Optional[Guard]:
        """Returns the innermost guard at a place, when all were read."""
        number = bisect_right(self._starts, place) - 1
        return self._guards[number] if number >= 0 else None

    def add(
        self, form: Form, start: int, end: int, guard: Optional[Guard], is_inner: bool = False,
        ends: Sequence[str] = (),
    ) -> Found:
        """Adds the condition in a piece of the text, which some tokens may end."""
        first = following(self.text, start)
        start = end if first is None else min(first.start, end)
        last = self._last_of(start, end)
        written, error = None, None
        tokens = tokens_in(self.text, start, len(self.text) if ends else end)
        try:
            written = read_condition(self.text, tokens, end, ends)
            last = written.pieces[-1].token.end
        except ConditionError as caught:
            # Without what keeps all that was read.
            error = caught.with_traceback(None)
        found = Found(form, is_inner, start, last, written, error, guard)
        self.conditions.append(found)
        return found

    def _last_of(self, start: int, end: int) -> int:
        """Returns where the white space begins in front of a place, from another one on. Only the
        end of the text is that of several conditions."""
        last = self._last if end == len(self.text) else end
        while last > start and self.text[last - 1] in BLANK:
            last -= 1
        return max(last, start)

    # Attributes.

    def _read_attributes(self, place: int, group: int) -> None:
        """Reads an attribute, and those behind it that stand on the same."""
        end = self._end_of(group)
        attributes, behind = attributes_from(self.skim, place, end)
        if not attributes:
            return
        self._read.update(one.start for one in attributes)
        metas = [(one, meta_at(self.skim, one.inside, one.end)) for one in attributes]
        wanted = [(one, meta) for one, meta in metas
                  if meta is not None and plain(self.text, meta.name) in ATTRIBUTES]
        if not wanted:
            return
        if not attributes[0].is_inner:
            thing = thing_at(self.skim, behind, end)
            end = behind if thing is None else thing.end
            if thing is not None and thing.name:
                self._add_scope(group)
        for one, meta in wanted:
            for guard in self._read_meta(one, meta, end):
                self._begin(one.end, guard)
                if one.is_inner:
                    self._inner.setdefault(group, []).append(guard)

    def _read_meta(self, attribute: Attribute, meta: Meta, end: int) -> Iterator[Guard]:
        """Reads an attribute with a condition, and those inside of it. Yields what has to hold for
        what it stands on, which ends at a place."""
        around = self._now_at(attribute.start)
        waiting: List[Tuple[Meta, Optional[Guard], int]] = [(meta, around, 0)]
        while waiting:
            one, guard, depth = waiting.pop()
            found = self._read_one(one, guard, attribute)
            number = len(self.conditions) - 1
            texts = nested_texts(found.text, guard, depth)
            if found.form is Form.CFG_ATTR:
                inner = Guard(guard, one.end, found.text, number)
                self._read_paths(one, texts, number)
                waiting += [(nested, inner, depth + 1) for nested in self._nested(one)][::-1]
            else:
                text = self._copied(texts, presence_of)
                yield Guard(self._now_at(attribute.end), end, text, number)

    def _copied(
        self, texts: Optional[List[str]], make: Callable[[List[str]], str]
    ) -> Optional[str]:
        """Returns what a function makes of conditions, or `None` if one of them is not known, or if
        too much was copied so far. A single one is not copied."""
        if texts is None:
            return None
        if len(texts) > 1:
            self._copies -= sum(map(len, texts))
        return make(texts) if len(texts) == 1 or self._copies >= 0 else None

    def _read_one(self, meta: Meta, guard: Optional[Guard], attribute: Attribute) -> Found:
        """Adds the condition of `cfg` or `cfg_attr`."""
        self.expect_end(meta.end)
        form = ATTRIBUTES[plain(self.text, meta.name)]
        is_inner = attribute.is_inner
        if meta.inside is None:
            return self._refuse(form, meta.name.start, meta.end, guard, is_inner)
        if form is Form.CFG:
            behind = following(self.text, meta.end + 1)
            if behind is not None and word_at(self.text, behind) not in ("]", ",", ")"):
                return self._refuse(form, meta.inside, behind.start, guard, is_inner)
            return self.add(form, meta.inside, meta.end, guard, is_inner)
        items = list_at(self.skim, meta.inside, meta.end)
        missing = [end for start, end in items[1:-1]
                   if next(tokens_in(self.text, start, end), None) is None]
        if len(items) == 1 or missing:
            place = missing[0] if missing else meta.end
            return self._refuse(form, meta.inside, place, guard, is_inner)
        return self.add(form, meta.inside, items[0][1], guard, is_inner)

    def _refuse(
        self, form: Form, start: int, place: int, guard: Optional[Guard], is_inner: bool
    ) -> Found:
        """Adds a condition that begins at a place, and that rustc refuses for what stands at
        another one. Only the macro knows what a variable there stands for."""
        first, behind = following(self.text, start), following(self.text, place)
        start = place if first is None else min(first.start, place)
        last, word = self._last_of(start, place), word_at(self.text, behind)
        is_attribute = last - start in map(len, ATTRIBUTES) and self.text[start:last] in ATTRIBUTES
        is_empty = start == last or word == "]" and is_attribute
        reason = Reason.ROOTS if is_empty else Reason.UNEXPECTED
        if word == "$" or self._has_variable(start, last):
            reason = Reason.VARIABLE
        error = ConditionError(reason, place, place if behind is None else behind.end)
        found = Found(form, is_inner, start, last, None, error, guard)
        self.conditions.append(found)
        return found

    def _has_variable(self, start: int, end: int) -> bool:
        """Whether a variable of a macro stands from a place on, in front of another."""
        number = bisect_left(self._variables, start)
        return number < len(self._variables) and self._variables[number] < end

    def _nested(self, meta: Meta) -> Iterator[Meta]:
        """Yields the attributes with a condition that stand in a `cfg_attr`."""
        if meta.inside is None:
            return
        for start, end in list_at(self.skim, meta.inside, meta.end)[1:]:
            one = meta_at(self.skim, start, end)
            if one is None or one.inside is None:
                continue
            if plain(self.text, one.name) in ATTRIBUTES:
                yield one

    def _read_paths(self, meta: Meta, texts: Optional[List[str]], number: int) -> None:
        """Keeps what has to hold for the paths in a `cfg_attr`: some conditions, of which the last
        one has a number."""
        items = [] if meta.inside is None else list_at(self.skim, meta.inside, meta.end)[1:]
        names = (following(self.text, start) for start, _ in items)
        found = [PATH.match(self.text, name.start, end)
                 for name, (_, end) in zip(names, items) if name is not None]
        places = [path.start(1) for path in found if path is not None]
        if places:
            guard = Guard(None, meta.end, self._copied(texts, whole_of), number)
            self._path_guards.update(dict.fromkeys(places, guard))

    # Macros.

    def _read_macro(self, place: int, group: int) -> None:
        """Reads the macro whose name stands at a place in a group, if it is one."""
        name = following(self.text, place)
        mark = None if name is None else following(self.text, name.end)
        if name is None or mark is None or word_at(self.text, mark) != "!":
            return
        opened = following(self.text, mark.end)
        if opened is None or opened.kind is not Kind.OPEN:
            return
        form, end = MACROS[word_at(self.text, name)], self.skim.end_of(opened.start)
        if form is Form.MACRO:
            self.expect_end(end)
            self.add(form, opened.end, end, self._now_at(place))
            return
        branches = Branches(self, place, end, group, form)
        read = branches.read_if if form is Form.CFG_IF else branches.read_select
        read(opened.end, end)
        if branches.numbers:
            self.chains.append(branches.chain())

    def wait(self, start: int, guard: Guard) -> None:
        """Begins a guard at a place that is yet to come."""
        heapq.heappush(self._waiting, (start, len(self.conditions), guard))

    # Items.

    def _add_scope(self, group: int, scope: Optional[int] = None) -> None:
        """Adds a group in which an item has a condition. Its scope is that of another group if it
        is a branch there."""
        if scope is not None:
            self._scope_of[group] = self._scope_of.get(scope, scope)
        root = self._scope_of.get(group, group)
        self._scopes.setdefault(root, {root: None})[group] = None

    def add_branch(self, place: int, group: int) -> None:
        """Adds the group of a branch that begins at a place, in another group."""
        number = self.skim.group_at(place)
        if number is not None:
            self._add_scope(number, group)

    def mark_read(self, place: int) -> None:
        """Takes an attribute for one that was read."""
        self._read.add(place)

    def now_at(self, place: int) -> Optional[Guard]:
        """Returns the innermost guard at a place that is being read."""
        return self._now_at(place)

    def _twins_in(self, scope: int, groups: Iterable[int]) -> Iterator[Twins]:
        """Yields the items of a scope that have one name, if one of them has a condition. The scope
        is in several groups if branches have a part of it."""
        by_name: Dict[Tuple[Space, str], List[Member]] = {}
        for group in groups:
            for thing in self._things_in(group):
                if thing.kind in SPACES and thing.name:
                    members = by_name.setdefault((SPACES[thing.kind], thing.name), [])
                    members.append(Member(thing, self._guard_of(thing)))
        guard = self._guard_in(scope)
        for members in by_name.values():
            if len(members) > 1 and any(one.guard is not guard for one in members):
                yield Twins(sorted(members, key=lambda one: one.thing.start), guard)

    def _guard_in(self, group: int) -> Optional[Guard]:
        """Returns the innermost guard of a whole group, behind its inner attributes."""
        start = self._start_of(group)
        attributes, behind = attributes_from(self.skim, start, self._end_of(group))
        return self._guard_at(behind if attributes and attributes[0].is_inner else start)

    def _start_of(self, group: int) -> int:
        """Returns where the first token of a group may begin, or that of the text."""
        return self.skim.first if group < 0 else self.skim.starts[group] + 1

    def _things_in(self, group: int) -> Iterator[Thing]:
        """Yields what stands in a group."""
        place, end = self._start_of(group), self._end_of(group)
        while place < end:
            attributes, start = attributes_from(self.skim, place, end)
            if attributes and attributes[0].is_inner:
                place = start
                continue
            thing = thing_at(self.skim, start, end)
            if thing is None:
                return
            yield thing
            place = thing.end
            if place <= start:
                behind = following(self.text, start)
                place = end if behind is None else behind.end

    # Modules.

    def _read_modules(self) -> None:
        """Reads the modules that have a file of their own."""
        behind: Dict[int, int] = {}
        for place, around in self.skim.modules:
            # Each token of a group is looked at once, since the next module begins behind this one.
            group = around[-1] if around else -1
            begin = behind.get(group, group + 1 if around else self.skim.first)
            self.modules.append(self._declared(place, around, self._attributes_in(begin, place)))
            behind[group] = place

    def _attributes_in(self, begin: int, place: int) -> List[Token]:
        """Returns the attributes of the item whose word stands at a place, as the groups behind
        their `#`. The item begins behind another place."""
        attributes: List[Token] = []
        before = ""
        for token in level_tokens(self.skim, begin, place):
            first = self.text[token.start]
            if first in ";{":
                attributes.clear()
            elif before == "#" and first == "[":
                attributes.append(token)
            before = first
        return attributes

    def _declared(self, place: int, around: Sequence[int], attributes: Sequence[Token]) -> Declared:
        """Returns the module that begins at a place, in groups that begin at others. The attributes
        are the groups behind their `#`."""
        name = following(self.text, place + len("mod"))
        folders = map(self._inline_name, around)
        names = [following(self.text, one.start + 1) for one in attributes]
        own = {one.start for one in names if one is not None and word_at(self.text, one) == "path"}
        paths = [one for attribute in attributes
                 for one in PATH.finditer(self.text, attribute.start, attribute.end)
                 if one.start() in own or one.start(1) in self._path_guards]
        guards = tuple(self._path_guards.get(one.start(1)) for one in paths)
        usual: Optional[Guard] = None
        for guard in guards:
            usual = usual if guard is None else guard._replace(outer=usual, is_negated=True)
        return Declared(
            plain(self.text, name), place, tuple(one for one in folders if one is not None),
            tuple(one[1] for one in paths), not own, self._guard_at(place), guards, usual,
        )

    def _inline_name(self, place: int) -> Optional[str]:
        """Returns the name of the module whose group begins at a place, if it is one."""
        if place not in self._inline:
            found = INLINE.search(self.text[max(0, place - MOST_FRONT):place])
            self._inline[place] = None if found is None else found[1]
        return self._inline[place]

    def _guard_of(self, thing: Thing) -> Optional[Guard]:
        """Returns the innermost guard of an item, with those inside of its body."""
        guard = self._guard_at(thing.start)
        group = None if thing.body is None else self.skim.group_at(thing.body)
        for one in [] if group is None else self._inner.get(group, []):
            guard = one._replace(outer=guard)
        return guard


class Branches:
    """Reads the branches of a `cfg_if!` or a `cfg_select!`."""

    def __init__(
        self, reading: Reading, place: int, end: int, group: int, form: Form
    ) -> None:
        """The macro begins at a place of a group, and ends at another one."""
        self._reading = reading
        self._text = reading.text
        self._place = place
        self._end = end
        self._group = group
        self._form = form
        self._around = self._base = reading.now_at(place)
        self._has_last = False
        self.numbers: List[int] = []

    def chain(self) -> Chain:
        """Returns what was read."""
        return Chain(self._form, self._place, self.numbers, self._has_last, self._around)

    def _add(self, start: int, end: int, ends: Sequence[str] = ()) -> Found:
        """Adds the condition of a branch, which holds only if none before it does."""
        self.numbers.append(len(self._reading.conditions))
        return self._reading.add(self._form, start, end, self._base, ends=ends)

    def _branch(self, found: Optional[Found], start: int, end: int) -> None:
        """Begins the code of a branch. Without a condition, it is taken if no other one is."""
        self._reading.add_branch(start, self._group)
        if found is None:
            self._has_last = True
            if self._base is not None:
                self._reading.wait(start, self._base._replace(end=end))
            return
        number = self.numbers[-1]
        self._reading.wait(start, Guard(self._base, end, found.text, number))
        self._base = Guard(self._base, self._end, found.text, number, is_negated=True)

    def read_if(self, place: int, end: int) -> None:
        """Reads the branches of `cfg_if!` up to a place."""
        skim, word = self._reading.skim, "if"
        while True:
            token = following(self._text, place)
            if token is None or word_at(self._text, token) != word:
                return
            found = None
            if word == "if":
                pound = following(self._text, token.end)
                found, place = self._condition_at(pound)
                token = following(self._text, place)
            if token is None or word_at(self._text, token) != "{" or token.start >= end:
                return
            close = skim.end_of(token.start)
            self._branch(found, token.start, close)
            behind = following(self._text, close + 1)
            if found is None or behind is None or word_at(self._text, behind) != "else":
                return
            place = behind.end
            behind = following(self._text, place)
            word = "if" if word_at(self._text, behind) == "if" else "{"

    def _condition_at(self, pound: Optional[Token]) -> Tuple[Optional[Found], int]:
        """Reads the condition of a branch at a `#`, and returns the place behind it."""
        if pound is None:
            return None, len(self._text)
        one = attribute_at(self._reading.skim, pound.start)
        meta = None if one is None else meta_at(self._reading.skim, one.inside, one.end)
        if one is None or meta is None or meta.inside is None:
            return None, len(self._text)
        self._reading.expect_end(meta.end)
        self._reading.mark_read(one.start)
        return self._add(meta.inside, meta.end), one.end + 1

    def read_select(self, place: int, end: int) -> None:
        """Reads the branches of `cfg_select!` up to a place."""
        skim = self._reading.skim
        while not self._has_last:
            level = level_tokens(skim, place, end)
            arrow = next((one for one in level if word_at(self._text, one) == "=>"), None)
            if arrow is None:
                return
            first = following(self._text, place)
            is_last = word_at(self._text, first) == "_"
            found = None if is_last else self._add(place, arrow.start, ("=>",))
            opened = following(self._text, arrow.end)
            cursor = Cursor(skim, arrow.end, end)
            pass_arm(cursor)
            if opened is None or opened.start >= end:
                return
            self._branch(found, opened.start, cursor.place)
            behind = following(self._text, cursor.place)
            is_mark = behind is not None and word_at(self._text, behind) == ","
            place = behind.end if behind is not None and is_mark else cursor.place


def nested_texts(
    text: Optional[str], guard: Optional[Guard], depth: int
) -> Optional[List[str]]:
    """Returns the conditions of the `cfg_attr` around an attribute, from the outside in, and then
    its own. The innermost of them has a guard. Returns `None` if one of them is not known."""
    texts = [] if text is None else [text]
    for _ in range(min(depth, MOST_NESTED)):
        if guard is not None and guard.text is not None:
            texts.insert(0, guard.text)
        guard = None if guard is None else guard.outer
    return texts if len(texts) > depth else None


def whole_of(texts: List[str]) -> str:
    """Returns what has to hold for what stands in the last of nested `cfg_attr`."""
    return texts[0] if len(texts) == 1 else f"all({', '.join(texts)})"


def presence_of(texts: List[str]) -> str:
    """Returns what has to hold for what a `cfg` stands on that is inside of some `cfg_attr`."""
    *around, own = texts
    denied = [f"not({one})" for one in around]
    return f"any({', '.join([*denied, own])})" if denied else own
