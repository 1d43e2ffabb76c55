"""Texts read by a reader of its own: the tokens of each text, and of accepted texts the predicates
with spans, the steps and the values. It is what the calls are compared with."""
import re

TOKEN = re.compile(rb'[A-Za-z_][A-Za-z0-9_]*|"[^"]*"|[=(),]')
# The characters with the property White_Space of Unicode 16.
BLANKS = re.compile("[\t-\r \x85\xa0\u1680\u2000-\u200a\u2028\u2029\u202f\u205f\u3000]*")
SIGNS = {b"=": 3, b"all": 4, b"any": 5, b"not": 6, b"(": 7, b")": 8, b",": 9}
UNCLOSED_QUOTES, UNEXPECTED, START = 5, 8, 2
FUNCTIONS = {b"not": 3, b"all": 4, b"any": 5}
LITERALS = {b"false": 0, b"true": 1}
ASK = 2
FLAG, KEY_VALUE, FAMILY = 1, 2, 12
ALONE = {b"test": 3, b"debug_assertions": 4, b"proc_macro": 5}
TEXTS = {
    b"feature": 6, b"target_feature": 7, b"target_abi": 8, b"target_arch": 9, b"target_env": 11,
    b"target_family": 12, b"target_os": 14, b"panic": 15, b"target_vendor": 17,
}
NUMBERS = {b"target_endian": 10, b"target_has_atomic": 13, b"target_pointer_width": 16}
WORDS = {b"big": 0, b"little": 1, b"ptr": 65536}


def predicate_of(key, value):
    """Returns the kind, the number and the spans of a predicate. `value` has its quotes, and is
    None if the key stands alone."""
    word = key.group()
    if value is None:
        if word in (b"unix", b"windows"):
            return (FAMILY, 0, *key.span(), 0, 0, *key.span())
        if word in ALONE:
            return (ALONE[word], 0, *key.span(), 0, 0, 0, 0)
        return (FLAG, 0, *key.span(), *key.span(), 0, 0)
    inside = value.group()[1:-1]
    whole, span = (key.start(), value.end()), (value.start() + 1, value.end() - 1)
    if word in NUMBERS:
        number = WORDS[inside] if inside in WORDS else int(inside)
        return (NUMBERS[word], number, *whole, 0, 0, 0, 0)
    if word in TEXTS:
        return (TEXTS[word], 0, *whole, 0, 0, *span)
    return (KEY_VALUE, 0, *whole, *key.span(), *span)


def stripped(text):
    """Returns where the stripped text begins and ends."""
    is_stripped = text.startswith(b"cfg(") and text.endswith(b")")
    return (4, len(text) - 1) if is_stripped else (0, len(text))


def behind_blanks(text, at, end):
    """Returns the first place from `at` on that is behind all white space."""
    return at + len(BLANKS.match(text[at:end].decode())[0].encode())


def kind_of(word):
    """Returns the number of the kind of a token."""
    return SIGNS.get(word, 2 if word.startswith(b'"') else 1)


def fault_at(text, at, end):
    """Returns the fields of the fault at a place: a quote that is never closed, up to the end, or
    one byte with which no token can start."""
    offset, _ = stripped(text)
    if text[at:at + 1] == b'"':
        return 0, offset, at - offset, end - offset, 0, UNCLOSED_QUOTES, 0
    return 0, offset, at - offset, at + 1 - offset, 0, UNEXPECTED, START


def tokens_of(text):
    """Returns the kind, the start and the end of each token, where the stripped text begins, and
    the fields of the lexical fault, or None if there is none."""
    (offset, end), tokens = stripped(text), []
    at = behind_blanks(text, offset, end)
    while token := TOKEN.match(text, at, end):
        tokens.append((kind_of(token[0]), *token.span()))
        at = behind_blanks(text, token.end(), end)
    return tokens, offset, None if at == end else fault_at(text, at, end)


class Condition:
    """An accepted text."""

    def __init__(self, text):
        self.tokens = list(TOKEN.finditer(text, *stripped(text)))
        self.tree = self.read_members(0)[0][0]

    def read_members(self, at):
        """Returns the members from a place up to a `)` or the end, and the place behind it.

        A member is a predicate, a literal, or the pair of a function and its members.
        """
        members = []
        while at < len(self.tokens) and self.tokens[at].group() != b")":
            word = self.tokens[at].group()
            following = self.tokens[at + 1].group() if at + 1 < len(self.tokens) else b""
            if word in FUNCTIONS:
                inner, at = self.read_members(at + 2)
                members.append((FUNCTIONS[word], inner))
            elif following == b"=":
                members.append(predicate_of(self.tokens[at], self.tokens[at + 2]))
                at += 3
            else:
                if word != b",":
                    members.append(LITERALS.get(word, predicate_of(self.tokens[at], None)))
                at += 1
        return members, at + 1

    def predicates(self):
        """Returns the predicates in the order in which they are asked."""
        return list(asked(self.tree))

    def steps(self):
        """Returns the kind and the number of each step."""
        numbers = {predicate: number for number, predicate in enumerate(self.predicates())}
        return [step_of(member, numbers) for member in nodes(self.tree)]

    def value(self, answers):
        """Returns the value over answers, each of which is True, False, or None for unknown."""
        return value_of(self.tree, dict(zip(self.predicates(), answers)))


def is_function(member):
    """Whether the member is a pair of a function and its members."""
    return isinstance(member, tuple) and len(member) == 2


def is_predicate(member):
    """Whether the member is a predicate."""
    return isinstance(member, tuple) and len(member) == 8


def asked(member):
    """Yields the predicates of a member in the order of asking: first those of functions."""
    if is_function(member):
        for inner in sorted(member[1], key=lambda inner: not is_function(inner)):
            yield from asked(inner)
    elif is_predicate(member):
        yield member


def nodes(member):
    """Yields a member, and then those below it, in the order of the text."""
    yield member
    if is_function(member):
        for inner in member[1]:
            yield from nodes(inner)


def step_of(member, numbers):
    """Returns the kind and the number of the step of a member. `numbers` has those of the
    predicates, each of which has another span."""
    if is_function(member):
        return member[0], len(member[1])
    return (ASK, numbers[member]) if is_predicate(member) else (member, 0)


def trees_of(steps, predicates):
    """Returns the trees of steps, each of which is a kind and a number."""
    stack = []
    for kind, number in reversed(steps):
        if kind in FUNCTIONS.values():
            stack.append((kind, [stack.pop() for _ in range(number)]))
        else:
            stack.append(predicates[number] if kind == ASK else kind)
    return stack


def value_of(member, answers):
    """Returns the value of a member over the answers to its predicates."""
    if is_predicate(member):
        return answers[member]
    kind, inner = member if is_function(member) else (member, [])
    return joined(kind, [value_of(one, answers) for one in inner])


def joined(kind, values):
    """Returns the value of a literal or of a function over values."""
    if kind in LITERALS.values():
        return bool(kind)
    if kind == FUNCTIONS[b"not"]:
        return None if values[0] is None else not values[0]
    deciding = kind == FUNCTIONS[b"any"]
    if deciding in values:
        return deciding
    return None if None in values else not deciding
