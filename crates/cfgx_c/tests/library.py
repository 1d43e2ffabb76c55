"""The calls of cfgx.h for Python, by which rows.py calls the shared library.

A text is `bytes`. A value or an answer is True, False, or None for unknown.
"""
import ctypes
from ctypes import POINTER, c_char_p, c_size_t, c_uint8, c_uint32

VERSION = 2_003_000
DONE, FAULTY, OUT_OF_MEMORY, NOT_UTF8, FAULTY_FACT = 0, 1, 3, 4, 9
STATUSES = (
    "done", "a faulty text", "wrong use", "out of memory", "not UTF-8", "miscounted answers",
    "bad ends", "steps without a value", "too many values", "a faulty fact",
)
TOKENS = (
    "", "key", "value", "equals", "all", "any", "not", "open_paren", "close_paren", "comma",
)
BYTES = POINTER(c_uint8)
SIZES = POINTER(c_size_t)
TEXT = (c_char_p, c_size_t)
LIST = (c_char_p, c_size_t, SIZES, c_size_t)


class Fault(ctypes.Structure):
    """The struct cfgx_fault."""
    _fields_ = [(name, c_size_t) for name in ("item", "offset", "start", "end", "members")]
    _fields_ += [("reason", c_uint32), ("terms", c_uint32)]


class Predicate(ctypes.Structure):
    """The struct cfgx_predicate."""
    _fields_ = [("kind", c_uint32), ("number", c_uint32), ("start", c_size_t), ("end", c_size_t)]
    _fields_ += [("key_start", c_size_t), ("key_end", c_size_t)]
    _fields_ += [("value_start", c_size_t), ("value_end", c_size_t)]


class Step(ctypes.Structure):
    """The struct cfgx_step."""
    _fields_ = [("kind", c_uint32), ("number", c_size_t)]


class Token(ctypes.Structure):
    """The struct cfgx_token."""
    _fields_ = [("kind", c_uint32), ("start", c_size_t), ("end", c_size_t)]


FAULT = POINTER(Fault)
ARGUMENTS = {
    "version": (),
    "check": (*TEXT, FAULT),
    "explain": (*TEXT, BYTES, c_size_t, SIZES, FAULT),
    "predicates": (*TEXT, POINTER(Predicate), c_size_t, SIZES, FAULT),
    "value": (*TEXT, c_char_p, c_size_t, BYTES, FAULT),
    "decide": (*TEXT, c_char_p, c_size_t, BYTES, c_size_t, SIZES, BYTES, FAULT),
    "answers": (*TEXT, *LIST, c_uint8, BYTES, c_size_t, SIZES, FAULT),
    "compile": (
        *TEXT, POINTER(Step), c_size_t, SIZES, POINTER(Predicate), c_size_t, SIZES, FAULT,
    ),
    "apply": (POINTER(Step), c_size_t, c_char_p, c_size_t, BYTES),
    "audit": (*LIST, *LIST, SIZES, c_size_t, c_uint8, BYTES, c_size_t, SIZES, FAULT),
    "tokens": (*TEXT, POINTER(Token), c_size_t, SIZES, SIZES, FAULT),
    "run": (*LIST, c_char_p, c_size_t, BYTES, c_size_t, SIZES),
}


class CfgxError(Exception):
    """A status other than that of a result, and the number of the text or the fact at fault if the
    call has several."""

    def __init__(self, status, item=None):
        super().__init__(STATUSES[status] + ("" if item is None else f", number {item}"))
        self.status = status
        self.item = item


def expect_done(status, item=None):
    """Raises the status, unless it is that of a result."""
    if status != DONE:
        raise CfgxError(status, item)


def list_of(texts):
    """Returns the texts as a call takes them."""
    ends, length = [], 0
    for text in texts:
        length += len(text)
        ends.append(length)
    return b"".join(texts), length, (c_size_t * len(ends))(*ends), len(ends)


def bytes_of(answers):
    """Returns the answers as a call takes them."""
    return bytes(2 if answer is None else answer for answer in answers), len(answers)


def value_of(byte):
    """Returns the value in a byte."""
    return {0: False, 1: True, 2: None}[byte]


def filled(item, call):
    """Calls with as much room as is needed, and returns the status and the items."""
    buffer, needed = (item * 0)(), c_size_t()
    status = call(buffer, 0, needed)
    if needed.value > 0:
        buffer = (item * needed.value)()
        status = call(buffer, len(buffer), needed)
    return status, buffer[:]


class Cfgx:
    """The library at a path."""

    def __init__(self, path):
        self.library = ctypes.CDLL(path)
        version = self.version()
        if version // 1000 != VERSION // 1000 or version < VERSION:
            raise OSError(f"{path} has the version {version}, which does not suit {VERSION}")

    def call(self, name, *arguments):
        """Makes a call, and returns its status."""
        function = getattr(self.library, f"cfgx_{name}")
        if function.argtypes is None:
            function.argtypes, function.restype = ARGUMENTS[name], c_uint32
        return function(*arguments)

    def version(self):
        """Returns the version of the library."""
        return self.call("version")

    def check(self, text):
        """Returns the first fault of a text, or None if it is a condition."""
        fault = Fault()
        status = self.call("check", text, len(text), fault)
        if status == FAULTY:
            return fault
        expect_done(status)
        return None

    def explain(self, text):
        """Returns what is wrong with a text, or None if it is a condition."""
        status, message = filled(
            c_uint8, lambda *buffer: self.call("explain", text, len(text), *buffer, Fault())
        )
        if status == FAULTY:
            return bytes(message)
        expect_done(status)
        return None

    def predicates(self, text):
        """Returns the predicates of a condition, in the order in which they are asked."""
        status, predicates = filled(
            Predicate, lambda *buffer: self.call("predicates", text, len(text), *buffer, Fault())
        )
        expect_done(status)
        return predicates

    def value(self, text, answers):
        """Returns the value of a condition over the answers to its predicates."""
        value = c_uint8()
        expect_done(self.call("value", text, len(text), *bytes_of(answers), value, Fault()))
        return value_of(value.value)

    def decide(self, text, answers):
        """Returns the value of a condition, and the fillings that make it true and false if the
        value is unknown."""
        value, given = c_uint8(), (text, len(text), *bytes_of(answers))
        status, fillings = filled(
            c_uint8, lambda *buffer: self.call("decide", *given, *buffer, value, Fault())
        )
        expect_done(status)
        both = [value_of(byte) for byte in fillings]
        return value_of(value.value), both[:len(answers)], both[len(answers):]

    def answers(self, text, facts, otherwise=False):
        """Returns the answers of facts to the predicates of a condition. With `otherwise` None,
        predicates that are not on the target are unknown if no fact names them."""
        given = (text, len(text), *list_of(facts), bytes_of([otherwise])[0][0])
        status, answers = filled(
            c_uint8, lambda *buffer: self.call("answers", *given, *buffer, Fault())
        )
        expect_done(status)
        return [value_of(byte) for byte in answers]

    def compile(self, text):
        """Returns the steps and the predicates of a condition."""
        steps, predicates, counts = (Step * 0)(), (Predicate * 0)(), (c_size_t(), c_size_t())
        while True:
            expect_done(self.call("compile", text, len(text), steps, len(steps), counts[0],
                                  predicates, len(predicates), counts[1], Fault()))
            if (len(steps), len(predicates)) == (counts[0].value, counts[1].value):
                return steps[:], predicates[:]
            steps, predicates = (Step * counts[0].value)(), (Predicate * counts[1].value)()

    def apply(self, steps, answers):
        """Returns the value of the condition that has these steps."""
        value = c_uint8()
        array = (Step * len(steps))(*steps)
        expect_done(self.call("apply", array, len(array), *bytes_of(answers), value))
        return value_of(value.value)

    def audit(self, texts, targets, otherwise=False):
        """Returns, for each condition, its values on the targets, each of which is a list of
        facts."""
        ends, facts, fault = [], [], Fault()
        for target in targets:
            facts += target
            ends.append(len(facts))
        given = (*list_of(texts), *list_of(facts), (c_size_t * len(ends))(*ends), len(ends),
                 bytes_of([otherwise])[0][0])
        status, values = filled(
            c_uint8, lambda *buffer: self.call("audit", *given, *buffer, fault)
        )
        is_told = status in (FAULTY, NOT_UTF8, FAULTY_FACT)
        expect_done(status, fault.item if is_told else None)
        rows = range(len(texts))
        return [
            [value_of(byte) for byte in values[row * len(ends):(row + 1) * len(ends)]]
            for row in rows
        ]

    def tokens(self, text):
        """Returns the tokens of a text up to its lexical fault, where the stripped text begins, and
        this fault, or None if there is none."""
        offset, fault = c_size_t(), Fault()
        status, tokens = filled(
            Token, lambda *buffer: self.call("tokens", text, len(text), *buffer, offset, fault)
        )
        if status == FAULTY:
            return tokens, offset.value, fault
        expect_done(status)
        return tokens, offset.value, None

    def run(self, words, text=b""):
        """Returns the status with which cfgx ends, and what it prints."""
        status, output = filled(
            c_uint8, lambda *buffer: self.call("run", *list_of(words), text, len(text), *buffer)
        )
        if status > OUT_OF_MEMORY:
            raise CfgxError(status)
        return status, bytes(output)
