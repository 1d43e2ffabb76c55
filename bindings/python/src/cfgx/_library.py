"""The calls of cfgx.h. A text is `bytes` here, and spans count bytes.

No pointer is null: `ctypes` passes an address also for an array or `bytes` without items.
"""
import ctypes
import itertools
import os
import re
import sys
from bisect import bisect_left
from ctypes import POINTER, c_char_p, c_size_t, c_uint8, c_uint32
from typing import Any, Callable, List, Optional, Sequence, Tuple, Union

from . import __version__

# The package calls a library whose first two numbers are its own, and which has the calls below.
LANGUAGE, MAJOR = map(int, __version__.split(".")[:2])
MINOR = 0
# The file of the library on macOS and on Windows, by the names of Python for both.
NAMES = {"darwin": "libcfgx.dylib", "win32": "cfgx.dll"}
NAME = NAMES.get(sys.platform, f"libcfgx.so.{LANGUAGE}.{MAJOR}")
FOLDER = os.path.dirname(os.path.abspath(__file__))

# The statuses that calls return.
DONE, FAULTY, OUT_OF_MEMORY, MISCOUNTED, TOO_LARGE, FAULTY_FACT = 0, 1, 3, 5, 8, 9

# The numbers of byte orders, and of the width `ptr` of an atomic.
ENDIANS = ("big", "little")
ATOMIC_POINTER = 65536

# The values that the numbers of answers and values stand for.
VALUES = (False, True, None)

# A byte in UTF-8 that is not the first one of its character.
LATER_BYTE = re.compile(b"[\x80-\xbf]")


class Fault(ctypes.Structure):
    """The struct cfgx_fault."""
    _fields_ = [
        ("item", c_size_t), ("offset", c_size_t), ("start", c_size_t), ("end", c_size_t),
        ("members", c_size_t), ("reason", c_uint32), ("terms", c_uint32),
    ]


class Described(ctypes.Structure):
    """The struct cfgx_predicate."""
    _fields_ = [
        ("kind", c_uint32), ("number", c_uint32), ("start", c_size_t), ("end", c_size_t),
        ("key_start", c_size_t), ("key_end", c_size_t), ("value_start", c_size_t),
        ("value_end", c_size_t),
    ]


class Step(ctypes.Structure):
    """The struct cfgx_step."""
    _fields_ = [("kind", c_uint32), ("number", c_size_t)]


# The steps and the predicates for which the first call has room. Most conditions have fewer.
ROOM = 32

BYTES = POINTER(c_uint8)
SIZES = POINTER(c_size_t)
STEPS = POINTER(Step)
FAULT = POINTER(Fault)
TEXT = (c_char_p, c_size_t)
LIST = (c_char_p, c_size_t, SIZES, c_size_t)
ARGUMENTS = {
    "cfgx_version": (),
    "cfgx_check": (*TEXT, FAULT),
    "cfgx_explain": (*TEXT, BYTES, c_size_t, SIZES, FAULT),
    "cfgx_decide": (*TEXT, c_char_p, c_size_t, BYTES, c_size_t, SIZES, BYTES, FAULT),
    "cfgx_answers": (*TEXT, *LIST, c_uint8, BYTES, c_size_t, SIZES, FAULT),
    "cfgx_compile": (*TEXT, STEPS, c_size_t, SIZES, POINTER(Described), c_size_t, SIZES, FAULT),
    "cfgx_apply": (STEPS, c_size_t, c_char_p, c_size_t, BYTES),
    "cfgx_audit": (*LIST, *LIST, SIZES, c_size_t, c_uint8, BYTES, c_size_t, SIZES, FAULT),
}


def parts_of(number: int) -> Tuple[int, int, int]:
    """Returns the version of the language, the major and the minor version."""
    return number // 1000000, number // 1000 % 1000, number % 1000


def path_of() -> str:
    """Returns what the loader is asked for."""
    named = os.environ.get("CFGX_LIBRARY")
    if named:
        return os.path.abspath(named)
    beside = os.path.join(FOLDER, NAME)
    return beside if os.path.exists(beside) else NAME


def import_error(message: str) -> ImportError:
    """Returns an error that names the package. So `python3 -m cfgx` prints it in a line, and no
    traceback."""
    return ImportError(message, name=__package__)


def load(path: str) -> Any:
    """Returns the library at a path, whose calls know their arguments."""
    try:
        library = ctypes.CDLL(path)
        for name, arguments in ARGUMENTS.items():
            call = getattr(library, name)
            call.argtypes, call.restype = arguments, c_uint32
    except (OSError, AttributeError) as error:
        raise import_error(
            f"cfgx cannot load {path} ({error}): install the library by crates/cfgx_c/install of"
            f" its repository, and put it into {FOLDER} or where the loader looks, or let"
            f" CFGX_LIBRARY name the file {NAME}"
        ) from error
    language, major, minor = parts_of(library.cfgx_version())
    if (language, major) != (LANGUAGE, MAJOR) or minor < MINOR:
        raise import_error(
            f"cfgx needs version {LANGUAGE}.{MAJOR}.{MINOR} of {NAME} or a later"
            f" {LANGUAGE}.{MAJOR}, and {path} has version {language}.{major}.{minor}"
        )
    return library


LIBRARY = load(path_of())


def version() -> str:
    """Returns the version of the library: that of the language of conditions, and the major and
    minor version of the calls."""
    return ".".join(map(str, parts_of(LIBRARY.cfgx_version())))


def expect_done(status: int) -> None:
    """Raises `MemoryError` if memory was refused. No other status but that of done can occur."""
    if status in (OUT_OF_MEMORY, TOO_LARGE):
        raise MemoryError("cfgx got no memory")
    if status != DONE:
        raise AssertionError(f"status {status} of libcfgx")


def utf8_of(text: str) -> bytes:
    """Returns a text in UTF-8."""
    if not isinstance(text, str):
        raise TypeError(f"a text is a str, and not {text!r}")
    return text.encode()


def number_of(answer: Optional[bool]) -> int:
    """Returns the number of an answer. What only equals one, such as 0, is none."""
    for number, value in enumerate(VALUES):
        if answer is value:
            return number
    raise TypeError(f"an answer is True, False or None, and not {answer!r}")


def characters_in(text: bytes) -> Callable[[int, int], Tuple[int, int]]:
    """Returns what makes the span of bytes of a text that of its characters. A character is in a
    span if its first byte is."""
    later = [byte.start() for byte in LATER_BYTE.finditer(text)]
    return lambda start, end: (start - bisect_left(later, start), end - bisect_left(later, end))


def explain(text: bytes) -> bytes:
    """Returns what the program cfgx prints of the fault of a faulty text, without the last line
    feed."""
    room, needed = 0, c_size_t(len(text) + 100)
    while room < needed.value:
        room = needed.value
        message = (c_uint8 * room)()
        status = LIBRARY.cfgx_explain(text, len(text), message, room, needed, Fault())
    if status != FAULTY:
        expect_done(status)
    return bytes(message[:needed.value])


def fault_of(text: bytes) -> Optional[Fault]:
    """Returns the fault of a text, or `None` if it is a condition."""
    fault = Fault()
    status = LIBRARY.cfgx_check(text, len(text), fault)
    if status == FAULTY:
        return fault
    expect_done(status)
    return None


def compiled(text: bytes) -> Union[Fault, Tuple[Any, List[Described]]]:
    """Returns the steps and the predicates of a condition, or the fault of a faulty text."""
    found = described(text)
    return found if isinstance(found, Fault) else (found[0], list(found[1]))


def described(text: bytes) -> Union[Fault, Tuple[Any, Any]]:
    """Returns arrays of the steps and of the predicates of a condition, or the fault of a faulty
    text."""
    steps, predicates = (Step * ROOM)(), (Described * ROOM)()
    step_count, count, fault = c_size_t(), c_size_t(), Fault()

    def call() -> int:
        status: int = LIBRARY.cfgx_compile(
            text, len(text), steps, len(steps), step_count, predicates, len(predicates), count,
            fault,
        )
        return status

    status = call()
    if step_count.value > ROOM or count.value > ROOM:
        steps, predicates = (Step * step_count.value)(), (Described * count.value)()
        status = call()
    if status == FAULTY:
        return fault
    expect_done(status)
    return (
        (Step * step_count.value).from_buffer_copy(steps),
        (Described * count.value).from_buffer_copy(predicates),
    )


def values_of(predicates: Any) -> Tuple[Sequence[int], Sequence[int]]:
    """Returns where the values of an array of predicates start, and where they end."""
    size = ctypes.sizeof(c_size_t)
    each, sizes = ctypes.sizeof(Described) // size, memoryview(bytes(predicates)).cast("N")
    return sizes[Described.value_start.offset // size::each], (
        sizes[Described.value_end.offset // size::each]
    )


def value_number(steps: Any, answers: bytes) -> int:
    """Returns the number of the value of the steps of a condition over the numbers of as many
    answers as it has predicates."""
    found = c_uint8()
    expect_done(LIBRARY.cfgx_apply(steps, len(steps), answers, len(answers), found))
    return found.value


def value(steps: Any, answers: bytes) -> Optional[bool]:
    """Returns the value that `value_number` numbers."""
    return VALUES[value_number(steps, answers)]


def filling_numbers(text: bytes, answers: bytes) -> Tuple[bytes, bytes]:
    """Returns the fillings of a condition that is unknown over the numbers of as many answers as it
    has predicates: the numbers of answers with which it is true, and of answers with which it is
    false."""
    count = len(answers)
    both = (c_uint8 * (2 * count))()
    expect_done(LIBRARY.cfgx_decide(
        text, len(text), answers, count, both, len(both), c_size_t(), c_uint8(), Fault()
    ))
    found = bytes(both)
    return found[:count], found[count:]


def fillings(text: bytes, answers: bytes) -> Tuple[List[bool], List[bool]]:
    """Returns the answers that `filling_numbers` numbers."""
    if_true, if_false = filling_numbers(text, answers)
    return list(map(bool, if_true)), list(map(bool, if_false))


def list_of(texts: Sequence[bytes]) -> Tuple[bytes, int, Any, int]:
    """Returns a list of texts as a call takes it."""
    ends = (c_size_t * len(texts))(*itertools.accumulate(map(len, texts)))
    joined = b"".join(texts)
    return joined, len(joined), ends, len(ends)


def answers(
    text: bytes, count: int, facts: Sequence[bytes], otherwise: int
) -> Union[Fault, List[Optional[bool]]]:
    """Returns the answers of facts to the predicates of a condition, of which there are `count`, or
    the fault of the first faulty fact."""
    found, fault = (c_uint8 * count)(), Fault()
    status = LIBRARY.cfgx_answers(
        text, len(text), *list_of(facts), otherwise, found, count, c_size_t(), fault
    )
    if status == FAULTY_FACT:
        return fault
    expect_done(status)
    return [VALUES[number] for number in found]


def audit(
    texts: Sequence[bytes], facts: Sequence[bytes], target_ends: Sequence[int], otherwise: int
) -> Tuple[int, Fault, bytes]:
    """Returns the status, the fault, and the numbers of the values of the texts on the targets. The
    status is that of done, or that of a faulty text or fact, for which the values say nothing."""
    fault, count = Fault(), len(target_ends)
    ends, values = (c_size_t * count)(*target_ends), (c_uint8 * (len(texts) * count))()
    status = LIBRARY.cfgx_audit(
        *list_of(texts), *list_of(facts), ends, count, otherwise, values, len(values), c_size_t(),
        fault,
    )
    if status not in (FAULTY, FAULTY_FACT):
        expect_done(status)
    return status, fault, bytes(values)
