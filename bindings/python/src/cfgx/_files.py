"""Files that stand where somebody else put them, such as in a folder that is audited."""
import errno
import os
import stat
from typing import Union

# The bytes that a file may have which is read, unless a caller says another number.
MOST_BYTES = 1 << 20
# A file is opened without waiting, as for somebody who writes into a FIFO.
HOW = os.O_RDONLY | sum(
    getattr(os, name, 0) for name in ("O_NONBLOCK", "O_NOCTTY", "O_CLOEXEC", "O_BINARY")
)


def bytes_of(path: str, most: int = MOST_BYTES) -> bytes:
    """Returns what a file has. Raises `OSError` if it cannot be read, is no regular file, or has
    more than `most` bytes."""
    expect_fit(path, most)
    descriptor = os.open(path, HOW)
    with open(descriptor, "rb") as file:
        # Another file may stand there by now.
        expect_fit(descriptor, most)
        data = file.read(most + 1)
    if len(data) > most:
        raise too_large(most)
    return data


def expect_fit(file: Union[str, int], most: int = MOST_BYTES) -> None:
    """Raises `OSError` for what is no regular file, and for a file of more than `most` bytes. It is
    not opened, since to open a device may do something, and to open a FIFO may wait."""
    found = os.stat(file)
    if not stat.S_ISREG(found.st_mode):
        raise OSError(errno.EINVAL, "it is no regular file")
    if found.st_size > most:
        raise too_large(most)


def too_large(most: int) -> OSError:
    """Returns the error for a file of more than `most` bytes."""
    return OSError(errno.EFBIG, f"it has more than {most} bytes")
