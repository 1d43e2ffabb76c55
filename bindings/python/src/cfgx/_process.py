"""How the package starts other programs, which are `cargo` and `rustc`."""
import errno
import os
import queue
import shutil
import signal
import subprocess
import sys
import threading
import time
from typing import List, Mapping, NamedTuple, Optional, Sequence

# Programs start in this folder. In the current one, rustup takes a program from where the file
# `rust-toolchain.toml` says, and Cargo reads a configuration.
START = os.sep
# How many bytes are read at once.
PIECE = 1 << 16
# The longest time, in seconds, for which one call waits. The system has a limit for it.
LONGEST = 3600.0
# Windows has no groups of processes, and its pipes cannot be waited for together.
IS_WINDOWS = sys.platform == "win32"
# How the file of a program ends there. `cargo` and `rustc` are no scripts.
PROGRAM_END = ".exe"


class Ended(NamedTuple):
    """A program that has ended."""

    status: int
    """Its status, which is 0 if nothing failed."""
    stdout: bytes
    """What it printed on stdout."""
    stderr: bytes
    """What it printed on stderr."""


class Limits(NamedTuple):
    """What a program may take. `None` is no limit."""

    seconds: Optional[float] = None
    """How long it may run."""
    output: Optional[int] = None
    """How many bytes it may print on each stream."""
    memory: Optional[int] = None
    """How many bytes of data its process may have. Only Linux limits them."""


class LimitError(Exception):
    """A program was ended, since it ran too long or printed too much. The message says which."""


def path_to(program: str) -> str:
    """Returns the whole path of a program. A name is looked for in the folders of `PATH`, but not
    in one that is named by a relative path, such as `.` or an empty one: so nothing of the current
    folder is found, where Windows would look first. Raises `FileNotFoundError`."""
    if os.path.dirname(program):
        return os.path.abspath(program)
    file = program + PROGRAM_END if IS_WINDOWS else program
    for folder in filter(os.path.isabs, os.environ.get("PATH", os.defpath).split(os.pathsep)):
        found = shutil.which(os.path.join(folder, file))
        if found is not None:
            return found
    raise FileNotFoundError(errno.ENOENT, os.strerror(errno.ENOENT), program)


def run(
    words: Sequence[str], limits: Limits = Limits(), variables: Optional[Mapping[str, str]] = None
) -> Ended:
    """Runs a program with its arguments, in the folder `START` and without an input. `variables`
    are set in its environment, beside those of this process. Whatever it started in its group of
    processes, or on Windows by itself, ends with it if it exceeds a limit. Raises `OSError` if it
    does not start, `ValueError` for a zero byte in a word, and `LimitError`."""
    pipe = subprocess.PIPE
    with subprocess.Popen(
        [path_to(words[0]), *words[1:]], cwd=START, stdin=subprocess.DEVNULL, stdout=pipe,
        stderr=pipe, start_new_session=True, env={**os.environ, **(variables or {})},
    ) as process:
        try:
            limit_memory(process.pid, limits.memory)
            return ended(process, limits)
        except BaseException:
            end_all(process)
            raise


def limit_memory(process: int, most: Optional[int]) -> None:
    """Limits the data of a process."""
    if most is None:
        return
    try:
        import resource
        resource.prlimit(process, resource.RLIMIT_DATA, (most, most))
    except (ImportError, AttributeError, OSError, ValueError):
        # Another system has no such call, and a process may have a lower limit or have ended.
        pass


def end_all(process: "subprocess.Popen[bytes]") -> None:
    """Ends a process that began a group, and all others of the group. On Windows, it ends those
    that the process started."""
    try:
        if IS_WINDOWS:
            end_tree(process.pid)
        else:
            os.killpg(process.pid, signal.SIGKILL)
    except OSError:
        # None is left, or Windows lacks its program.
        pass
    process.kill()


def end_tree(process: int) -> None:
    """Ends a process and those that it started, by the program of Windows that does so. Raises
    `OSError` if it is not there."""
    system = os.path.join(os.environ.get("SystemRoot", "C:\\Windows"), "System32")
    words = [os.path.join(system, "taskkill.exe"), "/F", "/T", "/PID", str(process)]
    none = subprocess.DEVNULL
    subprocess.run(words, stdin=none, stdout=none, stderr=none, check=False)


def ended(process: "subprocess.Popen[bytes]", limits: Limits) -> Ended:
    """Waits for a process, and returns what it printed. Raises `LimitError`."""
    end = None if limits.seconds is None else time.monotonic() + limits.seconds
    done: "queue.SimpleQueue[Printed]" = queue.SimpleQueue()
    streams = [one.fileno() for one in (process.stdout, process.stderr) if one is not None]
    both = [Printed(stream, limits.output, done) for stream in streams]
    for printed in both:
        printed.start()
    for _ in both:
        printed = next_read(done, end, limits)
        printed.join()
        expect_whole(printed)
    status = waited_for(process, end, limits)
    stdout, stderr = (b"".join(printed.pieces) for printed in both)
    return Ended(status, stdout, stderr)


def processors() -> int:
    """Returns how many processors this process may use."""
    try:
        return len(os.sched_getaffinity(0))
    except (AttributeError, OSError):
        # Another system has no such call.
        return os.cpu_count() or 1


class Printed(threading.Thread):
    """What a process prints on a stream. A thread reads it, since no other way to read two of them
    works on all systems. It reads to the end, or until there is too much."""

    def __init__(
        self, stream: int, most: Optional[int], done: "queue.SimpleQueue[Printed]"
    ) -> None:
        """`stream` is the number of the open file, and `most` how many bytes it may print. The
        thread adds itself to `done` at its end."""
        # A process that is not ended, and keeps the stream open, does not keep this one.
        super().__init__(daemon=True)
        self.pieces: List[bytes] = []
        self.most = most
        self.is_whole = True
        self._stream, self._done = stream, done

    def run(self) -> None:
        """Reads."""
        try:
            self._read()
        except OSError:
            # Nobody waits for the process any more, and the stream is closed.
            pass
        self._done.put(self)

    def _read(self) -> None:
        """Reads. Raises `OSError`."""
        size, piece = 0, os.read(self._stream, PIECE)
        while piece:
            self.pieces.append(piece)
            size += len(piece)
            if self.most is not None and size > self.most:
                self.is_whole = False
                return
            piece = os.read(self._stream, PIECE)


def expect_whole(printed: Printed) -> None:
    """Raises `LimitError` if a process prints more on a stream than it may."""
    if not printed.is_whole:
        raise LimitError(f"printed more than {printed.most} bytes")


def next_read(
    done: "queue.SimpleQueue[Printed]", end: Optional[float], limits: Limits
) -> Printed:
    """Waits for what is read of the next stream that ends. Raises `LimitError`."""
    while True:
        try:
            return done.get(timeout=left_until(end, limits))
        except queue.Empty:
            # The time is looked at again.
            continue


def left_until(end: Optional[float], limits: Limits) -> Optional[float]:
    """Returns how long to wait at once, in seconds. Raises `LimitError` if the time has come."""
    if end is None:
        return None
    left = end - time.monotonic()
    if left <= 0:
        raise LimitError(f"did not end within {limits.seconds:g} s")
    return min(left, LONGEST)


def waited_for(
    process: "subprocess.Popen[bytes]", end: Optional[float], limits: Limits
) -> int:
    """Returns the status of a process that has closed its streams. Raises `LimitError`."""
    while True:
        try:
            return process.wait(left_until(end, limits))
        except subprocess.TimeoutExpired:
            # The time is looked at again.
            continue
