"""Folders that would make the command wait for ever, or take all memory."""
import itertools
import os
import resource
import shutil
import signal
import time
import unittest.mock

from . import needs
from .test_command import HOST, Made

from cfgx import _files, _process, manifest
from cfgx.manifest import _cargo, _flags, _platforms

MOST = 1 << 20
SPARSE = 4 << 30
# How a file is hostile, and what is said of it.
WAYS = {
    "a link to /dev/zero": "it is no regular file", "a FIFO": "it is no regular file",
    "a sparse file": "it has more than 1048576 bytes", "a folder": "it is no regular file",
    "a file with a byte too many": "it has more than 1048576 bytes",
}
# What the whole command may take for a hostile folder: seconds, and megabytes.
SECONDS, MEGABYTES = 5, 300


def make(path, way):
    """Makes a hostile file at a path."""
    os.makedirs(os.path.dirname(path), exist_ok=True)
    if way == "a FIFO":
        os.mkfifo(path)
    elif way == "a link to /dev/zero":
        os.symlink("/dev/zero", path)
    elif way == "a folder":
        os.mkdir(path)
    else:
        with open(path, "wb") as file:
            file.truncate(SPARSE if way == "a sparse file" else MOST + 1)


class Files(Made):
    """Files that are read."""

    def test_what_is_read(self):
        path = self.write("file", "é\r\n" + "a" * (MOST - 4))
        self.assertEqual(_files.bytes_of(path), "é\r\n".encode() + b"a" * (MOST - 4))
        os.symlink(path, os.path.join(self.folder, "link"))
        self.assertEqual(len(_files.bytes_of(os.path.join(self.folder, "link"))), MOST)
        self.assertEqual(_files.bytes_of(self.write("empty")), b"")

    def end_within(self, seconds):
        """Lets a call of the system that waits raise `TimeoutError` after some time."""
        def interrupt(*_):
            raise TimeoutError

        self.addCleanup(signal.signal, signal.SIGALRM, signal.signal(signal.SIGALRM, interrupt))
        self.addCleanup(signal.alarm, 0)
        signal.alarm(seconds)

    def test_what_is_not_read(self):
        self.end_within(SECONDS)
        for way, message in WAYS.items():
            path = os.path.join(self.folder, f"hostile/{way.replace('/', '')}")
            make(path, way)
            with self.subTest(way=way), self.assertRaises(OSError) as caught:
                _files.bytes_of(path)
            self.assertEqual(caught.exception.strerror, message)

    def test_a_file_that_is_exchanged(self):
        # Between the look at the file and its opening, another one takes its place.
        self.end_within(SECONDS)
        regular, hostile = self.write("regular", "a"), os.path.join(self.folder, "b/c")
        rows = [("a FIFO", "it is no regular file"),
                ("a file with a byte too many", "it has more than 1048576 bytes")]
        for way, message in rows:
            make(hostile, way)
            real = os.stat
            with self.subTest(way=way), self.assertRaises(OSError) as caught, \
                    unittest.mock.patch("os.stat", lambda file: real(
                        regular if file == hostile else file)):
                _files.bytes_of(hostile)
            self.assertEqual(caught.exception.strerror, message)
            os.remove(hostile)

    def test_a_file_that_grows(self):
        path = os.path.join(self.folder, "b/c")
        make(path, "a file with a byte too many")
        with unittest.mock.patch.object(_files, "expect_fit"), \
                self.assertRaises(OSError) as caught:
            _files.bytes_of(path)
        self.assertEqual(caught.exception.strerror, "it has more than 1048576 bytes")

    def test_what_is_not_there(self):
        for error, path in ((FileNotFoundError, "/nowhere/x"), (NotADirectoryError, "/dev/null/x")):
            with self.assertRaises(error):
                _files.bytes_of(path)


class Commands(Made):
    """The command in a hostile folder."""

    def bounded(self, *words, **variables):
        """Returns what the command does, which is to end soon and with little memory."""
        before, start = time.monotonic(), resource.getrusage(resource.RUSAGE_CHILDREN).ru_maxrss
        found = self.command(*words, **variables)
        self.assertLess(time.monotonic() - before, SECONDS)
        most = resource.getrusage(resource.RUSAGE_CHILDREN).ru_maxrss
        self.assertTrue(most == start or most < MEGABYTES * 1024, most)
        return found

    def test_configurations(self):
        places = ["audited/.cargo/config.toml", "audited/.cargo/config", ".cargo/config.toml",
                  ".cargo/config", "own/config.toml", "own/config"]
        for place in places:
            for way, message in WAYS.items():
                path = os.path.join(self.folder, place)
                make(path, way)
                with self.subTest(place=place, way=way):
                    found = self.bounded(CARGO_HOME=os.path.join(self.folder, "own"))
                    note = f"cfgx-deps: note: {path} was not read: {message}\n"
                    self.assertEqual((found[0], found[2]), (0, note))
                    self.assertIn("\na           yes   cfg(unix)\n", found[1])
                os.rmdir(path) if way == "a folder" else os.remove(path)

    def test_a_configuration_that_may_not_be_read(self):
        self.write("audited/.cargo/config.toml", "[build]\nrustflags = []\n")
        error = PermissionError(13, "Permission denied")
        with unittest.mock.patch("os.stat", side_effect=error):
            notes = list(_flags.notes_on_configurations(self.audited, {"CARGO_HOME": "/nowhere"}))
        self.assertIn(f"{self.audited}/.cargo/config.toml was not read: Permission denied", notes)

    def test_many_configurations(self):
        deep = os.path.join(self.audited, *"abcdefghijklmnopqrstuvwxyz" * 2)
        text = "[build]\nrustflags = []\n"
        folders = [deep[:2 * place + len(self.audited)] for place in range(52, 12, -1)]
        paths = [self.write(f"{folder}/.cargo/config", text) for folder in folders]
        notes = list(_flags.notes_on_configurations(deep, {"CARGO_HOME": "/nowhere"}))
        most = _flags.MOST_CONFIGURATIONS
        self.assertEqual(notes[:40], [
            *(f"{path} has rustflags, which are not read; --cfg says which flags are set"
              for path in paths[:most]),
            *(f"{path} was not read: it is behind {most} others" for path in paths[most:]),
        ])

    def test_facts(self):
        for way, message in WAYS.items():
            path = os.path.join(self.folder, f"facts/{way.replace('/', '')}.cfg")
            make(path, way)
            with self.subTest(way=way):
                wanted = f"cfgx-deps: {path} cannot be read: {message}\n"
                self.assertEqual(self.bounded("--facts", path), (3, "", wanted))

    def test_manifests(self):
        # A `cargo` that is made up says what a real one does: it waits.
        self.write_program("tools/cargo", f"#!/bin/sh\nexec {shutil.which('sleep')} 60\n")
        ways = [way for way in WAYS if way != "a folder"]
        for way, words in itertools.product(ways, ([], [self.path], ["."])):
            os.remove(self.path)
            make(self.path, way)
            with self.subTest(way=way, words=words):
                wanted = f"cfgx-deps: {self.path} cannot be read: {WAYS[way]}\n"
                self.assertEqual(self.bounded(*words), (3, "", wanted))

    def test_a_manifest_with_a_zero_byte_in_its_path(self):
        with self.assertRaisesRegex(manifest.CargoError, "cannot be read: .*embedded null"):
            manifest.report("a\0b")

    def waiting(self, way):
        """Lets cargo start another process, and both wait. Returns the file with its number."""
        mark = os.path.join(self.folder, "mark")
        sleep = shutil.which("sleep")
        self.write_program("tools/cargo", (
            f"#!/bin/sh\n{sleep} 60 & echo $! > {mark}\n{way}\n"
        ))
        return mark

    def assert_ended(self, mark):
        """Fails if the process with the number in a file runs."""
        with open(mark, encoding="utf-8") as file:
            number = int(file.read())
        for _ in range(100):
            try:
                with open(f"/proc/{number}/stat", encoding="utf-8") as file:
                    if file.read().rsplit(")", 1)[1].split()[0] == "Z":
                        return
            except OSError:
                return
            time.sleep(0.05)
        self.fail(f"the process {number} runs")

    @needs("/proc/self/stat", untested="whether what cargo starts ends with it")
    def test_a_cargo_that_waits(self):
        # It waits, or ends while another process keeps its output.
        for way in ("wait", "exit 0", f"exec >&- 2>&-; exec {shutil.which('sleep')} 60"):
            with self.subTest(way=way):
                mark = self.waiting(way)
                found = self.bounded("--cargo-timeout", "0.5")
                wanted = f"cfgx-deps: cargo did not end within 0.5 s, and was ended: {self.path}\n"
                self.assertEqual(found, (3, "", wanted))
                self.assert_ended(mark)

    @needs("/proc/self/stat", untested="whether what cargo starts ends with it")
    def test_an_interrupt(self):
        mark = self.waiting("wait")
        path = os.pathsep.join([self.tools, os.environ["PATH"]])

        def interrupt(*_):
            while not os.path.exists(mark):
                time.sleep(0.01)
            raise KeyboardInterrupt

        with unittest.mock.patch.dict("os.environ", PATH=path), \
                unittest.mock.patch.object(_process, "next_read", interrupt), \
                self.assertRaises(KeyboardInterrupt):
            manifest.report(self.path)
        self.assert_ended(mark)

    def test_a_cargo_that_names_its_host_late(self):
        self.write_program("tools/cargo", (
            f"#!/bin/sh\n[ $1 != -vV ] || exec {shutil.which('sleep')} 60\n"
            f"exec {shutil.which('cat')} {self.folder}/metadata.json\n"
        ))
        found = self.bounded("--cargo-timeout=0.5")
        wanted = "cfgx-deps: cargo did not end within 0.5 s, and was ended: -vV\n"
        self.assertEqual(found, (3, "", wanted))
        self.assertEqual(self.bounded("--cargo-timeout=0.5", "--host", HOST)[0], 0)

    def test_a_cargo_that_prints_without_an_end(self):
        for stream in ("", ">&2"):
            self.write_program("tools/cargo", f"#!/bin/sh\nexec {shutil.which('yes')} {stream}\n")
            found = self.bounded()
            wanted = f"cargo printed more than {32 << 20} bytes, and was ended: {self.path}"
            self.assertEqual(found, (3, "", f"cfgx-deps: {wanted}\n"))

    def test_times_to_wait(self):
        for seconds in ("0", "-1", "nan", "inf", "x", ""):
            with self.subTest(seconds=seconds):
                status, output, message = self.command(f"--cargo-timeout={seconds}")
                self.assertEqual((status, output), (2, ""))
                self.assertRegex(message, "is no time to wait for cargo|invalid float value")
        for seconds in ("1e-300", "60", "1e18"):
            status = self.command(f"--cargo-timeout={seconds}")[0]
            self.assertEqual(status, 3 if seconds == "1e-300" else 0)

    def test_the_time_to_wait_by_itself(self):
        self.assertEqual(_cargo.TIMEOUT, 60)
        self.assertIn("how long to wait for each run of cargo (60)",
                      " ".join(self.command("--help")[1].split()))
        with unittest.mock.patch.object(_process, "run", side_effect=OSError) as run:
            for call in (_cargo.host, _platforms.Table(_platforms.Flags()).host,
                         lambda: manifest.report(self.path)):
                with self.assertRaises(manifest.CargoError):
                    call()
        limits = [call.args[1] for call in run.call_args_list]
        self.assertEqual(limits, [_process.Limits(60.0, 32 << 20, 1 << 30)] * 3)


@needs("cargo", untested="hostile folders beside a real cargo")
class RealCargo(Made):
    """A hostile folder and a real cargo."""

    def run_real(self, *words):
        """Returns what the command does with the cargo on the path."""
        kept = {name: os.environ[name] for name in ("RUSTUP_HOME", "CARGO_HOME")
                if name in os.environ}
        return self.command(*words, PATH=os.environ["PATH"], HOME=os.path.expanduser("~"), **kept)

    def test_a_manifest_of_a_member(self):
        self.write("audited/Cargo.toml", '[workspace]\nmembers = ["m"]\n')
        path = os.path.join(self.audited, "m/Cargo.toml")
        make(path, "a FIFO")
        status, output, message = self.run_real("--cargo-timeout", "1")
        self.assertEqual((status, output), (3, ""))
        self.assertIn("cargo did not end within 1 s, and was ended", message)
        os.remove(path)

    @needs("Linux", untested="the memory of cargo")
    def test_memory_of_cargo(self):
        self.write("audited/Cargo.toml", '[workspace]\nmembers = ["m"]\n')
        make(os.path.join(self.audited, "m/Cargo.toml"), "a link to /dev/zero")
        before = resource.getrusage(resource.RUSAGE_CHILDREN).ru_maxrss
        status, output, message = self.run_real()
        self.assertEqual((status, output), (3, ""))
        self.assertIn("cargo refuses", message)
        most = resource.getrusage(resource.RUSAGE_CHILDREN).ru_maxrss
        self.assertLess(most, max(before, 1.1 * (1 << 20)))
