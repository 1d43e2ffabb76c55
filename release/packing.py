"""Archives whose bytes depend on nothing but the files in them and one time."""
import base64
import gzip
import hashlib
import io
import tarfile
import time
import zipfile
from typing import Dict, NamedTuple


class File(NamedTuple):
    """A file, or a link to the file that `link` names in the same folder."""
    data: bytes
    is_program: bool = False
    link: str = ""


def mode_of(file: File) -> int:
    """Returns the mode of a file in an archive, whatever it is on the disk."""
    return 0o755 if file.is_program else 0o644


def sum_of(data: bytes) -> str:
    """Returns the sum of bytes, as `sha256sum` prints it."""
    return hashlib.sha256(data).hexdigest()


def tar_gz(files: Dict[str, File], seconds: int) -> bytes:
    """Returns an archive of the files by their paths, all of which are of the same time."""
    packed, whole = io.BytesIO(), io.BytesIO()
    with tarfile.open(fileobj=packed, mode="w", format=tarfile.USTAR_FORMAT) as archive:
        for path in sorted(files):
            file, head = files[path], tarfile.TarInfo(path)
            head.mtime, head.mode, head.size = seconds, mode_of(file), len(file.data)
            if file.link:
                head.type, head.linkname, head.mode = tarfile.SYMTYPE, file.link, 0o777
            archive.addfile(head, io.BytesIO(file.data))
    # As `gzip -n` does, the head names neither a file nor a time.
    with gzip.GzipFile(filename="", mode="wb", compresslevel=9, fileobj=whole, mtime=0) as out:
        out.write(packed.getvalue())
    return whole.getvalue()


def recorded(files: Dict[str, File], folder: str) -> Dict[str, File]:
    """Returns the files of a wheel in order, and behind them the list of them with their sums. This
    is `RECORD` in the folder `.dist-info`, which says nothing of itself."""
    path, lines = f"{folder}/RECORD", []
    for name in sorted(files):
        digest = hashlib.sha256(files[name].data).digest()
        told = base64.urlsafe_b64encode(digest).rstrip(b"=").decode()
        lines.append(f"{name},sha256={told},{len(files[name].data)}\n")
    record = File("".join([*lines, f"{path},,\n"]).encode())
    return {**{name: files[name] for name in sorted(files)}, path: record}


def wheel(files: Dict[str, File], seconds: int) -> bytes:
    """Returns a wheel of the files in their order, all of which are of the same time."""
    whole = io.BytesIO()
    with zipfile.ZipFile(whole, "w") as archive:
        for name, file in files.items():
            head = zipfile.ZipInfo(name, time.gmtime(seconds)[:6])
            # The system is Unix, whose modes a regular file has in the upper half.
            head.create_system, head.external_attr = 3, (0o100000 | mode_of(file)) << 16
            archive.writestr(head, file.data, zipfile.ZIP_DEFLATED, compresslevel=9)
    return whole.getvalue()
