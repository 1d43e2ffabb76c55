"""For what system and processor a library is, by the numbers with which its parts begin."""
import struct

# The numbers of the processors in each form.
ELF = {62: "x86_64", 183: "arm64"}
COFF = {0x8664: "x86_64", 0xAA64: "arm64"}
MACHO = {0x01000007: "x86_64", 0x0100000C: "arm64"}

# The members of an archive that list the others.
LISTS = ("/", "//", "/SYM64/", "__.SYMDEF", "__.SYMDEF SORTED", "__.SYMDEF_64")


def members_of(archive):
    """Yields the objects of an archive."""
    place = len(b"!<arch>\n")
    while place < len(archive):
        head = archive[place:place + 60]
        name, size = head[:16].decode().rstrip(), int(head[48:58])
        data = archive[place + 60:place + 60 + size]
        place += 60 + size + size % 2
        if name.startswith("#1/"):
            # The name stands before the object.
            length = int(name[3:])
            name, data = data[:length].rstrip(b"\0").decode(), data[length:]
        if name not in LISTS:
            yield data


def machine_of(data):
    """Returns the system and the processor of an object or of a library. Each object of an archive
    has to be for the same."""
    if data.startswith(b"!<arch>\n"):
        machine, = {machine_of(member) for member in members_of(data)}
        return machine
    if data.startswith(b"\x7fELF\x02\x01"):
        return f"Linux {ELF[struct.unpack_from('<H', data, 18)[0]]}"
    if data.startswith(b"\xcf\xfa\xed\xfe"):
        return f"macOS {MACHO[struct.unpack_from('<I', data, 4)[0]]}"
    start = 0
    if data.startswith(b"MZ"):
        start, = struct.unpack_from("<I", data, 60)
        assert data[start:start + 4] == b"PE\0\0"
        start += 4
    return f"Windows {COFF[struct.unpack_from('<H', data, start)[0]]}"
