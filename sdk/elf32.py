"""Executables as det reads them (docs/FORMATS.md, "Images: executable files"), for the scripts of this folder."""

import collections
import struct

LOAD = 1
EXECUTABLE = 1
MOST_LOADS = 32
MOST_HEADERS = 64
PROGRAM_HEADER = struct.Struct("<8I")
ENTRY_AT = 24

Segment = collections.namedtuple("Segment", "type offset address physical filled size flags alignment")


class Refused(Exception):
    """What is wrong with a word or a file; and the status that a script ends with."""

    def __init__(self, said, status=2):
        super().__init__(said)
        self.status = status


def headers(elf, path):
    """The program headers of an executable, and what each is."""
    if len(elf) < 52 or elf[:7] != b"\x7fELF\1\1\1":
        raise Refused(f"image: {path}: no ELF32")
    (offset,) = struct.unpack_from("<I", elf, 28)
    size, count = struct.unpack_from("<2H", elf, 42)
    if count and (size != PROGRAM_HEADER.size or offset + size * count > len(elf)):
        raise Refused(f"image: {path}: no program headers where it says")
    return [Segment(*PROGRAM_HEADER.unpack_from(elf, offset + size * at)) for at in range(count)]


def loads(elf, path):
    return [header for header in headers(elf, path) if header.type == LOAD and header.size]


def filled(elf, load):
    """The bytes that a load has in the file."""
    return elf[load.offset : load.offset + load.filled]


def entry(elf):
    return struct.unpack_from("<I", elf, ENTRY_AT)[0]


def with_entry(elf, address):
    return elf[:ENTRY_AT] + struct.pack("<I", address) + elf[ENTRY_AT + 4 :]


def check_free(elf, path, start, end):
    """Refuses an executable that has a load between the addresses, or cannot have one more."""
    there = loads(elf, path)
    for load in there:
        if load.address < end and load.address + load.size > start:
            raise Refused(f"image: {path}: there is a load at {load.address:08x} already")
    if len(there) >= MOST_LOADS:
        raise Refused(f"image: {path}: too many loads: {MOST_LOADS}, and one more is needed")
    if len(headers(elf, path)) >= MOST_HEADERS:
        raise Refused(f"image: {path}: too many program headers: {MOST_HEADERS}, and one more is needed")


def with_load(elf, path, address, data, size, flags):
    """The executable with a load more, in its place by its address. The program headers move behind everything."""
    check_free(elf, path, address, address + size)
    at = len(elf) + -len(elf) % 4
    added = Segment(LOAD, at, address, address, len(data), size, flags, 4)
    there = headers(elf, path)
    above = [header for header in there if header.type == LOAD and header.address > address]
    below = [header for header in there if header not in above]
    table = b"".join(PROGRAM_HEADER.pack(*header) for header in [*below, added, *above])
    changed = bytearray(elf.ljust(at, b"\0") + data)
    changed += bytes(-len(changed) % 4)
    struct.pack_into("<I", changed, 28, len(changed))
    struct.pack_into("<2H", changed, 42, PROGRAM_HEADER.size, len(there) + 1)
    return bytes(changed) + table
