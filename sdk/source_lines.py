"""Which line of a source an address comes from, and which address a name has: of sources of `det asm`, and of executables (lines by -g)."""

import bisect
import collections
import os
import pathlib
import re
import struct

from elf32 import Refused

# Of what an executable calls its sources these are read: an executable of a stranger may name any file of this machine.
SUFFIXES = (".c", ".h", ".s", ".S")
LONGEST = 4000000

Row = collections.namedtuple("Row", "address file line is_end")
Statement = collections.namedtuple("Statement", "address size line label")

# A place: an address, or a name with bytes past it, as explain writes both.
ADDRESS = re.compile(r"0[xX][0-9a-fA-F]{1,8}|[0-9a-f]{8}")
NAMED = re.compile(r"([A-Za-z_.$][\w.$]*)(?:\+([0-9]{1,10}))?")

# ---- Sources of det asm (docs/FORMATS.md, "Sources") ----

LABEL = re.compile(r"(?:([A-Za-z_]\w*)\s*:)?")
SIZES = {"li": 8, ".dti2": 0, ".entry": 0, ".stack": 0, ".byte": 1}


def number(word):
    try:
        return int(word, 0 if word[:2] == "0x" else 10)
    except ValueError:
        return 0


def statements(text):
    """The lines of a source that det asm takes, each with its address and how many bytes it makes."""
    address = 0
    for at, line in enumerate(text.split("\n"), 1):
        line = re.split("[;#]", line)[0].strip()
        label = LABEL.match(line)
        words = line[label.end() :].split()
        size = 0
        if words and words[0] not in (".segment", ".zero"):
            size = SIZES.get(words[0], 4)
        elif words[:1] == [".zero"] and len(words) > 1:
            size = number(words[1])
        yield Statement(address & 0xFFFFFFFF, size, at, label[1])
        address = number(words[1]) if words[:1] == [".segment"] and len(words) > 1 else address + size


def of_source(text, name):
    """The rows of a source that det asm takes."""
    for it in statements(text):
        if it.size:
            yield Row(it.address, name, it.line, False)
            yield Row(it.address + it.size, name, it.line, True)


def labels(text):
    return [(it.label, it.address) for it in statements(text) if it.label]


# ---- Executables (DWARF Debugging Information Format, version 5, "Line Number Information"; versions 2 to 4 too) ----


class Reader:
    """Numbers and texts, one after the other."""

    def __init__(self, data, at=0):
        self.data, self.at = data, at

    def number(self, size):
        if self.at + size > len(self.data):
            raise IndexError("the data end in a number")
        self.at += size
        return int.from_bytes(self.data[self.at - size : self.at], "little")

    def leb(self):
        value = shift = 0
        while True:
            byte = self.number(1)
            value |= (byte & 127) << shift
            shift += 7
            if byte < 128:
                return value

    def signed(self):
        start = self.at
        value = self.leb()
        bits = 7 * (self.at - start)
        return value - (1 << bits) if value >> bits - 1 else value

    def text(self):
        end = self.data.index(b"\0", self.at)
        found, self.at = self.data[self.at : end], end + 1
        return found


def sections(elf):
    """The sections of an executable by their names."""
    (start,) = struct.unpack_from("<I", elf, 32)
    size, count, names = struct.unpack_from("<3H", elf, 46)
    if not start or size < 40:
        return {}
    headers = [struct.unpack_from("<6I", elf, start + size * at) for at in range(count)]
    found = [elf[header[4] : header[4] + header[5]] for header in headers]
    return {Reader(found[names], header[0]).text(): data for header, data in zip(headers, found)}


class LineTable:
    """One unit of .debug_line."""

    def __init__(self, there, unit):
        self.there, self.unit = there, unit
        self.version = unit.number(2)
        if self.version >= 5:
            unit.number(2)
        length = unit.number(4)
        self.program = unit.at + length
        self.step = unit.number(1)
        if self.version >= 4:
            unit.number(1)
        unit.number(1)
        self.base = (unit.number(1) ^ 128) - 128
        self.range = unit.number(1)
        self.opcodes = unit.number(1)
        self.operands = [unit.number(1) for _ in range(self.opcodes - 1)]
        self.files = self.newer_files() if self.version >= 5 else self.older_files()

    def older_files(self):
        folders, files = [b""], [b""]
        while True:
            name = self.unit.text()
            if not name:
                break
            folders.append(name)
        while True:
            name = self.unit.text()
            if not name:
                return files
            files.append(os.path.join(folders[self.unit.leb()], name))
            self.unit.leb()
            self.unit.leb()

    def newer_files(self):
        folders = [entry.get(1, b"") for entry in self.entries()]
        return [os.path.join(folders[0], folders[entry.get(2, 0)], entry.get(1, b"")) for entry in self.entries()]

    def entries(self):
        forms = [(self.unit.leb(), self.unit.leb()) for _ in range(self.unit.number(1))]
        return [{kind: self.form(form) for kind, form in forms} for _ in range(self.unit.leb())]

    def form(self, form):
        sizes = {0x0B: 1, 0x05: 2, 0x06: 4, 0x07: 8, 0x1E: 16}
        if form == 0x08:
            return self.unit.text()
        if form in (0x1F, 0x0E):
            return Reader(self.there[b".debug_line_str" if form == 0x1F else b".debug_str"], self.unit.number(4)).text()
        if form == 0x09:
            return self.unit.number(self.unit.leb())
        return self.unit.leb() if form == 0x0F else self.unit.number(sizes[form])

    def rows(self):
        self.unit.at = self.program
        self.reset()
        while self.unit.at < len(self.unit.data):
            op = self.unit.number(1)
            if op >= self.opcodes:
                self.address += self.step * ((op - self.opcodes) // self.range)
                self.line += self.base + (op - self.opcodes) % self.range
                yield self.row(False)
            elif op == 0:
                if self.extended():
                    yield self.row(True)
                    self.reset()
            elif op == 1:
                yield self.row(False)
            else:
                self.standard(op)

    def reset(self):
        self.address, self.file, self.line = 0, 1, 1

    def row(self, is_end):
        return Row(self.address, self.files[self.file], self.line, is_end)

    def extended(self):
        """Whether a sequence ends."""
        length = self.unit.leb()
        end = self.unit.at + length
        op = self.unit.number(1)
        if op == 2:
            self.address = self.unit.number(length - 1)
        self.unit.at = end
        return op == 1

    def standard(self, op):
        if op == 2:
            self.address += self.step * self.unit.leb()
        elif op == 3:
            self.line += self.unit.signed()
        elif op == 4:
            self.file = self.unit.leb()
        elif op == 8:
            self.address += self.step * ((255 - self.opcodes) // self.range)
        elif op == 9:
            self.address += self.unit.number(2)
        else:
            for _ in range(self.operands[op - 1]):
                self.unit.leb()


def of_executable(elf):
    """The rows of an executable. A table that is damaged, or of another version, has none from there on."""
    try:
        there = sections(elf)
        lines = Reader(there.get(b".debug_line", b""))
        while lines.at < len(lines.data):
            length = lines.number(4)
            unit = Reader(lines.data[: lines.at + length], lines.at)
            lines.at += length
            yield from LineTable(there, unit).rows()
    except (IndexError, KeyError, ValueError, TypeError, ZeroDivisionError, struct.error):
        return


def symbols(elf):
    """The names of an executable (its symbol table), those that other files can use first."""
    found = []
    try:
        there = sections(elf)
        texts = there.get(b".strtab", b"")
        for name, address, _, kind, _, section in struct.iter_unpack("<3I2BH", there.get(b".symtab", b"")):
            if section and kind & 15 < 3:
                found.append((kind < 16, Reader(texts, name).text().decode("utf-8", "backslashreplace"), address))
    except (IndexError, KeyError, ValueError, struct.error):
        pass
    return [(name, address) for _, name, address in sorted(found, key=lambda it: it[0]) if name]


# ---- Both ----


def shown(path):
    """A name of the host, which may have any bytes."""
    return os.fsencode(path).decode("utf-8", "backslashreplace")


def stored(path):
    """The bytes of a source that an executable names."""
    try:
        is_source = path.suffix in SUFFIXES and path.is_file() and path.stat().st_size <= LONGEST
        return path.read_bytes() if is_source else b""
    except (OSError, ValueError):
        return b""


class SourceLines:
    """The source lines of a file, be it a source of det asm or an executable; of an image there are none."""

    def __init__(self, path):
        data = pathlib.Path(path).read_bytes()
        self.path, self.texts = path, {}
        rows, names = [], []
        if data[:4] == b"\x7fELF":
            rows, names = list(of_executable(data)), symbols(data)
        elif data[:3] != b"DTI":
            name = os.fsencode(os.path.basename(path))
            text = data.decode("utf-8", "replace")
            self.texts[name] = data
            rows, names = list(of_source(text, name)), labels(text)
        self.names = {}
        for name, address in names:
            self.names.setdefault(name, address)
        self.rows = sorted(rows, key=lambda row: (row.address, not row.is_end))
        self.addresses = [row.address for row in self.rows]

    def address(self, word):
        """The address that a place has: itself, or that of a name."""
        if ADDRESS.fullmatch(word):
            return int(word, 16)
        found = NAMED.fullmatch(word)
        if not found:
            raise Refused(f"{word}: neither an address nor a name")
        if found[1] not in self.names:
            raise Refused(f"{word}: {shown(self.path)} has no such name")
        return (self.names[found[1]] + int(found[2] or 0)) & 0xFFFFFFFF

    def at(self, address):
        """The file and the line of an address, or None."""
        place = bisect.bisect_right(self.addresses, address) - 1
        if place < 0 or self.rows[place].is_end or not self.rows[place].line:
            return None
        return self.rows[place].file, self.rows[place].line

    def text(self, file, line):
        """A line of a source, which is where the executable says, or next to it; empty if it is at neither place."""
        if file not in self.texts:
            named = pathlib.Path(os.fsdecode(file))
            self.texts[file] = stored(named) or stored(pathlib.Path(self.path).parent / named.name)
        lines = self.texts[file].split(b"\n")
        return lines[line - 1] if line <= len(lines) else b""
