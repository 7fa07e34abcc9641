"""Reads which libraries an ELF file of 64 bits, little-endian, needs at run time."""

from __future__ import annotations

import struct

from sbpl_files import BadInput

X86_64 = 62
LOAD, DYNAMIC = 1, 2
NEEDED, STRINGS, VERSIONS, VERSION_COUNT = 1, 5, 0x6FFFFFFE, 0x6FFFFFFF


class Elf:
    """An ELF file; `needs` has each library that it needs, with the versions of that library that it names."""

    def __init__(self, path: str, data: bytes):
        self.data = data
        self.needs: dict[str, list[str]] = {}
        try:
            self.read()
        except (struct.error, IndexError, StopIteration, ValueError):
            raise BadInput(f"{path}: it is no whole ELF file") from None

    def read(self) -> None:
        """Reads the headers, and where there is one, the dynamic section."""
        if self.data[4:6] != b"\2\1":
            raise ValueError
        self.machine, = struct.unpack_from("<H", self.data, 18)
        start, = struct.unpack_from("<Q", self.data, 32)
        size, count = struct.unpack_from("<HH", self.data, 54)
        heads = [struct.unpack_from("<IIQQQQ", self.data, start + size * at) for at in range(count)]
        self.loads = [(address, offset, length) for kind, _, offset, address, _, length in heads if kind == LOAD]
        for kind, _, offset, _, _, length in heads:
            if kind == DYNAMIC:
                self.read_dynamic([struct.unpack_from("<QQ", self.data, at) for at in range(offset, offset + length, 16)])

    def offset_of(self, address: int) -> int:
        """Where in the file stands what is loaded to an address."""
        return next(address - first + offset for first, offset, length in self.loads if first <= address < first + length)

    def text(self, offset: int) -> str:
        """The text that begins at an offset."""
        return self.data[offset:self.data.index(0, offset)].decode("ascii")

    def read_dynamic(self, pairs: list[tuple[int, int]]) -> None:
        """Reads the names of libraries, and the versions that are needed of each."""
        values = dict(pairs)
        strings = self.offset_of(values[STRINGS]) if STRINGS in values else 0
        self.needs = {self.text(strings + value): [] for tag, value in pairs if tag == NEEDED}
        at = self.offset_of(values[VERSIONS]) if VERSIONS in values else 0
        for _ in range(values.get(VERSION_COUNT, 0)):
            _, count, name, first, following = struct.unpack_from("<HHIII", self.data, at)
            part, versions = at + first, self.needs.setdefault(self.text(strings + name), [])
            for _ in range(count):
                _, _, _, version, more = struct.unpack_from("<IHHII", self.data, part)
                versions.append(self.text(strings + version))
                part += more
            at += following
