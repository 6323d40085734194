"""Guest files as bytes: the one reader and the one writer of ELF32. docs/GUIDE.md has the form; what is
refused is told by guestfile.py."""
from __future__ import annotations

import struct
from typing import Iterator, NamedTuple

from .. import limits

LOAD, DYNAMIC, INTERP, NOTE, TLS = 1, 2, 3, 4, 7
TYPES = {LOAD: "PT_LOAD", DYNAMIC: "PT_DYNAMIC", INTERP: "PT_INTERP", NOTE: "PT_NOTE", TLS: "PT_TLS"}
HEADER, PROGRAM_HEADER = 52, 32  # bytes
ENTRY = 24  # where e_entry stands


class Header(NamedTuple):
    """A program header and its place."""
    place: int
    type: int
    offset: int
    address: int
    file_size: int
    memory: int
    flags: int

    def __str__(self) -> str:
        return f"program header {self.place} ({TYPES.get(self.type, hex(self.type))})"

    @property
    def range(self) -> range:
        return range(self.address, self.address + self.memory)

    def content(self, file: bytes) -> bytes:
        return file[self.offset:self.offset + self.file_size]


def word(file: bytes, at: int) -> int:
    return int.from_bytes(file[at:at + 4], "little")


def headers_place(file: bytes) -> tuple[int, int, int]:
    """Where the program headers stand, the size of each, and how many there are."""
    size, count = struct.unpack_from("<2H", file, 42)
    return word(file, 28), size, count


def headers(file: bytes) -> Iterator[Header]:
    at, size, count = headers_place(file)
    for place in range(count):
        kind, offset, address, _, length, memory, flags, _ = struct.unpack_from("<8I", file, at + size * place)
        yield Header(place, kind, offset, address, length, memory, flags)


class Note(NamedTuple):
    """A note of a segment: where it begins and ends there, its sizes, and its bytes."""
    at: int
    end: int
    name_size: int
    size: int
    is_threads: bool
    descriptor: bytes


def notes(content: bytes) -> Iterator[Note]:
    """The notes of a segment; one that ends behind it is the last."""
    at = 0
    while at + 12 <= len(content):
        name_size, size, kind = struct.unpack_from("<3I", content, at)
        start = at + 12 + (name_size + 3) // 4 * 4
        is_threads = content[at + 12:at + 12 + name_size] == b"TCLOCKS\0" and kind == 1
        yield Note(at, start + size, name_size, size, is_threads, content[start:start + size])
        at = start + (size + 3) // 4 * 4


def described(descriptor: bytes) -> tuple[int, int, int, list[tuple[int, int]]]:
    """The version and the numbers of threads and of guards of a descriptor, and its pairs."""
    pairs = descriptor[12:len(descriptor) - (len(descriptor) - 12) % 8]
    version, threads, guards = struct.unpack_from("<3I", descriptor)
    return version, threads, guards, [(first, second) for first, second in struct.iter_unpack("<2I", pairs)]


class Section(NamedTuple):
    """A section header, with its name; 0 and 8 are the kinds without bytes in the file."""
    name: str
    kind: int
    flags: int
    offset: int
    size: int
    link: int
    each: int

    def content(self, file: bytes) -> bytes:
        return b"" if self.kind in (0, 8) else file[self.offset:self.offset + self.size]


def text_at(content: bytes, place: int) -> str:
    """The text at a place of a table of texts."""
    return content[place:].split(b"\0", 1)[0].decode("ascii", "replace") if place < len(content) else ""


def sections(file: bytes) -> list[Section]:
    """The sections, by section headers of 32 bits; none need be right, for the program reads none."""
    at, size, count, names = word(file, 32), *struct.unpack_from("<3H", file, 46)
    if size != 40 or at + size * count > len(file):
        return []
    headers = [struct.unpack_from("<10I", file, at + size * place) for place in range(count)]
    texts = file[headers[names][4]:headers[names][4] + headers[names][5]] if names < count else b""
    return [Section(text_at(texts, name), kind, flags, offset, length, link, each)
            for name, kind, flags, _, offset, length, link, _, _, each in headers]


def symbols(file: bytes) -> Iterator[tuple[int, str, int]]:
    """Address, name and st_info of each symbol that the section headers lead to."""
    found = sections(file)
    for section in found:
        if section.kind != 2 or section.each != 16 or section.link >= len(found):
            continue
        names = found[section.link].content(file)
        for place in range(section.offset, min(section.offset + section.size, len(file)) - 15, 16):
            name, value, _, info, _, inside = struct.unpack_from("<3I2BH", file, place)
            if inside and name < len(names):
                yield value, text_at(names, name), info


def note(entries: list[tuple[int, int]], guards: list[tuple[int, int]], version: int | None = None) -> bytes:
    """The note on threads: pairs of entry and argument, and of start and length."""
    version = version or (1 if len(entries) <= limits.THREADS[1] and len(guards) <= limits.GUARDS[1] else 2)
    content = struct.pack("<3I", version, len(entries), len(guards)) + b"".join(
        struct.pack("<2I", *pair) for pair in [*entries, *guards])
    return struct.pack("<3I8s", 8, len(content), 1, b"TCLOCKS") + content


def written(start: int, segments: list[tuple[int, int, bytes, int, int]]) -> bytes:
    """A file with this e_entry and these segments: type, address, bytes, memory and flags of each."""
    at, headers_, body = HEADER + PROGRAM_HEADER * len(segments), b"", b""
    for kind, address, content, memory, flags in segments:
        headers_ += struct.pack("<8I", kind, at + len(body), address, address, len(content), memory, flags, 4)
        body += content
    return b"\x7fELF\1\1\1" + bytes(9) + struct.pack("<2H5I6H", 2, 243, 1, start, HEADER, 0, 0, HEADER,
                                                      PROGRAM_HEADER, len(segments), 0, 0, 0) + headers_ + body
