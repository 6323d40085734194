"""A guest's file as a whole: why the program refuses it, its symbols, what an address is.

The refusals are those of docs/GUIDE.md, in their order; each is told with the numbers that disagree. What an accepted
file means is model.Guest."""
from __future__ import annotations

from pathlib import Path
from typing import Generator, Iterator, List, Tuple
import bisect
import struct

from .. import limits, tool
from . import elf32, model

STACK = limits.STACK
Finding = Tuple[object, int, str]  # whether a file is refused for something, the refusal's number, and why
Pairs = List[Tuple[int, int]]


class Refused(Exception):
    """A refusal: its number, and the numbers that disagree; `line` is what the program prints of it."""

    def __init__(self, number: int, why: str) -> None:
        self.number, self.line = number, f"refused {number} {limits.REFUSALS[number]}"
        super().__init__(f"{self.line}: {why}")


def refusal(file: bytes) -> Refused | None:
    """Why the program refuses a file, or None."""
    return next((Refused(number, why) for is_wrong, number, why in of_file(file) if is_wrong), None)


def of_file(file: bytes) -> Iterator[Finding]:
    """All that is looked at in a file, in this order; what comes behind a refusal is not looked at."""
    yield from of_header(file)
    headers = list(elf32.headers(file))
    for header in headers:
        linked = header.type in (elf32.DYNAMIC, elf32.INTERP, elf32.TLS)
        yield linked, 8, f"{header}: link statically, without thread-local data"
    loads = [header for header in headers if header.type == elf32.LOAD]
    yield from of_loads(file, loads)
    ranges = [header for header in loads if header.memory]
    yield from of_ranges(ranges)
    entries, guards = yield from of_notes(file, [header for header in headers if header.type == elf32.NOTE])
    yield from of_entries(entries, ranges)
    yield from of_guards(guards, ranges)


def of_header(file: bytes) -> Iterator[Finding]:
    yield len(file) > limits.FILE_BYTES, 0, f"the file has more than {limits.FILE_BYTES} bytes"
    yield len(file) < elf32.HEADER, 1, f"the file has {len(file)} bytes, fewer than the {elf32.HEADER} of a header"
    yield file[:4] != b"\x7fELF", 2, f"it begins with {file[:4].hex(' ')}, not with 7f 45 4c 46"
    for at, name, meaning in ((4, "class", "32 bits"), (5, "data", "little endian"),
                              (6, "version of the identification", "version 1")):
        yield file[at] != 1, 3, f"byte {at}, the {name}, is {file[at]}, not 1 for {meaning}"
    kind, machine = struct.unpack_from("<2H", file, 16)
    kinds = {1: "an object file that was not linked", 3: "position-independent, or a library"}
    yield kind != 2, 4, f"e_type is {kind} ({kinds.get(kind, 'unknown')}), not 2 (ET_EXEC)"
    yield machine != 243, 5, f"e_machine is {machine}, not 243 (EM_RISCV)"
    flags = elf32.word(file, 36)
    names = {1: "compressed code", 2: "floats in single registers", 4: "floats in double registers",
             6: "floats in quad registers", 8: "RV32E"}
    said = [names[bits] for bits in (flags & 1, flags & 6, flags & 8) if bits]
    yield said, 6, f"e_flags is {flags:#x}: {', '.join(said)}"
    version, (at, size, count) = elf32.word(file, 20), elf32.headers_place(file)
    end = at + size * count
    yield version != 1, 7, f"e_version is {version}, not 1"
    yield size != elf32.PROGRAM_HEADER, 7, f"e_phentsize is {size}, not {elf32.PROGRAM_HEADER}"
    yield not 1 <= count <= limits.PROGRAM_HEADERS, 7, f"e_phnum is {count}, not 1 to {limits.PROGRAM_HEADERS}"
    yield end > len(file), 7, f"the {count} program headers from {at} on end at {end}, {past_end(end, file)}"


def past_end(end: int, file: bytes) -> str:
    return f"and the file has {len(file)} bytes: {end - len(file)} are missing, so it may be cut short"


def of_content(file: bytes, header: elf32.Header, number: int) -> Finding:
    """Whether a header's content ends behind the file."""
    end = header.offset + header.file_size
    return end > len(file), number, (f"{header}: p_offset {header.offset} + p_filesz {header.file_size} is "
                                     f"{end}, {past_end(end, file)}")


def of_loads(file: bytes, loads: list[elf32.Header]) -> Iterator[Finding]:
    for load in loads:
        size, memory = load.file_size, load.memory
        yield size > memory, 9, f"{load}: p_filesz {size} is above p_memsz {memory}"
        yield of_content(file, load, 9)
        yield load.address + memory > 2**32, 9, (f"{load}: p_vaddr {load.address:08x} + p_memsz {memory} is "
                                                 "past the last address ffffffff")
    total, most = sum(load.memory for load in loads), limits.FILE_BYTES
    yield total > most, 9, f"the p_memsz of all PT_LOAD are {total} bytes together, more than {most}"


def of_ranges(ranges: list[elf32.Header]) -> Iterator[Finding]:
    for i, one in enumerate(ranges):
        for other in ranges[i + 1:]:
            yield meet(one.range, other.range), 10, f"{one} has {span(one.range)} and {other} {span(other.range)}"
        yield meet(one.range, STACK), 10, f"{one} has {span(one.range)}, and the stack {span(STACK)}"
    for one in ranges:
        yield one.flags & 3 == 3, 11, (f"{one} at {span(one.range)} has p_flags {one.flags}: both "
                                       "writable (2) and executable (1)")


def meet(one: range, other: range) -> bool:
    return max(one.start, other.start) < min(one.stop, other.stop)


def span(addresses: range) -> str:
    return f"{addresses.start:08x} to {addresses.stop - 1:08x}"


def of_notes(file: bytes, headers: list[elf32.Header]) -> Generator[Finding, None, tuple[Pairs, Pairs]]:
    """Answers the entries and guards of the notes."""
    found = None
    for header in headers:
        yield of_content(file, header, 12)
    for header in headers:
        content = header.content(file)
        for note in elf32.notes(content):
            yield note.end > len(content), 12, (
                f"{header}: the note at byte {note.at} has a name of {note.name_size} and a descriptor of "
                f"{note.size} bytes and ends at {note.end}; the segment has {len(content)}")
            yield note.is_threads and found, 12, f"{header}: a second note TCLOCKS"
            if note.is_threads:
                found = yield from of_descriptor(note.descriptor, header)
    return found or ([(elf32.word(file, elf32.ENTRY), 0)], [])


def of_descriptor(content: bytes, header: elf32.Header) -> Generator[Finding, None, tuple[Pairs, Pairs]]:
    size = len(content)
    yield size < 12, 12, f"{header}: the descriptor has {size} bytes, fewer than 12"
    version, threads, guards, pairs = elf32.described(content)
    most_threads, most_guards = limits.THREADS.get(version, 0), limits.GUARDS.get(version, 0)
    yield not most_threads, 12, f"{header}: the note's version is {version}, not 1 or 2"
    said = f"{header}: in a note of version {version} are"
    yield not 1 <= threads <= most_threads, 12, f"{said} {threads} threads, not 1 to {most_threads}"
    yield guards > most_guards, 12, f"{said} {guards} guards, not 0 to {most_guards}"
    wanted = 12 + 8 * threads + 8 * guards
    yield size != wanted, 12, (f"{header}: {threads} threads and {guards} guards are {wanted} bytes of "
                               f"descriptor, and it has {size}")
    return pairs[:threads], pairs[threads:]


def of_entries(entries: Pairs, ranges: list[elf32.Header]) -> Iterator[Finding]:
    for number, (entry, _) in enumerate(entries):
        yield entry % 4, 13, f"thread {number}: its entry {entry:08x} is no multiple of 4"
        yield not is_inside(range(entry, entry + 4), ranges, 1), 13, (
            f"thread {number}: the four bytes at its entry {entry:08x} aren't in one executable range "
            f"({ranges_text(ranges, 1)})")


def of_guards(guards: Pairs, ranges: list[elf32.Header]) -> Iterator[Finding]:
    (least, most), spans = limits.GUARD_BYTES, [range(start, start + length) for start, length in guards]
    for number, (start, length) in enumerate(guards):
        yield start % 4 or length % 4, 14, (f"guard {number} starts at {start:08x} and has {length} bytes: both "
                                            "must be multiples of 4")
        yield not least <= length <= most, 14, f"guard {number} has {length} bytes, not {least} to {most}"
        yield not is_inside(spans[number], ranges, 2), 14, (
            f"guard {number} has {span(spans[number])}, which isn't in one writable range ({ranges_text(ranges, 2)})")
    for number, one in enumerate(spans):
        for other, first in enumerate(spans[:number]):
            yield meet(one, first), 14, f"guard {other} has {span(first)} and guard {number} {span(one)}"


def is_inside(addresses: range, ranges: list[elf32.Header], flag: int) -> bool:
    """Whether addresses lie in one range with a flag."""
    return any(one.flags & flag and addresses[0] in one.range and addresses[-1] in one.range for one in ranges)


def ranges_text(ranges: list[elf32.Header], flag: int) -> str:
    return ", ".join(span(one.range) for one in ranges if one.flags & flag) or "there is none"


class GuestFile:
    """An accepted file: what it means, and its symbols by address, where it has some; Refused where it is refused."""

    def __init__(self, file: bytes) -> None:
        refused = refusal(file)
        if refused:
            raise refused
        self.guest, self.symbols = model.Guest(file), {}  # type: model.Guest, dict[int, str]
        for address, name, info in sorted(elf32.symbols(file), key=lambda symbol: symbol[2] < 16):
            if info & 15 in (0, 1, 2) and name and not name.startswith((".", "$")):
                self.symbols.setdefault(address, name)  # a global one where there are several
        self.addresses = sorted(self.symbols)

    def name(self, address: int) -> str:
        """The nearest symbol at or below an address in the same range, or ''."""
        inside = next((addresses for addresses, _, _ in self.guest.ranges if address in addresses), range(0))
        place = bisect.bisect_right(self.addresses, address)
        start = self.addresses[place - 1] if place else -1
        if start not in inside:
            return ""
        return self.symbols[start] + (f"+{address - start:#x}" if address > start else "")

    def guard_at(self, address: int) -> int | None:
        """The number of the guard that has an address, or None."""
        return next((number for number, span in enumerate(self.guest.spans) if address in span), None)


def read(path: Path | str) -> bytes:
    """A file's bytes, as far as the program reads them."""
    return tool.read_bytes(path, limits.FILE_BYTES + 1)


def accepted(file: bytes, path: str | None) -> GuestFile:
    """The guest of a file's bytes; Trouble where they are refused."""
    try:
        return GuestFile(file)
    except Refused as refused:
        raise tool.Trouble(tool.WRONG, f"{path}: {refused}") from None


def load(path: str) -> GuestFile:
    """The guest of a file; Trouble where it can't be read or is refused."""
    return accepted(read(path), path)
