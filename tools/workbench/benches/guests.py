"""Makes the guests of the bench: ELF32 files of the form of docs/GUIDE.md, of words of code that
rv32im.py makes of mnemonics and operands."""
from __future__ import annotations

from pathlib import Path
from typing import Any, Callable, Iterator
import functools
import re
import struct

from .. import limits, places
from ..guest import elf32
from ..guest.made import code

TEXT = 0x10000
DATA = 0x100000
GUARD_BYTES = 64
THREADS = 16
ADD_ONE = "lw 5 8 0; addi 5 5 1; sw 5 8 0;"  # to the word at the address in register 8


def elf(words: list[int], guards: int, ranges: Any = ((DATA, b"", 16 * GUARD_BYTES),), threads: int = THREADS) -> bytes:
    """The file of a guest whose threads, so many, all run these words, with this number of locks.

    Each range is an address, the bytes that the file gives it, and a length; it is writable."""
    text = struct.pack(f"<{len(words)}I", *words)
    notes = elf32.note([(TEXT, thread) for thread in range(threads)],
                       [(DATA + number * GUARD_BYTES, GUARD_BYTES) for number in range(guards)])
    return elf32.written(TEXT, [(elf32.LOAD, TEXT, text, len(text), 5),
                                *((elf32.LOAD, start, given, length, 6) for start, given, length in ranges),
                                (elf32.NOTE, 0, notes, len(notes), 4)])


def again(body: list[int], behind: str = "jal 0") -> list[int]:
    """The body again and again, by a jump behind it."""
    return body + code(f"{behind} {-4 * len(body)}")


def loops() -> Iterator[tuple[str, str, str, int]]:
    """The rows of loops.txt."""
    text = Path(__file__).with_name("loops.txt").read_text().replace("ADD_ONE", ADD_ONE).replace("DATA", str(DATA))
    for line in re.findall("(?m)^[^#].*$", text):
        name, before, body, guards = line.split(" | ")
        yield name, before, body, int(guards)


def loop(before: str, body: str, guards: int) -> bytes:
    return elf(code(before) + again(code(body)), guards)


def mailboxes(sections: int = 1500) -> bytes:
    """Each thread but the first looks into its own guard, again and again, and sleeps in between, until it
    finds a word there; the first one posts these words, behind so many sections of its own lock, each with
    some arithmetic before it. The thread's number is in x9, its guard's address in x8."""
    base = code(f"addi 9 10 0; slli 8 9 6; lui 7 {DATA}; add 8 7 8")
    wait = again(code("LOCK x9; lw 5 8 0; UNLOCK x9; bne 5 0 20; SLEEP 0")) + code("EXIT 0")
    work = again(code(8 * "addi 12 12 1; xor 13 13 12;" + f"LOCK 0; {ADD_ONE} UNLOCK 0; addi 20 20 -1"), "bne 20 0")
    post = again(code(f"LOCK x21; addi 8 8 {GUARD_BYTES}; sw 23 8 0; UNLOCK x21; addi 21 21 1"), "bne 21 24")
    return elf([*base, *code(f"beq 9 0 {4 * (1 + len(wait))}"), *wait, *code(f"addi 20 0 {sections}"), *work,
                *code(f"addi 21 0 1; addi 23 0 1; addi 24 0 {THREADS}"), *post, *code("EXIT 0")], THREADS)


def shortest_blocks(threads: int = THREADS, guards: int = 16) -> bytes:
    """The last four locks are taken and kept; then SLEEP after SLEEP, each a block of one turn with a long line."""
    taken = code("".join(f"LOCK {lock};" for lock in range(guards - 4, guards)) + "addi 10 0 0; addi 17 0 3")
    return elf(taken + again(65536 * code("ecall")), guards, ((DATA, b"", guards * GUARD_BYTES),), threads)


def twelve_ranges(length: int) -> list[tuple[int, bytes, int]]:
    """Twelve writable ranges of this length behind one another; the first has the guards."""
    content = bytes(range(256)) * (length // 256)
    return [(DATA + number * (length + 0x1000), content, length) for number in range(12)]


def image(kibibytes: int) -> bytes:
    """Each thread ends at once: what is left is the start over so many bytes in 13 ranges."""
    return elf(code("EXIT 0"), 16, twelve_ranges(kibibytes * 1024 // 12))


def many_ranges() -> bytes:
    """Loads and stores in the last of 13 ranges, beside 16 guards that nobody uses."""
    ranges = twelve_ranges(4096)
    return elf(code(f"lui 8 {ranges[-1][0]}") + again(code("addi 8 8 0;" + 4 * ADD_ONE)), 16, ranges)


GUESTS: dict[str, Callable[[], bytes]] = {
    **{name: functools.partial(loop, *row) for name, *row in loops()},
    "mailboxes": mailboxes, "shortest-blocks": shortest_blocks,
    # The same with as many threads and locks as there can be: the most blocks with the longest lines.
    "longest-history": lambda: shortest_blocks(limits.THREADS[2], limits.GUARDS[2]), "many-ranges": many_ranges,
    **{f"{size}-image": functools.partial(image, kibibytes)
       for size, kibibytes in (("quarter", 240), ("half", 480), ("large", 960))}}


def file_of(name: str) -> bytes:
    """The file of a guest of the bench, or of one of guests/."""
    return GUESTS[name]() if name in GUESTS else (places.GUESTS / f"{name}.elf").read_bytes()
