"""Guests that are drawn at random, and damaged copies of them, which need not be refused; their reports are judged, and
their histories given back (spoil.py, rejecting.py)."""
from __future__ import annotations

import collections
import random
import struct
from typing import Any

from .. import limits, progress, tool
from ..guest import elf32, guestfile, made
from ..guest.elf32 import word
from ..guest.rv32im import BY_NAME, WHOLE, encode
from ..judging import rejecting
from ..reports import report, spoil
from ..running import program
from . import check

BASE = encode("lui", 5, made.DATA)  # where the data begins
ACCEPTED = "accepted"
ARITHMETIC = [name for name, row in BY_NAME.items() if row[0] == "R"]
IMMEDIATE = [name for name, row in BY_NAME.items() if row[1] == 0x13]
BRANCHES = [name for name, row in BY_NAME.items() if row[0] == "B"]
REGISTERS = (0, 2, 5, 6, 7, 8, 9, 10, 11, 12, 13, 14, 31)
ODD = (0, 1, 3, 5, 7, 17, 65540, 0x100002, 0x7FFFC000, 0xFFFFFFFF)
OFFSET, ADDRESS, FILE_SIZE, MEMORY = 1, 2, 4, 5  # words of a program header


class Draw(random.Random):
    """Draws parts of a guest; `held` has the locks that its code holds there."""
    held: tuple[int, ...] = ()

    def register(self) -> int:
        return self.choice(REGISTERS)

    def offset(self, base: int) -> int:
        """Mostly of a whole word in the data, often under a lock that is held, or on the stack."""
        if self.random() < 0.05:
            return self.randrange(-100, 100)
        if base == 5 and self.held and self.random() < 0.8:
            return 16 * self.choice(self.held)
        return 4 * (self.randrange(60) if base == 5 else self.randrange(-24, 0))

    def arithmetic(self) -> list[int]:
        to, a = self.register(), self.register()
        if self.random() < 0.5:
            return [encode(self.choice(ARITHMETIC), to, a, self.register())]
        name = self.choice(IMMEDIATE)
        value = self.randrange(32) if name in ("slli", "srli", "srai") else self.randrange(-2048, 2048)
        return [encode(name, to, a, value)]

    def access(self) -> list[int]:
        base = self.choice((5, 5, 5, 2))
        names = self.choice((("lb", "lh", "lw", "lbu", "lhu"), ("sb", "sh", "sw")))
        return [encode(self.choice(names), self.register(), base, self.offset(base))]

    def jump(self) -> list[int]:
        if self.random() < 0.05:
            return [encode("jalr", 1, self.choice((0, 1, 5)), self.randrange(6))]
        if self.random() < 0.2:
            return [encode("jal", self.choice((0, 1)), self.choice((4, 8, 12)))]
        offset = self.choice((4, 4, 8, 8, 12, 12, 6, -16))
        return [encode(self.choice(BRANCHES), self.register(), self.register(), offset)]

    def other(self) -> list[int]:
        upper = encode(self.choice(("lui", "auipc")), self.register(), self.getrandbits(32))
        rare = self.choice((self.getrandbits(32), WHOLE["ebreak"], encode("fence", 0, 0, 0xFF)))
        return [rare if self.random() < 0.05 else upper]

    def section(self, locks: int) -> list[int]:
        """Takes and releases some locks, mostly in an order that is lawful."""
        chosen = sorted(self.sample(range(locks), self.randrange(min(locks, 5) + 1)))
        words = [BASE]
        for lock in chosen:
            self.held = *self.held, lock
            words += made.call(limits.LOCK, lock) + self.access() + self.arithmetic() + self.access()
        if self.random() < 0.3:
            words += made.call(limits.SLEEP, self.randrange(256))
        for lock in self.sample(chosen, len(chosen)):
            words += made.call(limits.UNLOCK, lock)
        self.held = ()
        return words

    def thread(self, locks: int, length: int) -> list[int]:
        words = [BASE]
        for _ in range(length):
            draw = self.choice((self.arithmetic, self.arithmetic, self.jump, self.other, None))
            words += draw() if draw else self.section(locks)
            if self.random() < 0.03:
                number = self.choice((limits.LOCK, limits.UNLOCK, limits.SLEEP, 4))
                value = self.choice((0, 1, 9, limits.SLEPT, limits.SLEPT + 1))
                value = value if number == limits.SLEEP else self.randrange(5)
                words += made.call(number, value) + self.access()
        return words + made.call(limits.EXIT, 0)

    def guest(self) -> bytes:
        locks, threads = self.randrange(self.choice((7, 7, 7, 33))), self.randrange(1, self.choice((5, 5, 5, 33)))
        return self.file(threads, locks, 5, 40)

    def file(self, threads: int, locks: int, least: int, most: int) -> bytes:
        """A whole file: a note, code of threads with so many parts, and data behind whose end a few zeros stand."""
        words: list[int] = []
        entries = []
        for _ in range(threads):
            entries.append((made.CODE + 4 * len(words), self.getrandbits(32)))
            words += self.thread(locks, self.randrange(least, most))
        guards = [(made.DATA + 16 * lock, self.choice((4, 8, 16))) for lock in range(locks)]
        version = self.choice((1, 2)) if len(entries) <= 16 and locks <= 16 else 2
        data = bytes(self.getrandbits(8) for _ in range(16 * max(15, locks) + self.randrange(4)))
        return made.elf(made.note(entries, guards, version), words, data, len(data) + self.randrange(9))


def with_word(file: bytes, at: int, value: int) -> bytes:
    return file[:at] + struct.pack("<I", value % 2**32) + file[at + 4:]


def place(header: int, number: int) -> int:
    """Where a word of a program header stands."""
    return elf32.HEADER + elf32.PROGRAM_HEADER * header + 4 * number


def cut(draw: Draw, file: bytes) -> bytes:
    return file[:draw.randrange(len(file))]


def changed(draw: Draw, file: bytes) -> bytes:
    """With another word or two, or bit, mostly in the headers."""
    for _ in range(draw.choice((1, 1, 2))):
        at = 4 * draw.randrange(min(draw.choice((13, 37, 60)), len(file) // 4))
        bit = word(file, at) ^ 1 << draw.randrange(32)
        file = with_word(file, at, draw.choice((bit, draw.choice(ODD), draw.getrandbits(32))))
    return file


def headers(file: bytes) -> list[bytes]:
    return [file[place(number, 0):place(number + 1, 0)] for number in range(made.PROGRAM_HEADERS)]


def with_headers(file: bytes, table: list[bytes]) -> bytes:
    """With this table of program headers, behind all else where it is longer than the old one."""
    if len(table) == made.PROGRAM_HEADERS:
        return file[:elf32.HEADER] + b"".join(table) + file[made.NOTE:]
    file = with_word(file, 28, len(file))
    return file[:44] + struct.pack("<H", len(table)) + file[46:] + b"".join(table)


def swapped(draw: Draw, file: bytes) -> bytes:
    """With two program headers in each other's place, or two words of them or of the note."""
    if draw.random() < 0.3:
        return with_headers(file, draw.sample(headers(file), made.PROGRAM_HEADERS))
    first, last = draw.choice(((place(0, 0), made.NOTE), (made.NOTE, made.NOTE + 60)))
    one, other = (4 * draw.randrange(first // 4, last // 4) for _ in range(2))
    return with_word(with_word(file, one, word(file, other)), other, word(file, one))


def other_notes(draw: Draw) -> bytes:
    """A note that is none on threads, or is by a little."""
    size = draw.randrange(9)
    name = draw.choice((b"GNU\0", b"TCLOCKS", b"TCLOCKS\0", b"TCLOCKS\0\0", b"tclocks\0", b""))
    padded = name.ljust((len(name) + 3) // 4 * 4, b"\0")
    content = bytes(draw.getrandbits(8) for _ in range(size)).ljust((size + 3) // 4 * 4, b"\0")
    return struct.pack("<3I", len(name), size, draw.choice((0, 1, 1, 2, 3))) + padded + content


def repeated(draw: Draw, file: bytes) -> bytes:
    """With more program headers, some of them twice, or with more notes."""
    if draw.random() < 0.5:
        table = headers(file)
        more = [draw.choice(table) for _ in range(draw.choice((1, 1, 2, 13, 14)))]
        kind = struct.pack("<I", draw.choice((0, 1, 2, 3, 4, 5, 6, 7, 0x70000003)))
        empty = b"".join((more[0][:16], bytes(8), more[0][24:]))
        more[0] = draw.choice((more[0], kind + more[0][4:], empty))
        return with_headers(file, draw.sample(table + more, len(table + more)))
    own = file[made.NOTE:made.NOTE + word(file, place(0, FILE_SIZE))]
    parts = [own, *(other_notes(draw) for _ in range(draw.randrange(3)))]
    parts += [own] * (draw.random() < 0.2)
    notes = b"".join(draw.sample(parts, len(parts)))  # behind all else
    file = with_word(file, place(0, OFFSET), len(file)) + notes
    return with_word(file, place(0, FILE_SIZE), len(notes) - draw.choice((0, 0, 0, 1, 3, 4)))


def wrapped(draw: Draw, file: bytes) -> bytes:
    """With a number whose sum with others is 2^32, or a little less or more."""
    off = draw.choice((-8, -4, -1, 0, 0, 1, 4, 8))
    header = draw.randrange(made.PROGRAM_HEADERS)
    file_size, memory = (word(file, place(header, number)) for number in (FILE_SIZE, MEMORY))
    threads, guards = word(file, made.NOTE + 24), word(file, made.NOTE + 28)
    pairs = made.NOTE + 32
    choices = [
        (28, -32 * made.PROGRAM_HEADERS + off),  # e_phoff
        (place(header, OFFSET), -file_size + off),
        (place(header, FILE_SIZE), -word(file, place(header, OFFSET)) + off),
        (place(header, ADDRESS), -memory + off),
        (place(header, MEMORY), -word(file, place(header, ADDRESS)) + off),
        (made.NOTE, off - 16),  # the size of the note's name
        (made.NOTE + 4, off - 16),  # and of its descriptor
        (made.NOTE + 24, threads + draw.choice((2**29, 2**30, 2**31))),
        (made.NOTE + 28, guards + draw.choice((2**29, 2**30, 2**31))),
        (pairs + 8 * draw.randrange(threads), off - 4),  # an entry
    ]
    if guards:
        at = pairs + 8 * (threads + draw.randrange(guards))
        choices += [(at, off - word(file, at + 4)), (at + 4, off - word(file, at))]
    return with_word(file, *draw.choice(choices))


KINDS = (cut, changed, swapped, repeated, wrapped)


def judge(file: bytes, options: tuple[int, ...], refused: str | None, draw: Draw, kept: str) -> str | None:
    """Runs a file, and gives the history of its report back, and a changed one: why that is rejected. Wrong
    where the program answers otherwise than it must; None too where the file is refused."""
    if refused is None:
        text, _ = check.run(file, ("run", *options))
        return next(rejecting.give_back(file, options, text, draw, [draw.choice(spoil.FORMS)], kept))
    status, text = program.run(("run", *options), file)
    if (status, text) != (3, refused + "\n"):
        raise report.Wrong(f"status {status}, not {refused}")
    return None


def main(words: list[str]) -> int | None:
    parser = tool.words("fuzz")
    parser.number("count", (1, 1_000_000), usual=200, metavar="COUNT", nargs="?")
    parser.number("seed", (0, 2**32), usual=1, metavar="SEED", nargs="?")
    asked = parser.parse_args(words)
    program.need()
    draw, changes, failed = Draw(asked.seed), Draw(asked.seed), 0
    seen: collections.Counter[str] = collections.Counter()
    rejected: collections.Counter[Any] = collections.Counter()
    with progress.Progress("fuzz", "guests", asked.count) as shown:
        for number in shown.each(range(asked.count)):
            file = draw.guest()
            options = (draw.randrange(1, 9), draw.choice((20, 100, 300, 5000)), draw.choice((0, 1, 256)))
            given = [("whole", file), *((kind.__name__, kind(draw, file)) for kind in KINDS)]
            for name, file in given:
                refusal = guestfile.refusal(file)
                refused = refusal.line if refusal else None
                kept = f"fuzz-{asked.seed}-{number}-{name}"
                try:
                    rejected[judge(file, options, refused, changes, f"{kept}.txt")] += 1
                except report.Wrong as wrong:
                    failed += 1
                    progress.say(f"{program.keep(f'{kept}.elf', file)}: run {' '.join(map(str, options))}: {wrong}")
                seen[refused or ACCEPTED] += 1
    for what in sorted(seen, key=lambda what: int(what.split()[1]) if what != ACCEPTED else -1):
        print(f"{what}: {seen[what]}")
    for number, reason in enumerate(limits.REASONS, 1):
        print(f"rejected {number} {reason}: {rejected[reason]}")
    print(f"{sum(seen.values()) - failed} passed, {failed} failed")
    shown.end()
    return tool.WRONG if failed else tool.DONE
