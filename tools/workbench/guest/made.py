"""Guest files made of words of code, without a compiler."""
from __future__ import annotations

from typing import Any
import struct

from .. import limits
from . import elf32
from .elf32 import HEADER, PROGRAM_HEADER
from .elf32 import note as note
from .rv32im import encode

CODE, DATA = 0x00100000, 0x00020000
PROGRAM_HEADERS = 3  # of the note, the code and the data, in this order
NOTE = HEADER + PROGRAM_HEADERS * PROGRAM_HEADER  # where the note begins
ECALL = encode("ecall")
CALLS = {name: number for number, name in limits.CALLS.items()}


def call(number: int, value: int) -> list[int]:
    return [encode("addi", 10, 0, value), encode("addi", 17, 0, number), ECALL]


def code(text: str, **numbers: int) -> list[int]:
    """The words of instructions, which have ; between them: names with operands in the order of
    rv32im.OPERANDS, and guest calls as LOCK 0, or LOCK x9 where register 9 has the number; EXIT alone takes
    x10 as it is. Numbers stand for names in braces."""
    words: list[int] = []
    for name, *operands in filter(None, map(str.split, text.format(**numbers).split(";"))):
        if name not in CALLS:
            words.append(encode(name, *(int(one, 0) for one in operands)))
        elif operands and operands[0][0] != "x":
            words += call(CALLS[name], int(operands[0]))
        else:
            words += [encode("addi", 10, int(one[1:]), 0) for one in operands] + call(CALLS[name], 0)[1:]
    return words


def elf(notes: bytes, words: Any, data: bytes, memory: int) -> bytes:
    """A file of notes, of code at CODE and of data at DATA, with zeros up to so many bytes of memory."""
    code = struct.pack(f"<{len(words)}I", *words)
    return elf32.written(CODE, [(elf32.NOTE, 0, notes, len(notes), 4), (elf32.LOAD, CODE, code, len(code), 5),
                                (elf32.LOAD, DATA, data, memory, 6)])


def counting(threads: int) -> bytes:
    """The file of threads that each add 1 to a word under lock 0, a hundred times."""
    words = code(f"lui 5 {DATA}; addi 6 0 100; LOCK 0; lw 7 5 0; addi 7 7 1; sw 7 5 0; UNLOCK 0; addi 6 6 -1; "
                 "bne 6 0 -40; EXIT")
    return elf(note([(CODE, 0)] * threads, [(DATA, 4)]), words, bytes(4), 4)
