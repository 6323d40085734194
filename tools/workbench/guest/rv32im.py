"""RV32IM: the one table of instructions, by which a word is read, made, and told as text."""
from __future__ import annotations

import functools
from typing import NamedTuple

REGISTERS = ("zero ra sp gp tp t0 t1 t2 s0 s1 a0 a1 a2 a3 a4 a5 a6 a7 "
             "s2 s3 s4 s5 s6 s7 s8 s9 s10 s11 t3 t4 t5 t6").split()
WHOLE = {"ecall": 0x73, "ebreak": 0x00100073}
CALL = (17, 10), 10  # the registers of a guest call: which it is, its argument; its answer
WIDTHS = {"lb": 1, "lh": 2, "lw": 4, "lbu": 1, "lhu": 2, "sb": 1, "sh": 2, "sw": 4}  # bytes

# The form of the word, its opcode, its funct7 where that tells, and the names by funct3.
TABLE = (
    ("U", 0x37, None, "lui"), ("U", 0x17, None, "auipc"), ("J", 0x6F, None, "jal"),
    ("I", 0x67, None, "jalr"), ("B", 0x63, None, "beq bne - - blt bge bltu bgeu"),
    ("I", 0x03, None, "lb lh lw - lbu lhu"), ("S", 0x23, None, "sb sh sw"),
    ("I", 0x13, None, "addi - slti sltiu xori - ori andi"),
    ("shift", 0x13, 0, "- slli - - - srli"), ("shift", 0x13, 32, "- - - - - srai"),
    ("R", 0x33, 0, "add sll slt sltu xor srl or and"), ("R", 0x33, 32, "sub - - - - sra"),
    ("R", 0x33, 1, "mul mulh mulhsu mulhu div divu rem remu"), ("I", 0x0F, None, "fence"))
BY_NAME = {name: (form, opcode, kind, top or 0) for form, opcode, top, names in TABLE
           for kind, name in enumerate(names.split()) if name != "-"}
BY_WORD = {(opcode, None if form in "UJ" else kind, top): (name, form) for form, opcode, top, names in TABLE
           for kind, name in enumerate(names.split()) if name != "-"}


class Instruction(NamedTuple):
    """A word's name, its registers (to, a, b) by number, and its immediate value."""
    name: str
    to: int = 0
    a: int = 0
    b: int = 0
    value: int = 0


# By the form of a word: its operands in their order, and where the bits of the immediate stand in the word:
# the highest and the lowest of some bits, and the place of the lowest.
OPERANDS = {"R": ("to", "a", "b"), "I": ("to", "a", "value"), "shift": ("to", "a", "value"), "S": ("b", "a", "value"),
            "B": ("a", "b", "value"), "U": ("to", "value"), "J": ("to", "value")}
REGISTER = {"to": 7, "a": 15, "b": 20}
IMMEDIATE = {"R": (), "I": ((11, 0, 20),), "shift": ((4, 0, 20),), "S": ((11, 5, 25), (4, 0, 7)),
             "B": ((12, 12, 31), (11, 11, 7), (10, 5, 25), (4, 1, 8)), "U": ((31, 12, 12),),
             "J": ((20, 20, 31), (19, 12, 12), (11, 11, 20), (10, 1, 21))}


def signed(value: int, bits: int = 32) -> int:
    value &= (1 << bits) - 1
    return value - (1 << bits) if value >> (bits - 1) else value


def bits(value: int, high: int, low: int) -> int:
    """The bits high down to low of a number."""
    return value >> low & (1 << high - low + 1) - 1


def immediate(form: str, word: int) -> int:
    """The immediate value of a word; all but shifts and upper bits have a sign."""
    places = IMMEDIATE[form]
    value = sum(bits(word, at + high - low, at) << low for high, low, at in places)
    return signed(value, places[0][0] + 1) if form in "ISBJ" else value


@functools.lru_cache(1 << 16)
def decode(word: int) -> Instruction | None:
    """The instruction of a word, or None."""
    if word in WHOLE.values():
        return Instruction("ecall" if word == WHOLE["ecall"] else "ebreak")
    opcode, kind, top = word & 0x7F, bits(word, 14, 12), word >> 25
    for key in ((opcode, kind, None), (opcode, kind, top), (opcode, None, None)):
        if key in BY_WORD:
            name, form = BY_WORD[key]
            to, a, b = (bits(word, at + 4, at) for at in REGISTER.values())
            return Instruction(name, to, a, b, immediate(form, word))
    return None


def encode(name: str, *operands: int) -> int:
    """The word of an instruction, with its operands in the order of OPERANDS."""
    if name in WHOLE:
        return WHOLE[name]
    form, opcode, kind, top = BY_NAME[name]
    given = dict(zip(OPERANDS[form], operands))
    word = opcode | (kind << 12 | top << 25 if form not in "UJ" else 0)
    for high, low, at in IMMEDIATE[form]:
        word |= bits(given["value"], high, low) << at
    return word | sum(given[register] << at for register, at in REGISTER.items() if register in given)


def text(word: int, pc: int = 0) -> str:
    """The instruction of a word at an address, or '.word' where it is none."""
    what = decode(word)
    if what is None:
        return f".word {word:#010x}"
    name, value = what.name, what.value
    if name in WHOLE or name == "fence":
        return name
    if word in (0x13, 0x8067):
        return "nop" if word == 0x13 else "ret"
    form = BY_NAME[name][0]
    shown = [REGISTERS[getattr(what, operand)] for operand in OPERANDS[form] if operand in REGISTER]
    if form in "BJ":
        shown.append(f"{(pc + value) % 2**32:08x}")
    elif form != "R":
        shown.append(f"{value >> 12:#x}" if form == "U" else str(value))
    if name in WIDTHS or name == "jalr":
        return f"{name} {shown[0]},{shown[2]}({shown[1]})"
    return f"li {shown[0]},{value}" if name == "addi" and shown[1] == "zero" else f"{name} {','.join(shown)}"


def access(word: int, x: list[int]) -> tuple[str, int, int] | None:
    """What a word does with these registers: 'load' or 'store', address and width; None for other words."""
    what = decode(word)
    if what is None or what.name not in WIDTHS:
        return None
    return ("load" if what.name[0] == "l" else "store", (x[what.a] + what.value) % 2**32, WIDTHS[what.name])


def registers(what: Instruction) -> tuple[tuple[int, ...], int]:
    """The registers that an instruction reads, in the order of its operands, and the one that it sets, or 0."""
    if what.name == "ecall":
        return CALL
    if what.name in WHOLE or what.name == "fence":
        return (), 0
    operands = OPERANDS[BY_NAME[what.name][0]]
    return tuple(getattr(what, name) for name in operands if name in ("a", "b")), what.to if "to" in operands else 0
