"""A guest's threads under ordinary mutexes, in plain Python, written from docs/GUIDE.md.

./workbench check compares what the program ./tclocks prints with this model, and ./workbench facts counts turns by it.
It shares no code with the program. It takes files that the program accepts; it refuses none itself."""
from __future__ import annotations

import operator
from typing import Any, Callable, Collection, Iterator

from .. import limits
from . import elf32, rv32im
from .rv32im import signed

STACK = limits.STACK
ECALL = rv32im.WHOLE["ecall"]
SIGNED = ("lb", "lh", "lw")  # loads that extend the sign
Operation = Callable[[int, int], Any]


def of_signed(operation: Operation) -> Operation:
    """The operation on words that are read with a sign."""
    return lambda a, b: operation(signed(a), signed(b))


def quotient(a: int, b: int) -> int:
    """Rounded toward zero; of a division by zero -1."""
    return abs(a) // abs(b) * (1 if (a < 0) == (b < 0) else -1) if b else -1


def remainder(a: int, b: int) -> int:
    return a - quotient(a, b) * b


COMPARISONS: dict[str, Operation] = {
    "beq": operator.eq, "bne": operator.ne, "blt": of_signed(operator.lt), "bge": of_signed(operator.ge),
    "bltu": operator.lt, "bgeu": operator.ge}
OPERATIONS: dict[str, Operation] = {
    "add": operator.add, "sub": operator.sub, "xor": operator.xor, "or": operator.or_, "and": operator.and_,
    "slt": of_signed(operator.lt), "sltu": lambda a, b: a % 2**32 < b % 2**32,
    "sll": lambda a, b: a << (b & 31), "srl": lambda a, b: a >> (b & 31), "mul": operator.mul,
    "sra": lambda a, b: signed(a) >> (b & 31), "mulh": lambda a, b: signed(a) * signed(b) >> 32,
    "mulhsu": lambda a, b: signed(a) * b >> 32, "mulhu": lambda a, b: a * b >> 32,
    "div": of_signed(quotient), "divu": quotient, "rem": of_signed(remainder), "remu": remainder}
IMMEDIATES = {"sltiu": "sltu", **{f"{name}i": name for name in ("add", "sll", "slt", "xor", "srl", "sra", "or", "and")}}


class Fault(Exception):
    """A guest's fault; its text is its number."""


class Illegal(Exception):
    """A schedule that ordinary mutexes do not allow."""


class Guest:
    """What a file says: ranges (addresses, flags, bytes), entries and guards, and the guards' addresses."""

    def __init__(self, file: bytes) -> None:
        self.entries, self.guards = [(elf32.word(file, elf32.ENTRY), 0)], []
        self.ranges = []
        for header in elf32.headers(file):
            content = header.content(file)
            if header.type == elf32.LOAD and header.memory > 0:
                self.ranges.append((header.range, header.flags, content.ljust(header.memory, b"\0")))
            elif header.type == elf32.NOTE:
                for note in elf32.notes(content):
                    if note.is_threads:
                        _, threads, _, pairs = elf32.described(note.descriptor)
                        self.entries, self.guards = pairs[:threads], pairs[threads:]
        self.spans = [range(start, start + length) for start, length in self.guards]

    def word(self, pc: int) -> int | None:
        """The word at an address that code may be fetched from, or None."""
        for where, flags, content in self.ranges:
            if flags & 1 and pc in where and pc + 3 in where:
                return int.from_bytes(content[pc - where.start:pc - where.start + 4], "little")
        return None


class Thread:
    """Registers, memory of its own, fuel, held locks, blocks that it ran and sleeps for, how it ended."""

    def __init__(self, guest: Guest, number: int, fuel: int) -> None:
        self.pc, argument = guest.entries[number]
        self.x = [0] * 32
        self.x[2], self.x[10], self.x[11] = STACK.stop, argument, number
        self.fuel, self.blocks = fuel, 0
        self.held: set[int] = set()
        self.end: str | None = None
        self.slept = 0
        self.own = {i: bytearray(content) for i, (_, flags, content) in enumerate(guest.ranges) if flags & 2}
        self.stack = bytearray(len(STACK))


class Lock:
    """The guarded bytes, who has the lock, whether it is broken, how often it was taken."""

    def __init__(self, guest: Guest, number: int) -> None:
        self.addresses = span = guest.spans[number]
        self.bytes = bytearray(next(content[span.start - where.start:span.stop - where.start]
                                    for where, flags, content in guest.ranges
                                    if flags & 2 and span.start in where))
        self.owner: int | None = None
        self.broken = self.sections = 0


class Machine:
    """Threads that take turns, and locks with one owner each."""

    def __init__(self, guest: Guest, fuel: int) -> None:
        self.guest = guest
        self.threads = [Thread(guest, t, fuel) for t in range(len(guest.entries))]
        self.locks = [Lock(guest, l) for l in range(len(guest.guards))]

    def next_lock(self, thread: Thread) -> int | None:
        """The lock that the next instruction lawfully takes, or None."""
        takes = (thread.fuel > 0 and self.guest.word(thread.pc) == ECALL and thread.x[17] == limits.LOCK
                 and not wrong_call(limits.LOCK, thread.x[10], thread.held, len(self.locks)))
        return thread.x[10] if takes else None

    def able(self) -> Iterator[int]:
        """The threads that can run a block."""
        for number, thread in enumerate(self.threads):
            lock = self.next_lock(thread)
            if thread.end is None and (lock is None or self.locks[lock].owner is None):
                yield number

    def place(self, thread: Thread, address: int, width: int, fault: int) -> tuple[bytes, int, bool]:
        """The bytes at an address, where they begin there, and whether they may be stored to."""
        if address % width:
            raise Fault(6)
        last = address + width - 1
        if address in STACK:
            return thread.stack, address - STACK.start, True
        for number, lock in enumerate(self.locks):
            if address in lock.addresses:
                if number not in thread.held:
                    raise Fault(7)
                return lock.bytes, address - lock.addresses.start, True
        for i, (where, flags, content) in enumerate(self.guest.ranges):
            if address in where and last in where:
                return thread.own.get(i, content), address - where.start, bool(flags & 2)
        raise Fault(fault)

    def load(self, thread: Thread, address: int, width: int, extend: bool) -> int:
        content, at, _ = self.place(thread, address, width, 4)
        return int.from_bytes(content[at:at + width], "little", signed=extend)

    def store(self, thread: Thread, address: int, width: int, value: int) -> None:
        content, at, writable = self.place(thread, address, width, 5)
        if not writable or not isinstance(content, bytearray):
            raise Fault(5)
        content[at:at + width] = (value & ((1 << 8 * width) - 1)).to_bytes(width, "little")

    def turn(self, number: int) -> str | None:
        """One turn. Answers what ends the block, or None."""
        thread = self.threads[number]
        if thread.end:
            raise Illegal(f"thread {number} has ended")
        if thread.fuel == 0:
            return self.finish(thread, "spent")
        thread.fuel -= 1
        try:
            word = self.guest.word(thread.pc)
            if word is None:
                raise Fault(2)
            if word == ECALL:
                return self.call(number, thread)
            self.instruction(thread, word)
        except Fault as fault:
            return self.finish(thread, f"fault {fault}")
        return None

    def finish(self, thread: Thread, end: str) -> str:
        for lock in thread.held:
            self.locks[lock].owner, self.locks[lock].broken = None, 1
        thread.held, thread.end = set(), end
        return end

    def call(self, number: int, thread: Thread) -> str | None:
        call, value, answer, end = thread.x[17], thread.x[10], 0, None
        wrong = wrong_call(call, value, thread.held, len(self.locks))
        if wrong:
            raise Fault(wrong)
        if call == limits.EXIT:
            return self.finish(thread, "exit")
        if call == limits.SLEEP:
            thread.slept, end = value, "slept"
        elif call == limits.LOCK:
            answer = self.take(number, thread, value)
        else:
            self.locks[value].owner, end = None, f"unlocked {value}"
            thread.held.discard(value)
        thread.x[10] = answer
        thread.pc += 4
        return end

    def take(self, number: int, thread: Thread, wanted: int) -> int:
        lock = self.locks[wanted]
        if lock.owner is not None:
            raise Illegal(f"thread {number} takes lock {wanted}, which thread {lock.owner} has")
        lock.owner = number
        lock.sections += 1
        thread.held.add(wanted)
        return lock.broken

    def instruction(self, thread: Thread, word: int) -> None:
        what = rv32im.decode(word)
        if what is None:
            raise Fault(1)
        name, to, a, b, immediate = what
        a, b, after, value = thread.x[a], thread.x[b], thread.pc + 4, None
        if name in IMMEDIATES:
            value = OPERATIONS[IMMEDIATES[name]](a, immediate)
        elif name in OPERATIONS:
            value = OPERATIONS[name](a, b)
        elif name in COMPARISONS:
            after = target(thread.pc + immediate) if COMPARISONS[name](a, b) else after
        elif name in rv32im.WIDTHS:
            address, width = (a + immediate) % 2**32, rv32im.WIDTHS[name]
            if name[0] == "s":
                self.store(thread, address, width, b)
            else:
                value = self.load(thread, address, width, name in SIGNED)
        elif name in ("jal", "jalr"):
            value, after = after, target(thread.pc + immediate if name == "jal" else (a + immediate) & ~1)
        elif name in ("lui", "auipc"):
            value = immediate + (thread.pc if name == "auipc" else 0)
        elif name == "ebreak":
            raise Fault(8)
        if value is not None and to:
            thread.x[to] = value % 2**32
        thread.pc = after % 2**32

    def run_block(self, number: int) -> tuple[int, set[int], str]:
        """One block of a thread: its number of turns, its locks, and why it ended."""
        thread, turns, end = self.threads[number], 0, None
        taken = self.next_lock(thread)
        locks = thread.held | ({taken} if taken is not None else set())
        while end is None:
            end = self.turn(number)
            turns += 1
            wanted = None if end else self.next_lock(thread)
            if wanted is not None:
                end = f"wants {wanted}"
            elif end is None and turns == limits.TURNS:
                end = "cut"
        thread.blocks += 1
        return turns, locks, end


def wrong_call(call: int, value: int, held: Collection[int], locks: int) -> int | None:
    """The fault of a guest call with a value by a thread that holds some of so many locks, or None."""
    if call not in limits.CALLS or (call == limits.SLEEP and value > limits.SLEPT):
        return 9
    if call in (limits.SLEEP, limits.EXIT):
        return None
    if value >= locks or (call == limits.LOCK and len(held) == limits.HELD):
        return 10
    if call == limits.LOCK:
        return 11 if any(value <= lock for lock in held) else None
    return None if value in held else 12


def target(address: int) -> int:
    if address % 4:
        raise Fault(3)
    return address


def differences(facts: dict[str, Any], machine: Any) -> Iterator[str]:
    """Says where a machine at its end is not as the facts of its guest say. '.' in a guard's
    digits and null elsewhere stand for anything."""
    threads = zip(*((thread.end, thread.x[10], thread.pc) for thread in machine.threads))
    locks = [*zip(*((lock.bytes.hex(), lock.sections, lock.broken) for lock in machine.locks))] or [()] * 3
    for name, seen in zip(("ends", "x10", "pc", "guards", "sections", "broken"), (*threads, *locks)):
        if len(seen) != len(facts[name]):
            yield f"{len(seen)} values of {name}, not {len(facts[name])}"
        for i, (value, fact) in enumerate(zip(seen, facts[name])):
            if name == "guards" and len(fact) == len(value):
                value = "".join("." if f == "." else v for v, f in zip(value, fact))
            if fact is not None and value != fact:
                yield f"{name} {i}: {value}, not {fact}"
