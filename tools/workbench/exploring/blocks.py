"""A thread that runs whole blocks, from a state that is a value: what its blocks come to depends on its own state and
on the words of locks that it reads, and on nothing else. Which words these are is kept."""
from __future__ import annotations

from functools import partial
from typing import Any, Callable, Iterable, Optional, Sequence, Tuple, Union

from .. import limits
from ..guest import model
from ..guest.model import Fault
from . import steps
from .steps import CALL, MASK, Found, number

PAGE = 6  # a page of a thread's memory has 2^6 bytes
EXIT, SPENT, FAULT = 1, 2, 16  # how a thread ended; fault F is FAULT + F
ENDS = {EXIT: "exit", SPENT: "spent"}


# The fault of an access (4 for one that lies in nothing) or None; what it lies in, which is a lock's number,
# the content of a range that can't be written, or None for memory of the thread's own; and the place in it.
Place = Tuple[Optional[int], Union[int, bytes, None], int]


class Guest:
    """A guest for the threads that run it: the steps of its code by their addresses, what an access with an
    address and a width is, and the first content of the pages of a thread's own memory by their numbers."""

    def __init__(self, guest: model.Guest, known: steps.Live | None = None) -> None:
        self.guest, self.locks = guest, len(guest.guards)
        self.code: Found[int, steps.Step] = Found(partial(steps.decoded, guest, known))
        self.places: Found[Tuple[int, int], Place] = Found(lambda access: self.place(*access))
        self.pages: Found[int, bytes] = Found(self.page)

    def place(self, address: int, width: int) -> Place:
        if address % width:
            return 6, None, 0
        if address in limits.STACK:
            return None, None, 0
        for lock, guard in enumerate(self.guest.spans):
            if address in guard:
                return None, lock, address - guard.start
        for where, flags, content in self.guest.ranges:
            if address in where and address + width - 1 in where:
                return (None, None, 0) if flags & 2 else (None, content, address - where.start)
        return 4, None, 0

    def page(self, number: int) -> bytes:
        start, stop = number << PAGE, number + 1 << PAGE
        page = bytearray(1 << PAGE)
        for where, flags, content in self.guest.ranges:
            low, high = max(where.start, start), min(where.stop, stop)
            if flags & 2 and low < high:
                page[low - start:high - start] = content[low - where.start:high - where.start]
        return bytes(page)


class Held:
    """A lock that a running thread has or had: whether it has it, whether it was broken, its bytes, and what happened
    since: whether the thread took it, whether its end broke it, which of the words that it found were looked at, in
    this order, which words were written, and which of these are sums of a word that it found and a number."""

    def __init__(self, broken: int, content: bytes, took: int) -> None:
        self.held, self.broken, self.bytes = 1, broken, bytearray(content)
        self.took, self.breaks = took, 0
        self.read: dict[int, None] = {}
        self.written: set[int] = set()
        self.sums: dict[int, steps.Sum] = {}

    def load(self, at: int, width: int, extend: bool) -> steps.Sum | int:
        word = at >> 2
        if width == 4 and word not in self.read and (word in self.sums or word not in self.written):
            return self.sums.get(word) or steps.Sum(self, word, int.from_bytes(self.bytes[at:at + 4], "little"), 0)
        self.look(word)
        return int.from_bytes(self.bytes[at:at + width], "little", signed=extend) & MASK

    def look(self, word: int) -> None:
        """Notes that what comes depends on what a word is."""
        if word in self.sums:
            self.sums.pop(word).look()
        elif word not in self.written:
            self.read[word] = None

    def store(self, at: int, width: int, value: steps.Sum | int) -> None:
        word = at >> 2
        if isinstance(value, steps.Sum) and (width < 4 or value.lock is not self):
            value = value.look()
        if width < 4:
            self.look(word)
        self.sums.pop(word, None)
        if isinstance(value, steps.Sum):
            self.sums[word], value = value, value.value()
        self.written.add(word)
        self.bytes[at:at + width] = (value & (1 << 8 * width) - 1).to_bytes(width, "little")


class Away(Exception):
    """Another thread has the lock that the next block takes."""


class Running:
    """A thread with what it changes: registers, program counter, fuel, the pages of its memory that were written, and
    the locks that it has or had. `look` answers of a lock whether it is held, whether it is broken, and its bytes."""

    def __init__(self, guest: Guest, x: Sequence[int], pc: int, fuel: int, pages: dict[int, bytes],
                 held: Iterable[int], look: Callable[[int], tuple[int, int, bytes]]) -> None:
        self.guest, self.pc, self.fuel, self.look = guest, pc, fuel, look
        self.x: steps.Registers = [*x]
        self.pages, self.end = dict(pages), 0
        self.locks = {lock: Held(*look(lock)[1:], 0) for lock in held}

    def held(self) -> list[int]:
        return [lock for lock, state in self.locks.items() if state.held]

    def wants(self) -> int | None:
        """The lock that the next instruction lawfully takes, or None."""
        if self.fuel and self.guest.code[self.pc] is CALL and number(self.x, 17) == limits.LOCK:
            wanted = number(self.x, 10)
            return None if model.wrong_call(limits.LOCK, wanted, self.held(), self.guest.locks) else wanted
        return None

    def inside(self, address: int, width: int, fault: int) -> tuple[Any, int]:
        """What an address lies in, and where: a held lock, bytes not to be written, None for own memory."""
        wrong, inside, at = self.guest.places[address, width]
        if wrong is not None:
            raise Fault(fault if wrong == 4 else wrong)
        if isinstance(inside, int):
            lock = self.locks.get(inside)
            if lock is None or not lock.held:
                raise Fault(7)
            return lock, at
        return inside, at

    def page(self, address: int) -> tuple[bytes, int]:
        number = address >> PAGE
        return self.pages.get(number) or self.guest.pages[number], address & (1 << PAGE) - 1

    def load(self, address: int, width: int, extend: bool) -> steps.Sum | int:
        content, at = self.inside(address, width, 4)
        if isinstance(content, Held):
            return content.load(at, width, extend)
        if content is None:
            content, at = self.page(address)
        return int.from_bytes(content[at:at + width], "little", signed=extend) & MASK

    def store(self, address: int, width: int, value: steps.Sum | int) -> None:
        content, at = self.inside(address, width, 5)
        if isinstance(content, Held):
            return content.store(at, width, value)
        if content is not None:
            raise Fault(5)
        if isinstance(value, steps.Sum):
            value = value.look()
        page, at = self.page(address)
        if not isinstance(page, bytearray):
            page = self.pages[address >> PAGE] = bytearray(page)
        page[at:at + width] = (value & (1 << 8 * width) - 1).to_bytes(width, "little")

    def block(self) -> bool:
        """Runs one block. Answers whether it released a lock; Away where it can't take its lock."""
        x, pc, fuel, code = self.x, self.pc, self.fuel, self.guest.code
        step = code[pc]
        try:
            for _ in range(limits.TURNS):
                if fuel == 0:
                    return self.finish(SPENT)
                fuel -= 1
                if step is CALL:
                    self.pc, self.fuel = pc, fuel
                    released = self.call()
                    if released is not None:
                        return released
                    pc = self.pc
                else:
                    pc = step(x, self)
                step = code[pc]
                if step is CALL:
                    self.pc, self.fuel = pc, fuel
                    if self.wants() is not None:
                        return False
        except Fault as fault:
            return self.finish(FAULT + fault.args[0])
        self.pc, self.fuel = pc, fuel
        return False

    def call(self) -> bool | None:
        """A guest call. Answers whether it released a lock; None where the block goes on."""
        call, value, answer = number(self.x, 17), number(self.x, 10), 0
        released: bool | None = False
        wrong = model.wrong_call(call, value, self.held(), self.guest.locks)
        if wrong:
            raise Fault(wrong)
        if call == limits.EXIT:
            return self.finish(EXIT)
        if call == limits.LOCK:
            answer, released = self.take(value), None
        elif call == limits.UNLOCK:
            self.locks[value].held, released = 0, True
        self.x[10] = answer
        self.pc = self.pc + 4 & MASK
        return released

    def take(self, lock: int) -> int:
        held, broken, content = self.look(lock)
        self.locks[lock] = Held(broken, content, 1)
        if held:
            raise Away
        return broken

    def finish(self, end: int) -> bool:
        for state in self.locks.values():
            if state.held:
                state.held, state.breaks = 0, 1
        self.end = end
        return True

    def go_on(self) -> int:
        """Runs blocks that take no lock as long as there are some. Answers how many."""
        count = 0
        while not self.end and self.wants() is None:
            self.block()
            count += 1
        return count

    def section(self) -> int:
        """Runs blocks up to one that releases a lock, and then those that take none. Answers how many."""
        count, released = 0, False
        while not released:
            released = self.block()
            count += 1
        return count + self.go_on()
