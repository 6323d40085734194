"""A guest's instructions, decoded once: functions whose operands are bound, of the registers and the running thread,
that answer the next program counter, or raise Fault and change nothing.

They do what model.py does, only faster; tools/tests compares the two block by block."""
from __future__ import annotations

import operator
from functools import partial, reduce
from typing import TYPE_CHECKING, Any, Callable, Collection, Dict, List, NamedTuple, TypeVar, Union

from ..guest import model, rv32im
from ..guest.model import Fault

if TYPE_CHECKING:
    from .blocks import Running

MASK = 0xFFFFFFFF
Key = TypeVar("Key")
Value = TypeVar("Value")


class Found(Dict[Key, Value]):
    """What is found of a key, once."""

    def __init__(self, find: Callable[[Key], Value]) -> None:
        super().__init__()
        self.find = find

    def __missing__(self, key: Key) -> Value:
        value = self[key] = self.find(key)
        return value


class Sum(NamedTuple):
    """A word of a lock as a section found it, not looked at so far, and a number that was added to it."""
    lock: Any  # blocks.Held
    word: int
    found: int
    added: int

    def plus(self, number: int) -> Sum:
        return self._replace(added=self.added + number & MASK)

    def look(self) -> int:
        """The number itself: what comes of the section depends on the word from here on."""
        self.lock.read[self.word] = None
        return self.value()

    def value(self) -> int:
        return self.found + self.added & MASK


Registers = List[Union[int, Sum]]
Step = Callable[[Registers, "Running"], int]
Operation = Callable[[int, int], int]


def number(x: Registers, register: int) -> int:
    """A register as a number."""
    value = x[register]
    if isinstance(value, Sum):
        value = x[register] = value.look()
    return value


X10 = 10
LINKS = 1, 5  # the registers that a return goes by


class Elsewhere(Exception):
    """A return goes to a place that is behind no call."""


def is_return(what: rv32im.Instruction) -> bool:
    return what.name == "jalr" and (what.to, what.value) == (0, 0) and what.a in LINKS


class Live:
    """Which registers a guest's code can still read, by its addresses, as bits: a register that is written before it is
    read again, on every way on, has a value that nothing depends on.

    Every branch is taken to go both ways, and a return (jalr x0,0(x1), or x5, which functions that a compiler calls for
    a division return by) to every place behind a call; where a return goes elsewhere, `expect` says so, and nothing of
    this may be used. At other indirect jumps all registers count as read. x10 always does, since it is told of an ended
    thread, and it can end anywhere."""

    def __init__(self, guest: model.Guest) -> None:
        self.guest = guest
        self.returns: set[int] = set()
        flows: dict[int, tuple[int, int, Collection[int]]] = {}
        found = [entry for entry, _ in guest.entries]
        while found:
            pc = found.pop()
            if pc not in flows:
                flows[pc] = self.flow(pc)
                found += [*flows[pc][2], *self.returns]
        self.bits = {pc: read for pc, (read, _, _) in flows.items()}
        before: dict[int, int] = {}
        while self.bits != before:
            before = dict(self.bits)
            for pc, (read, written, after) in reversed(flows.items()):
                behind = reduce(operator.or_, map(self.bits.__getitem__, after), 0)
                self.bits[pc] = read | behind & ~written

    def flow(self, pc: int) -> tuple[int, int, Collection[int]]:
        """What the instruction at an address reads and writes, as bits, and where code goes on."""
        word = self.guest.word(pc)
        what = None if word is None else rv32im.decode(word)
        if what is None or what.name == "ebreak":
            return 1 << X10, 0, ()
        if what.name in ("jal", "jalr") and what.to:
            self.returns.add(pc + 4 & MASK)
        if what.name == "jalr" and not is_return(what):
            return MASK, 0, ()
        registers, written = rv32im.registers(what)
        read = sum(1 << register for register in {*registers, X10})
        if is_return(what):
            return read, 1 << written, self.returns
        to, after = pc + what.value & MASK, pc + 4 & MASK
        flow = {"jal": (to,)}.get(what.name) or ((after, to) if what.name[0] == "b" else (after,))
        return read, 1 << written, flow

    def at(self, pc: int) -> int:
        return self.bits.get(pc, MASK)

    def expect(self, place: int) -> None:
        """Elsewhere where a return can't be expected to go to a place with code."""
        if place not in self.returns and self.guest.word(place) is not None:
            raise Elsewhere


def decoded(guest: model.Guest, known: Live | None, pc: int) -> Step:
    """The step of a guest's instruction at an address. With a Live, a return must go where that one takes for
    granted that it goes."""
    word = guest.word(pc)
    what = None if word is None else rv32im.decode(word)
    if what is None:
        return partial(raising, 2 if word is None else 1)
    name, to, a, b, value = what
    after = pc + 4 & MASK
    if not to and name in (*model.OPERATIONS, *model.IMMEDIATES):
        return partial(constant, 0, 0, after)
    if name in ("lui", "auipc"):
        return partial(constant, to, value + (pc if name == "auipc" else 0) & MASK, after)
    if name == "jal":
        return partial(raising, 3) if value % 4 else partial(constant, to, after, pc + value & MASK)
    if name == "jalr":
        return partial(indirect, to, a, value, after, known if is_return(what) else None)
    if name in model.COMPARISONS:
        return partial(branch, model.COMPARISONS[name], a, b, pc + value & MASK, after)
    if name in rv32im.WIDTHS:
        width = rv32im.WIDTHS[name]
        if name[0] == "s":
            return partial(store, a, b, value, width, after)
        return partial(load, to, a, value, width, name in model.SIGNED, after)
    if name in ("add", "sub"):
        a, b = (b, a) if name == "add" and to == b else (a, b)
        return partial(sum_of, to, a, b, 1 if name == "add" else -1, after)
    if name == "addi":
        return partial(added, to, a, value, after)
    if name in model.IMMEDIATES:
        return partial(operated, model.OPERATIONS[model.IMMEDIATES[name]], to, a, None, value, after)
    if name in model.OPERATIONS:
        return partial(operated, model.OPERATIONS[name], to, a, b, 0, after)
    if name == "ecall":
        return CALL
    return partial(raising, 8) if name == "ebreak" else partial(constant, 0, 0, after)


def raising(number: int, x: Registers, run: Running) -> int:
    raise Fault(number)


def constant(to: int, value: int, after: int, x: Registers, run: Running) -> int:
    if to:
        x[to] = value
    return after


def indirect(to: int, a: int, value: int, after: int, known: Live | None, x: Registers, _: Running) -> int:
    """A jump; `known` is what a return goes by."""
    target = number(x, a) + value & MASK - 1
    if target & 2:
        raise Fault(3)
    if to:
        x[to] = after
    if known:
        known.expect(target)
    return target


def branch(compared: Operation, a: int, b: int, target: int, after: int, x: Registers, run: Running) -> int:
    if compared(number(x, a), number(x, b)):
        if target % 4:
            raise Fault(3)
        return target
    return after


def load(to: int, a: int, at: int, width: int, extend: bool, after: int, x: Registers, run: Running) -> int:
    value = run.load(number(x, a) + at & MASK, width, extend)
    if to:
        x[to] = value
    return after


def store(a: int, b: int, offset: int, width: int, after: int, x: Registers, run: Running) -> int:
    run.store(number(x, a) + offset & MASK, width, x[b])
    return after


def added(to: int, a: int, value: int, after: int, x: Registers, run: Running) -> int:
    before = x[a]
    x[to] = before.plus(value) if isinstance(before, Sum) else before + value & MASK
    return after


def sum_of(to: int, a: int, b: int, sign: int, after: int, x: Registers, run: Running) -> int:
    """x[to] = x[a] + sign * x[b]. Of two Sums the second is looked at."""
    first, second = x[a], x[b]
    if isinstance(second, Sum):
        if not isinstance(first, Sum) and sign == 1:
            first, second = second, first
        else:
            second = number(x, b)
            first = x[a]  # which may be the same register
    assert not isinstance(second, Sum)
    x[to] = first.plus(sign * second) if isinstance(first, Sum) else first + sign * second & MASK
    return after


def operated(of: Operation, to: int, a: int, b: int | None, value: int, after: int, x: Registers, _: Running) -> int:
    """x[to] = of(x[a], x[b]), or of a value in the place of x[b]."""
    x[to] = of(number(x, a), value if b is None else number(x, b)) & MASK
    return after


CALL: Step = partial(raising, 0)  # stands in the place of the step of an ECALL, and is never called
