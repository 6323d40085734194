"""The text of a report: its header, its blocks, and how threads and locks end, read and written. A text that stops
early is read as far as it goes."""
from __future__ import annotations

import functools
import re
from typing import Iterable, Iterator, NamedTuple, Tuple

from .. import limits, tool
from ..limits import KINDS, PASSED_ON, SECTIONS

NUMBER = r"(0|[1-9]\d{0,9})"
HEX8 = r"([0-9a-f]{8})"
GUEST = f"guest threads {NUMBER} guards {NUMBER}"
OPTIONS = re.compile(r"run workers (\S+) fuel (\S+) batch (\S+)")
ENDED = r"exit|fault (?:[1-9]|1[0-2])|spent"
END = rf"(?:wants|unlocked) (?:[12]?\d|3[01])|slept|cut|{ENDED}"
BLOCK = re.compile(f"block {NUMBER} thread {NUMBER} turns {NUMBER} held (-|[0-9,]+) "
                   f"kind ({'|'.join(KINDS)}) worker {NUMBER} pc {HEX8} end ({END})")
THREAD = re.compile(f"thread {NUMBER} ({ENDED}) fuel {NUMBER} pc {HEX8}")
LOCK = re.compile(f"lock {NUMBER} sections {NUMBER} broken ([01]) bytes {NUMBER}")
DATA = f"data {HEX8} ((?:[0-9a-f]{{2}})+)"
ANSWER = re.compile(r"refused \d{1,2} \w+|rejected \d{1,20} \d \w+|usage: .*")


class Wrong(tool.Trouble):
    """What is wrong with a report."""

    def __init__(self, text: str) -> None:
        super().__init__(tool.WRONG, text)


class NoReport(Wrong):
    """The program's answer in the place of a report: a refusal, the line of a rejected history, or the usage line."""

    def __init__(self, line: str) -> None:
        super().__init__(f"this is no report but the program's answer: {line}")
        self.line = line


class Block(NamedTuple):
    stamp: int
    thread: int
    turns: int
    held: Tuple[int, ...]
    kind: str
    worker: int
    pc: int
    end: str

    @property
    def begun(self) -> int | None:
        """The lock whose section it begins, or None."""
        return self.held[-1] if self.kind in SECTIONS else None

    @property
    def passed_on(self) -> bool:
        """Whether it begins a section that a waiter was given."""
        return self.kind in PASSED_ON

    @property
    def wanted(self) -> int | None:
        """The lock that it ends before, or None."""
        return int(self.end[6:]) if self.end.startswith("wants") else None

    @property
    def ends_thread(self) -> bool:
        return self.end in ("exit", "spent") or self.end.startswith("fault")

    @property
    def released(self) -> tuple[int, ...]:
        if self.end.startswith("unlocked"):
            return (int(self.end[9:]),)
        return self.held if self.ends_thread else ()

    @property
    def kept(self) -> tuple[int, ...]:
        """The locks that the thread holds after it."""
        released = self.released
        return tuple(lock for lock in self.held if lock not in released) if released else self.held

    @property
    def leaves_free(self) -> bool:
        """Whether its thread goes on without any lock."""
        return not self.ends_thread and not self.kept

    def line(self) -> str:
        return (f"block {self.stamp} thread {self.thread} turns {self.turns} held {held_text(self.held)} "
                f"kind {self.kind} worker {self.worker} pc {self.pc:08x} end {self.end}")


class ThreadEnd(NamedTuple):
    how: str
    fuel: int
    pc: int
    x: Tuple[int, ...]


class LockEnd(NamedTuple):
    sections: int
    broken: int
    address: int
    bytes: bytes


def held_text(held: tuple[int, ...]) -> str:
    return ",".join(map(str, held)) or "-"


@functools.lru_cache(1 << 12)
def held_of(text: str, locks: int) -> tuple[int, ...] | None:
    """The ascending list of locks below a number that a text is, or None."""
    held = tuple(int(word) for word in text.split(",") if word.isdigit() and len(word) < 3)
    is_one = held_text(held) == text and all(low < high for low, high in zip(held, (*held[1:], locks)))
    return held if is_one else None


def block_of(found: re.Match[str], held: tuple[int, ...]) -> Block:
    """The block of a line that matches BLOCK."""
    stamp, thread, turns, _, kind, worker, pc, end = found.groups()
    return Block(int(stamp), int(thread), int(turns), held, kind, int(worker), int(pc, 16), end)


def several(count: int, what: str, form: str = "") -> str:
    """A number of things: '1 lock', '2 locks'."""
    return f"{count:{form}} {what}{'s' * (count != 1)}"


def locks_text(held: tuple[int, ...]) -> str:
    """Locks in a sentence: 'lock 0', 'locks 0,1'."""
    return f"lock{'s' * (len(held) > 1)} {held_text(held)}"


def wrong_number(name: str, word: str) -> str | None:
    """What is wrong with a word of this number, or None."""
    least, most = limits.NUMBERS[name]
    if not re.fullmatch(NUMBER, word):
        why = ("it has a leading zero" if re.fullmatch("0[0-9]+", word)
               else "it has too many digits" if word.isdigit() else "it is no number in digits alone")
        return f"{name} is {word!r}: {why}"
    return None if least <= int(word) <= most else f"{name} is {word}, which is not {least} to {most}"


def options_of(line: str, number: int) -> dict[str, int] | None:
    """The numbers of a line on options, by name; None where the line with this number is no such line."""
    found = OPTIONS.fullmatch(line)
    for name, word in zip(limits.RUN, found.groups()) if found else ():
        if wrong_number(name, word):
            raise Wrong(f"line {number}: {wrong_number(name, word)}")
    return dict(zip(limits.RUN, map(int, found.groups()))) if found else None


def header_lines(threads: int, guards: int, workers: int, fuel: int, batch: int) -> list[str]:
    return ["tclocks 2", f"guest threads {threads} guards {guards}", f"run workers {workers} fuel {fuel} batch {batch}"]


def ending_lines(threads: Iterable[ThreadEnd], locks: Iterable[LockEnd]) -> Iterator[str]:
    """What stands behind the blocks, of threads (ThreadEnd) and locks (LockEnd) that have ended."""
    for number, thread in enumerate(threads):
        yield f"thread {number} {thread.how} fuel {thread.fuel} pc {thread.pc:08x}"
        for i in range(0, 32, 8):
            yield f"x{i} " + " ".join(f"{value:08x}" for value in thread.x[i:i + 8])
    for number, lock in enumerate(locks):
        yield f"lock {number} sections {lock.sections} broken {lock.broken} bytes {len(lock.bytes)}"
        for i in range(0, len(lock.bytes), 32):
            yield f"data {lock.address + i:08x} {lock.bytes[i:i + 32].hex()}"
    yield "end"


class Report:
    """A report that is read from its lines: the header at once, then `blocks`, then `ends`. Lines are
    numbered and lose their ends, and the next one can be looked at before it is taken."""

    def __init__(self, lines: Iterable[str]) -> None:
        self.lines, self.number, self.cut = iter(lines), 0, False
        self.next: str | None = None
        self.take()
        self.first_line()
        self.threads, self.guards = self.guest_line()
        options = options_of(self.next or "", self.number)
        if not options:
            raise self.must("'run workers W fuel F batch B'")
        self.take()
        self.workers, self.fuel, self.batch = (options[name] for name in limits.RUN)
        self.thread_ends: list[ThreadEnd] = []
        self.lock_ends: list[LockEnd] = []
        self.whole = False

    def take(self) -> None:
        """Goes on to the next line, or to None behind the last whole one."""
        self.next = next(self.lines, None)
        self.number += 1
        if self.next is not None:
            self.cut = not self.next.endswith("\n")
            self.next = None if self.cut else self.next[:-1]

    def must(self, what: str) -> Wrong:
        """What is wrong where the next line must be something else."""
        shown = "the text ends" if self.next is None else f"it is {self.next[:100]!r}"
        return Wrong(f"line {self.number} must be {what}: {shown}")

    def match(self, form: str, what: str) -> re.Match[str]:
        """The line in front, of this form; Wrong where it is another."""
        found = re.fullmatch(form, self.next or "")
        if not found:
            raise self.must(what)
        return found

    def first_line(self) -> None:
        line = self.next
        if line is None:
            raise Wrong("this is no report: it is empty, or stops in its first line")
        if ANSWER.fullmatch(line):
            raise NoReport(line[:200])
        for form, what in ("demo", "the summary of a demo"), ("profile", "a profile"):
            if line.startswith(f"tclocks {form} "):
                raise Wrong(f"this is {what} and no report: it has no blocks")
        if line != "tclocks 2":
            raise self.must("'tclocks 2'")
        self.take()

    def guest_line(self) -> tuple[int, int]:
        threads, guards = map(int, self.match(GUEST, "'guest threads N guards M'").groups())
        for name, value, least, most in (("threads", threads, 1, limits.THREADS), ("guards", guards, 0, limits.GUARDS)):
            if not least <= value <= most[2]:
                raise self.must(f"about {least} to {most[2]} {name}")
        self.take()
        return threads, guards

    def blocks(self) -> Iterator[Block]:
        stamp = 0
        while self.next is not None and self.next.startswith("block "):
            yield self.block(stamp)
            self.take()
            stamp += 1

    def block(self, stamp: int) -> Block:
        found = BLOCK.fullmatch(self.next or "")
        if not found or int(found[1]) != stamp:
            raise self.must(f"the line of block {stamp}")
        held = held_of(found[4], self.guards)
        if held is None:
            raise self.wrong(stamp, f"held is {found[4]!r}, which is no ascending list of locks below {self.guards}")
        block = block_of(found, held)
        if block.thread >= self.threads:
            raise self.wrong(stamp, f"there is no thread {block.thread}, but threads 0 to {self.threads - 1}")
        if block.worker >= self.workers:
            raise self.wrong(stamp, f"there is no worker {block.worker}, but workers 0 to {self.workers - 1}")
        if not 1 <= block.turns <= limits.TURNS or (block.kind in SECTIONS and not held):
            raise self.wrong(stamp, f"it has 1 to {limits.TURNS} turns, and a section's first block holds its lock")
        return block

    def wrong(self, stamp: int, what: str) -> Wrong:
        return Wrong(f"block {stamp}, line {self.number}: {what}")

    def ends(self) -> None:
        """Reads what stands behind the blocks, as far as it goes."""
        while self.next is not None and self.next != "end":
            self.part()
        if self.next == "end":
            self.whole = True
            self.take()
            if self.next is not None or self.cut:
                raise Wrong(f"line {self.number}: something stands behind the line 'end'")

    def part(self) -> None:
        """A thread with its registers, or a lock with its bytes."""
        line = self.next or ""
        thread, lock = THREAD.fullmatch(line), LOCK.fullmatch(line)
        if thread and int(thread[1]) == len(self.thread_ends) < self.threads:
            self.take()
            self.thread_ends.append(ThreadEnd(thread[2], int(thread[3]), int(thread[4], 16), self.registers()))
        elif lock and int(lock[1]) == len(self.lock_ends) < self.guards:
            self.take()
            self.lock_ends.append(LockEnd(int(lock[2]), int(lock[3]), *self.data(int(lock[4]))))
        else:
            raise self.must("how a thread or a lock ends, or 'end'")

    def registers(self) -> tuple[int, ...]:
        values: list[int] = []
        for first in range(0, 32, 8):
            if self.next is None:
                break
            found = self.match(f"x{first}((?: [0-9a-f]{{8}}){{8}})", f"the registers from x{first} on")
            values += [int(word, 16) for word in found[1].split()]
            self.take()
        return tuple(values)

    def data(self, size: int) -> tuple[int, bytes]:
        address, content = 0, b""
        while len(content) < size and self.next is not None:
            found = self.match(DATA, f"bytes {len(content)} to {size - 1} of the lock")
            address = address if content else int(found[1], 16)
            content += bytes.fromhex(found[2])
            self.take()
        return address, content

    def title(self) -> str:
        """What the header says, for headings."""
        return ", ".join((several(self.threads, "thread"), several(self.guards, "lock"),
                          several(self.workers, "worker"), f"fuel {self.fuel}", f"batch limit {self.batch}"))

    def tell_cut(self, name: str) -> None:
        """Says of a report that stops early where it does, for a tool."""
        if not self.whole:
            tool.note(name, f"the report stops behind line {self.number - 1}, without the line 'end'; "
                      "what it has up to there is used")
