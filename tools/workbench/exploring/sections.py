"""States of a guest as bytes, and what follows on them by whole sections.

A state is the names of its parts, one for each thread and one for each lock; a part's name is a digest of its content.
So equal parts have one name, a step copies names alone, and what a section comes to is computed once for all states in
which its thread's part and the words of locks that it reads are the same. docs/COURSE.md says which interleavings these
steps stand for, and why that is all of them."""
from __future__ import annotations

import hashlib
import struct
from typing import Any, Iterator, NamedTuple, Tuple

from .. import limits
from ..guest import model
from . import blocks, rules, steps

MOST_THREADS = max(limits.THREADS.values())
NAME = 8  # bytes of a part's name
RUNNING = 0  # how a thread is that has not ended
THREAD = struct.Struct("<BBI")  # how it is or ended, how many locks it holds, x10
REST = struct.Struct("<34I")  # x0 to x31, pc, fuel
LOCK = struct.Struct("<IBB")  # its sections, whether it is held, whether it is broken
FLAGS = 4, 6  # where the two flags are
PAGE_BYTES = 1 << blocks.PAGE
KEPT = 50000  # so many lock parts a change is kept for


class Collision(Exception):
    """Two parts have one digest."""


class Change:
    """What a section does to a lock."""

    __slots__ = ("sections", "start", "stop", "held", "breaks", "took", "words", "sums", "after")

    def __init__(self, sections: Sections, lock: int, state: blocks.Held) -> None:
        self.sections = sections
        self.after: dict[bytes, bytes] = {}
        self.start, self.stop = sections.span(lock)
        self.held, self.breaks, self.took = state.held, state.breaks, state.took
        self.words = [(place(word), bytes(state.bytes[4 * word:4 * word + 4]))
                      for word in sorted(state.written - set(state.sums))]
        self.sums = [(place(word), place(value.word), value.added) for word, value in state.sums.items()]

    def of(self, name: bytes) -> bytes:
        """The name of the lock's part behind it."""
        content = bytearray(self.sections.contents[name])
        count, _, broken = LOCK.unpack_from(content)
        LOCK.pack_into(content, 0, count + self.took, self.held, broken | self.breaks)
        found = self.sections.contents[name]
        for at, word in self.words:
            content[at:at + 4] = word
        for at, start, added in self.sums:
            value = int.from_bytes(found[start:start + 4], "little") + added & steps.MASK
            content[at:at + 4] = value.to_bytes(4, "little")
        if len(self.after) > KEPT:
            self.after.clear()
        after = self.after[name] = self.sections.part(bytes(content))
        return after


def place(word: int) -> int:
    """Where a word of a lock's bytes stands in its part."""
    return LOCK.size + 4 * word


class Result(NamedTuple):
    """What a section comes to: its thread's part, changes of locks, how many blocks it has."""
    thread: bytes
    changes: Tuple[Change, ...]
    blocks: int


class Node:
    """What of the locks a section depends on, behind what the nodes above it look at, and what follows: by the bytes
    there a result, another node where it depends on more, or () where a lock is held that it takes."""

    __slots__ = ("known", "places", "after")

    def __init__(self, above: Node | None, places: list[tuple[int, int, int, int]]) -> None:
        self.known: frozenset[tuple[int, ...]] = frozenset(places).union(above.known if above else ())
        # As few spans: start and stop of the lock's name, and of the bytes.
        self.places: list[tuple[int, int, int, int]] = []
        for start, stop, low, high in sorted(places):
            if self.places and self.places[-1][:2] == (start, stop) and self.places[-1][3] == low:
                low = self.places.pop()[2]
            self.places.append((start, stop, low, high))
        self.after: dict[bytes, Any] = {}


class Sections:
    """A guest's parts, and what its threads' sections come to. Unless `whole`, registers that code doesn't
    read again are 0 in the parts of threads; steps.Elsewhere where it can't be known which these are."""

    def __init__(self, guest: model.Guest, fuel: int, whole: bool = False) -> None:
        self.live = None if whole else steps.Live(guest)
        self.machine = model.Machine(guest, fuel)
        self.threads, self.locks = len(guest.entries), len(guest.guards)
        self.guest = blocks.Guest(guest, self.live)
        self.contents: dict[bytes, bytes] = {}
        self.starts: steps.Found[bytes, tuple[Any, ...]] = steps.Found(self.start)
        self.nodes: dict[bytes, Any] = {}
        self.fresh: list[tuple[bytes, bytes]] = []
        self.rounds: dict[Any, Any] = {}  # of a thread's part: how many sections its thread had when it was first met

    def span(self, lock: int) -> tuple[int, int]:
        start = NAME * (self.threads + lock)
        return start, start + NAME

    def part(self, content: bytes) -> bytes:
        """The name of the part with this content."""
        name = hashlib.blake2b(content, digest_size=NAME).digest()
        self.keep(name, content)
        return name

    def keep(self, name: bytes, content: bytes) -> None:
        known = self.contents.setdefault(name, content)
        if known is content:
            self.fresh.append((name, content))
        elif known != content:
            raise Collision(f"two parts have the digest {name.hex()}")

    def thread(self, run: blocks.Running, rounds: int) -> bytes:
        """The name of a running thread's part. Of one that has ended it has how, and x10."""
        if run.end:
            content = THREAD.pack(run.end, 0, steps.number(run.x, 10))
        else:
            held, read = sorted(run.held()), self.live.at(run.pc) if self.live else steps.MASK
            x = [steps.number(run.x, register) if read >> register & 1 else 0 for register in range(32)]
            parts = [THREAD.pack(RUNNING, len(held), x[10]), REST.pack(*x, run.pc, run.fuel), bytes(held)]
            for number in sorted(run.pages):
                page = bytes(run.pages[number])
                if page != self.guest.pages[number]:
                    parts += (number.to_bytes(4, "little"), page)
            content = b"".join(parts)
        name = self.part(content)
        self.rounds.setdefault(name, rounds)
        return name

    def running(self, name: bytes, state: bytes) -> blocks.Running | None:
        """The thread of a part in a state; None where it has ended."""
        start = self.starts[name]
        if not start:
            return None

        def look(lock: int) -> tuple[int, int, bytes]:
            low, high = self.span(lock)
            content = self.contents[state[low:high]]
            return content[FLAGS[0]], content[FLAGS[0] + 1], content[LOCK.size:]
        x, pc, fuel, pages, held = start
        return blocks.Running(self.guest, x, pc, fuel, pages, held, look)

    def start(self, name: bytes) -> tuple[Any, ...]:
        """The registers, program counter, fuel, pages and locks of a thread's part; () where it has ended."""
        content = self.contents[name]
        how, held, _ = THREAD.unpack_from(content)
        if how != RUNNING:
            return ()
        *x, pc, fuel = REST.unpack_from(content, THREAD.size)
        at = THREAD.size + REST.size + held
        pages = {}
        for start in range(at, len(content), 4 + PAGE_BYTES):
            pages[int.from_bytes(content[start:start + 4], "little")] = content[start + 4:start + 4 + PAGE_BYTES]
        return x, pc, fuel, pages, content[at - held:at]

    def first(self) -> tuple[bytes, int]:
        """The state in which each thread is at its first LOCK or its end, and how many blocks these are."""
        names, count = [], 0
        for thread in self.machine.threads:
            run = blocks.Running(self.guest, thread.x, thread.pc, thread.fuel, {}, (), lambda lock: (0, 0, b""))
            count += run.go_on()
            names.append(self.thread(run, 0))
        names += [self.part(LOCK.pack(0, 0, 0) + bytes(lock.bytes)) for lock in self.machine.locks]
        return b"".join(names), count

    def follow(self, name: bytes, state: bytes, node: Node | None) -> Any:
        """What the next section comes to of a thread with a part in a state, kept below a node; () where
        it has ended or can't take a lock."""
        run = self.running(name, state)
        if run is None:
            self.nodes[name] = ()
            return ()
        try:
            count = run.section()
            thread = self.thread(run, self.rounds[name] + 1)
        except blocks.Away:
            count = None
        known = node.known if node else ()
        places = [seen for seen in self.seen(run) if seen not in known]
        if node is None or places:
            node = self.hang(name, state, node, Node(node, places))
        if count is None:
            return self.hang(name, state, node, ())
        changes = tuple(Change(self, *held) for held in run.locks.items())
        return self.hang(name, state, node, Result(thread, changes, count))

    def hang(self, name: bytes, state: bytes, node: Node | None, found: Any) -> Any:
        if node is None:
            self.nodes[name] = found
        else:
            node.after[self.key(node, state)] = found
        return found

    def seen(self, run: blocks.Running) -> Iterator[tuple[int, int, int, int]]:
        """The places of locks that a section depends on: flags of those that it took, words of bytes."""
        for lock, held in run.locks.items():
            span = self.span(lock)
            if held.took:
                yield (*span, *FLAGS)
            for word in held.read:
                yield (*span, place(word), place(word) + 4)

    def key(self, node: Node, state: bytes) -> bytes:
        """The bytes of a node's places."""
        contents = self.contents
        return b"".join([contents[state[start:stop]][low:high] for start, stop, low, high in node.places])

    def result(self, state: bytes, number: int) -> Any:
        """What the next section of a thread comes to; () where it has ended or can't take a lock."""
        name = state[NAME * number:NAME * number + NAME]
        node: Node | None = None
        found: Any = self.nodes.get(name)
        while isinstance(found, Node):
            node = found
            found = node.after.get(self.key(node, state))
        return self.follow(name, state, node) if found is None else found

    @staticmethod
    def behind(state: bytes, place: int, found: Result) -> bytes:
        """The state behind a section of the thread whose name stands at a place."""
        thread, changes, _ = found
        if len(changes) == 1:
            change, = changes
            start, stop = change.start, change.stop
            before = state[start:stop]
            return b"".join((state[:place], thread, state[place + NAME:start],
                             change.after.get(before) or change.of(before), state[stop:]))
        new = bytearray(state)
        new[place:place + NAME] = thread
        for change in changes:
            before = state[change.start:change.stop]
            new[change.start:change.stop] = change.after.get(before) or change.of(before)
        return bytes(new)

    def names(self, state: bytes) -> tuple[list[bytes], list[bytes]]:
        """The names of the threads' parts, and of the locks' parts."""
        names = [state[at:at + NAME] for at in range(0, len(state), NAME)]
        return names[:self.threads], names[self.threads:]

    def end(self, state: bytes) -> rules.End:
        """How the guest ended in a state in which every thread has."""
        threads, locks = ([self.contents[name] for name in names] for names in self.names(state))
        hows = [THREAD.unpack_from(content) for content in threads]
        flags = [(*LOCK.unpack_from(content), content[LOCK.size:]) for content in locks]
        return rules.End(tuple((blocks.ENDS.get(how) or f"fault {how - blocks.FAULT}", x10) for how, _, x10 in hows),
                         tuple((broken, count, content) for count, _, broken, content in flags))
