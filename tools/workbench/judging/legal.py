"""Whether a history is that of a legal run: each block is run by model.py in its place, under
ordinary mutexes, and compared with its line; its kind must be one that the batch rule allows."""
from __future__ import annotations

import copy
from typing import Iterable, Iterator

from .. import limits, tool
from ..guest import guestfile, model
from ..reports import report
from ..reports.report import Block, Wrong

COMPARED = ("turns", "held", "kind", "pc", "end")
BEYOND = " (this the judge asks, and the program's theorem does not say it)"


class Batch:
    """The batch rule of one lock: of which kinds its next section may be.

    What a history shows of waiting: a thread waited for a release where it is not the one that released, and its last
    block stands before the next block of the worker that released, since that worker looked for a waiter between its
    two blocks. An adopted section is that next block. That the thread of a granted section waited so is not in the
    program's theorem; all else is."""

    def __init__(self, limit: int) -> None:
        self.limit, self.adopted = limit, 0
        self.last: Block | None = None  # the block that released the lock
        self.next: int | None = None  # the stamp of the next block of the worker that released

    def rule(self, worker: int) -> list[str]:
        """The kinds that the rule alone lets stand, with this worker."""
        if self.last is None:
            return ["taken"]
        if not self.last.leaves_free or self.adopted >= self.limit:
            return ["taken", "granted"]
        return ["taken", "adopted"] if worker == self.last.worker else ["taken"]

    def kinds(self, thread: int, worker: int, stamp: int) -> list[str]:
        """The kinds for a thread whose last block has this stamp, with this worker."""
        if not self.waited(thread, stamp):
            return ["taken"]
        return [kind for kind in self.rule(worker) if kind != "adopted" or self.next is None]

    def waited(self, thread: int, stamp: int) -> bool:
        return self.last is not None and thread != self.last.thread and (self.next is None or stamp < self.next)

    def why(self, kind: str, thread: int, worker: int, stamp: int) -> str:
        """Why a kind is none of `kinds`."""
        last = self.last
        if last is None:
            return "the lock's first section is taken"
        if thread == last.thread:
            return f"thread {thread} had the section before too, so it did not wait for this one"
        if not self.waited(thread, stamp):
            return (f"worker {last.worker} released the lock and ran block {self.next} before thread {thread} "
                    "could wait for it" + (BEYOND if kind == "granted" else ""))
        if kind == "granted":
            return (f"{self.adopted} adopted sections stand in a row, fewer than the batch limit "
                    f"{self.limit}, and the thread before goes on without a lock: a waiter is adopted")
        if not last.leaves_free:
            return "the thread before ended, or still holds another lock: a waiter is granted"
        if self.adopted >= self.limit:
            return (f"{self.adopted} adopted sections stand in a row, and the batch limit is "
                    f"{self.limit}: a waiter is granted")
        if worker != last.worker:
            return f"the section before ended with worker {last.worker}, and this one begins with {worker}"
        return f"worker {worker} released the lock and then ran block {self.next}: it would have adopted at once"

    def note(self, block: Block, begins: bool, releases: bool) -> None:
        """Keeps the rule in step with a block that has run."""
        if begins:
            self.adopted = self.adopted + 1 if block.kind == "adopted" else 0
        if self.last is not None and self.next is None and block.worker == self.last.worker:
            self.next = block.stamp
        if releases:
            self.last, self.next = block, None


class Run:
    """A guest's machine with the batch rule of each lock, and the blocks that were run."""

    def __init__(self, guest: model.Guest, workers: int, fuel: int, limit: int) -> None:
        self.workers, self.fuel, self.limit = workers, fuel, limit
        self.machine = model.Machine(guest, fuel)
        self.threads, self.guards = len(guest.entries), len(guest.guards)
        self.batches = [Batch(limit) for _ in self.machine.locks]
        self.stamps = [-1] * self.threads  # of each thread's last block
        self.cut: dict[int, Block] = {}  # the last block of each worker whose last block was cut
        self.count = 0

    def kinds(self, number: int, worker: int) -> list[str]:
        """The kinds that the thread's next block may have with a worker."""
        thread = self.machine.threads[number]
        lock = self.machine.next_lock(thread)
        if lock is None:
            return ["on" if thread.blocks else "start"]
        return self.batches[lock].kinds(number, worker, self.stamps[number])

    def parted(self, number: int, worker: int) -> Block | None:
        """The cut block that keeps the worker from this thread, or None: a worker goes on with the thread
        of a block that was cut, and that thread with this worker, each in its very next block."""
        return next((block for block in self.cut.values()
                     if (block.worker == worker) != (block.thread == number)), None)

    def worker_for(self, number: int) -> int:
        """The first worker that may run the thread's next block, or 0."""
        return next((worker for worker in range(self.workers) if self.parted(number, worker) is None), 0)

    def step(self, number: int, kind: str | None, worker: int) -> Block:
        """Runs the thread's next block; `kind` None stands for the first that is allowed."""
        thread = self.machine.threads[number]
        lock = self.machine.next_lock(thread)
        if thread.end is not None:
            raise Wrong(f"block {self.count}: thread {number} has ended")
        if lock is not None and self.machine.locks[lock].owner is not None:
            raise Wrong(f"block {self.count}: thread {number} would take lock {lock}, which "
                        f"thread {self.machine.locks[lock].owner} has")
        cut = self.parted(number, worker)
        if cut is not None:
            raise Wrong(f"block {self.count}: worker {worker} runs thread {number}, but block {cut.stamp} was cut: "
                        f"worker {cut.worker} goes on with thread {cut.thread}")
        allowed = self.kinds(number, worker)
        if kind is not None and kind not in allowed:
            raise Wrong(f"block {self.count}: its kind is {kind}, and must be {' or '.join(allowed)}"
                        + (f": {self.batches[lock].why(kind, number, worker, self.stamps[number])}"
                           if lock is not None and kind in limits.SECTIONS else ""))
        kind = kind or allowed[0]
        pc = thread.pc
        turns, locks, end = self.machine.run_block(number)
        block = Block(self.count, number, turns, tuple(sorted(locks)), kind, worker, pc, end)
        self.note(block)
        self.stamps[number] = block.stamp
        self.cut.pop(worker, None)
        if block.end == "cut":
            self.cut[worker] = block
        self.count += 1
        return block

    def note(self, block: Block) -> None:
        """Keeps the batch rule of each lock in step with a block that has run."""
        for lock, batch in enumerate(self.batches):
            batch.note(block, lock == block.begun, lock in block.released)

    def follow(self, block: Block, where: str = "") -> Block:
        """Runs the block that a line names, and compares the two."""
        wanted = self.step(block.thread, block.kind, block.worker)
        different = [name for name in COMPARED if getattr(block, name) != getattr(wanted, name)]
        if different:
            raise Wrong(f"block {block.stamp}{where}: " + ", ".join(
                f"{name} is {shown(name, block)}, and must be {shown(name, wanted)}"
                for name in different))
        return wanted

    def candidates(self) -> Iterator[tuple[Block, list[int]]]:
        """What could come next: each block that could, with the workers that could run it."""
        guest = self.machine.guest
        for number in self.machine.able():
            kinds: dict[str, list[int]] = {}
            for worker in range(self.workers):
                for kind in self.kinds(number, worker) if self.parted(number, worker) is None else ():
                    kinds.setdefault(kind, []).append(worker)
            for kind, workers in kinds.items():
                yield copy.deepcopy(self, {id(guest): guest}).step(number, kind, workers[0]), workers

    def go_on(self) -> Iterator[Block]:
        """Runs to the end of every thread: each runs as long as it can, as worker 0 but where a block was
        cut, and every section is taken. Answers the blocks."""
        while True:
            number = next((n for n in self.machine.able() if self.parted(n, self.worker_for(n)) is None), None)
            if number is None:
                return
            taken = self.machine.next_lock(self.machine.threads[number]) is not None
            yield self.step(number, "taken" if taken else None, self.worker_for(number))

    def ending_lines(self) -> Iterator[str]:
        """The report's lines behind the blocks, for threads that have ended."""
        threads, locks = self.machine.threads, self.machine.locks
        for number, thread in enumerate(threads):
            if thread.end is None:
                raise Wrong(f"behind block {self.count - 1}: thread {number} has not ended")
        return report.ending_lines(
            [report.ThreadEnd(thread.end or "", thread.fuel, thread.pc, tuple(thread.x)) for thread in threads],
            [report.LockEnd(lock.sections, lock.broken, lock.addresses.start, lock.bytes) for lock in locks])

    def lines(self, blocks: list[Block]) -> Iterator[str]:
        """A report of these blocks, to its end where each thread has ended."""
        yield from report.header_lines(self.threads, self.guards, self.workers, self.fuel, self.limit)
        yield from (block.line() for block in blocks)
        if self.is_over():
            yield from self.ending_lines()

    def is_over(self) -> bool:
        return all(thread.end is not None for thread in self.machine.threads)


def shown(name: str, block: Block) -> str | int:
    value = getattr(block, name)
    return report.held_text(value) if name == "held" else f"{value:08x}" if name == "pc" else value


def begin(guest: model.Guest, text: report.Report) -> Run:
    """The run that a report's header names, for its guest."""
    run = Run(guest, text.workers, text.fuel, text.batch)
    for name in "threads", "guards":
        said, real = getattr(text, name), getattr(run, name)
        if said != real:
            raise Wrong(f"line 2: the report is of {said} {name}, and the guest has {real}")
    return run


def replay(guest: model.Guest, lines: Iterable[str]) -> tuple[Run, bool]:
    """The run after a report, and whether the report is whole; Wrong where it isn't legal."""
    text = report.Report(lines)
    run = begin(guest, text)
    for block in text.blocks():
        run.follow(block, f", line {text.number}")
    if text.next is None:
        return run, False
    for expected in run.ending_lines():
        if text.next != expected:
            raise text.must(repr(expected))
        text.take()
    if text.next is not None or text.cut:
        raise Wrong(f"line {text.number}: something stands behind the line 'end'")
    return run, True


def replay_whole(guest: model.Guest, text: str) -> model.Machine:
    """The machine after a whole report that is given as one text."""
    run, whole = replay(guest, text.splitlines(keepends=True))
    if not whole:
        raise Wrong("the report stops early")
    return run.machine


def main(words: list[str]) -> None:
    parser = tool.words("judge", "guest")
    parser.report("a report; standard input where it is left out", nargs="?", default="-")
    asked = parser.parse_intermixed_args(words)
    guest = guestfile.load(asked.guest).guest
    try:
        run, whole = replay(guest, tool.read_lines(asked.report))
    except report.NoReport as answer:
        raise tool.Trouble(tool.WRONG, f"{answer} (./workbench explain says more)") from None
    except Wrong as wrong:
        raise tool.Trouble(tool.WRONG, f"not legal: {wrong}") from None
    print("a legal run, to the end of every thread" if whole else f"legal so far, {run.count} blocks")
