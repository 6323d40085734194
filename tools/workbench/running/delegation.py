"""Legal histories by the model: workers hand contexts and locks on by the rules of batch, adoption, grant and sleep.
Several of them take turns in an order that is drawn from a seed; what one worker alone does is determined, and the
program does the same.

It is a simulation of the rules and no run of the program. Every block is run by legal.Run, which refuses what is not
legal."""
from __future__ import annotations

import collections
import heapq
import itertools
import random
from typing import Generator, Iterator

from ..judging import legal
from ..reports import report
from ..guest import model

READY, WAITING, PARKED, TAKEN, DONE = "ready", "waiting", "parked", "taken", "done"


class Worker:
    """A worker: its clock of blocks, its sleepers, the thread that it set aside, and those that it
    made ready and offers, the oldest first."""

    def __init__(self, number: int) -> None:
        self.number, self.clock = number, 0
        self.sleepers, self.aside = [], None  # type: list[tuple[int, int]], int | None
        self.offers: collections.deque[int] = collections.deque()


class Hall:
    """Where threads and locks are, and who stands in each lock's line."""

    def __init__(self, guest: model.Guest, workers: int, fuel: int, limit: int, seed: int | None,
                 nodes: int = 0, bound: int = 0) -> None:
        self.nodes, self.bound = nodes, bound  # without nodes waiters are served in the order in which they came
        self.run = legal.Run(guest, workers, fuel, limit)
        self.threads = self.run.machine.threads
        self.place = [READY] * len(self.threads)
        self.granted: list[str | None] = [None] * len(self.threads)  # the kind of a grant that waits to be used
        self.home = [True] * len(self.run.machine.locks)
        self.line: list[list[int]] = [[] for _ in self.home]  # threads; the first has the lock or is about to
        self.linked: set[tuple[int, int]] = set()  # (thread, lock): it stands in the line for the one before to see
        self.shipped: dict[int, list[int]] = {}  # of a thread that waits: its worker, and how many that came later were picked before it
        self.chance = random.Random(seed)
        self.slowness = [4 ** self.chance.uniform(-1, 1) for _ in range(workers)]
        self.blocks: list[report.Block] = []

    def history(self) -> list[report.Block]:
        """Lets the workers run to the end of every thread. Answers the blocks."""
        times = [(300 * self.chance.random() ** 3, number) for number in range(self.run.workers)]
        steps = [self.work(Worker(number)) for number in range(self.run.workers)]
        heapq.heapify(times)
        while times:
            time, number = heapq.heappop(times)
            cost = next(steps[number], None)
            if cost is not None:
                pause = 200 * self.chance.random() if self.chance.random() < 0.01 else 0
                time += cost * self.slowness[number] * self.chance.uniform(0.5, 1.5) + pause
                heapq.heappush(times, (time, number))
        return self.blocks

    def work(self, worker: Worker) -> Iterator[int]:
        """A worker's steps; each yields how long it takes."""
        hand = None
        while True:
            if hand is None:
                hand = self.pick(worker)
            if hand is None and worker.sleepers:
                worker.clock = max(worker.clock, min(worker.sleepers)[0])
                yield 1
            elif hand is None:
                if all(place == DONE for place in self.place):
                    return
                yield 3
            elif self.wanted(hand) is not None and self.granted[hand] is None:
                hand = yield from self.acquire(worker, hand)
            else:
                block = yield from self.run_block(worker, hand)
                hand = yield from self.settle(worker, hand, block)

    def wanted(self, thread: int) -> int | None:
        return self.run.machine.next_lock(self.threads[thread])

    def pick(self, worker: Worker) -> int | None:
        """The thread set aside, else a sleeper that is due, else one that is ready, or None."""
        if worker.aside is not None:
            hand, worker.aside = worker.aside, None
            return hand
        due = min((sleeper for sleeper in worker.sleepers if sleeper[0] <= worker.clock), default=None)
        ready = [t for t, place in enumerate(self.place) if place == READY]
        if due is not None:
            worker.sleepers.remove(due)
            found = due[1]
        elif not ready:
            return None
        elif self.run.workers > 1:  # any, where workers race; by one alone the oldest offer, else the least
            found = self.chance.choice(ready)
        else:
            found = worker.offers.popleft() if worker.offers else ready[0]
        self.place[found] = TAKEN
        return found

    def make_ready(self, worker: Worker, thread: int) -> None:
        self.place[thread] = READY
        worker.offers.append(thread)

    def run_block(self, worker: Worker, thread: int) -> Generator[int, None, report.Block]:
        """Runs and commits a block; it takes as long as it has turns."""
        yield 1 + self.chance.randrange(4)
        kind, self.granted[thread] = self.granted[thread], None
        block = self.run.step(thread, kind, worker.number)
        self.blocks.append(block)
        worker.clock += 1
        return block

    def acquire(self, worker: Worker, thread: int) -> Generator[int, None, int | None]:
        """Enters the lock's line: the first gets it from home, another is shipped with all its locks."""
        lock = self.wanted(thread)
        assert lock is not None
        self.line[lock].append(thread)
        yield 1
        if self.line[lock][0] == thread:
            while not self.home[lock]:
                yield 1
            self.home[lock] = False
            self.granted[thread] = "taken"
            return thread
        self.place[thread] = WAITING
        self.shipped[thread] = [worker.number, 0]
        yield 1
        self.linked.add((thread, lock))
        return None

    def settle(self, worker: Worker, thread: int, block: report.Block) -> Generator[int, None, int | None]:
        """What comes after a block. Answers the thread in hand, or None."""
        yield max(1, block.turns)
        if block.ends_thread:
            for lock in block.released:
                yield from self.release(worker, lock, block)
            self.place[thread] = DONE
            return None
        if block.end == "slept":
            worker.sleepers.append((worker.clock + self.threads[thread].slept, thread))
            self.place[thread] = PARKED
            return None
        if block.end.startswith("wants"):
            return (yield from self.acquire(worker, thread))
        if block.end == "cut":
            return thread
        adopted = yield from self.release(worker, block.released[0], block)
        if adopted is not None:
            if worker.aside is None:
                worker.aside = thread
            else:
                self.make_ready(worker, thread)
            return adopted
        if worker.aside is not None and not block.kept:
            self.make_ready(worker, thread)
            thread, worker.aside = worker.aside, None
        return thread

    def next_in_line(self, lock: int, worker: Worker) -> int:
        """Whom a worker passes a lock on to: the first that stands in the line, or with nodes the first of the
        worker's node, as long as the first of all was not passed over as often as the bound says."""
        waiting = list(itertools.takewhile(lambda thread: (thread, lock) in self.linked, self.line[lock][1:]))
        chosen = waiting[0]
        if self.nodes and self.shipped[chosen][1] < self.bound:
            near = (thread for thread in waiting if (self.shipped[thread][0] - worker.number) % self.nodes == 0)
            chosen = next(near, chosen)
        for passed in waiting[:waiting.index(chosen)]:
            self.shipped[passed][1] += 1
        return chosen

    def release(self, worker: Worker, lock: int, block: report.Block) -> Generator[int, None, int | None]:
        """Hands a lock to the next in its line, or brings it home. Answers whom the worker adopts."""
        line = self.line[lock]
        while len(line) > 1 and (line[1], lock) not in self.linked:
            yield 1
        if len(line) == 1:
            line.clear()
            yield 1
            self.home[lock] = True
            return None
        waiter = self.next_in_line(lock, worker)
        line.remove(waiter)
        line[0] = waiter
        self.linked.discard((waiter, lock))
        adopts = "adopted" in self.run.kinds(waiter, worker.number)
        self.granted[waiter] = "adopted" if adopts else "granted"
        if adopts:
            self.place[waiter] = TAKEN
        else:
            self.make_ready(worker, waiter)
        yield 1
        return waiter if adopts else None


def delegated(guest: model.Guest, fuel: int, workers: int, limit: int, seed: int | None = 0,
              nodes: int = 0, bound: int = 0, of: type[Hall] = Hall) -> tuple[legal.Run, list[report.Block]]:
    """The run and its blocks that the seed stands for, which one worker alone does not look at."""
    hall = of(guest, workers, fuel, limit, seed, nodes, bound)
    return hall.run, hall.history()
