"""A report as a timeline: its blocks with what a picture says of each, what threads do between two
of their blocks while they hold locks or want one, and where each lock is between two blocks."""
from __future__ import annotations

from typing import Any, Iterator, NamedTuple, Optional, Tuple

from . import counts, report

ASLEEP, SHIPPED, WAITING, WANTS, HOLDS = "asleep", "shipped", "waiting", "wants", "holds"


class Mark(NamedTuple):
    """A block, whether it ran away from its thread's own worker, of an adopted or granted section
    the blocks in which its thread came to the LOCK and in which the lock was released, and which of
    its locks had another worker in their last block."""
    block: report.Block
    away: bool
    came: Optional[report.Block]
    release: Optional[report.Block]
    moved: Tuple[int, ...]

    def sentence(self) -> str:
        block = self.block
        parts = [f"block {block.stamp}: thread {block.thread}, worker {block.worker}",
                 f"{block.turns} turns", block.kind]
        if block.held:
            parts.append(report.locks_text(block.held))
        if self.away:
            parts.append("away from the thread's own worker")
        if self.moved:
            parts.append(f"{report.locks_text(self.moved)} moved to worker {block.worker}")
        return ", ".join((*parts, f"pc {block.pc:08x}", f"ends {block.end}"))


class Gap(NamedTuple):
    """The stamps between two blocks of a thread in which it holds locks or wants one, and the worker
    that has its package; None where no worker has it."""
    thread: int
    first: int
    last: int
    state: str
    held: Tuple[int, ...]
    wanted: int = -1
    worker: Optional[int] = None

    def what(self) -> str:
        held = f" with {report.locks_text(self.held)} held" if self.held else ""
        return {ASLEEP: "asleep", SHIPPED: f"shipped to lock {self.wanted}", WAITING: f"waits for lock {self.wanted}",
                WANTS: f"wants lock {self.wanted}", HOLDS: "between two blocks"}[self.state] + held

    def sentence(self) -> str:
        return f"thread {self.thread}, blocks {self.first} to {self.last}: {self.what()}"


class Stay(NamedTuple):
    """The stamps between two blocks in which a lock isn't at home, and the worker that has it, or None."""
    lock: int
    first: int
    last: int
    worker: Optional[int]
    what: str

    def sentence(self) -> str:
        has = "no worker has it" if self.worker is None else f"worker {self.worker} has it"
        return f"lock {self.lock}, blocks {self.first} to {self.last}: {has}, {self.what}"


class Timeline:
    """The marks and gaps of a report's blocks, and the counts of all."""

    def __init__(self, text: report.Report) -> None:
        self.text = text
        self.marks, self.gaps, self.handings = [], [], []  # type: list[Mark], list[Gap], list[Stay]
        self.counts = counts.Counts(text)
        self.released: list[report.Block | None] = [None] * text.guards  # the block that released the lock last

    def add(self, block: report.Block) -> None:
        before = self.counts.threads[block.thread].before
        moved = tuple(lock for lock in block.held if self.counts.locks[lock].worker not in (None, block.worker))
        away = self.counts.add(block)
        if before is not None and before.stamp + 1 < block.stamp:
            self.add_gap(before, block)
        release = self.released[block.begun] if block.begun is not None and block.passed_on else None
        if release is not None:
            self.add_handing(release, before, block)
        for lock in block.released:
            self.released[lock] = block
        self.marks.append(Mark(block, away, before if block.passed_on else None, release, moved))

    def add_gap(self, before: report.Block, block: report.Block) -> None:
        kept, wanted = before.kept, before.wanted
        if before.end == "slept" and kept:
            state = ASLEEP
        elif block.passed_on:
            state = SHIPPED if kept else WAITING
        elif wanted is not None:
            state = WANTS
        elif kept:
            state = HOLDS
        else:
            return
        worker = before.worker if state != SHIPPED and before.worker == block.worker else None
        self.gaps.append(Gap(block.thread, before.stamp + 1, block.stamp - 1, state, kept,
                             -1 if wanted is None else wanted, worker))

    def add_handing(self, release: report.Block, came: report.Block | None, block: report.Block) -> None:
        """Of an adopted or granted section: where its lock is from the release on. A waiter that came to
        its LOCK behind the releasing block came before the release was done."""
        assert block.begun is not None
        if came is not None and came.stamp > release.stamp:
            self.handings.append(Stay(block.begun, release.stamp + 1, came.stamp, release.worker,
                                      f"which releases it to thread {block.thread}"))
            release = came
        if release.stamp + 1 < block.stamp:
            worker = block.worker if block.kind == "adopted" else None
            self.handings.append(Stay(block.begun, release.stamp + 1, block.stamp - 1, worker,
                                      f"in the package of thread {block.thread}, to which it was handed"))

    def close(self) -> None:
        """Adds what threads want at the end of a report that was cut."""
        end = len(self.marks) - 1
        for block in (thread.before for thread in self.counts.threads):
            if block is not None and block.stamp < end and block.wanted is not None:
                self.gaps.append(Gap(block.thread, block.stamp + 1, end, WANTS, block.kept, block.wanted))

    def part(self, first: int, last: int) -> tuple[list[Mark], list[Gap]]:
        """The marks and gaps of some stamps; gaps are cut to them."""
        return self.marks[first:last + 1], cut(self.gaps, first, last)

    def stays(self, first: int, last: int) -> Iterator[Stay]:
        """Where locks are between two blocks of some stamps."""
        for gap in cut(self.gaps, first, last):
            for lock in gap.held:
                yield Stay(lock, gap.first, gap.last, gap.worker, f"in the package of thread {gap.thread}, {gap.what()}")
        yield from cut(self.handings, first, last)


def cut(spans: list[Any], first: int, last: int) -> list[Any]:
    return [span if first <= span.first and span.last <= last
            else span._replace(first=max(span.first, first), last=min(span.last, last))
            for span in spans if span.first <= last and span.last >= first]


def of(text: report.Report) -> Timeline:
    """The timeline of a report that is about to be read."""
    line = Timeline(text)
    for block in text.blocks():
        line.add(block)
    text.ends()
    line.close()
    return line
