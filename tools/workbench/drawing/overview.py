"""A long run in one picture: columns that stand for several blocks each, as SVG. What the panels
show is counted for each column, so that a span of time tells what it was made of."""
from __future__ import annotations

from collections import Counter
from itertools import accumulate, count
from typing import Any, Iterable

from ..guest import names
from ..limits import SECTIONS
from ..reports import timeline
from . import svg

COLUMNS, WIDE = 160, 960  # how many columns there are at most, and how wide all are
PANEL, LANE, LANE_STEP = 90, 24, 30
KINDS = (("without a lock", svg.PLAIN), ("on, with locks", "#9a9a9a"), ("taken", "#F0E442"),
         ("adopted", "#0072B2"), ("granted", "#D55E00"))
STATES = (("runs", "#0072B2"), ("waits for a lock", "#E69F00"), ("asleep with locks", "#CC79A7"))
SHOWN = {timeline.WAITING: 1, timeline.SHIPPED: 1, timeline.ASLEEP: 2}


def round_size(least: float) -> int:
    """The least of 10, 20, 25, 50, 100, 200 .. that is no less."""
    sizes = (int(times * 10 ** power) for power in count(1) for times in (1, 2, 2.5, 5))
    return next(size for size in sizes if size >= least)


class Columns:
    """What is counted in each column of some stamps."""

    def __init__(self, line: timeline.Timeline, first: int, last: int) -> None:
        self.first, self.last = first, last
        self.each = round_size((last - first + 1) / COLUMNS)
        self.count = max(1, (last - first + 1) // self.each)  # the last one has the rest too
        each: list[list[Counter[Any]]] = [[Counter() for _ in range(self.count)] for _ in range(6)]
        self.kinds, self.workers, self.moves, self.waits, self.has, self.threads = each
        marks, gaps = line.part(first, last)
        for mark in marks:
            self.add_block(mark)
        for gap in gaps:
            self.add_gap(gap)
        for stay in timeline.cut(line.handings, first, last):
            if stay.worker is not None:
                self.spread(self.has, stay, (stay.lock, stay.worker))

    def add_block(self, mark: timeline.Mark) -> None:
        block = mark.block
        column = self.column(block.stamp - self.first)
        kind = SECTIONS.index(block.kind) + 2 if block.begun is not None else 1 if block.held else 0
        self.kinds[column][kind] += 1
        self.workers[column][block.worker, block.held[-1] if block.held else -1] += 1
        self.threads[column][block.thread, 0] += 1
        for lock in block.held:
            self.has[column][lock, block.worker] += 1
        self.moves[column].update(mark.moved)

    def add_gap(self, gap: timeline.Gap) -> None:
        shown = SHOWN.get(gap.state)
        if shown == 1:
            self.spread(self.waits, gap, gap.wanted)
        if shown is not None:
            self.spread(self.threads, gap, (gap.thread, shown))
        for lock in gap.held if gap.worker is not None else ():
            self.spread(self.has, gap, (lock, gap.worker))

    def spread(self, counters: list[Counter[Any]], span: timeline.Gap | timeline.Stay, what: Any) -> None:
        """Adds a span's stamps to the columns in which they lie."""
        start, stop = span.first - self.first, span.last - self.first + 1
        while start < stop:
            column = self.column(start)
            end = min(stop, column * self.each + self.size(column))
            counters[column][what] += end - start
            start = end

    def column(self, place: int) -> int:
        return min(place // self.each, self.count - 1)

    def size(self, column: int) -> int:
        """How many blocks a column stands for."""
        return self.each if column < self.count - 1 else self.last - self.first + 1 - column * self.each

    def stamps(self, column: int) -> str:
        start = self.first + column * self.each
        return f"blocks {start} to {start + self.size(column) - 1}"


class Overview:
    """The panels of a picture, from above."""

    def __init__(self, line: timeline.Timeline, first: int, last: int, names: names.Names, title: str) -> None:
        self.text, self.names, self.columns = line.text, names, Columns(line, first, last)
        self.left, self.wide = svg.margin(names), WIDE / self.columns.count
        self.picture = svg.Picture(self.left + WIDE + 60, title)

    def head(self, title: str, items: Iterable[tuple[str, str]] = ()) -> None:
        self.picture.add("", 10)
        svg.legend(self.picture, items, title)

    def items(self, pairs: Any) -> list[tuple[str, str]]:
        return [(svg.box(0, 0, svg.UNIT, svg.HEIGHT, colour), text) for text, colour in pairs]

    def x(self, column: int) -> float:
        return self.left + self.wide * column

    def stamps(self) -> None:
        """The stamps below a panel."""
        columns = self.columns
        for column in range(0, columns.count, 10):
            self.picture.add(svg.label(self.x(column), self.picture.height + 10,
                                       f"{columns.first + column * columns.each}", "axis"))
        self.picture.add("", 18)

    def bars(self, column: int, said: str, bottom: int, high: int, shares: list[float], colours: Any) -> None:
        """A column's bars on one another: each share is a part of the height."""
        parts = [f'<rect x="{self.x(column):.1f}" y="{bottom - high * top:.1f}" width="{self.wide:.1f}" '
                 f'height="{high * share:.1f}" fill="{colour}"/>'
                 for top, share, colour in zip(accumulate(shares), shares, colours) if share]
        self.picture.add(svg.titled(f"{self.columns.stamps(column)}: {said}", parts))

    def panel(self, rows: list[list[float]], colours: Any, names: Any, highest: float, unit: str = "") -> None:
        """Bars of all columns; rows has a column's shares of the highest."""
        top = self.picture.height + 6
        for y, value in ((top, highest), (top + PANEL, 0)):
            self.picture.add(f'<path stroke="#aaa" stroke-width=".6" d="M{self.left - 4:g} {y:g}'
                             f'H{self.x(self.columns.count):g}"/>')
            self.picture.add(f'<text class="axis" text-anchor="end" x="{self.left - 8:g}" y="{y + 3:g}">'
                             f'{value:g}{unit}</text>')
        for column, values in enumerate(rows):
            said = ", ".join(f"{name} {value:.3g}{unit}" for name, value in zip(names, values) if value)
            self.bars(column, said or "nothing", top + PANEL, PANEL, [value / highest for value in values], colours)
        self.picture.add("", PANEL + 10)
        self.stamps()

    def lane(self, head: str, rows: list[list[int]], colours: Any, names: Any, highest: float = 1) -> None:
        """A lane of shares of all stamps; what is left is nothing of these."""
        top = self.picture.height
        self.picture.add(svg.label(10, top + 16, head))
        self.picture.add(f'<rect x="{self.left:g}" y="{top:g}" width="{WIDE}" height="{LANE}" fill="#f4f4f4"/>')
        for column, values in enumerate(rows):
            size = self.columns.size(column)
            said = ", ".join(f"{name} {100 * value / size:.0f}%" for name, value in zip(names, values) if value)
            if said:
                shares = [value / size / highest for value in values]
                self.bars(column, f"{head}: {said}", top + LANE, LANE, shares, colours)
        self.picture.add("", LANE_STEP)

    def lanes(self, title: str, items: Any, heads: list[str], rows: list[list[list[int]]], colours: Any, names: Any,
              highest: float = 1) -> None:
        """Lanes below one another, with their title and the stamps."""
        self.head(title, items)
        for head, row in zip(heads, rows):
            self.lane(head, row, colours, names, highest)
        self.stamps()

    def draw(self) -> svg.Picture:
        columns, picture = self.columns, self.picture
        blocks = columns.last - columns.first + 1
        picture.text(f"{blocks} blocks are too many to draw each: a column stands for {columns.each} blocks. "
                     f"--from {columns.first} --to {columns.first + 399} draws the first 400 in full.")
        self.head("Kinds of blocks, in percent:", self.items(KINDS))
        names, colours = zip(*KINDS)
        self.panel([[100 * kinds[place] / columns.size(column) for place in range(len(KINDS))]
                    for column, kinds in enumerate(columns.kinds)], colours, names, 100, "%")
        if self.text.guards:
            locks = range(self.text.guards)
            self.lock_panel(f"Moves of a lock to another worker, in {columns.each} blocks:",
                            [[moves[lock] for lock in locks] for moves in columns.moves])
            self.lock_panel("Threads that wait for a lock, on average:",
                            [[waits[lock] / columns.size(column) for lock in locks] for column, waits in enumerate(columns.waits)])
            self.draw_locks()
        self.draw_workers()
        self.draw_threads()
        return picture

    def lock_panel(self, title: str, rows: list[list[float]]) -> None:
        locks = range(self.text.guards)
        names, colours = [self.names.lock(lock) for lock in locks], [svg.fill(lock) for lock in locks]
        self.head(title, self.items(zip(names, colours)))
        self.panel(rows, colours, names, round(max(1.0, *(float(sum(row)) for row in rows)), 2))

    def draw_locks(self) -> None:
        workers = range(self.text.workers)
        _, names, locks = self.names.lanes()
        self.lanes("Which worker has each lock:", [("".join(svg.worker_parts(0, 0, worker)), names[worker])
                                                   for worker in workers], locks,
                   [[[has[lock, worker] for worker in workers] for has in self.columns.has]
                    for lock in range(self.text.guards)], svg.WORKERS, names)

    def draw_workers(self) -> None:
        locks, columns = range(-1, self.text.guards), self.columns
        _, workers, names = self.names.lanes()
        names = ["without a lock", *names]
        colours = [svg.PLAIN, *(svg.fill(lock) for lock in locks[1:])]
        rows = [[[ran[worker, lock] for lock in locks] for ran in columns.workers] for worker in range(self.text.workers)]
        highest = max(sum(values) / columns.size(column) for row in rows for column, values in enumerate(row))
        self.lanes(f"Blocks by worker and innermost lock (a full lane is {100 * highest:.0f}% of all blocks):",
                   self.items(zip(names, colours)), workers, rows, colours, names, highest)

    def draw_threads(self) -> None:
        names, colours = zip(*STATES)
        self.lanes("What each thread does:", self.items(STATES), self.names.lanes()[0],
                   [[[does[thread, state] for state in range(len(STATES))] for does in self.columns.threads]
                    for thread in range(self.text.threads)], colours, names)
