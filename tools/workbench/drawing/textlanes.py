"""Timelines for a terminal: a lane of characters for each thread, worker and lock."""
from __future__ import annotations

from argparse import Namespace
import os
import pathlib
import shutil
import sys
from typing import Any, Iterator

from ..guest import names
from ..reports import timeline
from . import svg

LETTERS = {"start": "s", "on": ".", "taken": "t", "adopted": "a", "granted": "g"}
STATES = {timeline.ASLEEP: "z", timeline.SHIPPED: "n", timeline.WAITING: "-", timeline.WANTS: "~", timeline.HOLDS: "="}
DIGITS = "0123456789ABCDEFGHIJKLMNOPQRSTUV"  # of threads, workers and locks
LEGEND = pathlib.Path(__file__).with_suffix(".txt").read_text().rstrip()


class Canvas:
    """Lanes of characters, with a colour for each where colours are wanted."""

    def __init__(self, line: timeline.Timeline, names: list[str], wide: int, first: int, last: int) -> None:
        text = line.text
        self.first, self.last, self.workers, self.locks = first, last, text.threads, text.threads + text.workers
        self.names, self.wide = names, wide
        self.lanes: list[list[tuple[str, Any]]] = [[(" ", None)] * (last - first + 1) for _ in self.names]
        for gap in line.part(first, last)[1]:
            self.put_gap(gap)
        for stay in line.stays(first, last):
            sign = "-" if stay.worker is None else DIGITS[stay.worker]
            for stamp in range(stay.first, stay.last + 1):
                self.put(self.locks + stay.lock, stamp, sign, by_worker(stay.worker))
        for mark in line.part(first, last)[0]:
            self.put_block(mark)

    def put_gap(self, gap: timeline.Gap) -> None:
        wants = gap.state in (timeline.WAITING, timeline.WANTS, timeline.SHIPPED)
        lock = gap.held[-1] if gap.held else None
        for stamp in range(gap.first, gap.last + 1):
            if wants and stamp == gap.first:
                self.put(gap.thread, stamp, DIGITS[gap.wanted], by_lock(gap.wanted))
            else:
                self.put(gap.thread, stamp, STATES[gap.state], by_lock(lock))

    def put_block(self, mark: timeline.Mark) -> None:
        block = mark.block
        colour = by_lock(block.held[-1] if block.held else None)
        plain = "o" if block.kind == "on" and block.held else LETTERS[block.kind]
        self.put(block.thread, block.stamp, plain.upper() if mark.away else plain, colour)
        self.put(self.workers + block.worker, block.stamp, DIGITS[block.thread], colour)
        for lock in block.held:
            self.put(self.locks + lock, block.stamp, DIGITS[block.worker], by_worker(block.worker))
        if block.ends_thread and block.stamp < self.last:
            self.put(block.thread, block.stamp + 1, "x", None)

    def put(self, lane: int, stamp: int, character: str, colour: tuple[str, bool] | None) -> None:
        self.lanes[lane][stamp - self.first] = character, colour

    def ruler(self) -> str:
        """The stamps that are multiples of 10, each above its column."""
        row = ""
        for stamp in range(-(-self.first // 10) * 10, self.last + 1, 10):
            row = row.ljust(self.wide + stamp - self.first) + str(stamp)
        return row

    def rows(self, colours: Any) -> Iterator[str]:
        for name, lane in zip(self.names, self.lanes):
            yield f"{name:<{self.wide}}{''.join(painted(*cell) if colours else cell[0] for cell in lane)}".rstrip()


def by_lock(lock: int | None) -> tuple[str, bool] | None:
    """The background and whether letters on it are white, of the same colours as in the SVG."""
    return None if lock is None else (svg.COLOURS[lock % 7], lock % 7 in svg.WHITE_LETTERS)


def by_worker(worker: int | None) -> tuple[str, bool] | None:
    return None if worker is None else (svg.WORKERS[worker], worker in svg.WHITE_WORKERS)


def painted(character: Any, colour: Any) -> Any:
    if colour is None:
        return character
    red, green, blue = (int(colour[0][i:i + 2], 16) for i in (1, 3, 5))
    return f"\x1b[{97 if colour[1] else 30};48;2;{red};{green};{blue}m{character}\x1b[0m"


def show(line: timeline.Timeline, called: names.Names, first: int, last: int, asked: Namespace) -> None:
    """Prints the lanes of some stamps, at most so many as are asked for, in strips as wide as the terminal."""
    colours = asked.colour or (sys.stdout.isatty() and "NO_COLOR" not in os.environ)
    print(LEGEND)
    if colours:
        print("locks: " + " ".join(painted(f" {lock} ", by_lock(lock)) for lock in range(line.text.guards))
              + "  workers: " + " ".join(painted(f" {worker} ", by_worker(worker)) for worker in range(line.text.workers)))
    columns = shutil.get_terminal_size().columns if sys.stdout.isatty() else 100
    lanes: list[str] = sum(called.lanes(), [])
    wide = max(10, 2 + max(map(len, lanes)))
    room = max(20, (columns - wide - 1) // 10 * 10)
    shown = min(last, first + asked.most - 1)
    for start in range(first, shown + 1, room):
        stop = min(start + room - 1, shown)
        print(f"\nblocks {start} to {stop}")
        canvas = Canvas(line, lanes, wide, start, stop)
        print(canvas.ruler(), *canvas.rows(colours), sep="\n")
    print()
    if shown < last:
        print(f"Blocks {shown + 1} to {last} are not drawn; --from {shown + 1} --to {last} draws them.")
    print(*svg.sentences(line, first, last), sep="\n")
