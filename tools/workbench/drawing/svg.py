"""Timelines as SVG: one file, without a script. Each part has a title, which browsers show under
the pointer. The seven colours of locks are those of Okabe and Ito, and the eight of workers are of
Paul Tol's muted ones: colour-blind readers can tell each seven or eight apart. Kinds are told apart
by letters and outlines too, locks and workers by numbers, and the boxes of workers are round."""
from __future__ import annotations

import html
import pathlib
import textwrap
from collections import Counter
from typing import Any, Iterator

from ..guest import names
from ..limits import SECTIONS
from ..reports import report, timeline
from ..reports.report import several

COLOURS = ("#0072B2", "#E69F00", "#009E73", "#CC79A7", "#56B4E9", "#D55E00", "#F0E442")
WHITE_LETTERS = (0,)  # the colours on which white is read better than black
WORKERS = ("#332288", "#DDCC77", "#117733", "#88CCEE", "#882255", "#44AA99", "#CC6677", "#999933")
WHITE_WORKERS = (0, 2, 4)
YELLOW, THIN = 6, (timeline.WAITING, timeline.HOLDS)
PLAIN = "#CFCFCF"  # a block without a lock
NOBODY = "#888"  # a lock that no worker has
LETTERS = {"start": "s", "on": "", "taken": "T", "adopted": "A", "granted": "G"}
AWAY, MOVED = "l-5 -6h10z", "v-4h8v-2l5 4l-5 4v-2z"  # the shapes of marks
UNIT, HEIGHT, LANE, STRIP, NARROWEST = 14, 18, 26, 80, 860

STYLE = (pathlib.Path(__file__).parent / "svg.css").read_text().rstrip()

PATTERNS = {1: '<path d="M0 6L6 0" stroke="#fff" stroke-width="1.6"/>',
            2: '<circle cx="3" cy="3" r="1.5" fill="#fff"/>',
            3: '<path d="M3 0V6" stroke="#000" stroke-width="1.2"/>',
            4: '<circle cx="3" cy="3" r="1.5"/>'}


def fill(lock: int) -> str:
    return COLOURS[lock] if lock < len(COLOURS) else f"url(#p{lock})"


def box(x: float, y: float, width: float, height: float, colour: str, kind: str = "k") -> str:
    return f'<rect class="{kind}" x="{x:g}" y="{y:g}" width="{width:g}" height="{height:g}" fill="{colour}"/>'


def label(x: float, y: float, text: str, kind: str = "", colour: str = "") -> str:
    kind = f' class="{kind}"' if kind else ""
    colour = f' fill="{colour}"' if colour else ""
    return f'<text{kind}{colour} x="{x:g}" y="{y:g}">{html.escape(text)}</text>'


def titled(title: str, parts: Any) -> str:
    return f"<g><title>{html.escape(title)}</title>{''.join(parts)}</g>"


def stroke(kind: str, colour: str, x: float, y: float, width: int) -> str:
    return f'<path class="{kind}" stroke="{colour}" d="M{x:g} {y:g}h{width:g}"/>'


def lock_stroke(kind: str, lock: int, x: float, y: float, width: int) -> str:
    """A line in a lock's colour; a yellow one has an edge, for it is hard to see on white."""
    edge = stroke("e", "#777", x, y, width) if lock % len(COLOURS) == YELLOW and kind in THIN else ""
    return edge + stroke(kind, fill(lock), x, y, width)


def block_parts(x: float, y: int, block: report.Block, letter: str, away: bool) -> Iterator[str]:
    """A block's box: a stripe for each lock, the innermost on top, with an outline by kind."""
    high = HEIGHT / max(1, len(block.held))
    for i, lock in enumerate(block.held):
        yield box(x, y + HEIGHT - high * (i + 1), UNIT, high, fill(lock))
    if block.held:
        yield f'<rect class="o {block.kind}" x="{x + 1:g}" y="{y + 1:g}" width="{UNIT - 2}" height="{HEIGHT - 2}"/>'
    else:
        yield box(x, y, UNIT, HEIGHT, PLAIN, block.kind)
    if letter:
        dark = not block.held or len(block.held) > 1 or block.held[0] not in WHITE_LETTERS
        kind = "l" + " d" * dark + " n" * (len(letter) > 1)
        yield label(x + UNIT / 2, y + 13, letter, kind, "" if dark else "#fff")
    if away:
        yield mark(x + UNIT / 2, y - 1, AWAY)


def mark(x: float, y: int, shape: str) -> str:
    return f'<path d="M{x:g} {y:g}{shape}"/>'


def worker_parts(x: float, y: int, worker: int, moved: bool = False) -> Iterator[str]:
    """A lock's box: round, in the colour of the worker that has the lock."""
    yield (f'<rect class="w" rx="5" x="{x + .5:g}" y="{y}" width="{UNIT - 1}" height="{HEIGHT}" '
           f'fill="{WORKERS[worker]}"/>')
    yield label(x + UNIT / 2, y + 13, f"{worker}", "l", "#fff" if worker in WHITE_WORKERS else "")
    if moved:
        yield mark(x, y - 4, MOVED)


def chip(x: float, y: float, lock: int) -> str:
    """The number of the lock that a thread wants, on its line."""
    kind = "l n" + " d" * (lock >= len(COLOURS))
    return (f'<circle class="c" cx="{x:g}" cy="{y:g}" r="6" fill="{fill(lock)}"/>'
            + label(x, y + 3, f"{lock}", kind, "#fff" if lock in WHITE_LETTERS else ""))


def gap_parts(x: float, y: int, width: int, gap: timeline.Gap) -> Iterator[str]:
    middle = y + HEIGHT / 2
    if gap.state in (timeline.WAITING, timeline.WANTS) and not gap.held:
        yield lock_stroke(gap.state, gap.wanted, x, middle, width)
    for i, lock in enumerate(gap.held):
        yield lock_stroke("holds" if gap.state == timeline.WANTS else gap.state, lock, x,
                          middle + 5 * i - 2.5 * (len(gap.held) - 1), width)
    if gap.state == timeline.ASLEEP:
        yield label(x + width / 2, y + 6, "z", "l")
    elif gap.state != timeline.HOLDS:
        yield chip(x + UNIT / 2, middle, gap.wanted)


def document(width: float, height: int, style: str, parts: list[str], title: str = "") -> str:
    title = f"<title>{html.escape(title)}</title>\n" if title else ""
    return (f'<svg xmlns="http://www.w3.org/2000/svg" width="{width:g}" height="{height:g}" '
            f'viewBox="0 0 {width:g} {height:g}" role="img">\n{title}<style>{style}</style>\n'
            '<rect width="100%" height="100%" fill="#fff"/>\n' + "\n".join(parts) + "\n</svg>\n")


class Picture:
    """Parts below one another, and how high they are together."""

    def __init__(self, width: float, title: str) -> None:
        self.width, self.height, self.title = width, 0, title
        self.parts: list[str] = []
        self.add(label(10, 20, title, "h"), 30)

    def add(self, part: str, height: int = 0) -> None:
        self.parts.append(part)
        self.height += height

    def text(self, line: str) -> None:
        """A sentence, in as many lines as it needs."""
        most = int((self.width - 20) / 6)
        for row in textwrap.wrap(line, most, break_long_words=False, break_on_hyphens=False):
            self.add(label(10, self.height + 12, row), 16)

    def svg(self, locks: int) -> str:
        patterns = "".join(  # which tell locks of one colour apart
            f'<pattern id="p{lock}" width="6" height="6" patternUnits="userSpaceOnUse"><rect width="6" '
            f'height="6" fill="{COLOURS[lock % 7]}"/>{PATTERNS[lock // 7]}</pattern>' for lock in range(7, locks))
        parts = [f"<defs>{patterns}</defs>", *self.parts]
        return document(self.width, self.height + 10, STYLE, parts, self.title)


def items(names: names.Names, workers: int) -> Iterator[tuple[str, str]]:
    """The parts of the legend with their texts; the last are of the lanes of locks, where there are some."""
    yield box(0, 0, UNIT, HEIGHT, PLAIN, "on"), "no lock held (s: the thread's start)"
    for lock in range(len(names.locks)):
        yield box(0, 0, UNIT, HEIGHT, fill(lock)), names.lock(lock)
    for kind, text in (("taken", "taken: the lock was free"), ("adopted", "adopted: run by the worker that released"),
                       ("granted", "granted: handed on, for any worker")):
        yield (f'<rect class="{kind}" x="1" y="1" width="{UNIT - 2}" height="{HEIGHT - 2}" fill="#fff"/>'
               + label(UNIT / 2, 13, LETTERS[kind], "l"), text)
    yield mark(7, 14, AWAY), "away from the thread's own worker"
    blue = fill(0)
    yield stroke("waiting", blue, 0, 9, 24) + chip(7, 9, 0), "waits for a lock, here lock 0"
    yield stroke("wants", blue, 0, 9, 24) + chip(7, 9, 0), "wants a lock, and finds it free"
    yield stroke("asleep", blue, 0, 9, 24) + label(12, 6, "z", "l"), "asleep with locks held"
    yield stroke("shipped", blue, 0, 9, 24), "shipped with locks held (nested)"
    yield stroke("holds", blue, 0, 9, 24), "holds locks between two blocks"
    if not names.locks:
        return
    for worker in range(workers):
        yield "".join(worker_parts(0, 0, worker)), f"worker {worker} has the lock"
    yield mark(0, 10, MOVED), "in a lock's lane: another worker had it before"
    yield stroke("has", WORKERS[0], 0, 9, 24), "in a lock's lane: between two blocks"
    yield stroke("nobody", NOBODY, 0, 9, 24), "in a lock's lane: in a package that no worker has"
    yield "", "nothing in a lock's lane: the lock is free"


def legend(picture: Picture, items: Any, head: str = "") -> None:
    """What colours, letters and marks mean."""
    x: float = 10
    y = picture.height
    if head:
        picture.add(label(10, y + 13, head, "g"))
        x += 14 + 6.6 * len(head)
    for part, text in items:
        wide = 46 + 5.8 * len(text)
        if x + wide > picture.width and x > 10:
            x, y = 10, y + 24
        picture.add(f'<g transform="translate({x:g} {y:g})">{part}{label(30, 13, text)}</g>')
        x += wide
    picture.add("", y + 26 - picture.height)


class Strip:
    """The lanes of some stamps: threads above workers above locks."""

    def __init__(self, picture: Picture, line: timeline.Timeline, names: names.Names, margin: float, first: int,
                 last: int) -> None:
        self.picture, self.margin, self.first, self.last = picture, margin, first, last
        threads, workers, locks = line.text.threads, line.text.workers, line.text.guards
        self.threads = picture.height + 22
        self.workers = self.threads + LANE * threads + 6
        self.locks = self.workers + LANE * workers + 6
        self.height = self.locks + LANE * locks + 12 - picture.height
        for texts, top in zip(names.lanes(), (self.threads, self.workers, self.locks)):
            for number, text in enumerate(texts):
                picture.add(label(10, top + LANE * number + 13, text))

    def x(self, stamp: int) -> float:
        return self.margin + UNIT * (stamp - self.first)

    def draw(self, line: timeline.Timeline) -> None:
        for stamp in range(self.first, self.last + 1):
            if stamp % 10 == 0:
                self.picture.add(label(self.x(stamp), self.threads - 12, str(stamp), "axis"))
        marks, gaps = line.part(self.first, self.last)
        for gap in gaps:
            parts = gap_parts(*self.place(gap, self.threads + LANE * gap.thread), gap)
            self.picture.add(titled(gap.sentence(), parts))
        for stay in line.stays(self.first, self.last):
            x, y, width = self.place(stay, self.locks + LANE * stay.lock)
            kind, colour = ("nobody", NOBODY) if stay.worker is None else ("has", WORKERS[stay.worker])
            self.picture.add(titled(stay.sentence(), [stroke(kind, colour, x, y + HEIGHT / 2, width)]))
        for mark in marks:
            self.picture.add(titled(mark.sentence(), self.mark_parts(mark)))
        self.picture.add("", self.height)

    def place(self, span: timeline.Gap | timeline.Stay, y: int) -> tuple[float, int, int]:
        return self.x(span.first), y, UNIT * (span.last - span.first + 1)

    def mark_parts(self, mark: timeline.Mark) -> Iterator[str]:
        block, x = mark.block, self.x(mark.block.stamp)
        y = self.threads + LANE * block.thread
        yield from block_parts(x, y, block, LETTERS[block.kind], mark.away)
        if block.ends_thread:
            yield label(x + UNIT + 3, y + 13, block.end)
        yield from block_parts(x, self.workers + LANE * block.worker, block, f"{block.thread}", mark.away)
        for lock in block.held:
            yield from worker_parts(x, self.locks + LANE * lock, block.worker, lock in mark.moved)


def margin(names: names.Names) -> float:
    """How wide the names of lanes are."""
    return max(80, 20 + 6.7 * max(map(len, sum(names.lanes(), []))))


def detailed(line: timeline.Timeline, first: int, last: int, names: names.Names, title: str) -> Picture:
    """All blocks of some stamps, in strips."""
    longest, left = min(STRIP, last - first + 1), margin(names)
    picture = Picture(max(left + UNIT * longest + 60, NARROWEST), title)
    legend(picture, items(names, line.text.workers))
    picture.add("", 6)
    for start in range(first, last + 1, STRIP):
        Strip(picture, line, names, left, start, min(start + STRIP - 1, last)).draw(line)
    return picture


def sentences(line: Any, first: Any, last: Any) -> Iterator[str]:
    """What stands below every picture."""
    marks, gaps = line.part(first, last)
    kinds = Counter(mark.block.kind for mark in marks)
    states = Counter(gap.state for gap in gaps)
    yield (f"Blocks {first} to {last} of {len(line.marks)}: " + ", ".join(
        f"{kinds[kind]} {kind}" for kind in ("start", "on") + SECTIONS)
        + f"; {sum(mark.away for mark in marks)} away from their thread's own worker.")
    yield (f"{several(states[timeline.ASLEEP], 'sleep')} with locks held, "
           f"{several(states[timeline.SHIPPED], 'shipment')} with locks held, "
           f"{several(states[timeline.WAITING], 'wait')} without one.")
    moves = Counter(lock for mark in marks for lock in mark.moved)
    sections = Counter(mark.block.begun for mark in marks if mark.block.begun is not None)
    if sections:
        yield "Moves of locks to another worker: " + ", ".join(
            f"lock {lock}: {moves[lock]} in {several(sections[lock], 'section')}" for lock in sorted(sections)) + "."
