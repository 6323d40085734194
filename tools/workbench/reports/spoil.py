"""Histories that were changed in one place or two. Each function takes a random.Random and the blocks of a history
(report.Block), and gives a text. It aims at one of the reasons for which a history is rejected; which one it comes to,
if any, is told by rejecting.py."""
from __future__ import annotations

from random import Random
from typing import Any
from .. import limits
from ..limits import KINDS
from . import report

ENDS = ("wants 0", "unlocked 0", "unlocked 31", "slept", "cut", "exit", "fault 7", "spent")
HELD = (), (0,), (1, 2), (0, 31), (0, 1, 2, 3, 4)
# Words in the place of one of a line's.
ODD = ("", "00", "+0", "32", "4097", str(2**32), "1,0", "2,2", "0,-", "wants 32", "wants 00", "fault 0", "fault 13",
       "unlocked", "grante", "0 end cut 0")


def text_of(blocks: Any) -> str:
    return "".join(f"{block.line()}\n" for block in blocks)


def with_block(blocks: list[report.Block], place: int, **parts: Any) -> str:
    """The text with other parts in one block."""
    return text_of([*blocks[:place], blocks[place]._replace(**parts), *blocks[place + 1:]])


def other(draw: Random, value: Any, values: Any) -> Any:
    return draw.choice([one for one in values if one != value])


def near(draw: Random, value: int, least: int, most: int) -> int:
    """Another number in these limits, mostly a near one."""
    return int(other(draw, value, [min(max(one, least), most) for one in (
        least, most, value - 1, value + 1, value + 2, value + 3)]))


def spelling(draw: Random, blocks: list[report.Block]) -> str:
    """A line that is none, or a last one without its end."""
    lines = text_of(blocks).splitlines(keepends=True)
    place = draw.randrange(len(lines))
    line = lines[place]
    words = line.split(" ")
    words[draw.randrange(len(words))] = draw.choice(ODD)
    lines[place] = draw.choice((
        " ".join(words), line[:-1], line[:draw.randrange(len(line))], line.replace(" ", "  ", 1), line.upper(),
        "\n" + line, line[:-1] + " \n", line + "\n", line[:-1] + "\r\n", " " + line, line.replace("turns ", "turns 0")))
    return "".join(lines)


def thread(draw: Random, blocks: list[report.Block]) -> str:
    """A block of a thread that is none, or has ended."""
    count, ended, places = 1 + max(block.thread for block in blocks), set(), []  # type: int, set[int], list[Any]
    for place, block in enumerate(blocks):
        places += [(place, number) for number in ended]
        if block.ends_thread:
            ended.add(block.thread)
    if places and draw.random() < 0.7:
        place, number = draw.choice(places)
    else:
        place, number = draw.randrange(len(blocks)), draw.choice((count, limits.THREADS[2], 2**32 - 1))
    return with_block(blocks, place, thread=number)


def owner(draw: Random, blocks: list[report.Block]) -> str:
    """A block of a thread that wants a lock which another one has; of any thread where there is none."""
    wants, held, places = {}, {}, []  # type: dict[int, int], dict[int, tuple[int, ...]], list[Any]
    for place, block in enumerate(blocks):
        held[block.thread] = held.get(block.thread, ())
        places += [(place, number) for number, lock in wants.items()
                   if any(lock in locks for one, locks in held.items() if one != number)]
        wants.pop(block.thread, None)
        if block.wanted is not None:
            wants[block.thread] = block.wanted
        held[block.thread] = block.kept
    if not places:
        return with_block(blocks, draw.randrange(len(blocks)),
                          thread=draw.choice(sorted({block.thread for block in blocks})))
    place, number = draw.choice(places)
    return with_block(blocks, place, thread=number)


def run(draw: Random, blocks: list[report.Block]) -> str:
    """A block with other turns, locks, program counter or end."""
    place = draw.randrange(len(blocks))
    block = blocks[place]
    part = draw.choice((
        {"turns": near(draw, block.turns, 1, limits.TURNS)}, {"held": other(draw, block.held, HELD)},
        {"held": block.held[:-1]}, {"pc": (block.pc + draw.choice((-4, 1, 4))) % 2**32}, {"end": other(draw, block.end, ENDS)}))
    return with_block(blocks, place, **part)


def kind(draw: Random, blocks: list[report.Block]) -> str:
    """A block of another kind; mostly one that begins a section is given the kind of another section."""
    places = [place for place, block in enumerate(blocks) if block.begun is not None]
    if places and draw.random() < 0.8:
        place = draw.choice(places)
        kinds: tuple[str, ...] = limits.SECTIONS
    else:
        place, kinds = draw.randrange(len(blocks)), KINDS
    return with_block(blocks, place, kind=other(draw, blocks[place].kind, kinds))


def worker(draw: Random, blocks: list[report.Block]) -> str:
    """A block of another worker, which there may be or not."""
    place = draw.randrange(len(blocks))
    count = 1 + max(block.worker for block in blocks)
    return with_block(blocks, place, worker=draw.choice((0, 1, count - 1, count, limits.RUN["workers"][1], 2**32 - 1)))


def front(draw: Random, blocks: list[report.Block]) -> str:
    """The first blocks alone."""
    return text_of(blocks[:draw.randrange(len(blocks))])


def moved(draw: Random, blocks: list[report.Block]) -> str:
    """Two blocks in each other's place, one left out, or one twice; with the stamps of their places."""
    one, two = sorted(draw.randrange(len(blocks)) for _ in range(2))
    chosen = draw.choice((
        [*blocks[:one], blocks[two], *blocks[one + 1:two], blocks[one], *blocks[two + 1:]] if one < two else blocks,
        [*blocks[:one], *blocks[one + 1:]], [*blocks[:one], blocks[two], *blocks[one:]],
        [*blocks[:one], *blocks[one + 1:two + 1], blocks[one], *blocks[two + 1:]]))
    return text_of(block._replace(stamp=stamp) for stamp, block in enumerate(chosen))


FORMS = (spelling, thread, owner, run, kind, worker, front, moved)
