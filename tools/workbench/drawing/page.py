"""A page of HTML that steps through a run. page.html is the page; this puts the run's data into it: the blocks, and,
where the guest's file is given, what each block changes of registers and of guarded words, by model.py."""
from __future__ import annotations

import json
import pathlib
import struct
from itertools import chain
from typing import Any, Optional, Sequence, Tuple

from .. import limits, tool
from ..guest import guestfile, model, names, sources
from ..judging import legal, reasons
from ..reports import report, timeline
from . import svg, textlanes

PAGE = pathlib.Path(__file__).resolve().parent / "page.html"
MOST = 50000  # blocks of a page
SHOWN = 64  # words of a lock that are all shown
MARK = '"application/json">DATA</script>'
Guest = Optional[Tuple[guestfile.GuestFile, sources.Sources]]  # its file, and its lines


class Player:
    """Runs the blocks by the model, and keeps what those of a window change."""

    def __init__(self, file: guestfile.GuestFile, lines: sources.Sources, text: report.Report) -> None:
        self.file, self.lines, self.run = file, lines, legal.begin(file.guest, text)
        self.machine = self.run.machine
        self.starts: dict[int, str] = {}
        self.notes: dict[int, str] = {}
        self.changes: list[Any] = []
        self.registers: list[list[int]] = []
        self.bytes: list[bytes] = []

    def play(self, block: report.Block) -> None:
        thread = self.machine.threads[block.thread]
        self.starts[block.stamp] = reasons.start_text(self.file, thread, self.lines)
        before, locks = state(thread), [(lock, bytes(self.machine.locks[lock].bytes)) for lock in block.held]
        self.run.follow(block)
        after = state(thread)
        registers = [(number, old ^ new) for number, (old, new) in enumerate(zip(before, after)) if old != new]
        words = [(lock, place, old ^ new) for lock, were in locks
                 for place, (old, new) in enumerate(zip(in_words(were), in_words(self.machine.locks[lock].bytes)))
                 if old != new]
        self.changes.append((registers, words))
        if block.ends_thread:
            self.notes[block.stamp] = reasons.ending(self.file, thread, block.held)

    def shown(self, lock: int) -> Sequence[int]:
        """The places of a lock's words that a page shows: all, or of a large guard those that change."""
        count = len(self.bytes[lock]) // 4
        if count <= SHOWN:
            return range(count)
        changed = {place for _, words in self.changes for number, place, _ in words if number == lock}
        return sorted(changed)[:SHOWN] or range(SHOWN)

    def data(self) -> dict[str, Any]:
        words, places = [], {}
        for number, lock in enumerate(self.machine.locks):
            shown, values = self.shown(number), in_words(self.bytes[number])
            places.update({(number, place): at for at, place in enumerate(shown)})
            note = "" if len(shown) == len(values) else f"{len(shown)} of its {len(values)} words"
            words.append({"values": [values[place] for place in shown], "note": note,
                          "addresses": [lock.addresses.start + 4 * place for place in shown]})
        changes = [[[*chain(*registers)], [*chain(*((lock, places[lock, place], change)
                                                    for lock, place, change in changed if (lock, place) in places))]]
                   for registers, changed in self.changes]
        return {"registers": self.registers, "words": words, "changes": changes}


def state(thread: model.Thread) -> list[int]:
    """The registers, and the program counter behind them."""
    return [*thread.x, thread.pc]


def in_words(content: bytes) -> tuple[int, ...]:
    return struct.unpack(f"<{len(content) // 4}I", content)


def played(guest: tuple[guestfile.GuestFile, sources.Sources], line: timeline.Timeline, first: int, last: int) -> Player:
    """The player at the end of the window; `guest` is the guest's file and its lines."""
    player = Player(*guest, line.text)
    try:
        for mark in line.marks[:first]:
            player.run.follow(mark.block)
        player.registers = [state(thread) for thread in player.machine.threads]
        player.bytes = [bytes(lock.bytes) for lock in player.machine.locks]
        for mark in line.marks[first:last + 1]:
            player.play(mark.block)
    except report.Wrong as wrong:
        raise tool.Trouble(tool.WRONG, f"not legal: {wrong} (./workbench judge)") from None
    return player


def row(mark: timeline.Mark, start: int, note: str) -> list[Any]:
    block = mark.block
    release = -1 if mark.release is None else mark.release.stamp
    return [block.stamp, block.thread, block.worker, block.turns, limits.KINDS.index(block.kind), block.held,
            block.pc, block.end, release, start, note]


def nearest(marks: Any, threads: int) -> list[list[Any] | None]:
    """Of each thread the first of some marks that is its own, or None."""
    return [next((row(mark, 0, "") for mark in marks if mark.block.thread == thread), None)
            for thread in range(threads)]


def data(line: timeline.Timeline, names: names.Names, first: int, last: int, title: str, guest: Guest) -> Any:
    """What the page's script reads."""
    player = played(guest, line, first, last) if guest else None
    texts, threads, rows = {"": 0}, line.text.threads, []  # texts: each with its number
    # The stamp of the block that broke a lock: whose thread ended with it.
    broken = {lock: mark.block.stamp for mark in line.marks[::-1] if mark.block.ends_thread for lock in mark.block.held}
    for mark in line.marks[first:last + 1]:
        block = mark.block
        start = player.starts[block.stamp] if player else f"pc {block.pc:08x}"
        rows.append(row(mark, texts.setdefault(start, len(texts)), player.notes.get(block.stamp, "") if player else ""))
    return {"title": title, "what": line.text.title(), "first": first, "workers": line.text.workers,
            "threads": names.threads, "locks": [{"name": name} for name in names.locks],
            "lockColours": [textlanes.by_lock(lock) for lock in range(line.text.guards)],
            "workerColours": [textlanes.by_worker(worker) for worker in range(len(svg.WORKERS))], "blocks": rows,
            "before": nearest(line.marks[:first][::-1], threads), "behind": nearest(line.marks[last + 1:], threads),
            "broken": [broken.get(lock, -1) for lock in range(line.text.guards)], "starts": list(texts),
            **(player.data() if player else {"registers": None, "words": None, "changes": []})}


def made(line: timeline.Timeline, names: names.Names, first: int, last: int, title: str, guest: Guest) -> str:
    """The page of a window; `guest` is the guest's file and its lines, or None."""
    if last - first >= MOST:
        raise tool.Trouble(tool.WORDS, f"{last - first + 1} blocks are more than the {MOST} of a page; "
                           "--from and --to give a part")
    text = json.dumps(data(line, names, first, last, title, guest), separators=(",", ":"))
    before, after = PAGE.read_text(encoding="utf-8").split(MARK)
    # No text of the run can end the element that it stands in.
    return before + MARK.replace("DATA", text.replace("<", "\\u003c")) + after
