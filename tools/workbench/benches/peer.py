"""Guests by the program and by a peer under ordinary pthread mutexes (peer.c), in turn and on one processor."""
from __future__ import annotations

from argparse import Namespace
import io
import json
import os
from pathlib import Path
import statistics
import tempfile
import types

from .. import limits, places
from ..guest import model
from ..reports import report
from . import guests, process, table
from .table import Failed

FACTS = json.loads((places.GUESTS / "facts.json").read_text())
AMPLE = 20000  # fuel with which the facts hold
COLUMNS = (("Guest",), ("Turns", ","), ("Blocks", ","), *((title, ".4f") for title in (
    "Program: seconds", "processor", "Peer: seconds", "processor", "Peer with text: seconds", "processor")),
    ("To peer", ".2f"), ("To peer with text", ".2f"))


class Measured:
    """What is measured: its words, and what its runs took."""

    def __init__(self, path: Path | None, *words: int | str) -> None:
        self.path, self.words = path, words
        self.took: list[process.Took] = []

    def run(self, file: bytes, is_read: bool = False) -> bytes:
        """A run over a file. Answers its report where that is to be read, else nothing."""
        with process.over(file, self.words, self.path) as (took, written):
            self.took.append(took)
            return written.read() if is_read else b""

    def middle(self, what: str) -> float:
        return statistics.median(float(getattr(took, what)) for took in self.took)


def ends_of(text: bytes) -> report.Report:
    """How threads and locks end, by a report without the lines of its blocks."""
    first, ends = text[:200].splitlines(keepends=True)[:3], text[text.index(b"\nthread ") + 1:].splitlines(keepends=True)
    read = report.Report(line.decode() for line in first + ends)
    read.ends()
    return read


def check_ends(name: str, fuel: int, ours: report.Report, theirs: report.Report) -> None:
    """How the peer's run ended, beside the facts of a guest or beside the program's run."""
    if name not in FACTS:
        seen, wanted = ([[(end.how, end.fuel) for end in read.thread_ends], read.lock_ends] for read in (theirs, ours))
        if seen != wanted:
            raise Failed("threads or locks end otherwise by the peer than by the program")
    elif fuel >= AMPLE:
        machine = types.SimpleNamespace(locks=theirs.lock_ends, threads=[
            types.SimpleNamespace(end=end.how, x=end.x, pc=end.pc) for end in theirs.thread_ends])
        for difference in model.differences(FACTS[name], machine):
            raise Failed(f"by the peer: {difference}")


def check(name: str, file: bytes, fuel: int, run: bytes, peer: bytes) -> tuple[int, int]:
    """Checks the reports of the program and of the peer. Answers the turns and the blocks of the program's."""
    history = peer[peer.index(b"\nblock ") + 1:peer.index(b"\nthread ") + 1]
    if Measured(None, "replay", len(file), 1, fuel, 0).run(file + history, is_read=True) != peer:
        raise Failed("replay prints another report of the peer's history than the peer")
    check_ends(name, fuel, ends_of(run), ends_of(peer))
    return process.counts(io.BytesIO(run))[:2]


def measure(name: str, asked: Namespace, peer: Path, to: table.Table) -> list[float]:
    """Prints the line of a guest, and answers its two ratios."""
    file = guests.file_of(name)
    ours = Measured(None, "run", 1, asked.fuel, 0)
    log, text = Measured(peer, asked.fuel), Measured(peer, asked.fuel, "history")
    counted = check(name, file, asked.fuel, ours.run(file, is_read=True), text.run(file, is_read=True))
    for _ in range(asked.runs):
        for one in ours, log, text:
            one.run(file)
    ratios = [ours.middle("busy") / one.middle("busy") for one in (log, text)]
    to.row([name, *counted, *(one.middle(what) for one in (ours, log, text) for what in ("seconds", "busy")), *ratios],
           [one.took for one in (ours, log, text)])
    return ratios


def main(words: list[str]) -> int:
    known = (*guests.GUESTS, *FACTS)
    parser = process.words("peer", known, "all", fuel=(limits.RUN["fuel"][1], "of each thread"), runs=(5, "of each"))
    cores = os.sched_getaffinity(0)
    parser.number("-c", (0, 9999), "the processor on which all runs (the last one)", max(cores), "CORE", dest="core")
    asked = process.parsed(parser, words, known, cores)
    os.sched_setaffinity(0, {asked.core})
    with tempfile.TemporaryDirectory() as folder:
        peer, to = process.compiled("peer.c", folder, "-pthread"), table.Table("peer", asked, COLUMNS)
        ratios = dict(to.fill("guests", asked.guests or known, lambda name: measure(name, asked, peer, to)))
    for folder, names in ("bench/", guests.GUESTS), ("guests/", FACTS):
        log, text = ({name: ratios[name][which] for name in names if name in ratios} for which in (0, 1))
        if log:
            print(f"\nOf {report.several(len(log), 'guest')} of {folder}, the program's processor seconds in those "
                  f"of the peer: {table.spread(log)}; in those of the peer with text: {table.spread(text)}.")
    return to.end()
