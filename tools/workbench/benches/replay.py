"""Runs by one worker, whose histories are given back to `replay` and to `profile`."""
from __future__ import annotations

from argparse import Namespace
import filecmp
import os
import tempfile
from typing import Any, IO

from .. import limits
from . import guests, process, table
from .table import Failed

USUAL = "sleeps", "hot-lock", "nested-locks", "shortest-blocks", "longest-history"
COLUMNS = (("Guest",), ("Blocks", ","), ("Bytes", ","), ("Run", ".3f"), ("Reading", ".3f"), ("MB/second", ".0f"),
           ("Replay", ".3f"), ("Profile", ".3f"), ("Replay/run", ".2f"), ("Profile/replay", ".2f"), ("Run MB", ".0f"),
           ("Replay MB", ".0f"), ("Profile MB", ".0f"), ("Memory", ".2f"))


def least(words: tuple[Any, ...], given: IO[bytes], status: int, runs: int) -> tuple[float, float, IO[bytes]]:
    """The least seconds and the least peak of some runs over the same input, and the last one's output, a file."""
    took = []
    for _ in range(runs):
        written = tempfile.NamedTemporaryFile()
        given.seek(0)
        ended, one = process.run(words, given, written)
        if ended != status:
            raise Failed(f"{' '.join(map(str, words))} ended with status {ended}, not {status}")
        took.append(one)
    return min(one.busy for one in took), min(one.peak for one in took) / 1e6, written


def give_history(given: IO[bytes], report: IO[bytes]) -> tuple[int, int]:
    """Writes a report's history behind the guest's file. Answers its blocks and bytes. No more of it than a line is
    kept here, since up to where the program begins this process's memory counts as the program's."""
    blocks = size = 0
    given.seek(0, os.SEEK_END)
    for line in report:
        if line.startswith(b"block "):
            given.write(line)
            blocks, size = blocks + 1, size + len(line)
    given.flush()
    return blocks, size


def measure(name: str, fuel: int, asked: Namespace, to: table.Table) -> None:
    with tempfile.TemporaryFile() as given:
        file = given.write(guests.GUESTS[name]())
        given.flush()
        numbers = 1, fuel, asked.batch
        run, run_peak, report = least(("run", *numbers), given, 0, asked.runs)
        report.seek(0)
        blocks, size = give_history(given, report)
        replay, replay_peak, again = least(("replay", file, *numbers), given, 0, asked.runs)
        if not filecmp.cmp(report.name, again.name, shallow=False):
            raise Failed(f"replay {' '.join(map(str, (file, *numbers)))} prints another report than the run's")
        profile, profile_peak, _ = least(("profile", file, *numbers), given, 0, asked.runs)
        os.ftruncate(given.fileno(), file + size - 1)  # the last line loses its end
        reading, _, _ = least(("replay", file, *numbers), given, limits.REJECTED, asked.runs)
    to.row([name, blocks, size, run, reading, size / reading / 1e6, replay, profile, replay / run, profile / replay, run_peak,
            replay_peak, profile_peak, replay_peak / run_peak])


def main(words: list[str]) -> int:
    parser = process.words("replay", guests.GUESTS, ", ".join(USUAL), batch=(0, "batch limit"),
                           fuel=([limits.RUN["fuel"][1]], "of each thread; of several numbers each gets a line"),
                           runs=(1, "runs of each, of which the least numbers are told"))
    asked = process.parsed(parser, words, guests.GUESTS)
    lines = [(name, fuel) for name in asked.guests or USUAL for fuel in asked.fuel]
    to = table.Table("replay", asked, COLUMNS)
    to.fill("lines", lines, lambda line: measure(line[0], line[1], asked, to))
    return to.end()
