"""Runs by several numbers of workers in turn, with loops before, behind and beside them that tell how free the
processors are."""
from __future__ import annotations

from argparse import Namespace
import contextlib
import os
from pathlib import Path
import shutil
import statistics
import subprocess
import tempfile
import time
from typing import Any, Iterator

from .. import limits, tool
from ..reports import report
from . import guests, process, table

USUAL = "hot-lock", "nested-locks", "sleeps", "memory", "many-ranges", "own-locks"

LOOP_TURNS = 20_000_000  # some tens of milliseconds
ENDLESS = 1 << 48  # turns of a loop that is ended when what runs beside it has ended
BEGIN = 0.002  # the seconds that such loops get to begin
MOST_ROUNDS = 30  # of which one counts at least, on the mean, or the rest are not made


def ran(words: tuple[Any, ...], file: bytes = b"", path: Path | None = None,
        is_counted: bool = False) -> tuple[process.Took, int | None]:
    """What a run of the program took, or of what is at the path, and its blocks where they are to be counted."""
    with process.over(file, words, path) as (took, written):
        return took, process.counts(written)[1] if is_counted else None


def taken(asked: Namespace, runs: Any, what: str) -> float:
    """What runs took, the least or the median."""
    return float(asked.told(getattr(took, what) for took, _ in runs))


@contextlib.contextmanager
def company(asked: Namespace, threads: int) -> Iterator[Any]:
    """Keeps as many processors busy as these threads are fewer than the most workers, where that is asked for."""
    others = asked.workers[-1] - threads if asked.even else 0
    beside = subprocess.Popen([str(asked.loop), str(others), str(ENDLESS)]) if others else None
    try:
        if beside:
            time.sleep(BEGIN)
        yield
    finally:
        if beside:
            beside.kill()
            beside.wait()


def looped(asked: Namespace, turns: int, is_shared: bool = False) -> Any:
    """The seconds of a loop of so many turns by the fewest and by the most threads, which each have them or
    share them; None where there is no compiler."""
    found = []
    for threads in (asked.workers[0], asked.workers[-1]) if asked.loop else ():
        with company(asked, threads):
            found.append(ran((threads, turns // threads if is_shared else turns), path=asked.loop)[0].seconds)
    return found or None


def of_loops(asked: Namespace, loops: list[list[float]]) -> float:
    """The seconds of loops by the most threads in those by the fewest."""
    return float(asked.told(last for _, last in loops) / asked.told(first for first, _ in loops))


def is_quiet(asked: Namespace, loops: list[float]) -> bool:
    """Whether the processors were free when the loops ran, where that is asked for."""
    return asked.quiet is None or loops[1] <= asked.quiet * loops[0]


def rounds(name: str, asked: Namespace) -> tuple[dict[int, list[tuple[Any, ...]]], list[list[float]], int]:
    """The runs of a guest in rounds that count, by workers; the loops before and behind them; how many rounds were made."""
    runs: dict[int, list[tuple[Any, ...]]] = {workers: [] for workers in asked.workers}
    file, loops, made = guests.GUESTS[name](), [], 0  # type: bytes, list[Any], int
    while len(runs[asked.workers[0]]) < asked.runs and made < MOST_ROUNDS * asked.runs:
        made, before = made + 1, looped(asked, LOOP_TURNS)
        if not is_quiet(asked, before):
            continue
        found = {}
        for workers in asked.workers:
            with company(asked, workers):
                found[workers] = ran(("run", workers, asked.fuel, asked.batch), file, is_counted=not loops)
        behind = looped(asked, LOOP_TURNS)
        if is_quiet(asked, behind):
            loops += [before, behind]
            for workers in asked.workers:
                runs[workers].append(found[workers])
    if not loops:
        raise tool.Trouble(tool.INPUT, f"{name}: the processors were not free in one of {made} rounds")
    return runs, loops, made


def measure(name: str, asked: Namespace, clock: Path | None, to: table.Table) -> tuple[float, float]:
    """Prints the line of a guest, and answers its two ratios."""
    runs, loops, made = rounds(name, asked)
    seconds, busy = ([taken(asked, runs[workers], what) for workers in asked.workers] for what in ("seconds", "busy"))
    ratios = seconds[-1] / seconds[0], busy[-1] / busy[0]
    _, blocks = runs[asked.workers[-1]][0]
    # What the most threads take more than one for so many additions to one word.
    shared, one = (taken(asked, [ran((threads, blocks), path=clock) for _ in range(asked.runs)], "busy")
                   for threads in (asked.workers[-1], 1)) if clock else (0, 0)
    of_loop: Any = None, None
    if asked.loop:
        turns = int(LOOP_TURNS * seconds[0] / asked.told(first for first, _ in loops))  # as long as the guest
        shared_loops = [looped(asked, turns, is_shared=True) for _ in range(asked.runs)]
        of_loop = of_loops(asked, loops), of_loops(asked, shared_loops)
    to.row([name, *seconds, *busy, *ratios, shared - one if clock else None, *of_loop,
            f"{len(runs[asked.workers[-1]])} of {made}"],
           {workers: [took for took, _ in found] for workers, found in runs.items()})
    return ratios


def main(words: list[str]) -> int:
    parser = process.words(
        "several", guests.GUESTS, ", ".join(USUAL), workers=([1, 2, 4], "1 to 8 each"),
        batch=(8, "batch limit"), fuel=(limits.RUN["fuel"][1], "of each thread"), runs=(9, "of each"))
    parser.add_argument("-q", dest="quiet", metavar="NUMBER", type=float,
                        help="count only rounds before and after which the number of the column Loop is at most this, as 1.1")
    parser.add_argument("-e", dest="even", action="store_true",
                        help="keep the processors busy that a run leaves idle, as many as the most workers take")
    parser.add_argument("-m", dest="told", action="store_const", const=statistics.median, default=min,
                        help="print the median of the runs instead of the least")
    asked = process.parsed(parser, words, guests.GUESTS)
    asked.workers = sorted({*asked.workers})
    return measure_all(asked)


def measure_all(asked: Namespace) -> int:
    """Prints the table, and what it tells in a line."""
    wants_loop = [word for word, is_asked in (("-q", asked.quiet is not None), ("-e", asked.even)) if is_asked]
    if wants_loop and not shutil.which("cc"):
        raise tool.Trouble(tool.INPUT, f"{wants_loop[0]} needs a C compiler, and cc is not on the PATH")
    each = [report.several(workers, "worker") for workers in asked.workers]
    of = f"{each[-1]} to {each[0]}"
    columns = [("Guest", ""), *((f"Seconds: {one}" if one == each[0] else one, ".3f") for one in each),
               *((f"Processor: {one}" if one == each[0] else one, ".3f") for one in each), (f"Seconds, {of}", ".2f"),
               (f"Processor, {of}", ".2f"), (f"Clock, {of}", ".3f"), (f"Loop, {of}", ".2f"), (f"Shared loop, {of}", ".2f"),
               ("Rounds", "")]
    to = table.Table("several", asked, columns)
    with tempfile.TemporaryDirectory() as folder:
        clock, asked.loop = (process.compiled(source, folder, "-pthread") if shutil.which("cc") else None
                       for source in ("clock.c", "loop.c"))
        names = asked.guests or USUAL
        ratios = dict(to.fill("guests", names, lambda name: measure(name, asked, clock, to)))
    if ratios:
        seconds, busy = ({name: pair[which] for name, pair in ratios.items()} for which in (0, 1))
        told = "least" if asked.told is min else "median"
        print(f"\nOn {len(os.sched_getaffinity(0))} processors, {told} of {asked.runs}, {of}: "
              f"seconds {table.spread(seconds)}; processor seconds {table.spread(busy)}.")
    return to.end()
