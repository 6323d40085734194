"""Runs with each of some numbers of workers and batch limits: what delegation did in each."""
from __future__ import annotations

import argparse
import csv
import itertools
import multiprocessing
import os
import signal
import sys
import time
from pathlib import Path
from typing import Any, Dict, Iterable, Iterator, List, NamedTuple, Optional, Tuple

from .. import limits, progress, tool
from ..drawing import plots
from ..guest import guestfile, model
from ..reports import counts, report
from . import delegation, program

GREATEST = ("longest", "longest_wait")
NUMBERS = ("sections", "taken", "adopted", "granted", "rows", "longest", "changes", "home", "away", "waiting",
           "longest_wait")
OF_NODES = ("changes_of_node", "other_node")


class Setting(NamedTuple):
    """The parameters of a run; the names are those of the table's columns."""
    by: str
    workers: int
    batch: int
    nodes: int
    bound: int
    fuel: int
    run: int
    seed: Optional[int]  # of the model

    def order(self) -> tuple[int, int, int]:
        """What its runs are told apart by beside the batch limit."""
        return self.workers, self.nodes, self.bound


class Result(NamedTuple):
    """What a run did: each lock's numbers and its sections' workers, the run's blocks, turns and seconds."""
    setting: Setting
    locks: List[Dict[str, int]]
    owners: List[bytearray]
    blocks: int
    turns: int
    seconds: str

    def sums(self) -> dict[str, int]:
        """The numbers of all locks together."""
        columns = {name: [lock[name] for lock in self.locks] or [0] for name in NUMBERS + OF_NODES}
        return {name: max(column) if name in GREATEST else sum(column) for name, column in columns.items()}


def counted(setting: Setting, shape: Any, blocks: Iterable[report.Block], seconds: str = "") -> Result:
    """The result of a run's blocks; its shape has the numbers of threads, locks and workers."""
    result, owners = counts.Counts(shape), [bytearray() for _ in range(shape.guards)]
    for block in blocks:
        result.add(block)
        if block.begun is not None:
            owners[block.begun].append(block.worker)
    return Result(setting, [{**{name: getattr(lock, name) for name in NUMBERS},
                             **{name: counts.apart(pairs, setting.nodes or 1)
                                for name, pairs in zip(OF_NODES, (lock.changed, lock.came))}} for lock in result.locks],
                  owners, sum(worker.blocks for worker in result.workers),
                  sum(worker.turns for worker in result.workers), seconds)


def by_program(file: bytes, setting: Setting, other: Path | None = None) -> Result:
    """A run by the program, or by another one, whose words are the last three of its own."""
    form = ("nodes", setting.nodes, setting.bound) if setting.nodes else ("run",) if other is None else ()
    words = *form, setting.workers, setting.fuel, setting.batch
    began = time.perf_counter()
    status, text = program.run(words, file, path=other)
    seconds = f"{time.perf_counter() - began:.3f}"
    if status:
        raise tool.Trouble(tool.WRONG, f"tclocks {' '.join(map(str, words))} ended with status {status}")
    read = report.Report(text.splitlines(keepends=True))
    return counted(setting, read, read.blocks(), seconds)


def by_model(job: Tuple[bytes, Setting], hall: type[delegation.Hall] = delegation.Hall) -> Result:
    file, setting = job
    run, blocks = delegation.delegated(model.Guest(file), setting.fuel, setting.workers, setting.batch,
                                       setting.seed or 0, nodes=setting.nodes, bound=setting.bound, of=hall)
    return counted(setting, run, blocks)


def results(file: bytes, settings: List[Setting]) -> Iterator[Result]:
    """The results of runs: of the program one by one, for their seconds; of the model with all processors."""
    if settings[0].by == "program":
        yield from (by_program(file, setting) for setting in settings)
        return
    processes = min(len(settings), os.cpu_count() or 1)
    ignore = signal.signal, (signal.SIGINT, signal.SIG_IGN)  # an interruption is this process's own matter
    with multiprocessing.Pool(processes, *ignore) as pool:
        yield from pool.imap(by_model, [(file, setting) for setting in settings])


def settings_of(asked: argparse.Namespace, by: str) -> Iterator[Setting]:
    orders = [(nodes, bound) for nodes in asked.nodes for bound in (asked.bound if nodes else [0])]
    every = [(workers, batch, order, run) for workers, batch, order, run in itertools.product(
        asked.workers, asked.batch, orders, range(1, asked.runs + 1)) if order[0] <= workers]
    for number, (workers, batch, (nodes, bound), run) in enumerate(every):
        yield Setting(by, workers, batch, nodes, bound, asked.fuel, run, asked.seed + number if by == "model" else None)


def lines(name: str, result: Result, each_lock: bool) -> Iterator[list[Any]]:
    """The cells of a run's lines behind its parameters."""
    found: Iterable[Any] = enumerate(result.locks) if each_lock else [("all", result.sums())]
    setting = result.setting
    parameters = {**setting._asdict(), **({} if setting.nodes else {"nodes": "", "bound": ""}),
                  "seed": "" if setting.seed is None else setting.seed}
    for lock, numbers_ in found:
        yield [name, *parameters.values(), lock, *(numbers_[number] for number in NUMBERS),
               *(numbers_[number] if setting.nodes else "" for number in OF_NODES), result.blocks, result.turns,
               result.seconds]


def draw(asked: argparse.Namespace, done: list[Result]) -> None:
    """Writes the pictures that are asked for."""
    name = os.path.basename(asked.guest)
    if asked.plot:
        tool.write_file(asked.plot, plots.panels(name, done))
    if asked.strips:
        lock = asked.lock
        if lock is None:
            lock = max(range(len(done[0].locks)), key=lambda lock: done[0].locks[lock]["sections"])
        first = [result for result in done if result.setting.run == 1]
        tool.write_file(asked.strips, plots.strips(name, first, lock, asked.sections))


def asked_of(words: list[str]) -> argparse.Namespace:
    parser = tool.words("sweep", "guest", more="numbers")
    for name, least, usual, letter, says in (
            ("workers", 1, "1,2,4,8", "N", ""), ("batch", 0, "0,1,8,256", "N", ""),
            ("nodes", 0, "0", "G", "of workers; 0 is an order without nodes "),
            ("bound", 0, "4", "K", "so often a waiter may be passed over, with nodes ")):
        parser.add_argument(f"--{name}", metavar=f"{letter},{letter}..", default=usual, help=f"{says}({usual})",
                            type=tool.numbers(least, limits.NUMBERS[name][1]))
    parser.number("--runs", (1, 1000), "of each (3)", 3)
    parser.number("--fuel", limits.RUN["fuel"], "(20000)", 20000)
    parser.number("--seed", (0, 10**9), "of the model's first run (1)", 1)
    parser.add_argument("--model", action="store_true", help="the model, even if the program is built")
    parser.add_argument("--locks", action="store_true", help="a line for each lock of each run")
    parser.add_argument("--plot", metavar="FILE", help="write the numbers' plots into it (SVG)")
    parser.add_argument("--strips", metavar="FILE", help="write a picture into it (SVG) of which worker had a lock's "
                        "first sections, in the first run of each")
    most = limits.GUARDS[2] - 1
    parser.number("--lock", (0, most), "the lock of --strips (the one with the most sections)", metavar="L")
    parser.number("--sections", (1, 100_000), "so many sections of it (1000)", 1000)
    asked = parser.parse_args(words)
    if min(asked.nodes) > max(asked.workers):
        parser.error("there are more --nodes than --workers")
    return asked


def main(words: list[str]) -> None:
    asked = asked_of(words)
    file = guestfile.read(asked.guest)
    locks = len(guestfile.accepted(file, asked.guest).guest.guards)
    if asked.strips and (asked.lock or 0) >= locks:
        raise tool.Trouble(tool.WORDS, f"--strips: {asked.guest} has no lock {asked.lock or 0}")
    why = None if asked.model else program.missing()
    if why:
        tool.note("sweep", f"by the model: {why}")
    settings = list(settings_of(asked, "model" if asked.model or why else "program"))
    table = csv.writer(sys.stdout, lineterminator="\n")
    table.writerow(["guest", *Setting._fields, "lock", *NUMBERS, *OF_NODES, "blocks", "turns", "seconds"])
    done: List[Result] = []
    with progress.Progress("sweep", "runs", len(settings)) as shown:
        for result in shown.each(results(file, settings)):
            progress.clear()
            table.writerows(lines(os.path.basename(asked.guest), result, asked.locks))
            done.append(result)
    sys.stdout.flush()
    if done:
        draw(asked, done)
    shown.end()
