"""Counts of a report: by lock, by thread and by worker. Blocks are counted one by one, so that a
report of any size needs little memory."""
from __future__ import annotations

import csv
import json
import sys
import types
from collections import Counter
from typing import Any, Iterable, Iterator

from .. import tool
from ..limits import SECTIONS
from . import report

# The names of the numbers that the program prints with `profile`.
LOCK_PROFILE = "sections", *SECTIONS, "longest", "changes", "home"
THREAD_PROFILE = "blocks", "turns", "moves"
# With those that are counted beside them.
OF_LOCK = *LOCK_PROFILE, "away", "waiting", "longest_wait", "fairness", "turns"
OF_THREAD = *THREAD_PROFILE, "turns_held", "away", "sleeps", "waiting", "longest_wait", "end"


class Waits:
    """How many sections there were, the blocks that they waited in sum, and the longest wait."""

    def __init__(self) -> None:
        self.sections = self.waiting = self.longest_wait = 0

    def add_wait(self, block: report.Block, before: report.Block | None) -> None:
        """Of a section: the blocks between it and its thread's block before, which came to the LOCK."""
        wait = 0 if before is None else block.stamp - before.stamp - 1
        self.sections += 1
        self.waiting += wait
        self.longest_wait = max(self.longest_wait, wait)


class LockCounts(Waits):
    def __init__(self) -> None:
        super().__init__()
        self.taken = self.adopted = self.granted = self.turns = self.away = 0
        self.row = self.rows = self.longest = self.home = 0
        self.changed: Counter[Any] = Counter()
        self.came: Counter[Any] = Counter()  # by two workers: that before, and that of the section
        self.worker: int | None = None
        self.home_worker: int | None = None  # of the lock's block before, of its section before
        self.waits: dict[int, Waits] = {}  # by thread

    def begin(self, block: report.Block, before: report.Block | None, away: bool) -> None:
        """A section of the lock begins with this block, and its thread's block before is given."""
        home = block.worker if before is None else before.worker
        if self.sections:
            self.changed[self.worker, block.worker] += 1
            self.home += home != self.home_worker
        self.came[home, block.worker] += 1
        self.home_worker = home
        vars(self)[block.kind] += 1
        self.away += away
        self.row = self.row + 1 if block.kind == "adopted" else 0
        self.rows += self.row == 1
        self.longest = max(self.longest, self.row)
        self.add_wait(block, before)
        self.waits.setdefault(block.thread, Waits()).add_wait(block, before)

    @property
    def changes(self) -> int:
        return apart(self.changed)

    @property
    def fairness(self) -> float | None:
        """None where no thread took the lock."""
        means = [waits.waiting / waits.sections for waits in self.waits.values()]
        if not any(means):
            return 1.0 if means else None
        return round(sum(means) ** 2 / (len(means) * sum(mean * mean for mean in means)), 3)


class ThreadCounts(Waits):
    def __init__(self) -> None:
        super().__init__()
        self.blocks = self.turns = self.turns_held = self.moves = self.away = self.sleeps = 0
        self.before: report.Block | None = None
        self.own: int | None = None  # the worker that ran its last block without a lock
        self.end: str | None = None

    def add(self, block: report.Block, away: bool) -> None:
        self.blocks += 1
        self.turns += block.turns
        self.turns_held += block.turns if block.held else 0
        self.away += away
        self.sleeps += block.end == "slept"
        self.moves += self.before is not None and self.before.worker != block.worker
        if block.begun is not None:
            self.add_wait(block, self.before)
        if not block.held:
            self.own = block.worker
        self.before = block
        self.end = block.end if block.ends_thread else None


def apart(pairs: Counter[tuple[int, int]], nodes: int = 8) -> int:
    """How many pairs of workers are of two workers, or of two nodes where there are fewer nodes than workers."""
    return sum(count for (one, other), count in pairs.items() if one % nodes != other % nodes)


class Counts:
    """The counts of a report's blocks, and how its threads and locks end where it says so."""

    def __init__(self, text: Any) -> None:
        """Of a report, or of what else has numbers of threads, guards and workers."""
        self.text = text
        self.locks = [LockCounts() for _ in range(text.guards)]
        self.threads = [ThreadCounts() for _ in range(text.threads)]
        self.workers = [types.SimpleNamespace(blocks=0, turns=0, away=0) for _ in range(text.workers)]

    def add(self, block: report.Block) -> bool:
        """Counts a block. Answers whether it is a section's, and ran away from its thread's own worker."""
        thread = self.threads[block.thread]
        away = bool(block.held) and thread.own not in (None, block.worker)
        if block.begun is not None:
            self.locks[block.begun].begin(block, thread.before, away)
        for number in block.held:
            lock = self.locks[number]
            lock.turns += block.turns
            lock.worker = block.worker
        thread.add(block, away)
        worker = self.workers[block.worker]
        worker.blocks, worker.turns, worker.away = worker.blocks + 1, worker.turns + block.turns, worker.away + away
        return away

    def tables(self) -> Iterator[tuple[str, list[dict[str, Any]]]]:
        """Each table as its name and its rows; a row is a dict of names and values."""
        yield "lock", [self.lock_row(*item) for item in enumerate(self.locks)]
        yield "thread", [self.thread_row(*item) for item in enumerate(self.threads)]
        yield "worker", [{"worker": number, **vars(worker)} for number, worker in enumerate(self.workers)]

    def profile_lines(self) -> Iterator[str]:
        """The lines that the program prints of this history with `profile`."""
        yield "tclocks profile 1"
        for name, names in (("lock", LOCK_PROFILE), ("thread", THREAD_PROFILE)):
            for row in dict(self.tables())[name]:
                yield " ".join(f"{column} {row[column]}" for column in (name, *names))
        yield "end"

    def lock_row(self, number: int, lock: LockCounts) -> dict[str, Any]:
        ends = getattr(self.text, "lock_ends", ())
        return {"lock": number, **{name: getattr(lock, name) for name in OF_LOCK},
                "broken": ends[number].broken if number < len(ends) else None}

    def thread_row(self, number: int, thread: ThreadCounts) -> dict[str, Any]:
        ends = getattr(self.text, "thread_ends", ())
        end = ends[number] if number < len(ends) else None
        return {"thread": number, **{name: getattr(thread, name) for name in OF_THREAD},
                "fuel_left": end and end.fuel, "x10": end.x[10] if end and len(end.x) == 32 else None}


def counted(text: Any, blocks: Iterable[report.Block]) -> Counts:
    """The counts of some blocks, of a report or a run."""
    found = Counts(text)
    for block in blocks:
        found.add(block)
    return found


def print_text(counted: Counts) -> None:
    text = counted.text
    blocks = sum(worker.blocks for worker in counted.workers)
    turns = sum(worker.turns for worker in counted.workers)
    print(f"{report.several(blocks, 'block')}, {report.several(turns, 'turn')}, {text.title()}")
    for _, rows in counted.tables():
        if not rows:
            continue
        names = [name.replace("_", " ") for name in rows[0]]
        print()
        tool.print_columns([names, *(["?" if value is None else str(value) for value in row.values()] for row in rows)])


def print_json(counted: Counts) -> None:
    tables = {f"by_{name}": rows for name, rows in counted.tables()}
    print(json.dumps({**tool.of_run(counted.text), "whole": counted.text.whole, **tables}, indent=1))


def print_csv(counted: Any) -> None:
    """One value a line, with the parameters of the run, so that the tables of all runs are one."""
    writer, run = csv.writer(sys.stdout, lineterminator="\n"), tool.of_run(counted.text)
    writer.writerow([*run, "of", "number", "name", "value"])
    for name, rows in counted.tables():
        for row in rows:
            for key, value in row.items():
                if key != name:
                    writer.writerow([*run.values(), name, row[name], key, "" if value is None else value])


def main(words: list[str]) -> None:
    parser = tool.words("summary", more="numbers")
    parser.report()
    forms = parser.add_mutually_exclusive_group()
    forms.add_argument("--json", action="store_const", dest="form", const=print_json)
    forms.add_argument("--csv", action="store_const", dest="form", const=print_csv)
    forms.add_argument("--profile", action="store_const", dest="form",
                       const=lambda counted: print(*counted.profile_lines(), sep="\n"),
                       help="what the program prints of the history with `profile`")
    asked = parser.parse_args(words)
    text = report.Report(tool.read_lines(asked.report))
    found = counted(text, text.blocks())
    text.ends()
    (asked.form or print_text)(found)
    text.tell_cut("summary")
