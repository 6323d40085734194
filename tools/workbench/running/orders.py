"""Orders of a lock's waiters beside one another."""
from __future__ import annotations

import argparse
import csv
import statistics
import sys
from typing import Dict, List

from .. import limits, progress, tool
from ..drawing import svg
from ..guest import guestfile
from . import delegation, program, sweep

ORDERS = "entry", "nodes", "youngest"
NUMBERS = ("sections", "adopted", "granted", "changes", "waiting", "longest_wait")
TITLES = {"changes": "changes of a lock's worker", "waiting": "blocks waited, in sum",
          "longest_wait": "longest wait, in blocks"}
WIDE, LINE, LEFT = 420, 18, 90  # of the picture: the longest bar, a bar's place, and the names
Rows = Dict[str, List[Dict[str, int]]]  # the numbers of each run, by order


class YoungestHall(delegation.Hall):
    """Serves who came last, as long as the oldest was not passed over as often as the bound says."""

    def next_in_line(self, lock: int, worker: delegation.Worker) -> int:
        waiting = [thread for thread in self.line[lock][1:] if (thread, lock) in self.linked]
        if self.shipped[waiting[0]][1] >= self.bound:
            return waiting[0]
        for passed in waiting[:-1]:
            self.shipped[passed][1] += 1
        return waiting[-1]


def run(file: bytes, setting: sweep.Setting, order: str) -> sweep.Result:
    if setting.by == "model":
        return sweep.by_model((file, setting), YoungestHall if order == "youngest" else delegation.Hall)
    return sweep.by_program(file, setting, program.YOUNGEST if order == "youngest" else None)


def picture(name: str, asked: argparse.Namespace, by: str, rows: Rows) -> str:
    """Bars of the means of each order."""
    parts = [svg.label(10, 20, f"{name}: {asked.workers} workers, batch limit {asked.batch}, bound {asked.bound}, "
                       f"means of {asked.runs} runs by the {by}", "h")]
    y = 44
    for number, title in TITLES.items():
        parts.append(svg.label(10, y, title, "g"))
        means = {order: statistics.mean(run[number] for run in runs) for order, runs in rows.items()}
        for colour, (order, mean) in zip(svg.COLOURS, means.items()):
            y += LINE
            parts += [svg.label(10, y, order),
                      svg.box(LEFT, y - 10, WIDE * mean / (max(means.values()) or 1), 12, colour),
                      svg.label(LEFT + WIDE + 6, y, f"{mean:,.1f}")]
        y += 2 * LINE
    return svg.document(LEFT + WIDE + 80, y, svg.STYLE, parts)


def asked_of(words: List[str]) -> argparse.Namespace:
    parser = tool.words("orders", "guest", more="numbers")
    for name, some, usual in (("workers", limits.RUN["workers"], 4), ("batch", limits.RUN["batch"], 8),
                              ("nodes", (1, limits.NUMBERS["nodes"][1]), 2),
                              ("bound", limits.NUMBERS["bound"], program.YOUNGEST_BOUND),
                              ("fuel", limits.RUN["fuel"], 20000), ("runs", (1, 1000), 3), ("seed", (0, 10**9), 1)):
        parser.number(f"--{name}", some, f"({usual})", usual)
    parser.add_argument("--model", action="store_true", help="the model, even if the programs are built")
    parser.add_argument("--plot", metavar="FILE", help="write a picture of the means into it (SVG)")
    asked = parser.parse_args(words)
    if asked.nodes > asked.workers:
        parser.error("there are more --nodes than --workers")
    return asked


def main(words: List[str]) -> None:
    asked = asked_of(words)
    file = guestfile.read(asked.guest)
    guestfile.accepted(file, asked.guest)
    why = None if asked.model else program.missing_youngest(asked.bound)
    if why:
        tool.note("orders", f"by the model: {why}")
    by = "model" if asked.model or why else "program"
    table = csv.writer(sys.stdout, lineterminator="\n")
    table.writerow(["order", "by", "seed", *NUMBERS])
    rows: Rows = {}
    jobs = [(order, asked.seed + number) for order in ORDERS for number in range(asked.runs)]
    with progress.Progress("orders", "runs", len(jobs)) as shown:
        for order, seed in shown.each(jobs):
            setting = sweep.Setting(by, asked.workers, asked.batch, asked.nodes * (order == "nodes"), asked.bound,
                                    asked.fuel, 1, seed)
            numbers = run(file, setting, order).sums()
            progress.clear()
            table.writerow([order, by, seed if by == "model" else "", *(numbers[name] for name in NUMBERS)])
            rows.setdefault(order, []).append(numbers)
    sys.stdout.flush()
    if asked.plot and rows:
        tool.write_file(asked.plot, picture(asked.guest.rpartition("/")[2], asked, by, rows))
    shown.end()
