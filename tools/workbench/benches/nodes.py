"""Contended guests by `run` and by `nodes`: the table of bench/README.md."""
from __future__ import annotations

import argparse
import statistics
from ..running import sweep
from . import guests, process, table

OWN = ("counter", "bank", "buffer", "philosophers")  # of guests/
OF_BENCH = ("hot-lock", "nested-locks")
COLUMNS = ("taken", "adopted", "granted", "changes", *sweep.OF_NODES)
NODES, BOUNDS = [0, 1, 2, 4], [0, 4, 256]


def measure(name: str, settings: list[sweep.Setting], to: table.Table) -> None:
    orders: dict[tuple[int, int, int], list[sweep.Result]] = {}
    for result in sweep.results(guests.file_of(name), settings):
        orders.setdefault(result.setting.order(), []).append(result)
    for (_, nodes, bound), results in orders.items():
        sums = [result.sums() for result in results]
        cells = [statistics.mean(one[name] for one in sums) if nodes or name not in sweep.OF_NODES else None
                 for name in COLUMNS]
        seconds = statistics.median(float(result.seconds) for result in results)
        to.row([name, f"`nodes {nodes} {bound}`" if nodes else "`run`", *cells, seconds],
               [(result.seconds, one) for result, one in zip(results, sums)])


def main(words: list[str]) -> int:
    parser = process.words("nodes", OWN + OF_BENCH, "all", "run", runs=(5, "of each order"))
    asked = process.parsed(parser, words, OWN + OF_BENCH)
    settings = sorted(sweep.settings_of(argparse.Namespace(
        workers=[asked.workers], batch=[asked.batch], fuel=asked.fuel, nodes=NODES, bound=BOUNDS, runs=asked.runs), "program"),
        key=lambda setting: setting.run)
    to = table.Table("nodes", asked, [("Guest",), ("Words",), *(
        (column.replace("_", " ").capitalize(), ",.0f") for column in COLUMNS), ("Seconds", ".3f")])
    to.fill("guests", asked.guests or OWN + OF_BENCH, lambda name: measure(name, settings, to))
    return to.end()
