"""Tables of the form that bench/README.md has them in, made of raw results, which a file keeps, a line of JSON for
each; and lines that tell of them."""
from __future__ import annotations

import json
import os
import platform
import statistics
import time
from typing import Any, Callable, Iterable, NamedTuple, Sequence

from .. import progress, tool


class Failed(Exception):
    """What was otherwise than it must be."""


class Column(NamedTuple):
    """A column: its title, and how its numbers are written, as `.3f`."""
    title: str
    form: str = ""


def line(cells: Iterable[str]) -> str:
    return "|" + "|".join(f" {text} " if text else " " for text in cells) + "|"


class Table:
    """Prints a table row by row, and keeps the raw results of its rows where a file is asked for."""

    def __init__(self, bench: str, asked: Any, columns: Iterable[Sequence[str]]) -> None:
        self.bench, self.columns, self.failed = bench, [Column(*column) for column in columns], False
        with tool.writing(asked.results or ""):
            self.file = open(asked.results, "w", encoding="utf-8") if asked.results is not None else None
        words = {name: value if isinstance(value, (int, float, list, type(None))) else str(value)
                 for name, value in vars(asked).items()}
        self.keep({"bench": bench, "columns": self.columns, "about": "", "words": words,
                   "when": time.strftime("%Y-%m-%d"), "processors": len(os.sched_getaffinity(0)),
                   "machine": platform.machine()})
        print("\n".join(head(self.columns)), flush=True)

    def fill(self, what: str, pieces: Sequence[Any], measure: Callable[..., Any]) -> list[tuple[Any, Any]]:
        """Has each piece of work measured, which gives the table its rows. Answers the pieces with what came
        of them; of one that fails a line says why, under its guest's name."""
        found = []
        with progress.Progress(f"bench {self.bench}", what, len(pieces)) as self.shown:
            for piece in self.shown.each(pieces):
                try:
                    found.append((piece, measure(piece)))
                except Failed as why:
                    self.failed = True
                    progress.say(f"{piece if isinstance(piece, str) else piece[0]}: {why}")
        return found

    def end(self) -> int:
        """Ends the tool where it was interrupted. Answers its status."""
        self.shown.end()
        return tool.WRONG if self.failed else tool.DONE

    def keep(self, record: dict[str, Any]) -> None:
        if self.file:
            self.file.write(json.dumps(record) + "\n")
            self.file.flush()

    def row(self, cells: Sequence[Any], runs: Any = None) -> None:
        """A row of numbers and texts; `runs` is what each run took, of which they were made."""
        self.keep({"cells": cells, "runs": runs})
        progress.say(row(self.columns, cells))


def head(columns: Sequence[Column]) -> list[str]:
    return [line(column.title for column in columns), "|---" * len(columns) + "|"]


def row(columns: Sequence[Column], cells: Sequence[Any]) -> str:
    return line("" if value is None else format(value, column.form) for column, value in zip(columns, cells))


def spread(ratios: dict[str, float]) -> str:
    """The least, the greatest and the middle one of ratios, which are by name."""
    names = sorted(ratios, key=ratios.__getitem__)
    return (f"{ratios[names[0]]:.2f} ({names[0]}) to {ratios[names[-1]]:.2f} ({names[-1]}), median "
            f"{statistics.median(ratios.values()):.2f}")


def main(words: list[str]) -> None:
    parser = tool.words("bench table")
    parser.add_argument("file", metavar="FILE", help="of raw results; - is standard input")
    asked = parser.parse_args(words)
    try:
        text = tool.read_bytes(asked.file, 1 << 28).decode("utf-8")
        first, *rows = [json.loads(one) for one in text.splitlines()]
        columns = [Column(*column) for column in first["columns"]]
        lines = [*head(columns), *(row(columns, one["cells"]) for one in rows)]
    except (ValueError, KeyError, TypeError):
        raise tool.Trouble(tool.WRONG, f"{asked.file}: these are no results of a bench") from None
    print("\n".join(lines))
