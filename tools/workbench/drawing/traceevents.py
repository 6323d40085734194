"""Timelines in the trace event format, which Perfetto (ui.perfetto.dev) and Chrome's viewer open."""
from __future__ import annotations

from argparse import Namespace
import json
from typing import Any, Iterator

from ..guest import names
from ..reports import report, timeline

# Lanes of a trace: the process and its first lane's number. No two lanes have one number, and
# none is 0, which some viewers keep for the idle process.
THREADS, WORKERS, LOCKS = {"pid": 1, "tid": 1}, {"pid": 2, "tid": 101}, {"pid": 3, "tid": 201}


def lane(group: dict[str, int], number: int) -> dict[str, int]:
    return {**group, "tid": group["tid"] + number}


def lanes(group: dict[str, int], name: str, heads: list[str]) -> Iterator[dict[str, Any]]:
    """The events that name a process and its lanes, and say in which order they stand."""
    yield {"ph": "M", "name": "process_name", **group, "args": {"name": name}}
    yield {"ph": "M", "name": "process_sort_index", **group, "args": {"sort_index": group["pid"]}}
    for number, head in enumerate(heads):
        yield {"ph": "M", "name": "thread_name", **lane(group, number), "args": {"name": head}}
        yield {"ph": "M", "name": "thread_sort_index", **lane(group, number), "args": {"sort_index": number}}


def events(line: timeline.Timeline, called: names.Names, first: int, last: int) -> Iterator[dict[str, Any]]:
    """The trace: a stamp is a microsecond."""
    for group, name, heads in zip((THREADS, WORKERS, LOCKS), ("threads", "workers", "locks"), called.lanes()):
        yield from lanes(group, name, heads)
    marks, gaps = line.part(first, last)
    for mark in marks:
        yield from block_events(mark)
    for mark in marks:
        if mark.came is not None and mark.came.stamp >= first:
            # From where a thread came to its LOCK to where its section was adopted or granted, by worker.
            common = {"name": mark.block.kind, "cat": "passed on", "id": mark.block.stamp}
            yield {"ph": "s", **common, **lane(WORKERS, mark.came.worker), "ts": mark.came.stamp}
            yield {"ph": "f", "bp": "e", **common, **lane(WORKERS, mark.block.worker), "ts": mark.block.stamp}
    for gap in gaps:
        yield {"ph": "X", "name": gap.what(), "cat": gap.state, **lane(THREADS, gap.thread), "ts": gap.first,
               "dur": gap.last - gap.first + 1}
    for stay in line.stays(first, last):
        who = "no worker" if stay.worker is None else f"worker {stay.worker}"
        yield {"ph": "X", "name": f"{who}, {stay.what}", "cat": "kept", **lane(LOCKS, stay.lock),
               "ts": stay.first, "dur": stay.last - stay.first + 1}


def block_events(mark: timeline.Mark) -> Iterator[dict[str, Any]]:
    block = mark.block
    kind = block.kind + (f" {report.locks_text(block.held)}" if block.held else "")
    common = {"ph": "X", "cat": block.kind + (",away" if mark.away else ""), "ts": block.stamp, "dur": 1,
              "args": {"block": block.stamp, "turns": block.turns, "held": report.held_text(block.held), "kind": block.kind,
                       "worker": block.worker, "thread": block.thread, "away": mark.away, "end": block.end}}
    yield {**common, "name": kind + (" AWAY" if mark.away else ""), **lane(THREADS, block.thread)}
    yield {**common, "name": f"thread {block.thread} {kind}", **lane(WORKERS, block.worker)}
    for lock in block.held:
        yield {**common, "name": f"worker {block.worker}" + " MOVED" * (lock in mark.moved), **lane(LOCKS, lock)}


def show(line: timeline.Timeline, called: names.Names, first: int, last: int, asked: Namespace) -> None:
    """Prints the trace, one event a line."""
    print('{"displayTimeUnit": "ns", "otherData": ' + json.dumps({"title": asked.title}) + ', "traceEvents": [')
    print(",\n".join(map(json.dumps, events(line, called, first, last))) + "\n]}")
