"""Histories that were written by hand: their lines, and the whole report."""
from __future__ import annotations

import re
import sys
from typing import Any, Callable, Iterable, Iterator

from .. import limits, tool
from ..guest import guestfile
from ..reports import report
from . import legal

PARTS = re.compile("|".join((
    r"(?P<name>thread|turns|worker) (?P<number>\d{1,9})\b", r"held (?P<held>-|[\d,]+)", r"kind (?P<kind>\w+)",
    r"pc (?P<pc>[0-9a-f]{8})\b", rf"end (?P<end>{report.END})(?![^ ])")))
REST = r"thread \d+ (?:exit|fault|spent)|x\d+ |lock |data |end$"


class Line:
    """A line's parts: numbers and texts by name, and where it stands. It may have the parts of a block line,
    in their order or another, with or without `block` and the stamp, and needs no more than its thread."""

    def __init__(self, number: int, text: str) -> None:
        self.number = number
        self.parts: dict[str, Any] = {}
        found = re.fullmatch(r"(?:block(?: (\d{1,9}))? )?(.*)", text)
        assert found
        self.stamp, rest = found[1], found[2]
        while rest:
            part = PARTS.match(rest)
            if not part:
                raise report.Wrong(f"line {number}: {rest[:60]!r} is no part of a block line (thread T, "
                                   "turns K, held H, kind K, worker W, pc HEX8, end E)")
            key = str(part["name"] or part.lastgroup)
            if key in self.parts:
                raise report.Wrong(f"line {number}: {key} stands there twice")
            self.parts[key] = int(part["number"]) if part["name"] else part[key]
            rest = rest[part.end():].lstrip(" ")
        if "thread" not in self.parts:
            raise report.Wrong(f"line {number}: it names no thread")

    def check(self, run: legal.Run) -> None:
        """Wrong where the line names something that the run doesn't have."""
        parts, where = self.parts, f"block {run.count}, line {self.number}"
        for name, count in (("thread", run.threads), ("worker", run.workers)):
            if parts.get(name, 0) >= count:
                raise report.Wrong(f"{where}: there is no {name} {parts[name]}, but {name}s 0 to {count - 1}")
        if self.stamp is not None and int(self.stamp) != run.count:
            raise report.Wrong(f"{where}: its stamp is {self.stamp} (without stamps the blocks are numbered "
                               "in their order)")
        if parts.get("kind", "on") not in limits.KINDS:
            raise report.Wrong(f"{where}: there is no kind {parts['kind']!r}")


def read(lines: Iterable[str]) -> tuple[dict[str, int], list[Line]]:
    """A history that was written by hand: the numbers of its header, where there is one, whose lines may be missing,
    and the lines of blocks. What stands behind the blocks is not read."""
    header, blocks = {}, []  # type: dict[str, int], list[Line]
    for number, line in enumerate(lines, 1):
        text = " ".join(line.split("#")[0].split())
        if re.match(REST, text):
            break
        options = None if blocks else report.options_of(text, number)
        header.update(options or {})
        if text and not options and (blocks or not re.fullmatch(f"tclocks 2|{report.GUEST}", text)):
            blocks.append(Line(number, text))
    return header, blocks


DEFAULTS = {"workers": 8, "fuel": 20000, "batch": 8}


def step(run: legal.Run, line: Line) -> report.Block:
    """Runs the block of a line, and answers it; Wrong where it can't be."""
    line.check(run)
    parts = line.parts
    block = run.step(parts["thread"], parts.get("kind"), parts.get("worker", run.worker_for(parts["thread"])))
    shown = {"turns": block.turns, "held": report.held_text(block.held), "pc": f"{block.pc:08x}", "end": block.end}
    for name, value in shown.items():
        if parts.get(name, value) != value:
            raise report.Wrong(f"block {block.stamp}, line {line.number}: {name} is {parts[name]}, and must be {value}")
    return block


def possible(run: legal.Run) -> Iterator[str]:
    """The lines of what could come next."""
    for block, (_, *others) in run.candidates():
        yield block.line() + (f"  # or worker {', '.join(map(str, others))}" if others else "")
    for number, thread in enumerate(run.machine.threads):
        lock = run.machine.next_lock(thread)
        if lock is not None and run.machine.locks[lock].owner is not None:
            yield f"# thread {number} wants lock {lock}, which thread {run.machine.locks[lock].owner} has"


def follow(begin: Callable[..., Any], lines: list[Line]) -> tuple[legal.Run, list[report.Block]]:
    run, blocks = begin(), []
    for line in lines:
        try:
            blocks.append(step(run, line))
        except report.Wrong as wrong:
            run = begin()
            for block in blocks:
                run.step(block.thread, block.kind, block.worker)
            print(f"# legal there, as block {run.count}:", *possible(run), sep="\n")
            raise tool.Trouble(tool.WRONG, f"not legal: {wrong}") from None
    return run, blocks


def main(words: list[str]) -> None:
    parser = tool.words("finish", "guest")
    parser.add_argument("history", metavar="HISTORY", nargs="?", default="-",
                        help="the history; standard input if it is left out")
    parser.add_argument("--on", action="store_true", help="go on to the end of every thread, all sections taken")
    for name, some in limits.RUN.items():
        parser.number(f"--{name}", some, f"if the history has no header ({DEFAULTS[name]})")
    asked = parser.parse_intermixed_args(words)
    guest = guestfile.load(asked.guest).guest
    header, lines = read(tool.read_lines(asked.history))
    options = {**DEFAULTS, **header, **tool.of_run(asked)}
    run, blocks = follow(lambda: legal.Run(guest, *(options[name] for name in limits.RUN)), lines)
    if asked.on:
        blocks += run.go_on()
    print(*run.lines(blocks), sep="\n")
    if not run.is_over():
        sys.stdout.flush()
        print(f"# legal so far, {run.count} blocks; what could come next:", *possible(run), sep="\n", file=sys.stderr)
