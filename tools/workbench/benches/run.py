"""What the largest guests take, with the instructions of the processor."""
from __future__ import annotations

from argparse import Namespace
import io
import re
import shutil
import subprocess
from pathlib import Path
from typing import List, Tuple

from .. import limits, tool
from ..running import program
from . import guests, process, table

Counter = Tuple[List[str], "re.Pattern[bytes]"]
# The two fuels whose difference leaves the start out.
FEW, MANY = 512, 1024
COLUMNS = (("Guest",), ("Workers",), ("Turns", ","), ("Blocks", ","), ("Seconds", ".3f"), ("Turns/second", ",.0f"),
           ("Processor", ".3f"), ("Peak memory", ","), ("Report bytes", ","), ("Per turn", ".0f"), ("Start", ",.0f"))


def counter() -> Counter | None:
    """What counts instructions: the words before a command, and the form of what they print. None
    where neither valgrind nor perf counts here."""
    if shutil.which("valgrind"):
        words = ["valgrind", "--tool=callgrind", "--callgrind-out-file=/dev/null"]
        return words, re.compile(rb"Collected : (\d+)")
    if shutil.which("perf"):
        words = ["perf", "stat", "-x", ",", "-e", "instructions:u", "--"]
        form = re.compile(rb"(?m)^(\d+),[^,]*,instructions")
        if form.search(subprocess.run(words + ["true"], capture_output=True).stderr):
            return words, form
    return None


def counted(name: str, asked: Namespace, fuel: int, how: Counter) -> tuple[int, int]:
    """The instructions of one worker's run with that fuel, and its turns; Failed where none were counted."""
    words, form = how
    command = words + [*map(str, (program.PATH, "run", 1, fuel, asked.batch))]
    ran = subprocess.run(command, input=guests.GUESTS[name](), capture_output=True)
    found = form.search(ran.stderr)
    if ran.returncode != 0 or not found:
        raise table.Failed("no instructions were counted")
    return int(found.group(1)), process.counts(io.BytesIO(ran.stdout))[0]


def instructions(name: str, asked: Namespace, how: Counter | None) -> tuple[float | None, float | None]:
    """The instructions for each turn, and those of a whole run without its turns."""
    if how is None:
        return None, None
    try:
        (few, less), (many, more) = (counted(name, asked, fuel, how) for fuel in (FEW, MANY))
    except table.Failed:
        return None, None
    if more == less:
        return None, many
    each = (many - few) / (more - less)
    return each, many - each * more


def measure(name: str, workers: int, asked: Namespace, how: Counter | None, to: table.Table) -> None:
    """Runs a guest and prints its line. Instructions are of one worker: several share work in other ways."""
    runs = []
    for _ in range(asked.runs):
        with process.over(guests.GUESTS[name](), ("run", workers, asked.fuel, asked.batch)) as (ran, written):
            runs.append((ran, process.counts(written)))
    took, (turns, blocks, size) = min(runs)
    each, start = instructions(name, asked, how) if workers == 1 else (None, None)
    to.row([name, workers, turns, blocks, took.seconds, turns / took.seconds, took.busy, took.peak, size, each, start],
           [one for one, _ in runs])


def main(words: list[str]) -> int:
    parser = process.words(
        "run", guests.GUESTS, "all", workers=([1], "1 to 8; of several numbers, as 1,4, each gets a line"),
        batch=(0, "batch limit"), fuel=(limits.RUN["fuel"][1], "of each thread"),
        runs=(1, "runs, of which the fastest is printed"))
    parser.add_argument("-o", dest="folder", metavar="FOLDER", type=Path,
                        help="only write the guests' files into a folder, which is made if it does not exist")
    asked = process.parsed(parser, words, guests.GUESTS)
    names = asked.guests or list(guests.GUESTS)
    if asked.folder is not None:
        with tool.writing(asked.folder):
            asked.folder.mkdir(parents=True, exist_ok=True)
        for name in names:
            tool.write_file(asked.folder / f"{name}.elf", guests.GUESTS[name]())
        return tool.DONE
    how = counter()
    if how is None:
        print("Neither valgrind nor perf counts instructions here: those columns stay empty.")
    lines = [(name, workers) for name in names for workers in asked.workers]
    to = table.Table("run", asked, COLUMNS)
    to.fill("lines", lines, lambda line: measure(line[0], line[1], asked, how, to))
    return to.end()
