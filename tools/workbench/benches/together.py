"""Many short runs by several workers, also where the host refuses threads (threads.c)."""
from __future__ import annotations

import os
import re
import statistics
import tempfile
from typing import NamedTuple

from .. import tool
from . import guests, process, table

OWN = "counter", "bank", "buffer", "philosophers"  # of guests/
FUEL, BATCH = 20000, 8
GIVEN = {"all": None, "one": 1, "none": 0}  # threads of the host beside the first one
BLOCK = re.compile(rb"(?m)^block .* kind (\w+) worker (\d+) ")
COLUMNS = (("Guest",), ("Workers",), ("Threads",), ("Runs",), ("By several",), ("With adopted",),
           ("Median ms", ".1f"), ("Least ms", ".1f"))


class Ran(NamedTuple):
    """What a run was: whether two workers or more ran blocks, whether a section was adopted, and its milliseconds."""
    several: bool
    adopted: bool
    milliseconds: float


class Host:
    """What gives threads to the program, or refuses them."""

    def __init__(self, folder: str) -> None:
        self.library = process.compiled("threads.c", folder, "-shared", "-fPIC", "-ldl")
        self.told = tempfile.TemporaryFile()
        os.set_inheritable(self.told.fileno(), True)

    def surroundings(self, threads: int) -> dict[str, str]:
        return {"LD_PRELOAD": str(self.library), "THREADS": str(threads), "THREADS_TELL": str(self.told.fileno())}

    def refused(self) -> int:
        """How many were refused since it was asked."""
        count = os.lseek(self.told.fileno(), 0, os.SEEK_END)
        os.ftruncate(self.told.fileno(), 0)
        os.lseek(self.told.fileno(), 0, os.SEEK_SET)
        return count


def run(host: Host, name: str, workers: int, kind: str) -> Ran:
    """A run of a guest, where the host gives so many threads."""
    threads = GIVEN[kind]
    words, around = ("run", workers, FUEL, BATCH), None if threads is None else host.surroundings(threads)
    said = f", with {kind} of its threads"
    with process.over(guests.file_of(name), words, surroundings=around, said=said) as (took, written):
        blocks = BLOCK.findall(written.read())
    refused = host.refused()
    if threads is not None and threads < workers - 1 and not refused:
        raise tool.Trouble(tool.INPUT, "no thread could be refused: is the program linked statically?")
    return Ran(len({worker for _, worker in blocks}) > 1, any(found == b"adopted" for found, _ in blocks), 1000 * took.seconds)


def measure(host: Host, name: str, workers: int, runs: int, to: table.Table) -> dict[str, list[Ran]]:
    """Prints the lines of a guest. Answers the runs of each kind."""
    found: dict[str, list[Ran]] = {kind: [] for kind in GIVEN}
    for _ in range(runs):
        for kind in GIVEN:
            found[kind].append(run(host, name, workers, kind))
    for kind, ran in found.items():
        times = [one.milliseconds for one in ran]
        to.row([name, workers, kind, runs, sum(one.several for one in ran), sum(one.adopted for one in ran),
                statistics.median(times), min(times)], ran)
    return found


def main(words: list[str]) -> int:
    known = (*OWN, *guests.GUESTS)
    parser = process.words("together", known, ", ".join(OWN),
                           workers=([4, 8], "2 to 8; of several numbers each gets lines", 2), runs=(40, "of each"))
    asked = process.parsed(parser, words, known)
    with tempfile.TemporaryDirectory() as folder:
        host, to = Host(folder), table.Table("together", asked, COLUMNS)
        lines = [(name, workers) for name in asked.guests or OWN for workers in asked.workers]
        found = to.fill("of guests and workers", lines, lambda line: measure(host, line[0], line[1], asked.runs, to))
    for kind in GIVEN if found else ():
        several, adopted, times = zip(*(one for _, ran in found for one in ran[kind]))
        print(f"\nThreads of the host: {kind}. All of {len(times)} runs ended with status 0; in {sum(several)} "
              f"two workers or more ran blocks, in {sum(adopted)} a section was adopted; median "
              f"{statistics.median(times):.1f} milliseconds, least {min(times):.1f}.")
    return to.end()
