"""Runs of the program in which allocations are refused (refuse.c)."""
from __future__ import annotations

import collections
import os
import pathlib
import subprocess
import tempfile
from typing import Iterator, NamedTuple, Optional, Tuple

from .. import limits, progress, tool
from ..guest import guestfile, made, model
from ..judging import legal, rejecting
from ..reports import report
from ..running import program

LIBRARY = pathlib.Path(__file__).resolve().parent / "refuse.c"
THREADS = 2
FIRST_RUNS = 20  # without a refusal, to count allocations
PAST = 10  # so many numbers past the greatest count
TIMES = 5  # of each number, where there are several workers
ALL = 2**63


class Ended(NamedTuple):
    """How a run ended; the numbers are None where it did not come to its end."""
    status: int
    written: bytes
    said: bytes
    allocations: int
    refused: int
    kept: int


class Case(NamedTuple):
    """What is asked, of which file, and which status it has without a refusal."""
    name: str
    words: Tuple[str, ...]
    file: bytes
    status: int
    text: Optional[str]  # that is written; None where it is a report

    def is_whole(self, ended: Ended) -> bool:
        text = ended.written.decode("ascii", "replace")
        if ended.status != self.status:
            return False
        if self.text is not None:
            return text == self.text
        try:
            legal.replay_whole(model.Guest(self.file), text)
        except report.Wrong:
            return False
        return True


def run(library: pathlib.Path, case: Case, first: int, last: int) -> Ended:
    """Runs the program while these allocations are refused."""
    told, tell = os.pipe()
    surroundings = {"LD_PRELOAD": str(library), "REFUSE": f"{first} {last}", "REFUSE_TELL": str(tell)}
    try:
        done = subprocess.run([program.PATH, *case.words], input=case.file, capture_output=True, check=False,
                              env=surroundings, pass_fds=[tell], timeout=60)
    finally:
        os.close(tell)
    with open(told, "rb") as file:
        numbers = [int(number) for number in file.read().split()]
    return Ended(done.returncode, done.stdout, done.stderr, *(numbers or (None, None, None)))


def wrong_in(case: Case, ended: Ended, kept: int) -> str | None:
    """What is wrong with how a run ended, or None."""
    if ended.said or ended.kept is None:
        return f"it ended with status {ended.status} and said {ended.said[:200]!r}"
    if not (case.is_whole(ended) or ended.status == 5 and not ended.written and ended.refused):
        return f"status {ended.status} with {len(ended.written)} bytes written"
    return f"{ended.kept} pieces of memory were not given back" if ended.kept > kept else None


def refuse_each(library: pathlib.Path, case: Case, times: int, later: bool) -> tuple[int, int, bool]:
    """Runs a case while each allocation is refused, and all later ones where that is asked."""
    first = [run(library, case, 1, 0) for _ in range(FIRST_RUNS)]
    kept = max(ended.kept for ended in first)
    greatest = max(ended.allocations for ended in first)
    counts: collections.Counter[int] = collections.Counter()
    runs = failed = 0
    with progress.Progress("refuse", f"runs, {case.name}", times * (greatest + PAST)) as shown:
        while runs < times * (greatest + PAST):
            number = runs // times + 1
            ended = run(library, case, number, ALL if later else number)
            greatest = max(greatest, ended.allocations or 0)
            counts[ended.status] += 1
            wrong = wrong_in(case, ended, kept)
            if wrong:
                failed += 1
                progress.say(f"{case.name}: allocation {number} {'and all later' if later else 'alone'}: {wrong}")
            runs += 1
            shown.reach(runs)
    statuses = ", ".join(f"{counts[status]} with status {status}" for status in sorted(counts))
    print(f"{case.name}, each of {greatest} allocations {'and all later ones' if later else 'alone'}: "
          f"{statuses}", flush=True)
    return runs - failed, failed, shown.interrupted


def asked(given: list[str]) -> tuple[tuple[str, ...], bytes]:
    parser = tool.words("refuse")
    for (name, some), usual in zip(limits.RUN.items(), (2, 2000, 8)):
        parser.number(name, some, usual=usual, metavar=name[0].upper(), nargs="?")
    parser.add_argument("guest", metavar="GUEST", nargs="?", help="a guest's file")
    words = parser.parse_args(given)
    file = guestfile.read(words.guest) if words.guest else made.counting(THREADS)
    guestfile.accepted(file, words.guest)
    program.need()
    return ("run", *(str(getattr(words, name)) for name in limits.RUN)), file


def histories(words: tuple[str, ...], file: bytes) -> Iterator[Case]:
    """The cases of a run's history: it is taken, counted and rejected."""
    status, text = program.run(words, file)
    if status:
        raise tool.Trouble(tool.WRONG, f"the run ended with status {status}")
    history, numbers = rejecting.history_of(text), [*map(int, words[1:])]
    for name, form, lines in (("a replay", "replay", history), ("a profile", "profile", history),
                              ("a rejected history", "replay", history[:-1])):
        answer = rejecting.Given(len(file), numbers, file + lines).answer(form)
        yield Case(name, (form, str(len(file)), *words[1:]), file + lines, *answer)


def main(given: list[str]) -> int | None:
    words, file = asked(given)
    times = TIMES if words[1] != "1" else 1
    cases = (Case("a report", words, file, 0, None), *histories(words, file),
             Case("the usage line", ("stop",), b"", 1, limits.USAGE + "\n"),
             Case("a refused file", words, b"", 3, "refused 1 TooShort\n"))
    passed = failed = 0
    interrupted = False
    with tempfile.TemporaryDirectory() as folder:
        library = pathlib.Path(folder) / "refuse.so"
        subprocess.run(["cc", "-O2", "-shared", "-fPIC", "-o", library, LIBRARY, "-ldl"], check=True)
        for case in cases:
            for later in (False, True):
                if not interrupted:
                    good, bad, interrupted = refuse_each(library, case, times if case.text is None else 1, later)
                    passed, failed = passed + good, failed + bad
    print(f"{passed} passed, {failed} failed")
    if interrupted:
        raise KeyboardInterrupt
    return tool.WRONG if failed else tool.DONE
