"""Checks what the program prints of each guest against the model, the batch rule and facts.json, and runs the tests
of the tools and the type checker."""
from __future__ import annotations

import collections
import itertools
import json
import random
import re
import shutil
import subprocess
import sys
from typing import Any

from .. import limits, places, tool
from ..guest import model
from ..judging import legal, rejecting
from ..reports import report, spoil
from ..running import delegation, program

AMPLE = 20000  # fuel with which each thread of each guest that has an end comes to it
# The program's words: workers, fuel, batch limit; by nodes their number and the bound come first.
OPTIONS: list[tuple[Any, ...]] = [*(("run", *numbers) for numbers in (
    *itertools.product((1, 2, 4, 8), (AMPLE,), (0, 1, 8, 256)), (1, 1, 0), (2, 9, 256),
    (3, 40, 1), (1, 130, 8), (4, 130, 0), (7, 700, 4), (8, 700, 8))),
    ("nodes", 2, 4, 4, AMPLE, 8), ("nodes", 3, 1, 7, 700, 4)]
CONTENDED = ("counter", "bank", "philosophers", "buffer")
MORE = [("run", 4, AMPLE, 8)] * 100  # of those, until there was a run of each kind that is counted
CHANGED = 4  # of so many runs the history of one is changed
TAKEN = "taken"  # of a changed history that is right too


def check_facts(known: dict[str, list[Any]], machine: model.Machine, fuel: int) -> None:
    if fuel == AMPLE:
        for difference in model.differences(known, machine):
            raise report.Wrong(difference)
    for number, (turns, end) in enumerate(zip(known["turns"], known["ends"])):
        thread = machine.threads[number]
        wanted = (end, fuel - turns) if turns and turns <= fuel else ("spent", 0)
        if (turns or end == "spent") and (thread.end, thread.fuel) != wanted:
            raise report.Wrong(f"thread {number} ends {thread.end} with fuel {thread.fuel}, not {wanted}")


def run(file: bytes, words: tuple[Any, ...]) -> tuple[str, model.Machine]:
    """The report of a run, and the machine behind it; Wrong where the report is not that of a legal run, or
    of one worker not the model's to the last byte."""
    guest, (status, text) = model.Guest(file), program.run(words, file)
    workers, fuel, batch = words[-3:]
    if status:
        raise report.Wrong(f"status {status}, {text[:200]!r}")
    if f"\nrun workers {workers} fuel {fuel} batch {batch}\n" not in text:
        raise report.Wrong("the report is of another run")
    machine = legal.replay_whole(guest, text)
    alone, blocks = delegation.delegated(guest, fuel, 1, batch) if workers == 1 else (None, [])
    pairs = itertools.zip_longest(text.splitlines(), alone.lines(blocks)) if alone else ()
    for number, (line, wanted) in enumerate(pairs, 1):
        if line != wanted:
            raise report.Wrong(f"line {number} is {line!r}, and by the model {wanted!r}")
    return text, machine


def check_run(file: bytes, known: dict[str, list[Any]], words: tuple[Any, ...]) -> str:
    """Checks a run, and answers its report."""
    text, machine = run(file, words)
    check_facts(known, machine, words[-2])
    return text


class Shown:
    """What the runs of a guest showed of delegation, and how changed histories were answered."""

    def __init__(self) -> None:
        self.runs = self.beside = self.adopting = self.adopted = 0
        self.answers: collections.Counter[str] = collections.Counter()

    def add(self, text: str) -> None:
        """Counts a run, by its report."""
        adopted = text.count(" kind adopted ")
        self.runs += 1
        self.beside += len(set(re.findall(r" worker (\d+) pc ", text))) > 1
        self.adopting += adopted > 0
        self.adopted += adopted

    def missing(self) -> str | None:
        """Which kind of run there was not, or None."""
        if not self.beside:
            return f"one worker alone ran in each of {report.several(self.runs, 'run')}"
        return None if self.adopted else f"no section was adopted in {report.several(self.runs, 'run')}"

    def __str__(self) -> str:
        return (f"{report.several(self.runs, 'run')}, {self.beside} by two workers or more, "
                f"{self.adopting} with adopted sections ({self.adopted} of them)"
                + (f"; changed histories: {answers_text(self.answers)}" if self.answers else ""))


def answers_text(answers: collections.Counter[str]) -> str:
    return ", ".join(f"{answers[answer]} {answer}" for answer in (*limits.REASONS, TAKEN) if answers[answer])


def check(name: str, known: dict[str, list[Any]]) -> tuple[bool, collections.Counter[str]]:
    """Checks a guest. Answers whether it passed, and how changed histories were answered."""
    file = (places.GUESTS / f"{name}.elf").read_bytes()
    contended, shown, draw, kept = name in CONTENDED, Shown(), random.Random(name), f"check-{name}.txt"
    try:
        for words in OPTIONS + (MORE if contended else []):
            if shown.runs >= len(OPTIONS) and not shown.missing():
                break
            text = check_run(file, known, words)
            forms = spoil.FORMS if shown.runs % CHANGED == 0 else ()
            reasons = rejecting.give_back(file, words[-3:], text, draw, forms, kept)
            shown.answers.update(reason or TAKEN for reason in reasons)
            shown.add(text)
        wrong = shown.missing() if contended else None
    except report.Wrong as why:
        wrong = f"{' '.join(map(str, words))}: {why}"
    print(f"{name}: FAILED: {wrong}" if wrong else f"{name}: passed, {shown}", flush=True)
    return not wrong, shown.answers


def check_reasons(answers: collections.Counter[str]) -> bool:
    """Whether each reason came."""
    missing = [reason for reason in limits.REASONS if not answers[reason]]
    print(f"changed histories: {'FAILED: none is rejected for ' + missing[0] if missing else 'passed'}, {answers_text(answers)}")
    return not missing


def check_types() -> bool:
    failed = False
    for words in ["mypy"], ["pyflakes3", "tools", "workbench.py", "tclocks-build"]:
        if not shutil.which(words[0]):
            print(f"types: {words[0]} is left out: it is not on the PATH (apt-get install {words[0]})")
            continue
        done = subprocess.run(words, cwd=places.ROOT, stdout=subprocess.PIPE, stderr=subprocess.STDOUT, check=False)
        if done.returncode:
            failed = True
            print(done.stdout.decode(errors="replace"), end="")
    print(f"types: {'FAILED' if failed else 'passed'}", flush=True)
    return not failed


def check_tools() -> bool:
    """Runs the files of tests/ at the same time."""
    runs = [subprocess.Popen([sys.executable, "-m", "unittest", "-v", f"tools.tests.{path.stem}"], cwd=places.ROOT,
                             stdout=subprocess.PIPE, stderr=subprocess.STDOUT, text=True)
            for path in sorted((places.ROOT / "tools" / "tests").glob("test_*.py"))]
    failed, left_out = 0, set()
    for tests in runs:
        said = tests.communicate()[0]
        left_out.update(re.findall(r" skipped ['\"](.*)['\"]$", said, re.M))
        if tests.returncode:
            failed += 1
            print(said[max(0, said.find("=" * 70)):], end="")
    for why in sorted(left_out):
        print(f"tools: some tests are left out: {why}")
    print(f"tools: {'FAILED' if failed else 'passed'}, {len(runs)} files of tests", flush=True)
    return not failed


PARTS = {"tools": check_tools, "types": check_types}


def main(words: list[str]) -> int | None:
    facts = json.loads((places.GUESTS / "facts.json").read_text())
    parser = tool.words("check")
    parser.add_argument("names", metavar="tools | types | GUEST", nargs="*", help="these alone")
    names = parser.parse_args(words).names or ["tools", *facts]
    unknown = [name for name in names if name not in (*facts, *PARTS)]
    if unknown:
        raise tool.Trouble(tool.WORDS, f"facts.json has no guest {unknown[0]}")
    passed = sum(PARTS[name]() for name in names if name in PARTS)
    guests = [name for name in names if name not in PARTS]
    if guests:
        program.need()
    answers: collections.Counter[str] = collections.Counter()
    trials = len(names)
    for name in guests:
        is_right, answered = check(name, facts[name])
        passed, answers = passed + is_right, answers + answered
    if len(guests) == len(facts):
        passed, trials = passed + check_reasons(answers), trials + 1
    print(f"{passed} passed, {trials - passed} failed")
    return tool.WRONG if passed < trials else tool.DONE
