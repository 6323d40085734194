"""A folder of guests, built where they are sources, and graded by rules."""
from __future__ import annotations

from argparse import Namespace
import csv
import os
import pathlib
import re
import shutil
import subprocess
import sys
import tempfile
from typing import NamedTuple

from .. import limits, places, tool
from ..guest import guestfile, model
from . import explore, rules, search, sections

# Where an interleaving ends so, and where none does.
ANSWERS = {"never": ("broken", "holds"), "reach": ("reachable", "never")}
RIGHT = ("holds", "reachable")
SOURCES = (".c", ".S")


class Rule(NamedTuple):
    kind: str
    text: str

    def __str__(self) -> str:
        return f"{self.kind} {self.text}"

    def answer(self, path: pathlib.Path, asked: Namespace) -> tuple[str, str]:
        """The answer of a guest to it, and its history, where there is one."""
        guest = model.Guest(guestfile.read(path))
        try:
            found = search.Search(guest, asked.fuel, [self.text], asked.states, os.cpu_count() or 1, True)
        except rules.WrongRule:
            return "no rule", ""
        except sections.Collision as trouble:
            raise tool.Trouble(explore.UNDECIDED, f"{path}: {trouble}; nothing is known") from None
        way = found.answer(self.text)
        found.shares.close()
        if way:
            return ANSWERS[self.kind][0], "\n".join(explore.history(guest, asked.fuel, way.threads)) + "\n"
        return ANSWERS[self.kind][1] if found.whole else "not known", ""


class Graded(NamedTuple):
    """A guest's name, what came of its file, an answer to each rule, and the histories by rule."""
    name: str
    file: str
    answers: list[str]
    histories: dict[int, str]


def guests(folder: pathlib.Path) -> list[pathlib.Path]:
    """The guests of a folder, by name."""
    try:
        found = sorted(path for path in folder.rglob("*") if path.suffix in (".elf", *SOURCES) and path.is_file())
    except OSError as error:
        raise tool.Trouble(tool.INPUT, f"{folder}: {error.strerror}") from None
    return [path for path in found if path.suffix != ".elf"
            or not any(path.with_suffix(suffix) in found for suffix in SOURCES)]


def built(path: pathlib.Path, folder: pathlib.Path, march: str) -> tuple[pathlib.Path, str | None]:
    """The file that a source is built as, and what the compiler says where it is not."""
    for part in (path, *path.parent.glob("*.h")):
        shutil.copy(part, folder)
    done = subprocess.run(["make", "-s", "-f", places.KIT / "guest.mk", f"MARCH={march}", f"{path.stem}.elf"],
                          cwd=folder, stdout=subprocess.PIPE, stderr=subprocess.STDOUT, check=False)
    said = done.stdout.decode(errors="replace").splitlines()
    wrong = next((line for line in said if "error" in line), said[0] if said else "")
    return folder / f"{path.stem}.elf", wrong if done.returncode else None


def graded(name: str, path: pathlib.Path, asked: Namespace) -> Graded:
    with tempfile.TemporaryDirectory() as folder:
        is_built = path.suffix == ".elf"
        file, wrong = (path, None) if is_built else built(path, pathlib.Path(folder), asked.march)
        refused = guestfile.refusal(guestfile.read(file)) if wrong is None else None
        if wrong is not None:
            tool.note("grade", f"{name} is not built: {wrong}")
        if wrong is not None or refused:
            return Graded(name, refused.line if refused else "not built", ["-"] * len(asked.rules), {})
        answers = [rule.answer(file, asked) for rule in asked.rules]
    return Graded(name, "accepted", [said for said, _ in answers],
                  {number: history for number, (_, history) in enumerate(answers, 1) if history})


def print_text(rules: list[Rule], results: list[Graded]) -> None:
    rows = [["guest", "file", *(f"rule {number}" for number in range(1, len(rules) + 1)), "right"]]
    for one in results:
        right = sum(said in RIGHT for said in one.answers)
        rows.append([one.name, one.file, *one.answers, f"{right} of {len(rules)}"])
    tool.print_columns(rows, str.ljust)
    print()
    for number, rule in enumerate(rules, 1):
        print(f"rule {number}: {rule}")


def print_csv(rules: list[Rule], results: list[Graded]) -> None:
    """A line for each guest and rule."""
    table = csv.writer(sys.stdout, lineterminator="\n")
    table.writerow(["guest", "file", "kind", "rule", "answer", "right"])
    for one in results:
        for rule, said in zip(rules, one.answers):
            table.writerow([one.name, one.file, *rule, said, int(said in RIGHT)])


def asked_of(words: list[str]) -> Namespace:
    parser = tool.words("grade", more="rules")
    parser.add_argument("folder", metavar="FOLDER", help="of guests")
    for kind in ("never", "reach"):
        parser.add_argument(f"--{kind}", metavar="RULE", action="append", default=[])
    parser.number("--fuel", limits.RUN["fuel"], "(20000)", 20000)
    parser.number("--states", (1, 10**9), "search at most N states for each rule (200000)", 200_000)
    parser.add_argument("--march", choices=("rv32i", "rv32im"), default="rv32im", help="of sources (rv32im)")
    parser.add_argument("--keep", metavar="FOLDER", dest="kept", help="write the histories into it")
    parser.add_argument("--csv", action="store_true", help="a line for each guest and rule")
    asked = parser.parse_args(words)
    asked.rules = [Rule("never", text) for text in asked.never] + [Rule("reach", text) for text in asked.reach]
    if not asked.rules:
        parser.error("there is no rule: --never RULE or --reach RULE")
    for rule in asked.rules:
        try:  # by the largest guest
            rules.Rule(rule.text, limits.THREADS[2], [limits.GUARD_BYTES[1]] * limits.GUARDS[2])
        except rules.WrongRule as wrong:
            parser.error(f"{rule}: the rule is wrong: {wrong}")
    return asked


def main(words: list[str]) -> None:
    asked = asked_of(words)
    folder = pathlib.Path(asked.folder)
    if not folder.is_dir():
        raise tool.Trouble(tool.INPUT, f"{folder}: there is no such folder")
    found = guests(folder)
    if not found:
        raise tool.Trouble(tool.WRONG, f"{folder}: it has no guest, as .elf, .c or .S")
    results = []
    for path in found:
        one = graded(str(path.relative_to(folder)), path, asked)
        results.append(one)
        if asked.kept:
            named = re.sub(r"[^\w.-]", "-", one.name)
            explore.write(asked.kept, {f"{named}-rule-{number}": text for number, text in one.histories.items()})
    (print_csv if asked.csv else print_text)(asked.rules, results)
