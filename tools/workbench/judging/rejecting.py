"""What the program answers to `replay` and to `profile`, by model.py, and the tool that asks for it: a guest's file and
a history are read as docs/GUIDE.md says, and the history is run again under ordinary mutexes, block by block. legal.py
asks for more than the seven reasons do: that who was adopted or granted a lock can have waited, and that a cut parts no
thread from its worker."""
from __future__ import annotations

import itertools
import re
import sys
from random import Random
from typing import Any, Callable, Iterator, List, Sequence

from .. import limits, tool
from ..guest import guestfile, model
from ..limits import REASONS
from ..reports import counts, report
from ..running import program
from . import finish, legal, reasons

TEXT, THREAD, OWNER, BLOCK, KIND, WORKER, INCOMPLETE = REASONS
Form = Callable[[Random, List[report.Block]], str]  # of spoil.py


def block_of(line: str, stamp: int) -> report.Block | None:
    """The block with this stamp that a line is, or None."""
    found = report.BLOCK.fullmatch(line)
    held = report.held_of(found[4], limits.GUARDS[2]) if found else None
    if not found or held is None:
        return None
    block = report.block_of(found, held)
    fits = block.stamp == stamp and max(block.thread, block.worker) < 2**32 and 1 <= block.turns <= limits.TURNS
    return block if fits else None


def read(text: bytes) -> tuple[list[report.Block], int | None]:
    """The blocks of a history's text, up to the first line that is wrong; and the number of that line, or None."""
    blocks: list[report.Block] = []
    *lines, rest = text.decode("ascii", "replace").split("\n")
    for number, line in enumerate(lines, 1):
        block = block_of(line, number - 1)
        if block is None:
            return blocks, number
        blocks.append(block)
    return blocks, len(lines) + 1 if rest else None


class Checker(legal.Run):
    """A run whose blocks are given, and looked at for the seven reasons alone."""

    def wrong(self, block: report.Block) -> str | None:
        """Runs a block. Answers the first reason for which it is wrong, or None."""
        threads = self.machine.threads
        if block.thread >= len(threads) or threads[block.thread].end is not None:
            return THREAD
        thread = threads[block.thread]
        lock, pc, is_first = self.machine.next_lock(thread), thread.pc, thread.blocks == 0
        if lock is not None and self.machine.locks[lock].owner is not None:
            return OWNER
        turns, held, end = self.machine.run_block(block.thread)
        if (block.turns, block.held, block.pc, block.end) != (turns, tuple(sorted(held)), pc, end):
            return BLOCK
        kinds = ["start" if is_first else "on"] if lock is None else self.batches[lock].rule(block.worker)
        if block.kind not in kinds:
            return KIND
        self.note(block)
        return WORKER if block.worker >= self.workers else None

    def rejected(self, blocks: list[report.Block]) -> tuple[int, str] | None:
        """The line and the reason of the first wrong place, or None."""
        for number, block in enumerate(blocks, 1):
            why = self.wrong(block)
            if why:
                return number, why
        return None if self.is_over() else (len(blocks) + 1, INCOMPLETE)


class Given:
    """What is given behind the words `replay` or `profile`: a file of so many bytes and a history; with the
    numbers of workers and fuel and the batch limit."""

    def __init__(self, size: int, numbers: Any, given: bytes) -> None:
        self.numbers = numbers
        self.reason: str | None = None
        self.early = self.begin(size, given)

    def begin(self, size: int, given: bytes) -> tuple[int, str] | None:
        """The answer to what is refused or rejected, or None."""
        if len(given) > size + limits.HISTORY_BYTES:
            return tool.WRONG, "refused 0 TooLarge\n"
        if len(given) < size:
            return tool.WRONG, "refused 17 ShortInput\n"
        refused = guestfile.refusal(given[:size])
        if refused:
            return tool.WRONG, f"{refused.line}\n"
        self.blocks, wrong = read(given[size:])
        self.checker = Checker(model.Guest(given[:size]), *self.numbers)
        rejected = (wrong, TEXT) if wrong else self.checker.rejected(self.blocks)
        if rejected is None:
            return None
        line, self.reason = rejected
        return limits.REJECTED, f"rejected {line} {REASONS.index(self.reason) + 1} {self.reason}\n"

    def answer(self, form: str) -> tuple[int, str]:
        """The status and the text of the program's answer."""
        if self.early:
            return self.early
        run, blocks = self.checker, self.blocks
        lines = counts.counted(run, blocks).profile_lines() if form == "profile" else run.lines(blocks)
        return tool.DONE, "".join(f"{line}\n" for line in lines)


def history_of(text: str) -> bytes:
    """The lines of the blocks of a report, as they are given behind a file."""
    return "".join(re.findall(r"(?m)^block .*\n", text)).encode("ascii")


def ask_both(file: bytes, numbers: tuple[int, ...], history: bytes, kept: str) -> Given:
    """Gives a file and a history to both forms. Answers what the model has of it; Wrong where the program
    answers otherwise: the history is kept then, under a name."""
    given = Given(len(file), numbers, file + history)
    for form in "replay", "profile":
        answers = program.run((form, len(file), *numbers), file + history), given.answer(form)
        if answers[0] == answers[1]:
            continue
        said, must = (f"status {status}, {text[:80]!r}" for status, text in answers)
        if answers[0][0] == answers[1][0] == 0:
            pairs = itertools.zip_longest(*(text.splitlines() for _, text in answers))
            said, must = next((line, other) for line, other in pairs if line != other)
        where = program.keep(kept, history)
        raise report.Wrong(f"{form} answers {said!r}, and not {must!r}, to the history in {where}")
    return given


def give_back(file: bytes, numbers: tuple[int, ...], text: str, draw: Random, forms: Sequence[Form],
              kept: str) -> Iterator[str | None]:
    """Gives the history of a report back, and then changed ones of these forms. Answers of each of those for
    which reason it is rejected, or None."""
    blocks = ask_both(file, numbers, history_of(text), kept).blocks
    for form in forms:
        yield ask_both(file, numbers, form(draw, blocks).encode("ascii"), kept).reason


REFUSED = "what was given is refused; ./workbench explain GUEST says why"


def given_in(content: bytes) -> tuple[dict[str, int], bytes]:
    """The numbers of a text's header, where it has one, and the lines of its blocks as bytes."""
    numbers: dict[str, int] | None = {}
    if content.startswith(b"tclocks "):
        lines = content.split(b"\n", 3)
        numbers = report.options_of(lines[2].decode("ascii", "replace"), 3) if lines[2:] else None
        if not numbers:
            raise report.Wrong("the third line must be 'run workers W fuel F batch B'")
        content = b"".join(lines[3:])
    return numbers or {}, re.split(f"(?m)^(?={finish.REST})".encode(), content, 1)[0]


def main(words: list[str]) -> None:
    parser = tool.words("replay", "guest")
    parser.report("a report, or block lines alone; standard input if it is left out", nargs="?", default="-")
    parser.add_argument("--profile", action="store_const", dest="form", const="profile", default="replay",
                        help="as ./tclocks profile N W F B")
    parser.add_argument("--model", action="store_true", help="the model, even if the program is built")
    for name, some in limits.RUN.items():
        parser.number(f"--{name}", some, "in the place of the report's")
    asked = parser.parse_intermixed_args(words)
    file = guestfile.read(asked.guest)
    given, history = given_in(tool.read_bytes(asked.report, limits.HISTORY_BYTES + 1))
    numbers = {**given, **tool.of_run(asked)}
    missing = [name for name in limits.RUN if name not in numbers]
    if missing:
        parser.error(f"the text has no header, and --{missing[0]} is missing")
    why, of_run = None if asked.model else program.missing(), tuple(numbers[name] for name in limits.RUN)
    if asked.model or why:
        tool.note("replay", "by the model" + (f": {why}" if why else ""))
        status, text = Given(len(file), of_run, file + history).answer(asked.form)
    else:
        tool.note("replay", "by the program")
        status, text = program.run((asked.form, len(file), *of_run), file + history)
    sys.stdout.write(text)
    if status == limits.REJECTED:
        raise tool.Trouble(status, reasons.rejection(text.strip()))
    if status:
        raise tool.Trouble(status, REFUSED if status == tool.WRONG else f"the program ended with status {status}")
