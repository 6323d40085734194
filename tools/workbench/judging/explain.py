"""What a guest's file has, and why each block of a report came; one block turn by turn, by a copy of the model; and
what a thread's context carries when another worker goes on with it, and where the bytes of a lock come from."""
from __future__ import annotations

from argparse import Namespace
import argparse
import copy
import operator
import re
from collections import Counter
from typing import Any, Iterator

from .. import limits, tool
from ..guest import guestfile, model, rv32im, sources
from ..reports import counts, report
from . import legal, reasons


def explain_file(path: str) -> None:
    """What a file has, or why it is refused."""
    content = guestfile.read(path)
    refused = guestfile.refusal(content)
    if refused:
        return print(refused)
    file = guestfile.GuestFile(content)
    guest = file.guest
    for where, flags, _ in guest.ranges:
        print(f"range {guestfile.span(where)}: " + ("code" if flags & 1 else "writable" if flags & 2 else "read-only"))
    for number, (entry, argument) in enumerate(guest.entries):
        print(f"thread {number}: argument {argument} ({argument:#x}), begins at {reasons.instruction(file, entry)}")
    for number, guarded in enumerate(guest.spans):
        name = file.name(guarded.start)
        print(f"lock {number}: guards {len(guarded)} bytes, {guestfile.span(guarded)}" + (f" <{name}>" if name else ""))


def check_number(name: str, number: int | None, count: int) -> None:
    """Trouble where a number that was asked for is of a thing that a report, with so many, has not."""
    if number is not None and number >= count:
        raise tool.Trouble(tool.WRONG, f"the report has {report.several(count, name)}, and no {name} {number}")


def values(numbers: Any, x: list[int]) -> str:
    return " ".join(f"{rv32im.REGISTERS[number]}={x[number]:08x}" for number in numbers)


def memory_place(file: guestfile.GuestFile, address: int) -> str:
    """What an address of memory is, in few words."""
    guard = file.guard_at(address)
    inside = f" of lock {guard}" if guard is not None else " of the stack" if address in limits.STACK else ""
    return reasons.place(file, address) + inside


def memory(file: guestfile.GuestFile, word: int, x: list[int]) -> str:
    """What a word loads or stores with these registers, or ''."""
    access = rv32im.access(word, x)
    if access is None:
        return ""
    kind, address, width = access
    if kind == "load":
        return f"loads {report.several(width, 'byte')} at {memory_place(file, address)}"
    what = rv32im.decode(word)
    assert what
    value = x[what.b] & ((1 << 8 * width) - 1)
    return f"stores {value:0{2 * width}x} at {memory_place(file, address)}"


def turn_text(file: guestfile.GuestFile, word: int, pc: int, before: list[int], thread: model.Thread) -> str:
    """What one turn did: the registers read, what was loaded or stored, and the register set."""
    what = rv32im.decode(word)
    read, written = rv32im.registers(what) if what else ((), 0)
    parts = [values(dict.fromkeys(filter(None, read)), before), memory(file, word, before)]
    if thread.end is None or thread.end == "exit":
        if written:
            parts.append(f"-> {values([written], thread.x)}")
        if what and what.name in model.COMPARISONS:
            parts.append("-> goes on behind it" if thread.pc == pc + 4 else "-> branches")
    return "  ".join(part for part in parts if part)


def trace(run: legal.Run, file: guestfile.GuestFile, lines: Any, number: int) -> Iterator[str]:
    """The lines of a thread's next block; the run stays as it is."""
    guest = run.machine.guest
    machine = copy.deepcopy(run.machine, {id(guest): guest})
    thread, shown, end, turn = machine.threads[number], "", None, 0
    yield "    registers that aren't 0: " + values([i for i, value in enumerate(thread.x) if value], thread.x)
    while end is None:
        pc, word, before = thread.pc, guest.word(thread.pc), list(thread.x)
        said = lines.text(pc)
        if said and said != shown:
            yield f"    {said}"
        shown = said
        text = reasons.start_text(file, thread)
        spent = thread.fuel == 0
        end, turn = machine.turn(number), turn + 1
        if spent or word is None:
            yield f"    {turn:4}  " + ("the thread ends, its fuel is spent" if spent else text)
        else:
            yield f"    {turn:4}  {text:<48}  {turn_text(file, word, pc, before, thread)}".rstrip()
        wanted = None if end else machine.next_lock(thread)
        if wanted is not None or turn == limits.TURNS:
            return


class Contexts:
    """Counts what moves of the contexts and the locks of a run, whose blocks so far are counted."""

    def __init__(self, machine: model.Machine, counted: counts.Counts) -> None:
        self.machine, self.counted = machine, counted
        self.counts: Counter[str] = Counter()

    def context(self, thread: model.Thread, held: tuple[int, ...]) -> str:
        """Counts a context between two blocks, and says what it carries."""
        registers = [rv32im.REGISTERS[number] for number, value in enumerate(thread.x) if value]
        stack = limits.STACK.stop - thread.x[2] if thread.x[2] in limits.STACK else 0
        contents = ((own, self.machine.guest.ranges[place][2]) for place, own in thread.own.items())
        data = sum(sum(map(operator.ne, own, content)) for own, content in contents if own != content)
        self.counts.update(contexts=1, registers=len(registers), stack=stack, data=data)
        guarded = sum(len(self.machine.locks[lock].bytes) for lock in held)
        held_text = f"; in its package {report.locks_text(held)}, {report.several(guarded, 'byte')}"
        return (f"pc, {report.several(len(registers), 'register')} not 0 ({' '.join(registers)}), "
                f"{report.several(stack, 'byte')} of stack in use, {report.several(data, 'byte')} of its own "
                f"data changed{held_text if held else ''}")

    def before(self, block: report.Block) -> Iterator[str]:
        """What is said of a block that is about to run: of its context and of its lock, where they move
        or where the lock stays and the context comes to it."""
        last = self.counted.threads[block.thread].before
        came = last is not None and last.worker != block.worker
        if last is not None and came:
            yield (f"context of thread {block.thread} from worker {last.worker} to worker {block.worker}: "
                   + self.context(self.machine.threads[block.thread], last.kept))
        for lock in block.held:
            worker, size = self.counted.locks[lock].worker, len(self.machine.locks[lock].bytes)
            if worker is not None and worker != block.worker:
                self.counts["moves"] += 1
                self.counts["guarded"] += size
                yield f"lock {lock}, {report.several(size, 'byte')}, from worker {worker} to worker {block.worker}"
            elif came and lock == block.begun and worker is not None:
                yield f"lock {lock}, {report.several(size, 'byte')}, stays with worker {worker}"

    def total(self) -> str:
        counts = self.counts
        return (f"{report.several(counts['contexts'], 'context')} moved to another worker, with "
                f"{report.several(counts['registers'], 'register')} not 0, {report.several(counts['stack'], 'byte')} of "
                f"stack in use and {report.several(counts['data'], 'byte')} of own data changed; "
                f"{report.several(counts['moves'], 'move')} of a lock, with {report.several(counts['guarded'], 'byte')}")


class Explainer:
    """Follows the blocks by the model, which knows where each begins, and says it of the chosen ones."""

    def __init__(self, file: guestfile.GuestFile, text: report.Report, lines: Any, asked: Namespace) -> None:
        self.file, self.text, self.lines, self.asked = file, text, lines, asked
        self.run, self.counts = legal.begin(file.guest, text), counts.Counts(text)
        self.contexts = Contexts(self.run.machine, self.counts) if asked.contexts else None

    def is_chosen(self, block: report.Block) -> bool:
        thread, lock, (first, last) = self.asked.thread, self.asked.lock, self.asked.block or (0, block.stamp)
        return (thread in (None, block.thread) and first <= block.stamp <= last
                and (lock is None or lock in block.held or block.wanted == lock))

    def all(self) -> None:
        for block in self.text.blocks():
            said = list(self.block(block))
            if self.is_chosen(block):
                print("\n".join(said))
        for number, thread in enumerate(self.run.machine.threads):
            is_chosen = self.asked.thread in (None, number) and self.asked.lock is self.asked.block is None
            if thread.end is None and is_chosen:
                print(f"  thread {number} has not ended: it goes on at {reasons.start_text(self.file, thread, self.lines)}")
        if self.contexts:
            print(f"In all blocks: {self.contexts.total()}.")

    def block(self, block: report.Block) -> Iterator[str]:
        """Runs a block, and says what there is to say of it."""
        thread, came = self.run.machine.threads[block.thread], self.counts.threads[block.thread].before
        start, traced = reasons.start_text(self.file, thread, self.lines), []
        if block.stamp == self.asked.trace and thread.end is None:
            traced = list(trace(self.run, self.file, self.lines, block.thread))
        moved = list(self.contexts.before(block)) if self.contexts else []
        batch = copy.copy(self.run.batches[block.begun]) if block.begun is not None and block.passed_on else None
        self.run.follow(block, f", line {self.text.number}")
        is_away = self.counts.add(block)
        yield f"{block.line()}  # {start}"
        if batch and came:
            yield f"  {reasons.delegation(block, batch, came, is_away)}"
        yield from (f"  {line}" for line in moved)
        yield from traced
        if block.ends_thread:
            held = f"; {report.locks_text(block.held)} broken" if block.held else ""
            yield f"  thread {block.thread}: {reasons.ending(self.file, thread, block.held)}{held}"


def explain_report(file: guestfile.GuestFile, text: report.Report, asked: Namespace) -> None:
    lines = sources.load(asked.guest, file)
    for name, number, count in ("thread", asked.thread, text.threads), ("lock", asked.lock, text.guards):
        check_number(name, number, count)
    if asked.trace is not None and asked.block is asked.thread is asked.lock is None:
        asked.block = asked.trace, asked.trace
    if lines.trouble:
        tool.note("explain", lines.trouble)
    explainer = Explainer(file, text, lines, asked)
    explainer.all()
    for number in (asked.trace, asked.block and asked.block[0]):
        check_number("block", number, explainer.run.count)


def said_of(words: list[str]) -> str:
    return reasons.usage(words) or "the arguments are right: the program doesn't answer them by the usage line"


def refusal(path: str, line: str) -> str:
    """What is said of a refusal's line, by the guest's file."""
    refused = guestfile.refusal(guestfile.read(path))
    if refused is None:
        return f"the program said {line!r}, and {path} isn't refused: is it the same file, and whole?"
    if refused.line != line:
        return f"the program said {line!r}, and this file is {refused}: is it the same file?"
    return str(refused)


def stamps(word: str) -> tuple[int, int]:
    """The type of a word: one block, or blocks as 3-9."""
    found = re.fullmatch(r"(\d{1,9})(?:-(\d{1,9}))?", word, re.ASCII)
    if not found or found[2] and int(found[2]) < int(found[1]):
        raise argparse.ArgumentTypeError(f"{word!r} is no block, as 12, and no blocks, as 12-20")
    return int(found[1]), int(found[2] or found[1])


def words_of(parser: tool.Words) -> tool.Words:
    parser.report(nargs="?")
    parser.number("--thread", (0, 31), "the blocks of this thread")
    parser.number("--lock", (0, 31), "the blocks that hold this lock or end before its LOCK")
    parser.add_argument("--block", metavar="A[-B]", type=stamps, help="this block, or this range of blocks")
    parser.number("--trace", (0, 10**9), metavar="BLOCK",
                  says="this block's instructions with their registers; alone, of this block only")
    parser.add_argument("--contexts", action="store_true",
                        help="what a context carries if another worker goes on with it, and where the locks' bytes go")
    parser.add_argument("--words", nargs=argparse.REMAINDER, metavar="WORD",
                        help="the arguments that ./tclocks was given; this option comes last")
    return parser


def main(words: list[str]) -> None:
    asked = words_of(tool.words("explain", "guest")).parse_args(words)
    if asked.report is None:
        of_report = ["contexts"] * asked.contexts + [name for name in ("thread", "lock", "block", "trace")
                                                     if getattr(asked, name) is not None]
        if of_report:
            raise tool.Trouble(tool.WORDS, f"--{of_report[0]} is of a report, and there is none; ./workbench explain GUEST REPORT")
        explain_file(asked.guest) if asked.words is None else print(said_of(asked.words))
        return
    try:
        text = report.Report(tool.read_lines(asked.report))
        explain_report(guestfile.load(asked.guest), text, asked)
    except report.NoReport as given:
        print(refusal(asked.guest, given.line) if given.line.startswith("refused")
              else reasons.rejection(given.line) if given.line.startswith("rejected")
              else said_of(asked.words or []) if asked.words is not None
              else "the arguments were wrong; --words WORD.. after the report says what is wrong with them")
        return
    except report.Wrong as wrong:
        raise tool.Trouble(tool.WRONG, f"not legal: {wrong} (./workbench judge)") from None
    if text.next is None:
        tool.note("explain", f"the report stops behind line {text.number - 1}")
