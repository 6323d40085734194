"""Why a thread ended where it did, and what is wrong with the words of the program, in sentences
with the numbers that tell it."""
from __future__ import annotations

from .. import limits
from ..guest import guestfile, model, rv32im, sources
from ..reports import report
from . import legal

EXTENSIONS = {0x2F: "an atomic instruction (A)", 0x07: "a floating-point load", 0x27: "a floating-point store",
              0x53: "a floating-point instruction", 0x73: "a CSR or privileged instruction",
              0x0F: "FENCE.I or another of the kind"}


def place(file: guestfile.GuestFile, address: int) -> str:
    """An address with its symbol, where it has one."""
    name = file.name(address)
    return f"{address:08x}" + (f" <{name}>" if name else "")


def instruction(file: guestfile.GuestFile, pc: int) -> str:
    """The address of an instruction with its symbol and text."""
    word = file.guest.word(pc)
    return f"{place(file, pc)} " + ("can't be fetched" if word is None else rv32im.text(word, pc))


def call_text(thread: model.Thread) -> str:
    """The guest call that an ECALL makes with a thread's registers."""
    name = limits.CALLS.get(thread.x[17], f"no guest call: x17 is {thread.x[17]}, x10")
    return f"{name} {thread.x[10]}"


def start_text(file: guestfile.GuestFile, thread: model.Thread, lines: sources.Sources | None = None) -> str:
    """Where a thread is about to go on, and the line of the source that is known."""
    text, said = instruction(file, thread.pc), lines.text(thread.pc) if lines else ""
    text += f" ({call_text(thread)})" if file.guest.word(thread.pc) == rv32im.WHOLE["ecall"] else ""
    return text + (f", {said}" if said else "")


def delegation(block: report.Block, batch: legal.Batch, came: report.Block, away: bool) -> str:
    """How an adopted or granted section came about: `came` is the block in which its thread came to
    its LOCK, and `batch` the lock's batch before the section."""
    last = batch.last
    assert last
    shipped = f", shipped with {report.locks_text(came.kept)}" if came.kept else ""
    text = (f"{block.kind}: thread {block.thread} waited for lock {block.begun} from block {came.stamp} on "
            f"(worker {came.worker}){shipped}; ")
    if block.kind == "adopted":
        text += (f"worker {last.worker} released it in block {last.stamp} and runs the section, "
                 f"adopted section {batch.adopted + 1} in a row")
    else:
        text += f"thread {last.thread} released it in block {last.stamp}"
        text += (" and ended" if last.ends_thread else f" and still holds {report.locks_text(last.kept)}" if last.kept
                 else f", with {report.several(batch.adopted, 'adopted section')} in a row: the batch limit")
    return text + ("; away from the thread's own worker" if away else "")


def ending(file: guestfile.GuestFile, thread: model.Thread, held: tuple[int, ...]) -> str:
    """Why a thread ended that held these locks."""
    if thread.end == "exit":
        return f"exit with {thread.x[10]} ({thread.x[10]:#x}) at {place(file, thread.pc)}"
    if thread.end == "spent":
        return f"its fuel was spent before {instruction(file, thread.pc)}"
    assert thread.end
    number = int(thread.end[6:])
    if number == 2:
        code = ", ".join(guestfile.span(where) for where, flags, _ in file.guest.ranges if flags & 1)
        return (f"{thread.end}: the program counter {place(file, thread.pc)} lies in no executable range "
                f"({region(file, thread.pc)}; executable: {code})"
                + "; x1 was 0 at the start, so a return from the first function comes here" * (thread.pc == 0))
    return f"{thread.end} at {instruction(file, thread.pc)}: {fault(number, file, thread, held)}"


def region(file: guestfile.GuestFile, address: int) -> str:
    """What an address lies in."""
    guard = file.guard_at(address)
    if guard is not None:
        return f"it is in guard {guard}, {guestfile.span(file.guest.spans[guard])}"
    if address in limits.STACK:
        return "it is on the stack"
    for where, flags, _ in file.guest.ranges:
        if address in where:
            return f"it is in the {'writable' if flags & 2 else 'read-only'} range {guestfile.span(where)}"
    below = limits.STACK.start - address
    if 0 < below <= 65536:
        return (f"it is {below} bytes below the stack, {guestfile.span(limits.STACK)}, as where the stack ran out")
    return "it is in nothing" + (", as of a null pointer" if address < 4096 else "")


def fault(number: int, file: guestfile.GuestFile, thread: model.Thread, held: tuple[int, ...]) -> str:
    """Why a fault with this number came, but for 2."""
    call, value, locks = thread.x[17], thread.x[10], len(file.guest.guards)
    word = file.guest.word(thread.pc) or 0
    if number == 1:
        hint = ("the word 0 is none" if word == 0 else "its low bits are those of compressed code (C)" if word & 3 != 3
                else EXTENSIONS.get(word & 0x7F, "no row of RV32IM gives it"))
        return f"the word {word:08x} is no instruction: {hint}"
    if number == 3:
        what = rv32im.decode(word)
        assert what
        to = (thread.x[what.a] + what.value) & ~1 if what.name == "jalr" else thread.pc + what.value
        return f"it goes to {to % 2**32:08x}, which is no multiple of 4"
    if number < 8:
        return access(file, thread, word, held)
    if number == 8:
        return "EBREAK, as of __builtin_trap"
    if number == 9:
        return (f"SLEEP of x10 = {value}, which is above {limits.SLEPT}" if call == limits.SLEEP
                else f"x17 is {call}, which is no guest call (1 LOCK, 2 UNLOCK, 3 SLEEP, 93 EXIT)")
    if number == 10 and value < locks:
        return f"LOCK {value} with four locks held ({report.held_text(held)})"
    if number == 10:
        there = f"the locks are 0 to {locks - 1}" if locks else "the guest has no lock: has its file the note?"
        return f"{call_text(thread)}: {there}"
    if number == 11:
        return f"LOCK {value} with {report.held_text(held)} held: a lock must be greater than each that is held"
    return f"UNLOCK {value}, which isn't held (held: {report.held_text(held)})"


def access(file: guestfile.GuestFile, thread: model.Thread, word: int, held: tuple[int, ...]) -> str:
    """What is wrong with a load or a store."""
    accessed = rv32im.access(word, thread.x)
    assert accessed
    kind, address, width = accessed
    said = f"it {kind}s {width} byte{'s' * (width > 1)} at {place(file, address)}"
    if address % width:
        return f"{said}, which is no multiple of {width}"
    guard = file.guard_at(address)
    if guard is not None:
        return (f"{said}, in guard {guard} ({guestfile.span(file.guest.spans[guard])}), and lock {guard} isn't "
                f"held (held: {report.held_text(held)})")
    return f"{said}; {region(file, address)}"


# Of the line at which a history is rejected.
REJECTED = dict(zip(limits.REASONS, (
    "it is no block line with the next stamp and an end of line", "there is no such thread, or it has ended",
    "its thread would take a lock that another one has",
    "its turns, its held locks, its pc or its end are not those that its thread has there",
    "such a block has another kind, or the batch limit lets no section of this kind stand there",
    "there is no such worker", "it is missing: some thread has not ended")))


def rejection(line: str) -> str:
    """What is said of the program's line on a history that it rejected."""
    _, number, _, name = line.split()
    why = REJECTED.get(name, f"{name} is no reason")
    return f"line {number} of the history: {why} (of a whole report ./workbench judge says what would have been right)"


def usage(words: list[str]) -> str | None:
    """What is wrong with the words of the program, or None."""
    wanted = f"it wants {', '.join(limits.SHAPES[:-1])} or {limits.SHAPES[-1]}"
    if not words:
        return f"there are no words; {wanted}"
    form, numbers = words[0], words[1:]
    if form not in limits.FORMS:
        return f"{form!r} is no form: {wanted}"
    names = limits.FORMS[form].values()
    if len(numbers) != len(names):
        return f"behind {form} stand {len(numbers)} words: it wants {', '.join(names)}"
    wrong = next(filter(None, map(report.wrong_number, names, numbers)), None)
    if wrong is None and form == "nodes" and int(numbers[0]) > int(numbers[2]):
        return f"{numbers[0]} nodes and {numbers[2]} workers: each node wants a worker"
    return wrong
