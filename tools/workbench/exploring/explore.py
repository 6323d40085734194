"""How a guest can end: by samples, or by a search of every interleaving."""
from __future__ import annotations

from argparse import Namespace
import contextlib
import functools
import os
import signal
import sys
from collections import Counter
from typing import Any, Callable, Dict, Iterator, List, NamedTuple

from .. import limits, progress, tool
from ..guest import guestfile, model
from ..judging import legal
from ..reports import report
from ..running import delegation, program
from . import rules, search, sections

several = functools.partial(report.several, form=",")
OPTIONS = [(workers, batch) for batch in (8, 0, 1, 256) for workers in (1, 2, 4, 8)]
UNDECIDED = 6  # the status where a search stopped before it had an answer
BATCH = 8  # of the histories that a search prints: any is right where each section is taken
SHOWN = 60  # so many sections of a way are printed


class Outcome(NamedTuple):
    """The first report of it with what made it, and how often it was seen by whom."""
    lines: List[str]
    command: str
    counts: Dict[str, int]

    def seen(self) -> str:
        seen = " and ".join(f"{count} by the {name}" for name, count in self.counts.items())
        return f"{seen}, as of {self.command}"


def end_of(lines: list[str]) -> rules.End:
    """How a whole report says that the guest ended."""
    text = report.Report(line + "\n" for line in lines)
    for _ in text.blocks():
        pass
    text.ends()
    return rules.End(tuple((thread.how, thread.x[10]) for thread in text.thread_ends),
                     tuple((lock.broken, lock.sections, lock.bytes) for lock in text.lock_ends))


def cells(guest: model.Guest, end: rules.End) -> Iterator[tuple[str, str]]:
    """What an end is: values by name, those of threads that faulted first."""
    threads = sorted(enumerate(end.threads), key=lambda item: (not item[1][0].startswith("fault"), item[0]))
    for number, (how, x10) in threads:
        yield f"thread {number} ends", how
        yield f"thread {number} x10", str(x10)
    for number, (broken, taken, content) in enumerate(end.locks):
        yield f"lock {number} sections", str(taken)
        yield f"lock {number} broken", str(broken)
        for at in range(0, len(content), 4):
            value = end.word(number, at // 4)
            yield f"lock {number} word {at // 4} ({guest.spans[number].start + at:08x})", f"{value} ({value:#x})"


def runs_of(name: str, guest: model.Guest, asked: Namespace, runs: int, seed: int) -> Iterator[tuple[list[str], str]]:
    """Reports by the program or by the model, with their commands."""
    file = guestfile.read(asked.guest)
    for i in range(runs):
        workers, batch = OPTIONS[i % len(OPTIONS)]
        numbers = f"{workers} {asked.fuel} {batch}"
        if name == "model":
            run, blocks = delegation.delegated(guest, asked.fuel, workers, batch, seed + i)
            yield list(run.lines(blocks)), f"./workbench simulate {asked.guest} {numbers} --seed {seed + i}"
        else:
            status, text = program.run(("run", *numbers.split()), file)
            if status:
                raise tool.Trouble(tool.WRONG, f"./tclocks run {numbers} ended with status {status}")
            yield text.splitlines(), f"./tclocks run {numbers} < {asked.guest}"


def show(guest: model.Guest, ends: list[rules.End], most: int, tell: Callable[..., Any]) -> None:
    """Prints what is the same in all ends, and of each what isn't; `tell` says more of the end at a place."""
    tables = [dict(cells(guest, end)) for end in ends]
    differ = {name for name in tables[0] if len({table.get(name) for table in tables}) > 1}
    print("the same in all:" if len(ends) > 1 else "it is:")
    lines: dict[str, list[str]] = {}  # one for the values of each thread and each lock
    for name, value in tables[0].items():
        if name not in differ:
            owner, number, rest = name.split(" ", 2)
            lines.setdefault(f"{owner} {number}", []).append(f"{rest.split(' (')[0]} {value.split(' (')[0]}")
    print(*(f"  {name}: {', '.join(parts)}" for name, parts in lines.items()), sep="\n")
    for place, table in enumerate(tables[:most] if differ else ()):
        print(f"\noutcome {place + 1}, {tell(place)}")
        for name, value in table.items():
            if name in differ:
                print(f"  {name}: {value}")
    if not differ:
        print(f"\noutcome 1, {tell(0)}")
    elif len(ends) > most:
        print(f"\n{len(ends) - most} more outcomes; --most shows more")


def write(folder: str, histories: dict[str, str]) -> None:
    """Writes histories by their names into a folder, which is made where it is not there."""
    with tool.writing(folder):
        os.makedirs(folder, exist_ok=True)
    for name, text in histories.items():
        tool.write_file(os.path.join(folder, f"{name}.txt"), text)


def keep(folder: str, histories: Iterator[Any]) -> None:
    write(folder, {f"outcome-{number}": "\n".join(lines) + "\n" for number, lines in enumerate(histories, 1)})
    sys.stdout.flush()
    tool.note("explore", f"the first history of each outcome is in {folder}")


def history(guest: model.Guest, fuel: int, threads: tuple[int, ...]) -> list[str]:
    """The report of a history in which these threads have the sections, each run by a worker of its
    thread's own as far as there are eight, and each section taken."""
    run, blocks = legal.Run(guest, min(8, len(guest.entries)), fuel, BATCH), []
    # Each thread comes to its first LOCK, and then to the next one in each of its sections.
    for number, released in (*((one, True) for one in range(run.threads)), *((one, False) for one in threads)):
        thread = run.machine.threads[number]
        while thread.end is None and not (released and run.machine.next_lock(thread) is not None):
            blocks.append(run.step(number, None, number % run.workers))
            released = released or bool(blocks[-1].released)
    return list(run.lines(blocks))


def seen_text(found: search.Search) -> str:
    """How much of a guest's interleavings was seen."""
    if found.whole:
        return several(found.states, "state")
    said = f"more than {several(found.states, 'state')}: not all seen"
    if found.walks:
        walks = several(len(found.walks), "walk")
        said += f"; about {found.left():.1e} are left, and {walks} to the end were made"
    return said


def show_all(guest: model.Guest, found: search.Search, asked: Namespace) -> None:
    """Prints the outcomes of a search."""
    ends = found.ends()
    outcomes = several(len(ends), "outcome")
    print(f"every interleaving: {outcomes}, {seen_text(found)}" if found.whole else f"{seen_text(found)}: {outcomes}")

    def tell(place: int) -> str:
        way = ends[place][1]()
        shown, more = " ".join(map(str, way.threads[:SHOWN])), len(way.threads) - SHOWN
        shown += f" .. ({more} more)" if more > 0 else ""
        return f"{several(way.blocks, 'block')}, sections of threads {shown or '-'}"
    if ends:
        show(guest, [end for end, _ in ends], asked.most, tell)
    if asked.keep:
        keep(asked.keep, (history(guest, asked.fuel, way().threads) for _, way in ends[:asked.most]))


def show_answer(guest: model.Guest, found: search.Search, asked: Namespace, rule: str, words: str) -> bool | None:
    """Prints the answer to a rule, with a history where there is one. Answers whether; None: not known."""
    way = found.answer(rule)
    if way:
        print(f"# {rule}: {words}, by this history of {several(way.blocks, 'block')}")
        print("\n".join(history(guest, asked.fuel, way.threads)))
        return True
    if found.whole:
        print(f"# {rule}: in no interleaving ({several(found.states, 'state')})")
        return False
    print(f"# {rule}: not found; {seen_text(found)}")
    return None


def searched(guest: model.Guest, asked: Namespace, questions: dict[str, None]) -> search.Search:
    """The search, which shows where it is, and stops between two steps where it is interrupted."""
    before, expected = None, None
    if asked.resume and os.path.exists(asked.resume):
        before = tool.read_bytes(asked.resume)
    if asked.all:
        expected = search.expected(guest, asked.fuel)
        tool.note("explore", f"some {progress.number(expected)} states are expected, by how many sections the threads have; at most "
                             f"{asked.states:,} are searched{' more' if before else ''} (--states)")
    stopped: list[int] = []
    with progress.Progress("explore", "states", expected) as shown, stopping(stopped):
        def tell(states: int) -> bool:
            shown.reach(states)
            return bool(stopped)
        found = search.Search(guest, asked.fuel, questions, asked.states, asked.processes, not asked.all, tell=tell,
                              before=before)
    shown.end()
    return found


@contextlib.contextmanager
def stopping(stopped: list[int]) -> Iterator[None]:
    """Takes a first interrupt as a wish to stop; a second one ends at once."""
    def stop(number: int, _: object) -> None:
        stopped.append(number)
        signal.signal(signal.SIGINT, before)
    before = signal.getsignal(signal.SIGINT)
    if callable(before):
        signal.signal(signal.SIGINT, stop)
    try:
        yield
    finally:
        signal.signal(signal.SIGINT, before)


def search_all(guest: model.Guest, asked: Namespace) -> None:
    """Searches every interleaving for what was asked."""
    questions = asked.reach + asked.never
    try:
        found = searched(guest, asked, dict.fromkeys(questions))
    except rules.WrongRule as wrong:
        raise tool.Trouble(tool.WORDS, f"the rule is wrong: {wrong}") from None
    except sections.Collision as trouble:
        raise tool.Trouble(UNDECIDED, f"{trouble}; nothing is known") from None
    except search.NoSearch as wrong:
        raise tool.Trouble(tool.WRONG, f"{asked.resume}: {wrong}") from None
    if asked.resume and not found.whole:
        tool.write_file(asked.resume, found.kept())
        tool.note("explore", f"the search stopped behind {several(found.states, 'state')}; the same words go on from {asked.resume}")
    reached = [show_answer(guest, found, asked, rule, "reachable") for rule in asked.reach]
    broken = [show_answer(guest, found, asked, rule, "broken") for rule in asked.never]
    if asked.all:
        show_all(guest, found, asked)
    if asked.runs:
        compare(guest, found, asked)
    if True in broken:
        raise tool.Trouble(tool.WRONG, f"never {asked.never[broken.index(True)]}: broken")
    if found.is_stopped:
        raise KeyboardInterrupt
    if None in reached + broken:
        raise tool.Trouble(UNDECIDED, "not all interleavings were seen; --states allows more")


def compare(guest: model.Guest, found: search.Search, asked: Namespace) -> None:
    """Makes runs too: where every interleaving was seen, each must come to an outcome that is there."""
    outcomes = sampled(guest, asked, "\n", "")
    known = {end for end, _ in found.ends()}
    for end, outcome in outcomes:
        if found.whole and end not in known:
            raise tool.Trouble(tool.WRONG, f"the search has not the outcome of {outcome.command}")


def sampled(guest: model.Guest, asked: Namespace, before: str, behind: str) -> list[tuple[rules.End, Outcome]]:
    """Looks at some runs, and says in a line how many of whom. Answers their outcomes, by how they end: those
    with faults first, then those seen most often."""
    why = None if asked.model else program.missing()
    if why:
        tool.note("explore", f"{why}; so the model alone makes runs")
    runs, seed = asked.runs or 32, 1 if asked.seed is None else asked.seed
    names = ["program", "model"] if not (asked.model or why) else ["model"]
    outcomes: dict[rules.End, Outcome] = {}
    for name in names:
        for lines, command in runs_of(name, guest, asked, runs, seed):
            outcomes.setdefault(end_of(lines), Outcome(lines, command, Counter())).counts[name] += 1
    print(f"{before}samples, {' and '.join(f'{runs} runs by the {name}' for name in names)}: "
          f"{several(len(outcomes), 'outcome')} seen{behind}")
    return sorted(outcomes.items(), key=lambda item: (*item[0].order()[:3], -sum(item[1].counts.values())))


def samples(guest: model.Guest, asked: Namespace) -> None:
    """Prints the outcomes of some runs."""
    outcomes = sampled(guest, asked, "", "; there may be others (--all looks at every interleaving)")
    show(guest, [end for end, _ in outcomes], asked.most, lambda place: outcomes[place][1].seen())
    if asked.keep:
        keep(asked.keep, (outcome.lines for _, outcome in outcomes))


def parsed(words: list[str]) -> tuple[Namespace, Any]:
    parser = tool.words("explore", "guest", more="rules")
    parser.add_argument("--all", action="store_true", help="every interleaving, and each outcome")
    parser.add_argument("--reach", metavar="RULE", action="append", default=[],
                        help="a history whose end satisfies RULE, as 'lock 0 word 2 == 1'")
    parser.add_argument("--never", metavar="RULE", action="append", default=[],
                        help="status 3 and a history, if an end satisfies RULE")
    parser.number("--states", (1, 10**9), "search at most N states (1000000)", 10**6)
    parser.add_argument("--resume", metavar="FILE", help="continue the search of these arguments, and write "
                        "there where this one stops")
    parser.number("--processes", (1, 64), "search by N processes (one for each processor)", os.cpu_count() or 1)
    parser.number("--runs", (1, 100000), "samples: how many by each (32)")
    parser.number("--seed", (0, 10**9), "samples: of the first interleaving (1)")
    parser.add_argument("--model", action="store_true", help="samples: by the model alone")
    parser.number("--fuel", limits.RUN["fuel"], "(20000)", 20000)
    parser.add_argument("--keep", metavar="FOLDER", help="write a history of each outcome into it")
    parser.number("--most", (1, 100000), "show at most N outcomes (10)", 10)
    asked = parser.parse_args(words)
    searches = asked.all or asked.reach or asked.never
    if searches and not (asked.all and asked.runs) and (asked.model or asked.runs or asked.seed is not None):
        parser.error("--runs, --seed and --model are of samples, and go with no search but --all --runs")
    if asked.keep and searches and not asked.all:
        parser.error("--keep goes with --all or samples: --reach and --never print their history")
    if asked.resume and not searches:
        parser.error("--resume is of a search: --all, --reach or --never")
    return asked, searches


def main(words: list[str]) -> None:
    asked, searches = parsed(words)
    (search_all if searches else samples)(guestfile.load(asked.guest).guest, asked)
