"""The search of every interleaving: that it misses no end and makes none up, what it answers to rules, and
how it is used wrongly. And the grader, over folders of guests with known answers."""
from __future__ import annotations

import contextlib
import copy
import csv
import io
import re
import signal
import subprocess
import time
from typing import Any
from unittest import mock

from tools.workbench import tool
from tools.workbench.checking import fuzz
from tools.workbench.exploring import explore, rules, search, steps
from tools.workbench.guest import guestfile, made, model
from tools.workbench.judging import rejecting
from tools.workbench.running import delegation, program
from .common import (ANSWERS, COMPILER, COURSE, GUESTS, NAMES, ONE, ROOT, TEMPORARY, Case, built, elf, rows, run, saved)


BEGIN = f"lui 5 {made.DATA};"
TWICE = "lw 7 5 {at}; add 7 7 7; addi 7 7 {k}; sw 7 5 {at};"  # 2 * word + k: of two of these the order tells
ADD = "lw 7 5 {at}; addi 7 7 {k}; sw 7 5 {at};"  # what the word was is not looked at
# What is done with the word of a lock, beside what fuzz draws: an odd word becomes 0; x10 and x8 note it.
WORK = (TWICE, ADD, "lw 7 5 {at}; andi 7 7 1; beq 7 0 8; sw 0 5 {at}", "lw 6 5 {at}; add 10 10 6; add 8 8 10",
        "add 10 10 8; sw 10 5 {at}", "SLEEP {k}")
ENDS = *["EXIT"] * 5, "ebreak", "jal 0 0", "LOCK 0; EXIT", "LOCK 0; LOCK 0; EXIT"


class Small(fuzz.Draw):
    """Draws small guests, all of whose interleavings model.py can search without any reduction: every block of every
    thread that can run one is a step, also those that take no lock."""

    def register(self) -> int:
        return self.choice((0, 6, 7, 8, 10))

    def access(self) -> list[int]:
        if not self.held or self.random() < 0.3:
            return super().access()
        return made.code(self.choice(WORK).format(at=16 * self.choice(self.held), k=self.randrange(4)))

    def thread(self, locks: int, length: int) -> list[int]:
        words = [word for _ in range(length) for word in self.section(locks) + self.arithmetic()]
        return [fuzz.BASE, *words, *made.code(self.choice(ENDS))]


def guest(seed: int) -> tuple[bytes, int]:
    """The file of a guest, and its fuel."""
    draw = Small(seed)
    threads = draw.choice((2, 2, 3))
    return draw.file(threads, draw.choice((1, 2, 3)), 1, 6 - threads), draw.choice((50, 100, 200))


def key(machine: model.Machine) -> Any:
    """All that what comes next, and what is told of the end, depends on."""
    return (tuple((thread.pc, tuple(thread.x), thread.fuel, tuple(sorted(thread.held)), thread.end,
                   bytes(thread.stack), *map(bytes, thread.own.values())) for thread in machine.threads),
            tuple((bytes(lock.bytes), lock.owner, lock.broken, lock.sections) for lock in machine.locks))


def end_of(machine: model.Machine) -> rules.End:
    return rules.End(tuple((thread.end, thread.x[10]) for thread in machine.threads),  # type: ignore[misc]
                     tuple((lock.broken, lock.sections, bytes(lock.bytes)) for lock in machine.locks))


def plain(file: bytes, fuel: int) -> tuple[dict[rules.End, int], int]:
    """Every end with the least number of blocks that lead to it, and how many states there are."""
    machine = model.Machine(model.Guest(file), fuel)
    ends: dict[rules.End, int] = {}
    seen: set[Any] = set()
    now, blocks = {key(machine): machine}, 0
    while now:
        after: dict[Any, Any] = {}
        for machine in now.values():
            if all(thread.end for thread in machine.threads):
                ends.setdefault(end_of(machine), blocks)
            for number in machine.able():
                new = copy.deepcopy(machine, {id(machine.guest): machine.guest})
                new.run_block(number)
                after.setdefault(key(new), new)
        seen.update(now)
        now, blocks = {name: new for name, new in after.items() if name not in seen}, blocks + 1
    return ends, len(seen)


def of_two(one: list[int], other: list[int], data: list[int]) -> bytes:
    """The file of two threads with a lock for each word of the data."""
    return built(one + other, (0, len(one)), len(data), b"".join(word.to_bytes(4, "little") for word in data))


def searched(file: bytes, fuel: int, **more: Any) -> search.Search:
    return search.Search(model.Guest(file), fuel, **more)


class EveryInterleaving(Case):
    """Against a search without any reduction, which shares no code with it but model.py's beginnings."""

    def same(self, file: bytes, fuel: int, **more: Any) -> tuple[search.Search, dict[rules.End, int]]:
        ends, states = plain(file, fuel)
        found = searched(file, fuel, **more)
        self.assertTrue(found.whole)
        self.assertEqual({end: way().blocks for end, way in found.ends()}, ends)
        self.assertLessEqual(found.states, states)
        return found, ends

    def test_forty_small_guests(self) -> None:
        kinds, several = set(), 0  # type: set[str], int
        for seed in range(40):
            with self.subTest(seed=seed):
                _, ends = self.same(*guest(seed))
                kinds.update(how for end in ends for how, _ in end.threads)
                several += len(ends) > 1
        self.assertLessEqual({"exit", "spent", "fault 4", "fault 8", "fault 11"}, kinds)
        self.assertGreater(several, 15)

    def test_blocks_of_the_greatest_length(self) -> None:
        loop = "addi 6 0 2047; addi 6 6 2; addi 6 6 -1; bne 6 0 -4;"
        twice = TWICE.format(at=0, k=1)
        code = made.code(f"{BEGIN} LOCK 0; {twice} {loop} {loop} {twice} UNLOCK 0; EXIT")
        _, ends = self.same(built(code, (0, 0), 1), 9000)
        self.assertEqual(len(ends), 1)
        self.assertGreater(next(iter(ends.values())), 8)

    def test_a_return_to_a_place_behind_no_call(self) -> None:
        """Which registers are read again is not known then, so all are kept."""
        for x in steps.LINKS:
            code = made.code(
                f"{BEGIN} LOCK 0; lw 7 5 0; addi 6 7 0; {TWICE.format(at=0, k=1)} UNLOCK 0;"
                f"auipc {x} 0; addi {x} {x} 16; jalr 0 {x} 0; ebreak; LOCK 0; UNLOCK 0; addi 10 6 0; EXIT")
            found, ends = self.same(built(code, (0, 0), 1), 100)
            self.assertIsNone(found.shares.alone.sections.live)  # type: ignore[union-attr]
            self.assertEqual({tuple(x10 for _, x10 in end.threads) for end in ends}, {(0, 1), (1, 0)})

    def test_a_return_by_the_other_link_register(self) -> None:
        """A function is called by x1 and returns by x5, as that of a division does: nothing begins anew."""
        code = made.code(f"lui 11 {made.DATA}; LOCK 0; lw 7 11 0; jal 1 32; sw 7 11 0; UNLOCK 0; addi 10 7 0; EXIT; "
                         "addi 5 1 0; add 7 7 7; addi 7 7 1; jalr 0 5 0")
        found, ends = self.same(built(code, (0, 0), 1), 100)
        self.assertIsNotNone(found.shares.alone.sections.live)  # type: ignore[union-attr]
        self.assertEqual({tuple(x10 for _, x10 in end.threads) for end in ends}, {(1, 3), (3, 1)})

    def test_sums_of_two_words(self) -> None:
        """Words of two locks are added and taken off one another, one of them twice: what the section comes to
        depends on one, and on the other only as the sum that it is."""
        ways = "add 7 7 9", "add 9 7 9; addi 7 9 1", "sub 7 7 9", "add 7 7 7; sub 7 7 9"
        for pair in zip(ways, (*ways[1:], ways[0])):
            one, other = (made.code(
                f"{BEGIN} LOCK 0; LOCK 1; lw 7 5 0; lw 9 5 4; {way}; sw 7 5 0; {TWICE.format(at=4, k=k)}"
                f"UNLOCK 1; UNLOCK 0; LOCK 1; {ADD.format(at=4, k=-k)} UNLOCK 1; EXIT")
                for k, way in enumerate(pair, 1))
            self.same(of_two(one, other, [3, 5]), 100)

    def test_a_lock_that_is_taken_for_some_bytes_alone(self) -> None:
        """Thread 1 takes lock 1 only where the first word is odd. It is even behind the first step of thread 0,
        which holds lock 1 then; so thread 1 can go on and be the first at lock 2."""
        one = made.code(f"{BEGIN} LOCK 0; sw 0 5 0; LOCK 1; UNLOCK 0; LOCK 2; lw 7 5 8; addi 7 7 1; sw 7 5 8; UNLOCK 1; UNLOCK 2; EXIT")
        other = made.code(f"{BEGIN} LOCK 0; lw 7 5 0; andi 7 7 1; beq 7 0 28; LOCK 1; UNLOCK 1; UNLOCK 0; LOCK 2; lw 7 5 8; "
                          "add 7 7 7; sw 7 5 8; UNLOCK 2; EXIT")
        _, ends = self.same(of_two(one, other, [1, 0, 1]), 100)
        self.assertEqual({(end.word(2, 0), end.locks[1][1]) for end in ends}, {(3, 1), (3, 2), (4, 1), (4, 2)})

    def test_several_processes(self) -> None:
        with mock.patch.object(search, "ALONE", 2):
            for seed in (4, 6, 17):
                found, ends = self.same(*guest(seed), processes=3)
                self.assertEqual(found.shares.count, 3)

    def test_ends_of_runs_are_among_them(self) -> None:
        for name in ("exit", "first", "matrix", "faults", "stale"):
            guest = guestfile.load(elf(name)).guest
            found = search.Search(guest, 20000)
            ends = {end for end, _ in found.ends()}
            for seed in range(8):
                run_, blocks = delegation.delegated(guest, 20000, 1 + seed % 4, seed)
                self.assertIn(explore.end_of(list(run_.lines(blocks))), ends)

    def test_ways_on_each_guest_come_to_their_ends_by_the_model(self) -> None:
        for name in NAMES:
            guest = guestfile.load(elf(name)).guest
            found = search.Search(guest, 3000, most=40, walks=2)
            ways = [way() for _, way in found.ends()][:2]
            self.assertTrue(ways)
            for way in ways:
                lines = explore.history(guest, 3000, way.threads)
                self.assertEqual(explore.end_of(lines), way.end)
                self.assertEqual(sum(line.startswith("block ") for line in lines), way.blocks)
                judged = run("judge", elf(name), given="\n".join(lines) + "\n")
                self.says("a legal run, to the end of every thread", judged)


STALE = guestfile.load(elf("stale")).guest


class Use(Case):
    def test_all(self) -> None:
        done = run("explore", elf("stale"), "--all")
        self.one_line(done, 0)
        self.assertRegex(done.stderr.decode(), r"^workbench explore: some \d+ states are expected, .*; at most 1,000,000 are searched")
        for text in "interleaving: 2 outcomes, ", "word 0 (00100000): 33 (0x21)", "word 0 (00100000): 73 (0x49)":
            self.says(text, done)
        self.assertIn(f"```\n{done.stdout.decode()}```\n", (ROOT / "docs/COURSE.md").read_text())

    def test_a_run_that_the_search_has_not(self) -> None:
        found = search.Search(STALE, 20000)
        found.ends = lambda: []  # type: ignore[assignment]
        asked, _ = explore.parsed([elf("stale"), "--all", "--runs", "1", "--model"])
        with contextlib.redirect_stdout(io.StringIO()), self.assertRaises(tool.Trouble) as trouble:
            explore.compare(STALE, found, asked)
        self.assertEqual(trouble.exception.status, 3)

    def test_reach(self) -> None:
        said = self.well("explore", elf("stale"), "--reach", "lock 0 word 0 < 73")
        self.assertIn("# lock 0 word 0 < 73: reachable, by this history of 28 blocks\n", said)
        finished = self.well("finish", elf("stale"), given=said)
        self.assertIn("data 00100000 2100000002000000", finished)
        self.says("a legal run", run("judge", elf("stale"), given=finished))
        self.assertIn("100001", "".join(re.findall(r"thread (\d).* kind taken ", finished)))

    def test_it_goes_on_where_it_stopped(self) -> None:
        whole = run("explore", elf("stale"), "--all", "--never", "lock 0 word 0 != 73")
        file = str(TEMPORARY / "kept-search")
        words = ("explore", elf("stale"), "--all", "--never", "lock 0 word 0 != 73", "--states", "100", "--processes", "1",
                 "--resume", file)
        done, count = run(*words), 1
        while done.stdout.count(b"not all seen"):
            self.says(f"the same words go on from {file}", done)
            done, count = run(*words), count + 1
        self.assertEqual((count, done.returncode, done.stdout), (3, 3, whole.stdout))

    def test_several_processes_go_on_where_they_stopped(self) -> None:
        whole = search.Search(STALE, 20000)
        with mock.patch.object(search, "ALONE", 10):
            found = search.Search(STALE, 20000, most=60, processes=3)
            while not found.whole:
                kept, states = found.kept(), found.states
                found.shares.close()
                found = search.Search(STALE, 20000, most=60, before=kept)
                self.assertGreater(found.states, states)
        self.assertEqual((found.shares.count, found.states), (3, whole.states))
        self.assertEqual({end: way().blocks for end, way in found.ends()}, {end: way().blocks for end, way in whole.ends()})

    def test_a_file_that_is_no_search_of_this_guest(self) -> None:
        file = TEMPORARY / "search"
        words = ("--never", "faults", "--states", "20", "--processes", "1", "--resume", str(file))
        self.assertEqual(run("explore", elf("stale"), *words).returncode, 6)
        kept = file.read_bytes()
        for guest, content in (("first", kept), ("stale", kept[:-1]), ("stale", b""), ("stale", kept[:70] + b"!" + kept[71:])):
            file.write_bytes(content)
            self.one_line(run("explore", elf(guest), *words), 3)

    def test_an_interrupt_tells_what_was_found(self) -> None:
        # What is started in the background may ignore an interrupt, and would hand that on.
        started = subprocess.Popen([ROOT / "workbench", "explore", elf("philosophers"), "--all", "--most", "1"],
                                   stdout=subprocess.PIPE, stderr=subprocess.PIPE,
                                   preexec_fn=lambda: signal.signal(signal.SIGINT, signal.default_int_handler))
        assert started.stderr
        started.stderr.readline()  # how large it is expected to be
        time.sleep(2)
        started.send_signal(signal.SIGINT)
        out, said = started.communicate(timeout=60)
        self.assertEqual((started.returncode, said), (130, b"workbench explore: interrupted\n"), out)
        self.assertIn(b": not all seen", out)

    def test_estimate(self) -> None:
        states = search.Search(STALE, 20000).states
        for most in (40, 150):
            found = search.Search(STALE, 20000, most=most, walks=64)
            self.assertFalse(found.whole)
            self.assertLess((states - most) / 8, found.left())
            self.assertLess(found.left(), (states - most) * 8)

    def test_keep(self) -> None:
        folder = TEMPORARY / "every"
        self.assertEqual(run("explore", elf("stale"), "--all", "--keep", str(folder)).returncode, 0)
        ends = set()
        for path in folder.iterdir():
            self.says("a legal run, to the end of every thread", run("judge", elf("stale"), str(path)))
            ends.add(explore.end_of(path.read_text().splitlines()))
        self.assertEqual(len(ends), 2)

    def test_replay_takes_the_history_of_each_outcome(self) -> None:
        """By rejecting.py, and by the program where it is built: the answer is the report that is kept."""
        outcomes = 0
        for name, fuel in (("stale", 20000), ("first", 20), ("first", 20000), ("broken", 70), ("buffer", 90), ("ring", 80),
                           ("sleepers", 40), ("philosophers", 60), ("faults", 20000)):
            guest, file = guestfile.load(elf(name)).guest, (GUESTS / f"{name}.elf").read_bytes()
            found = searched(file, fuel, most=2000, processes=1)
            numbers = min(8, len(guest.entries)), fuel, explore.BATCH
            for _, way in found.ends()[:40]:
                text = "\n".join(explore.history(guest, fuel, way().threads)) + "\n"
                lines = rejecting.history_of(text)
                self.assertEqual(rejecting.Given(len(file), numbers, file + lines).answer("replay"), (0, text), name)
                if not program.missing():
                    self.assertEqual(program.run(("replay", len(file), *numbers), file + lines), (0, text), name)
                outcomes += 1
        self.assertGreater(outcomes, 100)

    def test_faults_come_first(self) -> None:
        """Thread 0 faults where thread 1 was there before it."""
        one = made.code(f"{BEGIN} LOCK 0; lw 7 5 0; beq 7 0 8; ebreak; UNLOCK 0; EXIT")
        other = made.code(f"{BEGIN} LOCK 0; sw 17 5 0; UNLOCK 0; EXIT")
        text = run("explore --all", saved("fault.elf", built(one + other, (0, len(one)), 1))).stdout.decode()
        self.assertIn("every interleaving: 2 outcomes, ", text)
        self.assertLess(text.index("thread 0 ends: fault 8"), text.index("thread 0 ends: exit"))

    def test_long_rules(self) -> None:
        for rule in "(" * 5000, "9" * 5000:
            self.one_line(run("explore", elf("first"), "--reach", rule), 1)


class Rules(Case):
    END = rules.End((("exit", 7), ("fault 4", 2**32 - 1), ("spent", 0)),
                    ((0, 3, bytes([1, 0, 0, 0, 255, 255, 255, 255])), (1, 2, bytes(4))))

    def test_values_and_truth(self) -> None:
        for text, value in rows("rules"):
            rule = rules.Rule(text, 3, [8, 4])
            self.assertEqual((rule.value(self.END), rule.holds(self.END)), (int(value), value != "0"), text)

    def test_order_of_ends(self) -> None:
        well, fault, spent = (rules.End(((how, 1),), ()) for how in ("exit", "fault 3", "spent"))
        broken = rules.End((("exit", 0),), ((1, 1, bytes(4)),))
        self.assertEqual(sorted([well, broken, spent, fault], key=rules.End.order), [fault, spent, broken, well])


TORN = "lock 3 word 0 != lock 3 word 1"
# Two threads that each count one up under the lock, but look at the word in a section of its own before.
LOST = made.code(f"{BEGIN} LOCK 0; lw 7 5 0; UNLOCK 0; LOCK 0; addi 7 7 1; sw 7 5 0; UNLOCK 0; EXIT")


def folder(name: str, files: dict[str, Any]) -> str:
    """A folder of these files, by name: bytes, or the path of one to copy."""
    for inner, content in files.items():
        saved(f"{name}/{inner}", content if isinstance(content, bytes) else open(content, "rb").read())
    return str(TEMPORARY / name)


class Grade(Case):
    def test_a_folder_of_students(self) -> None:
        """Their names are those of the files; one is right, one loses an addition, one is refused, and one has
        no such lock."""
        place = folder("students", {"anna/guest.elf": built(ONE, (0, 0), 1), "ben/guest.elf": built(LOST, (0, 0), 1),
                                    "cleo.elf": built(ONE, (0, 0), 1)[:100],
                                    "dora.elf": built(made.code("EXIT"), (0,), 0)})
        kept = TEMPORARY / "kept"
        said = self.well("grade", place, "--never", "lock 0 word 0 != 2", "--reach", "lock 0 sections == 2",
                         "--keep", str(kept))
        table = [line.split("  ") for line in said.partition("\n\n")[0].splitlines()]
        self.assertEqual([[cell.strip() for cell in row if cell] for row in table], [
            ["guest", "file", "rule 1", "rule 2", "right"],
            ["anna/guest.elf", "accepted", "holds", "reachable", "2 of 2"],
            ["ben/guest.elf", "accepted", "broken", "never", "0 of 2"],
            ["cleo.elf", "refused 7 BadHeader", "-", "-", "0 of 2"],
            ["dora.elf", "accepted", "no rule", "no rule", "0 of 2"]])
        self.assertIn("rule 1: never lock 0 word 0 != 2\nrule 2: reach lock 0 sections == 2\n", said)
        history = kept / "ben-guest.elf-rule-1.txt"
        self.says("a legal run, to the end of every thread", run("judge", f"{place}/ben/guest.elf", history))
        self.assertIn("\ndata 00020000 01000000\n", history.read_text())
        self.assertEqual(sorted(path.name for path in kept.iterdir()), ["anna-guest.elf-rule-2.txt", history.name])

    def test_answers_of_the_course(self) -> None:
        place = folder("course", {"asked.elf": COURSE / "pair.elf", "answered.elf": ANSWERS / "pair.elf"})
        said = self.well("grade", place, "--never", TORN, "--csv")
        self.assertEqual(said.splitlines()[1:], [f"answered.elf,accepted,never,{TORN},holds,1",
                                                 f"asked.elf,accepted,never,{TORN},broken,0"])
        place = folder("queues", {"asked.elf": COURSE / "queue.elf", "answered.elf": ANSWERS / "queue.elf"})
        for rule, answers in (("lock 1 word 1 > 4", "holds holds"), ("lock 1 word 1 > 3", "holds broken"),
                              ("lock 1 word 1 > 0", "holds broken")):
            rows = csv.DictReader(self.well("grade", place, "--never", rule, "--csv").splitlines())
            self.assertEqual([row["answer"] for row in rows], answers.split(), rule)

    def test_a_search_that_stops(self) -> None:
        place = folder("large", {"counter.elf": elf("counter")})
        self.says("not known", run("grade", place, "--never", "lock 0 sections != 480", "--states", "20"))

    def test_sources(self) -> None:
        if COMPILER is None:
            self.skipTest("there is no compiler for RISC-V")
        place = folder("sources", {"a.c": GUESTS / "first.c", "a.elf": b"of no interest", "b.c": b"int main(void) { return 0 }",
                                   "c/c.S": GUESTS / "faults.S"})
        done = run("grade", place, "--never", "lock 0 word 0 != 36", "--never", "faults")
        self.assertEqual(done.returncode, 0)
        self.assertIn(b"workbench grade: b.c is not built: b.c:1:", done.stderr)
        cells = [" ".join(line.split()) for line in done.stdout.decode().splitlines()[1:4]]
        self.assertEqual(cells, ["a.c accepted holds holds 2 of 2", "b.c not built - - 0 of 2",
                                 "c/c.S accepted broken broken 0 of 2"])
        self.assertEqual(sorted(path.name for path in (TEMPORARY / "sources").rglob("*.elf")), ["a.elf"])

    def test_wrong_uses(self) -> None:
        place = folder("one", {"one.elf": built(ONE, (0, 0), 1)})
        self.one_line(run("grade", folder("empty", {"notes.txt": b"none"}), "--never", "faults"), 3)
        self.one_line(run("grade", place, "--reach", "faults == 0", "--keep", "/proc/none"), 4)
        self.full("grade", place, "--never", "faults")
