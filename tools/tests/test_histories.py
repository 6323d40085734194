"""Histories by hand, and those that the model makes; and what `replay` and `profile` answer by rejecting.py:
on paper, to histories that are changed, and in the exercise on wrong histories, with what ./workbench judge
says of the same ones."""
from __future__ import annotations

import collections
import random
import re
from subprocess import CompletedProcess
from typing import Any

from tools.workbench import limits
from tools.workbench.guest import guestfile, made, model
from tools.workbench.judging import rejecting
from tools.workbench.reports import report, spoil
from tools.workbench.running import delegation, program
from .common import (BY_HAND, DOCS, FACTS, FINISHED, GUEST, GUESTS, NAMES, ONE,
                     PROFILE, TEMPORARY, Case, built, elf, history, process, rows, run, saved, told)


class ByHand(Case):
    """Two threads with one lock, whose histories are known on paper."""

    def test_legal_so_far_and_finished(self) -> None:
        self.says("legal so far, 6 blocks", run("judge", GUEST, given=BY_HAND))
        self.assertIn(b"lock 0 sections 2 broken 0 bytes 4\ndata 00020000 02000000\nend", FINISHED)
        self.says("a legal run, to the end of every thread", run("judge", GUEST, given=FINISHED))

    def test_lines_without_stamps_and_with_threads_alone(self) -> None:
        for lines in re.sub("block [0-9]+ ", "", BY_HAND), (
                "run workers 2 fuel 100 batch 4\nthread 0\nthread 0\nthread 1 worker 1\n"
                "thread 1 kind adopted\nthread 0\nthread 1 worker 1"):
            self.assertEqual(run("finish", GUEST, given=lines).stdout, FINISHED)

    def test_program_counters(self) -> None:
        self.says("block 1, line 5: pc is 00100008, and must be 0010000c",
                  run("judge", GUEST, given=BY_HAND.replace("pc 0010000c", "pc 00100008", 1)))
        self.one_line(run("judge", GUEST, given=BY_HAND.replace("tclocks 2", "tclocks 1")), 3)
        explained = run("explain", GUEST, "-", given=BY_HAND).stdout.decode()
        self.assertEqual(re.findall(r"# 001000([0-9a-f]{2})", explained), ["00", "0c", "00", "0c", "28", "28"])

    def test_first_block_that_is_not_legal(self) -> None:
        for old, new, place in rows("illegal"):
            for tool in ("judge", "finish"):
                done = run(tool, GUEST, given=BY_HAND.replace(old, new))
                self.one_line(done, 3, place)
                self.assertIn(place, done.stderr.decode())

    def test_a_block_between_the_release_and_the_adopted_section(self) -> None:
        """The worker that released the lock goes on with the waiter in its very next block."""
        lines = BY_HAND.splitlines()
        lines[6:8] = [lines[7].replace("block 4", "block 3"), lines[6].replace("block 3", "block 4")]
        done = run("judge", GUEST, given="\n".join(lines) + "\n")
        self.one_line(done, 3, "block 4: its kind is adopted, and must be taken: worker 0 released the lock and then ran block 3")

    def test_what_would_have_been_legal_and_why_a_section_was_granted(self) -> None:
        done = run("finish", GUEST, given=BY_HAND.replace("batch 4", "batch 0"))
        self.says("block 3 thread 1 turns 7 held 0 kind granted worker 0 pc 0010000c end unlocked 0"
                  "  # or worker 1", done)
        self.says("block 3 thread 0 turns 2 held - kind on", done)
        text = BY_HAND.replace("batch 4", "batch 0").replace("adopted", "granted")
        self.says("\n  granted: thread 1 waited for lock 0 from block 2 on (worker 1); thread 0 released it in block 1, "
                  "with 0 adopted sections in a row: the batch limit; away from the thread's own worker\n",
                  run("explain", GUEST, "-", given=text))

    def test_who_releases_does_not_wait(self) -> None:
        """A thread that takes a lock twice in a row was not waiting for it."""
        code = (*ONE[:10], *ONE[1:])
        guest = saved("twice.elf", built(code, (0, 0), 1))
        lines = "thread 0\nthread 0\nthread 0\nthread 0 kind {}\n"
        self.assertEqual(run("finish", guest, given=lines.format("taken")).returncode, 0)
        self.one_line(run("finish", guest, given=lines.format("adopted")), 3, "did not wait")

    def test_who_is_set_aside_does_not_wait(self) -> None:
        """Worker 0 goes on with thread 0 behind thread 1's section: only then can it want the lock. Of a granted
        section the judge alone says so, of an adopted one the theorem does."""
        lines = "run workers 2 fuel 1000 batch 1\nthread 0\nthread 1 worker 1\nthread 0\nthread 1 kind adopted\n"
        beyond = " (this the judge asks, and the program's theorem does not say it)\n"
        done = run("finish", elf("first"), given=lines + "thread 0\nthread 1 worker 1\nthread 0 kind granted\n")
        self.one_line(done, 3, f"ran block 4 before thread 0 could wait for it{beyond}")
        late = lines.replace("thread 0\nthread 1 kind adopted", "thread 0\nthread 0\nthread 1 kind taken")
        self.assertEqual(run("finish", elf("first"), given=late).returncode, 0)
        done = run("finish", elf("first"), given=late.replace("kind taken", "kind adopted"))
        self.says("it would have adopted at once", done)
        done = run("judge", GUEST, given=BY_HAND.replace("kind taken", "kind granted"))
        self.assertNotIn(beyond.encode(), done.stderr)


NESTED = made.code("LOCK 1; UNLOCK 1; EXIT; LOCK 0; UNLOCK 0; EXIT; LOCK 0; LOCK 1; UNLOCK 1; UNLOCK 0; EXIT")
DOZE = made.code(f"lui 5 {made.DATA}; LOCK 0; SLEEP 3; UNLOCK 0; EXIT")


class OnPaper(Case):
    """Histories with nested locks, sleeps and unlocks out of order, whose blocks are known."""

    def finished(self, code: list[int], entries: tuple[int, ...], guards: int, lines: str) -> str:
        """The report of a history by as many workers as threads."""
        words = f"finish --workers {len(entries)} --batch 4 --fuel 100"
        return self.well(words, saved("paper.elf", built(code, entries, guards)), given=lines)

    def test_nested_delegation(self) -> None:
        """Thread 2 is adopted with lock 0 by worker 1, shipped with it to lock 1, and adopted by worker 0."""
        text = self.finished(NESTED, (0, 8, 16), 2, told("nested"))
        picture = self.well("draw", "-", "--text", given=text)
        self.assertIn("thread 2      sAAO  .", picture)
        self.assertIn("\n          0         10\n", picture)
        said = run("explain", TEMPORARY / "paper.elf", "-", given=text)
        self.says("\n  adopted: thread 2 waited for lock 0 from block 4 on (worker 2); worker 1 released it in block 3 "
                  "and runs the section, adopted section 1 in a row; away from the thread's own worker\n", said)
        self.says("\n  adopted: thread 2 waited for lock 1 from block 5 on (worker 1), shipped with lock 0; worker 0 "
                  "released it in block 2 and runs", said)

    def test_sleep_inside_a_section(self) -> None:
        text = self.finished([*DOZE, *ONE], (0, len(DOZE)), 1, told("sleep"))
        self.assertIn("data 00020000 01000000", text)
        self.assertIn("asleep with lock 0 held", self.well("draw", "-", given=text))

    def test_unlock_out_of_order(self) -> None:
        code = made.code("LOCK 0; LOCK 1; UNLOCK 0; UNLOCK 1; EXIT")
        done = run("simulate", saved("paper.elf", built(code, (0,), 2)), "1", "100", "4")
        self.says(told("unlocks").strip(), done)


class Cuts(Case):
    """A thread without an end, and one that ends at once: 4,096 turns are a block, and the worker goes on."""

    def setUp(self) -> None:
        self.guest = saved("spin.elf", built(made.code("jal 0 0; EXIT"), (0, 1), 0))
        self.options = ("--workers", "2", "--fuel", "6000")

    def judged(self, lines: str) -> CompletedProcess[bytes]:
        done = run("finish", self.guest, *self.options, given=lines)
        return done if done.returncode else run("judge", self.guest, given=done.stdout)

    def test_a_cut_parts_no_thread_from_its_worker(self) -> None:
        on = "thread 0 end cut worker 0\nthread 1 worker 1\nthread 0 turns 1905 worker 0\n"
        self.says("a legal run, to the end of every thread", self.judged(on))
        for other, place in (("thread 0 end cut worker 0\nthread 1 worker 0\n", "block 1: worker 0 runs thread 1"),
                             ("thread 0 end cut worker 0\nthread 0 worker 1\n", "block 1: worker 1 runs thread 0")):
            self.one_line(self.judged(other), 3, f"{place}, but block 0 was cut: worker 0 goes on with thread 0")

    def test_the_judge_refuses_what_was_changed(self) -> None:
        done = run("finish", self.guest, *self.options, "--on", given="thread 0 worker 1\n")
        self.says("a legal run, to the end of every thread", run("judge", self.guest, given=done.stdout))
        text = done.stdout.decode()
        self.assertIn("end cut", text)
        self.one_line(run("judge", self.guest, given=text.replace("worker 1", "worker 0", 1)), 3)

    def test_a_worker_that_is_left_out_is_one_that_may(self) -> None:
        done = run("finish", self.guest, *self.options, given="thread 0\nthread 1\nthread 0\n")
        self.assertEqual(re.findall("(?m)^block .* worker ([0-9])", done.stdout.decode()), ["0", "1", "0"])


class Delegation(Case):
    def test_histories_obey_the_batch_rule_as_it_is_written(self) -> None:
        for name in ("counter", "philosophers", "sleepers", "broken"):
            for seed, (workers, batch) in enumerate(((1, 4), (2, 0), (3, 1), (8, 256))):
                blocks, text = history(name, workers, batch, seed, fuel=2000)
                for lock in {lock for block in blocks for lock in block.held}:
                    self.obeys([block for block in blocks if lock in block.held], lock, batch)
                self.says("a legal run", run("judge", elf(name), given=text))

    def obeys(self, blocks: list[report.Block], lock: int, limit: int) -> None:
        row, before = 0, None
        for block in blocks:
            begins = block.begun == lock
            ended = before is None or before.ends_thread or before.end == f"unlocked {lock}"
            self.assertEqual(begins, ended)
            if not begins:
                self.assertEqual(block.thread, before.thread)  # type: ignore[attr-defined]
            elif before is None:
                self.assertEqual(block.kind, "taken")
            elif block.kind == "adopted":
                self.assertEqual((before.worker, before.end, before.held), (block.worker, f"unlocked {lock}", (lock,)))
                self.assertLess(row, limit)
            elif block.kind == "granted":
                self.assertTrue(row == limit or before.ends_thread or before.held != (lock,))
            row = (row + 1 if block.kind == "adopted" else 0) if begins else row
            before = block

    def test_delegation_is_seen(self) -> None:
        blocks, _ = history("counter", 4, 8, 1)
        self.assertEqual({block.kind for block in blocks}, set(report.KINDS))  # type: ignore[attr-defined]
        self.assertEqual({block.worker for block in blocks}, set(range(4)))

    def test_facts_hold_in_delegated_runs(self) -> None:
        for name in NAMES:
            run_, _ = delegation.delegated(guestfile.load(elf(name)).guest, 20000, 4, 2, 7)
            self.assertEqual(list(model.differences(FACTS[name], run_.machine)), [])


EXIT_FILE = (GUESTS / "exit.elf").read_bytes()
OF_EXIT = "block 0 thread 0 turns 2 held - kind start worker 0 pc 00010054 end exit\n"


def answer(form: str, file: bytes, numbers: tuple[int, int, int], lines: str, size: None = None) -> tuple[int, str]:
    """The model's answer to a file and a history behind it."""
    given = file + lines.encode("ascii")
    return rejecting.Given(len(file) if size is None else size, numbers, given).answer(form)


class Answers(Case):
    """Answers that the pages tell, to histories whose blocks are known."""

    def test_a_history_of_one_block(self) -> None:
        numbers = 1, 100, 0
        status, text = answer("replay", EXIT_FILE, numbers, OF_EXIT)
        self.assertEqual((status, text[:10]), (0, "tclocks 2\n"))
        self.assertIn(OF_EXIT + "thread 0 exit fuel 98 pc 00010058\nx0 00000000 ", text)
        for old, new, said in rows("one-block"):
            for form in ("replay", "profile"):
                self.assertEqual(answer(form, EXIT_FILE, numbers, OF_EXIT.replace(old, new)),
                                 (6, f"rejected {said}\n"), new)

    def test_an_owner(self) -> None:
        """Thread 0 sleeps with lock 0, and thread 1 runs on from its LOCK."""
        file = built([*DOZE, *ONE], (0, len(DOZE)), 1)
        self.assertEqual(len(file), 304)
        lines = told("owner")
        self.assertEqual(answer("replay", file, (2, 100, 4), lines), (6, "rejected 4 3 Owner\n"))

    def test_a_text_error_comes_first(self) -> None:
        """Wherever it stands; and of a wrong block the first reason."""
        lines, thread = rejecting.history_of(BY_HAND).decode(), ("block 1 thread 0", "block 1 thread 7")
        section, adopted = "turns 7 held 0 kind adopted worker 0", "kind adopted worker 0"
        for wrong, said in ((lines.replace(*thread), "2 2 Thread"),
                            (lines.replace(*thread).replace("block 5", "block  5"), "6 1 Text"),
                            (lines.replace(section, "turns 8 held 0 kind on worker 9"), "4 4 Block"),
                            (lines.replace(adopted, "kind on worker 9"), "4 5 Kind"),
                            (lines.replace(adopted, "kind taken worker 9"), "4 6 Worker")):
            answered = answer("replay", built(ONE, (0, 0), 1), (2, 100, 4), wrong)
            self.assertEqual(answered, (6, f"rejected {said}\n"))

    def test_a_profile_and_the_batch_rule(self) -> None:
        """The rule as it is written: a thread may be handed what it released itself."""
        file, lines = built(ONE, (0, 0), 1), rejecting.history_of(BY_HAND).decode()
        self.assertEqual(answer("profile", file, (2, 100, 4), lines), (0, PROFILE))
        for old, new, limit, wrong in rows("batch-rule"):
            status, text = answer("replay", file, (2, 100, int(limit)), lines.replace(old, new))
            line = 2 if old == "taken" else 4
            self.assertEqual((status, text) == (6, f"rejected {line} 5 Kind\n"), wrong == "yes", (new, limit))
            self.assertIn(status, (0, 6))

    def test_what_is_refused(self) -> None:
        for size, said in ((93, "refused 17 ShortInput"), (51, "refused 1 TooShort"), (91, "refused 9 BadLoad")):
            self.assertEqual(answer("replay", EXIT_FILE, (1, 100, 0), "", size), (3, f"{said}\n"))  # type: ignore[arg-type]
        most, limits.HISTORY_BYTES = limits.HISTORY_BYTES, len(OF_EXIT)
        self.addCleanup(setattr, limits, "HISTORY_BYTES", most)
        self.assertEqual(answer("profile", EXIT_FILE, (1, 100, 0), OF_EXIT)[0], 0)
        self.assertEqual(answer("profile", EXIT_FILE, (1, 100, 0), OF_EXIT + "x"), (3, "refused 0 TooLarge\n"))

    def test_lines(self) -> None:
        """What is a line and what is none, whatever the guest."""
        line = OF_EXIT[:-1]
        self.assertIsNone(rejecting.block_of(line.replace("turns 2", "turns " + "9" * 5000), 0))
        for old, new, is_one in rows("lines"):
            changed = line.replace(old, new.replace("_", " "))
            self.assertEqual(rejecting.block_of(changed, 0) is not None, is_one == "yes", changed)

    def test_histories_of_the_model_are_taken(self) -> None:
        for seed, name in enumerate(NAMES):
            text = history(name, 4, 2, seed, fuel=700)[1]
            file = (GUESTS / f"{name}.elf").read_bytes()
            lines = rejecting.history_of(text).decode()
            self.assertEqual(answer("replay", file, (4, 700, 2), lines), (0, text), name)
            self.assertEqual(answer("profile", file, (4, 700, 2), lines), (0, run("summary", "-", "--profile", given=text).stdout.decode()), name)

    def test_each_form_comes_to_the_reason_that_it_aims_at(self) -> None:
        blocks, _ = history("philosophers", 3, 2, 4, fuel=400)
        file, draw = (GUESTS / "philosophers.elf").read_bytes(), random.Random(1)
        for form, reason in zip(spoil.FORMS, limits.REASONS):
            seen: collections.Counter[Any] = collections.Counter()
            for _ in range(12):
                answered = answer("replay", file, (3, 400, 2), form(draw, blocks))
                self.assertEqual(answered[0] == 0, answered[1][:8] == "tclocks ")
                seen[answered[1].split()[-1]] += 1
            self.assertGreater(seen[reason], 2, (form.__name__, seen))


class Exercise(Case):
    """Its answers by rejecting.py, and by the program where it is built."""

    def edited(self, edit: str, name: str) -> str:
        path = DOCS / "pictures" / f"{name}.txt"
        return process("sed", edit, path).stdout.decode()

    def answered(self, name: str, numbers: tuple[int, int, int], text: str) -> tuple[int, str]:
        """What is answered to the history of a report."""
        file = (GUESTS / f"{name}.elf").read_bytes()
        answered = answer("replay", file, numbers, rejecting.history_of(text).decode())
        if not program.missing():
            words = ("replay", len(file), *numbers)
            self.assertEqual(program.run(words, file + rejecting.history_of(text)), answered)
        return answered

    def test_each_reason(self) -> None:
        numbers, whole = (4, 20000, 8), self.edited("", "philosophers")
        self.assertEqual(self.answered("philosophers", numbers, whole), (0, whole))
        rows = re.findall(r"(?m)^\| `(/\^block.*)` \| `(rejected \d+ (\d) (\w+))` \| `(.*)` \|$",
                          (DOCS / "answers" / "README.md").read_text())
        self.assertEqual([(int(number), name) for _, _, number, name, _ in rows], list(enumerate(limits.REASONS, 1)))
        for edit, line, _, name, said in rows:
            text = self.edited(edit, "philosophers")
            self.assertEqual(self.answered("philosophers", numbers, text), (6, f"{line}\n"))
            judged = run("judge", elf("philosophers"), given=text)
            self.says(said, judged)
            self.assertEqual(judged.returncode, 0 if name == "Incomplete" else 3)

    def test_what_judge_asks_for_beside_them(self) -> None:
        edit = "/^block 3 /s/taken/adopted/"
        self.assertIn(edit, (DOCS / "answers" / "README.md").read_text())
        text = self.edited(edit, "first")
        numbers = map(int, report.OPTIONS.search(text).groups())  # type: ignore[union-attr]
        self.assertEqual(self.answered("first", tuple(numbers), text), (0, text))  # type: ignore[arg-type]
        self.says("thread 0 had the section before too, so it did not wait for this one", run("judge", elf("first"), given=text))

    def test_numbers_of_the_exercise_on_profiles(self) -> None:
        page = (DOCS / "answers" / "README.md").read_text()
        for limit in 0, 8, 256:
            text = run("run", elf("counter"), "4", "20000", str(limit), "--seed", "1").stdout
            said = run("replay", elf("counter"), "-", "--profile", given=text).stdout.decode().splitlines()[1].split()
            told = dict(zip(said[::2], said[1::2]))
            self.assertIn(f"\n| {limit} | {told['adopted']} | {told['granted']} | {told['changes']} | {told['home']} |\n", page)
        lines = page[page.index("\nthread 0 worker 0\n"):].split("```")[0]
        for change, wanted in ((("", ""), "changes 2 home 0"), (("taken worker 1", "adopted worker 0"), "changes 0 home 0")):
            text = run("finish", elf("first"), "-", "--on", given=lines.replace(*change)).stdout
            self.says(wanted, run("replay", elf("first"), "-", "--profile", given=text))

    def test_names_are_those_of_the_page(self) -> None:
        named = re.findall(r"(?m)^\| (\d) \| ([A-Z]\w+) \|", (DOCS / "GUIDE.md").read_text())
        for number, name in enumerate(limits.REASONS, 1):
            self.assertIn((str(number), name), named)


class Tool(Case):
    """./workbench replay, by the model, and by the program where it is built."""

    def test_what_it_gives(self) -> None:
        whole = (DOCS / "pictures" / "philosophers.txt").read_text()
        blocks = rejecting.history_of(whole).decode()
        numbers = "--workers", "4", "--fuel", "20000", "--batch", "8"
        for words, text in (((), whole), (numbers, blocks), (numbers[:2], whole.replace("workers 4", "workers 3"))):
            for by_model in ((), ("--model",)):
                done = run("replay", elf("philosophers"), *words, *by_model, given=text)
                self.assertEqual((done.returncode, done.stdout.decode(), done.stderr.count(b"\n")), (0, whole, 1))
                self.assertEqual(by_model and done.stderr, by_model and b"workbench replay: by the model\n")

    def test_what_is_rejected_or_refused(self) -> None:
        whole = (DOCS / "pictures" / "first.txt").read_text()
        for old, new, line in (("block 3 ", "Block 3 ", "rejected 4 1 Text"), ("block 0 ", "\nblock 0 ", "rejected 1 1 Text"),
                               ("turns 7 ", "turns 8 ", "rejected 1 4 Block"), ("batch 8", "batch 0", None)):
            done = run("replay", elf("first"), given=whole.replace(old, new))
            if line:
                self.assertEqual((done.returncode, done.stdout.decode()), (6, f"{line}\n"))
                self.says(f"workbench replay: line {line.split()[1]} of the history: ", done)
        done = run("replay", saved("none.elf", b"none"), given=whole)
        self.assertEqual((done.returncode, done.stdout), (3, b"refused 1 TooShort\n"))
        for text in (b"tclocks 2\n", b"tclocks 2\nguest threads 2 guards 1\nrun workers 9 fuel 1 batch 0\n"):
            self.one_line(run("replay", elf("first"), given=text), 3)
        self.full("replay", elf("first"), str(DOCS / "pictures" / "first.txt"), lines=2)
