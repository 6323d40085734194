"""The package as a whole: its subcommands, its types, the grammar of Python 3.8, what stands in guests/; how
long work shows where it is; wrong uses of each tool, reports that were cut, and one of 100 MB: one line each,
and no traceback. And the scripts that check the program and write facts.json, as far as they need no program:
what they draw, and what they find wrong."""
from __future__ import annotations

import ast
import collections
import contextlib
import io
import json
import os
import pty
import random
import re
import shlex
import subprocess
import sys
from typing import Any, Callable
from unittest import mock

from tools.workbench import command, limits, progress
from tools.workbench.benches import guests
from tools.workbench.checking import check, endure, facts, fuzz, refuse
from tools.workbench.guest import elf32, guestfile, made, model, rv32im
from tools.workbench.judging import rejecting
from tools.workbench.reports import report, spoil
from tools.workbench.running import delegation, program
from .common import (BY_HAND, FACTS, GUESTS, NAMES, ONE, ROOT, TEMPORARY, Case, built, elf, history, process, rows, run,
                     saved)


FILES = [*sorted((ROOT / "tools").rglob("*.py")), ROOT / "workbench.py", ROOT / "tclocks-build"]


class Package(Case):
    def test_each_function_has_types_and_none_changes_the_path(self) -> None:
        for path in FILES:
            text = path.read_text()
            tree = ast.parse(text, str(path), feature_version=(3, 8))
            if path.name != "test_package.py":
                self.assertNotIn("sys.path", text, path)
            for node in ast.walk(tree):
                if isinstance(node, ast.FunctionDef):
                    arguments = [*node.args.args, *node.args.kwonlyargs]
                    untyped = [one.arg for one in arguments if one.annotation is None and one.arg not in ("self", "cls")]
                    self.assertEqual((node.returns is None, untyped), (False, []), f"{path}: {node.name}")

    def test_guests_has_guests_and_little_else(self) -> None:
        entries = sorted(GUESTS.iterdir())
        self.assertLessEqual(len([path for path in entries if path.name != "out"]), 40)
        for path in entries:
            self.assertTrue(path.suffix in (".c", ".S", ".elf")
                            or path.name in ("facts.json", "Makefile", "README.md", "kit", "course", "out"), path)

    def test_help_lists_each_subcommand_with_a_line(self) -> None:
        for words in ("--help",), ("-h",), ("help",):
            done = run(words[0])
            self.assertEqual((done.returncode, done.stderr), (0, b""))
            for one in command.EVERY.values():
                self.assertRegex(done.stdout.decode(), rf"(?m)^  {one.name} +\S.{{10,}}$")
        self.assertEqual(process(sys.executable, "-m", "workbench", "--help", cwd=ROOT).stdout, done.stdout)

    def test_wrong_words(self) -> None:
        for words, part in rows("wrong-words"):
            self.one_line(process(ROOT / "workbench", *words.split()), 1, part)


class Shown(Case):
    def test_the_line(self) -> None:
        work = progress.Progress("fuzz", "guests", 1000)
        self.assertEqual(work.text(0), "workbench fuzz: 0 of 1,000 guests")
        work.done = 250
        self.assertEqual(work.text(50), "workbench fuzz: 250 of 1,000 guests, 5 a second, 2:30 left")
        work.total = None
        self.assertEqual(work.text(500), "workbench fuzz: 250 guests, 0.5 a second")
        self.assertEqual([progress.clock(seconds) for seconds in (7, 3700, 10**6)], ["0:07", "1:01:40", "12 days"])
        self.assertEqual([progress.number(value) for value in (0.25, 12.7, 123456, 2.5e12)], ["0.25", "13", "123,456", "2.5e+12"])

    def test_an_interrupt_ends_the_work_and_is_kept(self) -> None:
        with progress.Progress("fuzz", "guests") as work:
            work.reach(1)
            raise KeyboardInterrupt
        self.assertEqual((work.done, work.interrupted), (1, True))
        self.assertRaises(KeyboardInterrupt, work.end)

    def test_on_a_terminal_alone(self) -> None:
        words = [sys.executable, str(ROOT / "workbench.py"), "sweep", elf("first"), "--model", "--runs", "2"]
        done = process(*words)
        self.assertEqual((done.returncode, done.stderr), (0, b""))
        here, there = pty.openpty()
        again = subprocess.run(words, stdout=subprocess.PIPE, stderr=there, check=False)
        os.close(there)
        said = os.read(here, 65536)
        os.close(here)
        self.assertEqual(again.stdout, done.stdout)
        self.assertIn(b"workbench sweep: 0 of 32 runs", said)
        self.assertTrue(said.endswith(b"\r\x1b[K"), said)


class WrongUses(Case):
    WORDS: dict[str, list[str]] = {"judge": [elf("first")], "summary": [], "draw": [], "explain": [elf("first")],
             "finish": [elf("first")], "explore": [], "simulate": []}
    TOOLS = ("judge", "summary", "draw", "explain", "finish")

    def used(self, line: str) -> subprocess.CompletedProcess[bytes]:
        """Runs a tool by a line of words, in this checkout."""
        return run(*(re.sub("^(guests|docs)/", rf"{ROOT}/\1/", word) for word in shlex.split(line)))

    def test_each_is_answered_by_one_line(self) -> None:
        for line in re.findall("(?m)^[^#].*", (ROOT / "tools" / "tests" / "wrong-uses.txt").read_text()):
            with self.subTest(line=line):
                done = self.used(line[2:])
                self.one_line(done, int(line[0]))
                self.assertRegex(done.stderr.decode(), f"^workbench {line.split()[1]}")
                self.assertEqual(done.stdout, b"")

    def test_what_right_ones_print(self) -> None:
        for status, line, *texts in rows("uses"):
            with self.subTest(line=line):
                done = self.used(line)
                self.assertEqual(done.returncode, int(status))
                for text in texts:
                    self.says(text, done)

    def test_standard_input_is_a_folder_or_closed(self) -> None:
        for tool in self.TOOLS:
            for how in "<&-", "< /":
                words = f'"$0" "$@" {how}', ROOT / "workbench", tool, *self.WORDS[tool], "-"
                self.one_line(process("sh", "-c", *words), 2)

    def test_output_that_fails(self) -> None:
        _, text = history("sleepers", 4, 8, 1)
        path = saved("sleepers.txt", text)
        uses = {"summary": [path], "draw": [path], "explain": [elf("sleepers"), path],
                "finish": [elf("sleepers"), path], "judge": [elf("sleepers"), path],
                "simulate": [elf("sleepers"), "1", "20000", "0"], "explore": [elf("first"), "--runs", "2", "--model"]}
        for tool, words in uses.items():
            self.full(tool, *words)
            self.one_line(process("sh", "-c", '"$0" "$@" >&-', ROOT / "workbench", tool, *words), 4)
        for tool in ("draw", "explain", "finish", "simulate"):
            command_ = [str(ROOT / "workbench"), tool, *uses[tool]]
            with subprocess.Popen(command_, stdout=subprocess.PIPE, stderr=subprocess.PIPE) as piped:
                piped.stdout.close()  # type: ignore[union-attr]
                said = piped.stderr.read()  # type: ignore[union-attr]
            self.assertEqual((piped.returncode, said.count(b"\n")), (4, 1), said)

    def test_another_answer_in_the_place_of_a_report(self) -> None:
        """A refusal, a rejection or the usage line, which are said; a summary or a profile."""
        for line in ("refused 9 BadLoad", "rejected 12 3 Owner", "refused 17 ShortInput", limits.USAGE):
            for tool in ("judge", "summary", "draw"):
                self.one_line(run(tool, *self.WORDS[tool], "-", given=line + "\n"), 3, line)
        for line in "tclocks demo 3", "tclocks profile 1":
            for tool in self.TOOLS[:-1]:
                self.one_line(run(tool, *self.WORDS[tool], "-", given=f"{line}\nend\n"), 3)

    def test_numbers_that_the_program_refuses(self) -> None:
        for words in ("0 fuel 9 batch 0", "9 fuel 9 batch 0", "1 fuel 65537 batch 0", "1 fuel 9 batch 257",
                      "01 fuel 9 batch 0", "1 fuel +9 batch 0"):
            text = f"tclocks 2\nguest threads 2 guards 1\nrun workers {words}\n"
            self.one_line(run("judge", elf("first"), given=text), 3)

    def test_noise(self) -> None:
        for tool in self.TOOLS:
            for noise in (b"", b"\0" * 1000, bytes(range(256)) * 50, b"tclocks 2\n" * 9, b"\n" * 9):
                self.quiet(run(tool, *self.WORDS[tool], "-", given=noise), 5 if tool == "finish" else 1)

    def test_cut_in_the_middle(self) -> None:
        _, text = history("philosophers", 3, 2, 4, fuel=300)
        for size in range(0, len(text) - 1, len(text) // 11):
            cut = saved("cut.txt", text[:size])
            for tool, words in (("summary", [cut]), ("draw", [cut]), ("judge", [elf("philosophers"), cut]),
                                ("explain", [elf("philosophers"), cut])):
                done = run(tool, *words)
                self.quiet(done, 1)
                self.assertIn(done.returncode, (0, 3))

    def quiet(self, done: subprocess.CompletedProcess[bytes], most: int) -> None:
        """It says no more lines than this, and no traceback."""
        self.assertNotIn(b"Traceback", done.stderr)
        self.assertLessEqual(done.stderr.count(b"\n"), most)

    def test_hundred_megabytes(self) -> None:
        """Counted; and a quarter of them drawn."""
        path, part, blocks = TEMPORARY / "large.txt", TEMPORARY / "part.txt", 1_040_000
        for file, most in (path, blocks), (part, blocks // 4):
            with open(file, "w") as written:
                written.write("tclocks 2\nguest threads 16 guards 16\nrun workers 8 fuel 65536 batch 256\n")
                written.writelines(f"block {stamp} thread {stamp % 16} turns 4096 held 12,13,14,15 kind adopted worker {stamp % 8} "
                                   "pc 00100000 end unlocked 15\n" for stamp in range(most))
        self.assertGreater(path.stat().st_size, 100_000_000)
        both = [subprocess.Popen([ROOT / "workbench", *words], stdout=subprocess.PIPE, stderr=subprocess.DEVNULL)
                for words in (("summary", str(path), "--json"), ("draw", str(part)))]
        summary, picture = (tool.communicate()[0] for tool in both)
        self.assertEqual(json.loads(summary)["by_lock"][15]["adopted"], blocks)
        self.assertIn(b"too many to draw each", picture)
        self.assertLess(len(picture), 20_000_000)
        path.unlink()


class Checks(Case):
    def test_help_has_no_effect(self) -> None:
        before = {path: path.stat().st_mtime_ns for path in (*GUESTS.rglob("*"), *(ROOT / "tools").rglob("*"))
                  if path.is_file() and "__pycache__" not in path.parts}
        for name in command.EVERY:
            self.assertTrue(self.well(name, "--help").startswith(f"usage: workbench {name} "), name)
        self.assertEqual({path: path.stat().st_mtime_ns for path in before}, before)

    def test_without_a_program(self) -> None:
        for words in "check first", "fuzz 1", "refuse", "endure 1":
            self.one_line(run(words, by="/no/such/file"), 2, "the program isn't built")

    def test_guests_that_are_drawn(self) -> None:
        """Each is a guest, and each damaged copy is one or is refused."""
        draw = fuzz.Draw(7)
        numbers = set()
        for _ in range(60):
            file = draw.guest()
            guestfile.GuestFile(file)
            for kind in fuzz.KINDS:
                try:
                    guestfile.GuestFile(kind(draw, file))
                except guestfile.Refused as refused:
                    numbers.add(refused.number)
        self.assertGreater(len(numbers), 8)

    def test_the_largest_guest(self) -> None:
        file = endure.sleeping(32)
        guestfile.GuestFile(file)
        self.assertEqual(sum(header.memory for header in elf32.headers(file) if header.type == elf32.LOAD),
                         limits.FILE_BYTES)

    def test_what_refuse_calls_wrong(self) -> None:
        file = built(ONE, (0, 0), 1)
        text = run("finish", saved("one.elf", file), given=BY_HAND).stdout
        case = refuse.Case("a report", (), file, 0, None)
        ended = refuse.Ended(0, text, b"", 9, 0, 2)
        self.assertIsNone(refuse.wrong_in(case, ended, 2))
        self.assertIsNone(refuse.wrong_in(case, ended._replace(status=5, written=b"", refused=1), 2))
        for other, part in ((ended._replace(kept=3), "not given back"), (ended._replace(said=b"no"), "said"),
                            (ended._replace(status=5), "status 5"), (ended._replace(written=text[:-1]), "written"),
                            (ended._replace(status=5, written=b""), "status 5"),
                            (ended._replace(kept=None), "ended")):  # type: ignore[arg-type]
            self.assertIn(part, str(refuse.wrong_in(case, other, 2)))

    def test_facts_are_computed_without_the_guest(self) -> None:
        for name in set(NAMES) - {"exit"}:
            for key, value in getattr(facts, name)().items():
                self.assertEqual(value, FACTS[name][key], (name, key))

    def test_a_fact_that_does_not_hold_is_found(self) -> None:
        known = FACTS["first"]
        machine = facts.run(model.Guest((GUESTS / "first.elf").read_bytes()), random.Random(1))
        check.check_facts(known, machine, check.AMPLE)
        for key, value in (("x10", [5, 8]), ("sections", [7]), ("ends", ["exit", "spent"]), ("turns", [51, 50])):
            with self.assertRaises(report.Wrong):
                check.check_facts({**known, key: value}, machine, check.AMPLE)  # type: ignore[dict-item]

    def test_runs_of_several_workers_and_with_adopted_sections_are_counted(self) -> None:
        alone = BY_HAND.replace(" worker 1 ", " worker 0 ")
        shown = check.Shown()
        shown.add(alone.replace("kind adopted", "kind taken"))
        self.assertEqual(shown.missing(), "one worker alone ran in each of 1 run")
        shown.add(BY_HAND.replace("kind adopted", "kind granted"))
        self.assertEqual(shown.missing(), "no section was adopted in 2 runs")
        shown.add(BY_HAND)
        self.assertIsNone(shown.missing())
        shown.add(alone + alone)
        self.assertEqual(str(shown), "4 runs, 2 by two workers or more, 2 with adopted sections (3 of them)")

    def test_a_contended_guest_must_show_delegation(self) -> None:
        text = history("counter", 1, 8, None)[1]
        said = io.StringIO()
        with mock.patch.object(rejecting, "give_back", lambda *_: ()), contextlib.redirect_stdout(said), \
                mock.patch.object(check, "check_run", lambda *_: text):
            passed = [check.check(name, FACTS[name])[0] for name in ("counter", "first")]
        self.assertEqual(passed, [False, True])
        self.assertEqual(said.getvalue(), "counter: FAILED: one worker alone ran in each of 125 runs\n"
                         "first: passed, 25 runs, 0 by two workers or more, 0 with adopted sections (0 of them)\n")

    def checked(self, of_nodes: Callable[..., Any] = lambda text: (0, text),
                of_history: Callable[..., Any] = lambda form,
                answer: answer) -> tuple[bool, str, collections.Counter[str]]:
        """Checks the guest first by a program that is made up: it answers by the model, and in the place of that what
        is given, of runs by nodes and of histories."""
        def answer(words: tuple[Any, ...], file: bytes) -> tuple[int, str]:
            if words[0] in ("replay", "profile"):
                return of_history(words[0], rejecting.Given(words[1], words[2:], file).answer(words[0]))  # type: ignore[no-any-return]
            nodes, bound = words[1:-3] or (0, 0)
            workers, fuel, batch = words[-3:]
            run_, blocks = delegation.delegated(model.Guest(file), fuel, workers, batch, 5, nodes=nodes, bound=bound)
            text = "\n".join(run_.lines(blocks)) + "\n"
            return of_nodes(text) if words[0] == "nodes" else (0, text)  # type: ignore[no-any-return]
        with mock.patch.object(program, "run", answer), mock.patch.object(program, "keep", lambda name, _: f"out/{name}"), \
                contextlib.redirect_stdout(io.StringIO()) as said:
            passed, answers = check.check("first", FACTS["first"])
        return passed, said.getvalue(), answers

    def test_a_run_by_nodes_is_judged_as_a_run(self) -> None:
        passed, said, answers = self.checked()
        self.assertTrue(passed and said.startswith("first: passed, 25 runs, "), said)
        self.assertEqual(sum(answers.values()), 7 * len(spoil.FORMS))
        self.assertGreaterEqual(len(answers), len(limits.REASONS) - 1)  # but Owner: its sections are one block each
        for of_nodes, wrong in ((lambda text: (1, ""), "status 1, ''"),
                                (lambda text: (0, text.replace("workers 4 ", "workers 3 ")), "the report is of another run"),
                                (lambda text: (0, text.replace(" kind taken ", " kind granted ", 1)), "its kind is granted"),
                                (lambda text: (0, text.replace(" exit ", " spent ", 1)), "")):
            passed, said, _ = self.checked(of_nodes)
            self.assertFalse(passed)
            self.assertRegex(said, rf"^first: FAILED: nodes 2 4 4 20000 8: .*{wrong}")

    def test_wrong_answers_to_histories_are_found(self) -> None:
        def changed(of_form: str, old: str, new: str) -> Callable[..., Any]:
            return lambda form, answer: (answer[0], answer[1].replace(old, new, form == of_form))
        for of_history, wrong in ((lambda form, answer: (1, ""), "replay answers \"status 1, ''\", and not "),
                                  (lambda form, answer: (answer[0], answer[1] * 2), "replay answers 'tclocks 2', and not None"),
                                  (changed("replay", "\nend\n", "\n"), "replay answers None, and not 'end'"),
                                  (changed("profile", " home ", " home 1"), "profile answers 'lock 0 .* home 1.*', and not 'lock 0 .*"),
                                  (changed("replay", "rejected ", "rejected 1"), r"replay answers .*rejected 1\d+ .* and not "),
                                  (changed("profile", " Block", " Kind"), r"profile answers .*rejected \d+ 4 Kind.* and not .*Block"),
                                  (lambda form, answer: (0, "tclocks 2\n") if answer[0] else answer, "replay answers .*tclocks 2.*, and not .*status 6")):
            passed, said, _ = self.checked(of_history=of_history)  # type: ignore[arg-type]
            self.assertFalse(passed)
            self.assertRegex(said, rf"^first: FAILED: run 1 20000 0: {wrong}.*to the history in out/check-first.txt\n$")

    def test_each_reason_must_come(self) -> None:
        answers = collections.Counter({reason: 1 for reason in limits.REASONS})
        for missing in (None, *limits.REASONS):
            with contextlib.redirect_stdout(io.StringIO()) as said:
                self.assertEqual(check.check_reasons(answers - collections.Counter([missing])), missing is None)  # type: ignore[list-item]
            self.assertIn("passed, 1 Text, 1 Thread" if missing is None else f"FAILED: none is rejected for {missing}", said.getvalue())


class Bytes(Case):
    def test_the_smallest_guest_is_written_as_it_stands(self) -> None:
        """exit.elf was written out by hand."""
        file = (GUESTS / "exit.elf").read_bytes()
        load, = elf32.headers(file)
        self.assertEqual(len(file), 92)
        self.assertEqual([rv32im.text(elf32.word(load.content(file), at)) for at in (0, 4)], ["li a7,93", "ecall"])

    def test_written_files_are_read_again(self) -> None:
        note = elf32.note([(made.CODE, 7), (made.CODE + 4, 8)], [(made.DATA, 4)])
        guest = guestfile.GuestFile(made.elf(note, made.call(limits.EXIT, 3), b"\1\2", 8)).guest
        self.assertEqual((guest.entries, guest.guards), ([(made.CODE, 7), (made.CODE + 4, 8)], [(made.DATA, 4)]))
        self.assertEqual([(place.start, len(place), flags, content) for place, flags, content in guest.ranges],
                         [(made.CODE, 12, 5, bytes.fromhex("130530009308d00573000000")),
                          (made.DATA, 8, 6, bytes((1, 2, 0, 0, 0, 0, 0, 0)))])

    def test_words_are_read_as_they_are_made(self) -> None:
        for word, made_of, text in rows("instructions"):
            name, *operands = made_of.split()
            self.assertEqual(rv32im.encode(name, *map(int, operands)), int(word, 16), made_of)
            self.assertEqual(rv32im.text(int(word, 16), 0x00100028), text)
        for none in (0, 0xFFFFFFFF, 0x00002067, 0x0000A0F3, 0x04000033):
            self.assertIsNone(rv32im.decode(none))

    def test_a_report_is_written_as_it_is_read(self) -> None:
        _, text = history("philosophers", 4, 8, 1)
        read = report.Report(text.splitlines(keepends=True))
        lines = [block.line() for block in read.blocks()]
        read.ends()
        lines = report.header_lines(read.threads, read.guards, read.workers, read.fuel, read.batch) + lines
        lines += report.ending_lines(read.thread_ends, read.lock_ends)
        self.assertEqual("\n".join(lines) + "\n", text)

    def test_guests_of_the_bench(self) -> None:
        for name, make in guests.GUESTS.items():
            file = guestfile.GuestFile(make())
            self.assertEqual(len(file.guest.entries), 32 if name == "longest-history" else 16, name)
