"""What the tools print, and what explain says of chosen blocks, of one block's instructions, of contexts, and
of lines of the source, where the compiler is there; and products and quotients of the model, against values
that come from outside of this repository."""
from __future__ import annotations

import json
import os
import pathlib
import re
import shutil
import subprocess
import unittest
from subprocess import CompletedProcess

from tools.workbench import limits
from tools.workbench.guest import guestfile, made, model, sources
from tools.workbench.judging import explain, legal
from tools.workbench.reports import report
from .common import (COMPILER, FACTS, FINISHED, GUEST, GUESTS, NAMES, ONE, PROFILE, ROOT, TEMPORARY,
                     Case, built, elf, history, process, rows, run, saved, told)


class Explanations(Case):
    def test_refusals(self) -> None:
        """Of files that were cut or changed, and of notes without room."""
        file, full = (GUESTS / "exit.elf").read_bytes(), built(ONE, 17 * (0,), 32)
        self.assertEqual((len(file), guestfile.refusal(full)), (92, None))
        cut = (0, 1), (51, 1), (52, 7), (83, 7), (84, 9), (91, 9)
        changed = ((int(at), bytes.fromhex(value), int(number)) for at, value, number in rows("refusals"))
        for other, number in (*((file[:size], number) for size, number in cut), (file + bytes(1048577 - 92), 0),
                              *((file[:at] + value + file[at + len(value):], number) for at, value, number in changed),
                              *((full[:168] + value + full[169:], 12) for value in (b"\1", b"\3")),
                              (built(ONE, 33 * (0,), 1), 12), (built(ONE, (0,), 33), 12)):
            self.assertEqual(getattr(guestfile.refusal(other), "number", None), number, other[:200])

    def test_file_cut_short_says_so(self) -> None:
        path = saved("short.elf", (GUESTS / "first.elf").read_bytes()[:200])
        self.one_line(run("judge", path), 3)
        said = self.well("explain", path, "-", given="refused 9 BadLoad\n")
        self.assertIn("the file has 200 bytes: 96 are missing, so it may be cut short", said)

    def test_faults(self) -> None:
        known, text = FACTS["faults"], run("simulate", elf("faults"), "1", "1000", "0").stdout
        said = run("explain", elf("faults"), "-", given=text).stdout.decode()
        for thread, (end, pc) in enumerate(zip(known["ends"], known["pc"])):
            line = re.search(f"^  thread {thread}: (.*)$", said, re.M)[1]  # type: ignore[index]
            self.assertTrue(line.startswith(end), line)
            self.assertIn(f"{pc:08x}", line)
        for part in ("in guard 0 (00100000 to 00100003), and lock 0 isn't held", "x17 is 64",
                     "UNLOCK 5: the locks are 0 to 4", "SLEEP of x10 = 256",
                     "LOCK 4 with four locks held (0,2,3,4)", "goes to 0001001a"):
            self.assertIn(part, said)

    def test_a_rejected_history(self) -> None:
        parts = "no block line|no such thread|another one has|its turns|batch limit|no such worker|has not ended"
        for number, part in enumerate(parts.split("|"), 1):
            line = f"rejected 12 {number} {limits.REASONS[number - 1]}\n"
            said = self.well("explain", elf("first"), "-", given=line)
            self.assertRegex(said, f"line 12 of the history: .*{part}")


class Tables(Case):
    def test_summary(self) -> None:
        text = FINISHED
        counts = json.loads(run("summary", "-", "--json", given=text).stdout)
        self.assertEqual(counts["by_lock"], [{
            "lock": 0, "sections": 2, "taken": 1, "adopted": 1, "granted": 0, "longest": 1, "changes": 0, "home": 1,
            "away": 1, "waiting": 0, "longest_wait": 0, "fairness": 1.0, "turns": 14, "broken": 0}])
        self.assertEqual([(row["blocks"], row["turns"], row["moves"], row["end"]) for row in counts["by_thread"]],
                         [(3, 12, 0, "exit"), (3, 12, 2, "exit")])
        self.assertEqual([(row["blocks"], row["turns"]) for row in counts["by_worker"]], [(4, 19), (2, 5)])
        self.assertEqual({name: counts[name] for name in ("workers", "fuel", "batch")},
                         {"workers": 2, "fuel": 100, "batch": 4})
        self.says("\n2,100,4,lock,0,adopted,1\n", run("summary", "-", "--csv", given=text))
        self.assertEqual(self.well("summary", "-", "--profile", given=text), PROFILE)

    def test_one_worker_moves_nothing(self) -> None:
        """Two locks, held together, by one thread: five blocks of 2, 3, 4, 3 and 2 turns."""
        code = made.code("LOCK 0; LOCK 1; UNLOCK 0; UNLOCK 1; EXIT")
        text = run("simulate", saved("paper.elf", built(code, (0,), 2)), "1", "100", "4").stdout
        lock = "lock {} sections 1 taken 1 adopted 0 granted 0 longest 0 changes 0 home 0\n"
        self.assertEqual(self.well("summary - --profile", given=text), "tclocks profile 1\n" + lock.format(0)
                         + lock.format(1) + "thread 0 blocks 5 turns 14 moves 0\nend\n")

    def test_changes_are_counted_from_the_second_section(self) -> None:
        """A lock's first section changes nothing, whatever stands before it, as in a report that is not legal."""
        blocks = "thread 0 turns 1 held 0 kind on worker", "thread 1 turns 1 held 0 kind taken worker"
        text = "tclocks 2\nguest threads 2 guards 1\nrun workers 3 fuel 9 batch 0\n" + "".join(
            f"block {number} {block} {number} pc 00100000 end slept\n"
            for number, block in enumerate((*blocks, blocks[1].replace("thread 1", "thread 0"))))
        lock = json.loads(run("summary", "-", "--json", given=text).stdout)["by_lock"][0]
        self.assertEqual([lock[name] for name in ("sections", "taken", "changes", "home")], [2, 2, 1, 1])

    def test_waiting_and_changes_on_paper(self) -> None:
        """Three threads come to their LOCK, and the sections stand 0, 2, 1: thread 1 waits three blocks,
        thread 2 one. The lock goes from worker 0 to 1 and back to 0; at home it would be so too, but that
        worker 2 ran thread 1 to its LOCK: 0, 1, 2."""
        lines = told("three")
        text = run("finish", saved("three.elf", built(ONE, (0, 0, 0), 1)), given=lines).stdout
        counts = json.loads(run("summary", "-", "--json", given=text).stdout)
        lock = counts["by_lock"][0]
        self.assertEqual([lock[name] for name in ("sections", "taken", "changes", "home", "waiting", "longest_wait")],
                         [3, 3, 2, 2, 2 + 3 + 1, 3])
        self.assertEqual(lock["fairness"], round((2 + 3 + 1)**2 / (3 * (4 + 9 + 1)), 3))
        self.assertEqual([(row["waiting"], row["longest_wait"]) for row in counts["by_thread"]], [(2, 2), (3, 3), (1, 1)])

    def test_draw_by_hand(self) -> None:
        lanes = run("draw", "-", "--text", given=FINISHED).stdout.decode()
        self.assertIn(told("lanes"), lanes)

    def test_each_tool_on_each_guest(self) -> None:
        for name in NAMES:
            path = saved(f"{name}.txt", run("simulate", elf(name), "3", "600", "2", "--seed", "5").stdout)
            for tool in "summary", "draw", "draw --text", "draw --trace":
                self.well(tool, path)
            for tool in "explain", "judge", "finish":
                self.well(tool, elf(name), path)
            for tool in "explain", "explore --runs 2 --model --fuel 600":
                self.well(tool, elf(name))

    def test_explore_keeps_a_history_of_each_outcome(self) -> None:
        folder = TEMPORARY / "outcomes"
        self.one_line(run("explore", elf("buffer"), "--runs", "6", "--model", "--keep", str(folder)), 0)
        for path in folder.iterdir():
            self.says("a legal run", run("judge", elf("buffer"), str(path)))


VECTORS = ROOT / "crates" / "vectors" / "stdin"
HEADING = "x6,x7,mul,mulh,mulhsu,mulhu,div,divu,rem,remu"


class Values(unittest.TestCase):
    def test_products_and_quotients(self) -> None:
        pairs = VECTORS.read_text().partition(f"{HEADING}\n")[2].splitlines()
        self.assertEqual(len(pairs), 220)
        for line in pairs:
            a, b, *values = (int(value, 16) for value in line.split(","))
            for name, value in zip(HEADING.split(",")[2:], values):
                self.assertEqual(model.OPERATIONS[name](a, b) % 2**32, value, f"{name} of {a:08x} and {b:08x}")


def explained(*words: str, given: bytes = FINISHED) -> CompletedProcess[bytes]:
    return run("explain", GUEST, "-", *words, given=given)


def stamps(done: CompletedProcess[bytes]) -> list[int]:
    return list(map(int, re.findall(r"^block (\d+) ", done.stdout.decode(), re.M)))


class Explained(Case):
    """What explain says of chosen blocks, of a block's turns, and of contexts."""

    def test_blocks_that_are_chosen(self) -> None:
        for words, wanted in (((), [0, 1, 2, 3, 4, 5]), (("--thread", "1"), [2, 3, 5]), (("--lock", "0"), [0, 1, 2, 3]),
                              (("--block", "1-3"), [1, 2, 3]), (("--block", "4"), [4]),
                              (("--thread", "1", "--lock", "0", "--block", "0-2"), [2])):
            done = explained(*words)
            self.assertEqual((done.returncode, done.stderr, stamps(done)), (0, b"", wanted), words)

    def test_a_section_on_paper(self) -> None:
        """Block 3 is the section of thread 1: it finds 1, which thread 0 left, and leaves 2."""
        done = explained("--trace", "3")
        self.assertEqual((done.returncode, stamps(done)), (0, [3]))
        turns = re.findall(r"^ +(\d+)  ([0-9a-f]{8}) (.*)$", done.stdout.decode(), re.M)
        self.assertEqual([(int(turn), address) for turn, address, _ in turns],
                         [(turn, f"{0x100008 + 4 * turn:08x}") for turn in range(1, 8)])
        said = [re.sub(" +", " ", text) for _, _, text in turns]
        self.assertEqual(said, told("section").splitlines())

    def test_the_rest_is_as_without(self) -> None:
        whole, traced = explained().stdout.splitlines(), explained("--trace", "3", "--block", "0-5").stdout.splitlines()
        self.assertEqual([line for line in traced if line in whole], whole)

    def test_each_block_has_as_many_lines_as_turns(self) -> None:
        for name in ("philosophers", "broken", "faults"):
            file, blocks = guestfile.load(elf(name)), history(name, 2, 2, 1, fuel=60)
            run_ = legal.begin(file.guest, report.Report(blocks[1].splitlines(keepends=True)))
            lines = sources.load(elf(name), file)
            for block in blocks[0][:25]:
                said = list(explain.trace(run_, file, lines, block.thread))
                self.assertEqual(len(said), block.turns + 1, (name, block))
                run_.follow(block)

    def test_hand_overs_on_paper(self) -> None:
        """Thread 1 has set t0, a0, a7 and has a1 (its number) and sp when it comes to its LOCK with worker 1;
        worker 0 runs its section, which sets t2, and worker 1 goes on."""
        said = explained("--contexts").stdout.decode()
        moved = re.findall(r"^(?:  )?(context of .*|lock 0, .*|In all .*)$", said, re.M)
        self.assertEqual(moved, told("contexts").splitlines())

    def test_nested_locks_are_in_the_package(self) -> None:
        text = history("philosophers", 4, 8, 1)[1]
        said = self.well("explain", elf("philosophers"), "-", "--contexts", given=text)
        self.assertRegex(said, r"context of thread \d .*, \d+ bytes of stack in use.*; in its package lock \d, 8 bytes")


def with_debug_data() -> pathlib.Path:
    """first.c, built with debug data in a folder of its own."""
    folder = TEMPORARY / "debug"
    folder.mkdir(exist_ok=True)
    shutil.copy(GUESTS / "first.c", folder)
    subprocess.run(["make", "-s", "-B", "-f", GUESTS / "kit" / "guest.mk", "MARCH=rv32i", "first.elf", "DEBUG=-g"], cwd=folder, check=True)
    return folder / "first.elf"


class Without(Case):
    def test_files_without_debug_data(self) -> None:
        for name in ("first", "exit"):
            found = sources.load(elf(name), guestfile.load(elf(name)))
            self.assertEqual((found.trouble, found.frames, found.text(0x10000)), ("", {}, ""))

    def test_sources_that_are_none(self) -> None:
        folder = TEMPORARY / "none"
        folder.mkdir()
        os.mkfifo(folder / "fifo.c")
        (folder / "folder.c").mkdir()
        for name in "fifo.c", "folder.c", "none.c":
            self.assertEqual(sources.lines_of(folder / name), [])
        self.assertEqual(sources.printable("m\x1b.c"), "m?.c")


@unittest.skipUnless(COMPILER, "the compiler is not there")
class OfTheCompiler(Case):
    def test_lines_are_those_of_the_source(self) -> None:
        path = with_debug_data()
        found = sources.load(str(path), guestfile.load(str(path)))
        self.assertEqual(found.text(0x10028), "first.c:12 total.sum += argument;")
        told = process("riscv64-unknown-elf-objdump", "--dwarf=decodedline", path).stdout.decode()
        last = {int(address, 16): (name, line) for name, line, address in
                re.findall(r"^(\S+) +(\d+|-) +0x([0-9a-f]+)", told, re.M)}
        lines = {address: (name, int(line)) for address, (name, line) in last.items() if line.isdigit() and name.endswith(".c")}
        self.assertGreater(len(lines), 5)
        for address, place in lines.items():
            self.assertIn(place, found.frames[address])

    def test_explain_and_the_page_say_them(self) -> None:
        path = with_debug_data()
        report = run("simulate", path, "1", "1000", "0").stdout
        self.says("first.c:12 total.sum += argument;", run("explain", path, "-", "--trace", "1", given=report))
        self.says("first.c:", run("draw", "-", "--page", "--guest", path, given=report))

    def test_without_a_reader(self) -> None:
        path = with_debug_data()
        report = run("simulate", path, "1", "1000", "0").stdout
        bare = TEMPORARY / "bare"
        bare.mkdir()
        for name in ("sh", "python3", "readlink"):
            (bare / name).symlink_to(shutil.which(name) or "/none")
        done = process(ROOT / "workbench", "explain", path, "-", input=report, env={"PATH": str(bare)})
        self.one_line(done, 0, "is on the PATH to read it")
