"""The scripts that measure, by a program that is made up; sweeps: their table against simulate and summary,
and their pictures; and orders of a lock's waiters: by hand, and against the numbers of sweep."""
from __future__ import annotations

import csv
import json
import pathlib
import re
import shutil
import sys
import unittest
import xml.etree.ElementTree
from typing import Any
from unittest import mock

from tools.workbench.benches import guests
from tools.workbench.guest import guestfile
from tools.workbench.running import delegation, orders, program
from .common import GUEST, GUESTS, MADE_UP, NAMES, ROOT, TEMPORARY, Case, elf, process, run, saved, script, served


BENCHES = {"run": (), "nodes": ("4", "100", "8"), "replay": (), "peer": (), "several": (), "together": ()}
PROGRAM = script("measured", MADE_UP)
COUNTER = guestfile.load(elf("counter")).guest
QUICK = "--workers 1 --batch 0 --runs 1 --model"
COMPILER = unittest.skipUnless(shutil.which("cc"), "there is no C compiler")


class Bench(Case):
    def table(self, name: str, *words: str, status: int = 0) -> tuple[list[list[str]], list[str]]:
        """The cells of a table's lines, and the lines behind it."""
        done = run(f"bench {name}", "-p", PROGRAM, *words)
        self.assertEqual((done.returncode, done.stderr), (status, b""), done.stdout)
        lines = done.stdout.decode().splitlines()
        return ([[cell.strip() for cell in line.split("|")[1:-1]] for line in lines if line.startswith("|")],
                [line for line in lines if line and not line.startswith("|")])

    def test_the_folder_of_guests_is_made(self) -> None:
        folder = TEMPORARY / "some" / "new" / "folder"
        for _ in range(2):
            self.assertEqual(self.well("bench run", "-o", folder, "sleeps", "hot-lock"), "")
        self.assertEqual(sorted(path.name for path in folder.iterdir()), ["hot-lock.elf", "sleeps.elf"])
        for path in folder.iterdir():
            self.assertEqual(len(guestfile.load(str(path)).guest.entries), 16)

    def test_without_the_program(self) -> None:
        for name, words in BENCHES.items():
            self.one_line(run(f"bench {name}", *words, by="/no/such/file"), 2, "./tclocks-build")
            for path in "/no/such/file", "/", __file__:
                done = run(f"bench {name}", *words, "-p", path)
                self.one_line(done, 2, f"workbench bench {name}: {path}: there is no such program")

    def test_nodes(self) -> None:
        """With one seed each order's line has the numbers of its sweep."""
        by = script("orders", f"""#!/bin/sh
if [ "$1" = nodes ]; then orders="--nodes $2 $3"; shift 2; fi
shift
exec {ROOT}/workbench run - "$@" --seed 1 $orders 2>/dev/null
""")
        rows, _ = self.table("nodes", "-p", by, "2", "200", "8", "counter", "hot-lock", "-r", "1")
        self.assertEqual(rows[0], ["Guest", "Words", "Taken", "Adopted", "Granted", "Changes", "Changes of node",
                                   "Other node", "Seconds"])
        words = ["`run`", *(f"`nodes {nodes} {bound}`" for nodes in (1, 2) for bound in (0, 4, 256))]
        self.assertEqual([row[:2] for row in rows[2:]], [[name, word] for name in ("counter", "hot-lock") for word in words])
        asked = "sweep --workers 2 --batch 8 --nodes 0,1,2 --bound 0,4,256 --runs 1 --fuel 200"
        swept = self.well(asked, elf("counter"), by=by)
        names = "taken", "adopted", "granted", "changes", "changes_of_node", "other_node"
        self.assertEqual([row[2:8] for row in rows[2:9]],
                         [[row[name] for name in names] for row in csv.DictReader(swept.splitlines())])

    def test_replay(self) -> None:
        rows, told = self.table("replay", "-f", "13,20", "hot-lock", "longest-history", status=3)
        self.assertEqual([row[0] for row in rows], ["Guest", "---", "hot-lock", "longest-history"])
        self.assertEqual([line.partition(":")[0] for line in told], ["hot-lock", "longest-history"])
        for line in told:
            self.assertIn("prints another report than the run's", line)
        # One worker runs a thread after another: each has its own first block, and then takes and gives the lock.
        text = run("run - 1 20 0 --seed 0", given=guests.GUESTS["hot-lock"]()).stdout.decode()
        history = "".join(line for line in text.splitlines(keepends=True) if line.startswith("block "))
        self.assertEqual(rows[2][1:3], [f"{history.count(chr(10)):,}", f"{len(history):,}"])

    def test_the_table_is_made_of_the_raw_results(self) -> None:
        file = TEMPORARY / "results.json"
        done = self.well("bench replay", "-p", PROGRAM, "-f", "20", "hot-lock", "sleeps", "--results", file)
        self.assertEqual(self.well("bench table", file), done)
        first, *others = [json.loads(line) for line in file.read_text().splitlines()]
        self.assertEqual((first["bench"], first["words"]["guests"]), ("replay", ["hot-lock", "sleeps"]))
        self.assertEqual([one["cells"][0] for one in others], ["hot-lock", "sleeps"])
        self.one_line(run("bench replay", "-p", PROGRAM, "sleeps", "--results", "/proc/none"), 4)
        for text in "", "{}", "[]", "{\"columns\": [3]}", "no":
            self.one_line(run("bench table", saved("wrong.json", text)), 3)

    def test_several(self) -> None:
        rows, told = self.table("several", "-r", "1", "-f", "20", "-w", "2,1", "hot-lock", "own-locks")
        names = (f"{what}, 2 workers to 1 worker" for what in ("Seconds", "Processor", "Clock", "Loop", "Shared loop"))
        self.assertEqual(rows[0], ["Guest", "Seconds: 1 worker", "2 workers", "Processor: 1 worker", "2 workers",
                                   *names, "Rounds"])
        self.assertEqual([(row[0], len(row), row[10]) for row in rows[2:]],
                         [("hot-lock", 11, "1 of 1"), ("own-locks", 11, "1 of 1")])
        self.assertEqual([[bool(cell) for cell in row[7:10]] for row in rows[2:]], [[bool(shutil.which("cc"))] * 3] * 2)
        self.assertEqual(len(told), 1)
        self.assertIn("least of 1, 2 workers to 1 worker", told[0])
        rows, told = self.table("several", "-m", "-r", "3", "-f", "20", "-w", "1,2", "hot-lock")
        self.assertEqual([(row[0], row[10]) for row in rows[2:]], [("hot-lock", "3 of 3")])
        self.assertIn("median of 3, 2 workers to 1 worker", told[0])

    @COMPILER
    def test_several_in_company_and_where_processors_were_free(self) -> None:
        words = "-r", "1", "-f", "20", "hot-lock"
        for more in ("-e", "-w", "1,3"), ("-q", "1000", "-w", "1,2"):
            self.assertEqual([row[10] for row in self.table("several", *more, *words)[0][2:]], ["1 of 1"])
        # No two threads take less time than one.
        done = run("bench several", "-p", PROGRAM, "-q", "0.01", "-w", "1,2", *words)
        self.one_line(done, 2, "bench several: hot-lock: the processors were not free in one of 30 rounds\n")

    @COMPILER
    def test_together(self) -> None:
        rows, told = self.table("together", "-r", "2", "-w", "2,3", "buffer")
        self.assertEqual([row[:5] for row in rows[2:]], [
            ["buffer", workers, threads, "2", "0" if threads == "none" else "2"]
            for workers in ("2", "3") for threads in ("all", "one", "none")])
        self.assertEqual([line.partition(" of 4 runs ended with status 0; ")[0] for line in told],
                         [f"Threads of the host: {threads}. All" for threads in ("all", "one", "none")])

    @COMPILER
    def test_together_with_a_program_whose_threads_can_not_be_refused(self) -> None:
        alone = script("alone-program", MADE_UP.replace("range(1, numbers[0])", "()"))
        done = run("bench together", "-p", alone, "-r", "1", "-w", "2", "buffer")
        self.one_line(done, 2, "no thread could be refused")

    @COMPILER
    def test_peer_runs_guests_as_the_model(self) -> None:
        """The model takes the peer's history, and comes to the same report."""
        names = ["own-locks", "nested-locks", "sleeps", "memory"]
        rows, told = self.table("peer", "-r", "1", "-f", "100", *names)
        # 16 threads: 100 turns and a spent one
        self.assertEqual([row[:2] for row in rows[2:]], [[name, "1,616"] for name in names])
        self.assertEqual([line[:24] for line in told], ["Of 4 guests of bench/, t"])
        rows, _ = self.table("peer", "-r", "1", "-f", "20000", "counter", "faults")
        self.assertEqual([row[1] for row in rows[2:]], ["6,848", "62"])

    @COMPILER
    def test_peer_and_another_report(self) -> None:
        _, told = self.table("peer", "-r", "1", "-f", "13", "hot-lock", "sleeps", status=3)
        for name, line in zip(("hot-lock", "sleeps"), told):
            self.assertIn(f"{name}: replay prints another report of the peer's history than the peer", line)

    @COMPILER
    def test_peer_and_together_without_a_compiler(self) -> None:
        for name in "peer", "together":
            words = sys.executable, ROOT / "workbench.py", "bench", name, "-p", PROGRAM
            self.one_line(process(*words, env={"PATH": "/no/such/folder"}), 2, "cc is not on the PATH")

    @COMPILER
    def test_the_peer_refuses(self) -> None:
        peer, file = TEMPORARY / "peer", pathlib.Path(elf("counter")).read_bytes()
        process("cc", "-O2", "-pthread", "-o", peer, ROOT / "tools/workbench/benches/peer.c")
        for given in b"", file[:80], bytes(100):
            done = process(peer, "100", input=given)
            self.assertEqual((done.returncode, done.stdout, done.stderr), (3, b"", b"peer: this is no guest\n"))
        done = process(peer)
        self.assertEqual((done.returncode, done.stderr), (1, b"peer: usage: peer FUEL [history] < GUEST\n"))


def table(done: Any) -> Any:
    return list(csv.DictReader(done.stdout.decode().splitlines()))


def swept(words: str, name: str, *more: str) -> Any:
    """The rows of a sweep of a guest by the model."""
    return table(run(f"sweep --model {words}", elf(name), *more))


class Sweep(Case):
    def test_each_line_is_the_run_of_its_seed(self) -> None:
        rows = swept("--workers 1,4 --batch 0,8 --runs 2 --seed 9", "philosophers")
        self.assertEqual([(row["workers"], row["batch"], row["run"]) for row in rows],
                         [(w, b, r) for w in "14" for b in "08" for r in "12"])
        for row in rows:
            words = row["workers"], row["fuel"], row["batch"], "--seed", row["seed"]
            text = run("simulate", elf("philosophers"), *words).stdout
            locks = json.loads(run("summary", "-", "--json", given=text).stdout)["by_lock"]
            for name in ("sections", "taken", "adopted", "granted", "changes", "home", "away", "waiting"):
                self.assertEqual(int(row[name]), sum(lock[name] for lock in locks), name)
            for name in ("longest", "longest_wait"):
                self.assertEqual(int(row[name]), max(lock[name] for lock in locks), name)
            self.assertEqual((row["guest"], row["by"], row["lock"], row["seconds"]),
                             ("philosophers.elf", "model", "all", ""))
            self.assertEqual(int(row["blocks"]), text.count(b"\nblock "))

    def test_lines(self) -> None:
        """Of standard input, of each lock, and of a guest without locks."""
        done = run(f"sweep {QUICK} -", given=(GUESTS / "first.elf").read_bytes())
        self.assertEqual(done.stdout.replace(b"\n-,", b"\nfirst.elf,"), run(f"sweep {QUICK}", elf("first")).stdout)
        rows = swept("--workers 2 --batch 1 --runs 1 --locks", "philosophers")
        self.assertEqual([(row["lock"], row["sections"]) for row in rows],
                         [(str(lock), "24") for lock in range(5)] + [("5", "60")])
        row, = swept(QUICK, "exit")
        self.assertEqual((row["sections"], row["longest"], row["blocks"], row["turns"]), ("0", "0", "1", "2"))

    def test_what_batch_limits_say(self) -> None:
        """With 0 nothing is adopted; with B no row is longer, and the data stays."""
        rows = {row["batch"]: row for row in swept("--workers 4 --batch 0,1,256 --runs 1", "counter")}
        self.assertEqual((rows["0"]["adopted"], rows["0"]["rows"], rows["1"]["longest"]), ("0", "0", "1"))
        self.assertLessEqual(int(rows["256"]["granted"]), 480 // 257)
        self.assertLess(10 * int(rows["256"]["changes"]), int(rows["0"]["changes"]))

    def test_nodes(self) -> None:
        """With one node nobody is on another one; more nodes than workers are left out; each run is that of run."""
        rows = swept("--workers 2,4 --batch 8 --nodes 0,1,2,4 --bound 0,3 --runs 1", "counter",
                     "--plot", str(TEMPORARY / "nodes.svg"))
        self.assertEqual([(row["workers"], row["nodes"], row["bound"]) for row in rows],
                         [("2", "", "")] + [("2", n, k) for n in "12" for k in "03"]
                         + [("4", "", "")] + [("4", n, k) for n in "124" for k in "03"])
        for row in rows:
            if row["nodes"] in ("", "1"):
                self.assertEqual([row[name] or "0" for name in ("changes_of_node", "other_node")], ["0", "0"])
            if row["nodes"] == row["workers"]:
                self.assertEqual(row["changes_of_node"], row["changes"])
            more = ("--nodes", row["nodes"], row["bound"]) if row["nodes"] else ()
            text = run("run", elf("counter"), row["workers"], row["fuel"], row["batch"], "--seed", row["seed"], *more).stdout
            self.says("a legal run, to the end of every thread", run("judge", elf("counter"), given=text))
            self.assertEqual(row["adopted"], str(text.count(b" kind adopted ")))
        self.assertIn("4 workers, 2 nodes, bound 3", (TEMPORARY / "nodes.svg").read_text())

    def test_whom_a_line_prefers(self) -> None:
        """One waiter of node 1 came before two of node 0, and a worker of node 0 passes the lock on three times."""
        for nodes, bound, wanted in (0, 0, "123"), (2, 0, "123"), (2, 1, "213"), (2, 2, "231"):
            hall = delegation.Hall(COUNTER, 4, 100, 8, 0, nodes=nodes, bound=bound)
            self.assertEqual(served(hall, {1: 3, 2: 2, 3: 0}, ("123", "", "")), wanted, (nodes, bound))

    def test_by_the_program(self) -> None:
        """One that is made up, in the place of the built one."""
        by = script("sweeping", f'#!/bin/sh\n[ "$1" = run ] || exit 1\nshift\nexec {ROOT}/workbench simulate - "$@" --seed 5\n')
        words = ("--workers", "2", "--batch", "8", "--runs", "2", "--fuel", "900")
        by_program = run("sweep", elf("counter"), *words, "--plot", str(TEMPORARY / "seconds.svg"), by=by)
        self.assertEqual(by_program.stderr, b"")
        by_model = table(run("sweep", elf("counter"), *words, "--model", "--seed", "5"))
        for row in table(by_program):
            self.assertEqual((row["by"], row["seed"]), ("program", ""))
            self.assertGreater(float(row["seconds"]), 0)
            self.assertEqual({**row, "by": "model", "seed": "5", "seconds": "", "run": "1"}, by_model[0])
        self.assertIn("Seconds", (TEMPORARY / "seconds.svg").read_text())
        self.one_line(run("sweep", elf("counter"), by=script("failing", "#!/bin/sh\nexit 5\n")), 3)

    def test_each_guest(self) -> None:
        for name in NAMES:
            words = [] if name == "exit" else ["--strips", str(TEMPORARY / f"{name}.svg")]
            words += ["--plot", str(TEMPORARY / f"{name}-plot.svg")]
            done = run("sweep --workers 3 --batch 2 --runs 1 --fuel 600 --model", elf(name), *words)
            self.assertEqual((done.returncode, done.stderr, len(table(done))), (0, b"", 1), name)

    def test_pictures(self) -> None:
        plot, strips = TEMPORARY / "plot.svg", TEMPORARY / "strips.svg"
        for name in ("counter", "philosophers", "first"):
            rows = swept("--workers 1,3 --batch 0,2,256 --runs 2 --sections 100", name, "--plot", str(plot),
                         "--strips", str(strips))
            for path in (plot, strips):
                text = path.read_text()
                xml.etree.ElementTree.fromstring(text)
                self.assertNotIn("<script", text)
            self.assertNotIn("Seconds", plot.read_text())
        moved = re.findall(r"in (\d+) sections the lock changed its worker (\d+) times", strips.read_text())
        self.assertEqual(moved, [(row["sections"], row["changes"]) for row in rows if row["run"] == "1"])
        # The two sections of a guest that counts once are of worker 0 alone.
        run(f"sweep {QUICK}", GUEST, "--strips", strips)
        self.assertIn("worker 0: 2 of these sections, in 1 stretch<", strips.read_text())

    def test_a_full_disk(self) -> None:
        self.full(f"sweep {QUICK}", elf("first"))


class Orders(Case):
    def test_the_youngest_comes_first_within_the_bound(self) -> None:
        """Threads 1, 2 and 3 wait in this order, and whoever is served first and second comes again."""
        for bound, wanted in (0, "12312"), (1, "31213"), (2, "33123"), (9, "33321"):
            hall = orders.YoungestHall(COUNTER, 1, 100, 8, 0, bound=bound)
            self.assertEqual(served(hall, {1: 0, 2: 0, 3: 0}, ("123", *wanted[:2], "", "")), wanted, bound)

    def test_by_the_programs_where_they_are_built(self) -> None:
        """Each order is asked of its program, with its words; a made-up one answers by the model."""
        asked = TEMPORARY / "asked"
        made = pathlib.Path(script("orders-made", f"""#!/bin/sh
echo "$@" >> {asked}
[ "$1" != nodes ] || shift 3
[ "$1" != run ] || shift
exec {ROOT}/workbench simulate {elf('counter')} "$@" --seed 1
"""))
        with mock.patch.object(program, "YOUNGEST", made), mock.patch.object(program, "PATH", made), \
                mock.patch.object(program, "missing", lambda: None):
            rows = table(run("orders --runs 1 --fuel 2000", elf("counter")))
        self.assertEqual(asked.read_text().splitlines(), ["run 4 2000 8", "nodes 2 8 4 2000 8", "4 2000 8"])
        self.assertEqual([(row["order"], row["by"], row["seed"]) for row in rows],
                         [(order, "program", "") for order in ("entry", "nodes", "youngest")])
        told = run("orders --runs 1 --bound 1", elf("counter")).stderr.decode()
        self.assertIn("the program youngest has the bound 8", told)

    def test_where_nobody_may_be_passed_all_are_alike(self) -> None:
        words = ("--workers", "4", "--batch", "8", "--runs", "2")
        plot = TEMPORARY / "orders.svg"
        rows = table(run("orders --model --bound 0", elf("counter"), *words, "--plot", plot))
        swept = table(run("sweep", elf("counter"), *words, "--model"))
        self.assertEqual([(row.pop("order"), row["by"], row["seed"]) for row in rows],
                         [(name, "model", seed) for name in ("entry", "nodes", "youngest") for seed in "12"])
        for row in rows:
            one, = (each for each in swept if each["seed"] == row["seed"])
            self.assertEqual(row, {name: one[name] for name in row})
        self.assertIn("longest wait", plot.read_text())
