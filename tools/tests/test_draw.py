"""What draw shows of locks, names and long runs: the expected lanes are those of histories on paper. The page
that steps through a run: its data, compared with what the report says; and, where a browser is there, what it
shows of a history on paper. And the trace event format, by its rules and by what Perfetto and Chrome's viewer
need of it: complete events, metadata and flows alone; lanes that have names, numbers of their own, and no two
events at once; flows whose two ends lie in events."""
from __future__ import annotations

import json
import re
import shutil
import subprocess
import unittest
import xml.etree.ElementTree
from typing import Any, Callable

from tools.workbench.drawing import overview, page, svg
from tools.workbench.guest import guestfile, made as maker, names, sources
from tools.workbench.reports import report, timeline
from .common import (BY_HAND, DOCS, FINISHED, GUEST, NAMES, ONE, ROOT, TEMPORARY, Case, elf,
                     history, rows, run, saved, told)


PHILOSOPHERS = history("philosophers", 4, 8, 1)
BROWSER = next(filter(None, map(shutil.which, ("chromium", "chromium-browser", "google-chrome"))), None)


def made(text: str, path: str | None, first: int = 0, last: int | None = None, title: str = "a run") -> str:
    """The page of some blocks; `path` is the guest's file, or None."""
    line = timeline.of(report.Report(text.splitlines(keepends=True)))
    file = guestfile.load(path) if path else None
    guest = (file, sources.load(path, file)) if path else None  # type: ignore[arg-type]
    return page.made(line, names.Names(line.text, file), first, len(line.marks) - 1 if last is None else last, title, guest)  # type: ignore[arg-type]


def data_of(text: str) -> dict[str, Any]:
    return json.loads(re.search(r'<script id="data" type="application/json">(.*)</script>', text)[1])  # type: ignore[index, no-any-return]


def after(data: dict[str, Any], count: int) -> tuple[list[list[int]], list[list[int]]]:
    """Registers and words behind so many blocks of a page."""
    registers, words = [list(values) for values in data["registers"]], [list(lock["values"]) for lock in data["words"]]
    for block, (changed, stored) in zip(data["blocks"][:count], data["changes"]):
        for number, change in zip(changed[::2], changed[1::2]):
            registers[block[1]][number] ^= change
        for lock, place, change in zip(stored[::3], stored[1::3], stored[2::3]):
            words[lock][place] ^= change
    return registers, words


class Page(Case):
    def test_the_end_is_what_the_report_says(self) -> None:
        for name in ("philosophers", "sensors", "faults", "broken"):
            blocks, text = history(name, 3, 2, 1, fuel=700)
            data = data_of(made(text, elf(name)))
            registers, words = after(data, len(blocks))
            said = report.Report(text.splitlines(keepends=True))
            list(said.blocks())
            said.ends()
            self.assertEqual(registers, [[*thread.x, thread.pc] for thread in said.thread_ends])
            for lock, values, shown in zip(said.lock_ends, words, data["words"]):
                self.assertEqual(shown["addresses"], [lock.address + 4 * place for place in range(len(lock.bytes) // 4)])
                self.assertEqual(b"".join(value.to_bytes(4, "little") for value in values), lock.bytes)

    def test_a_window_begins_where_the_whole_page_is(self) -> None:
        text = PHILOSOPHERS[1]
        whole, part = data_of(made(text, elf("philosophers"))), data_of(made(text, elf("philosophers"), 100, 149))
        self.assertEqual(after(part, 0), after(whole, 100))
        self.assertEqual(after(part, 50), after(whole, 150))
        self.assertEqual([row[:9] for row in part["blocks"]], [row[:9] for row in whole["blocks"][100:150]])
        for thread in range(5):
            mine = [row[:9] for row in whole["blocks"] if row[1] == thread]
            self.assertEqual(part["before"][thread][:9], [row for row in mine if row[0] < 100][-1])
            self.assertEqual(part["behind"][thread][:9], [row for row in mine if row[0] >= 150][0])

    def test_of_large_guards_the_words_that_change(self) -> None:
        """Lock 0 guards 400 bytes, of which a thread changes the first word."""
        path = saved("large.elf", maker.elf(maker.note([(maker.CODE, 0)] * 2, [(maker.DATA, 400)]), ONE, bytes(4), 400))
        lock = data_of(made(BY_HAND, path))["words"][0]
        self.assertEqual((lock["addresses"], lock["values"], lock["note"]), ([maker.DATA], [0], "1 of its 100 words"))

    def test_releases_and_broken_locks(self) -> None:
        """A release stands with what it hands on. Then thread 0 ends as spent in its section, block 1."""
        rows = data_of(made(BY_HAND, None))["blocks"]
        self.assertEqual([row[8] for row in rows], [-1, -1, -1, 1, -1, -1])
        text = "".join(BY_HAND.splitlines(keepends=True)[:5]).replace("turns 7", "turns 3").replace("unlocked 0", "spent")
        self.assertEqual(data_of(made(text, None))["broken"], [1])
        self.assertEqual(data_of(made(BY_HAND, None))["broken"], [-1])

    def test_without_a_guest(self) -> None:
        data = data_of(made(BY_HAND, None))
        self.assertEqual([*map(data.get, ("registers", "words", "changes", "threads"))], [None, None, [], ["", ""]])

    def test_one_file_from_nowhere_else(self) -> None:
        whole = made(history("counter", 4, 8, 1)[1], elf("counter"))
        self.assertIn("default-src 'none'", whole)
        self.assertNotRegex(whole, r"https?:|\bsrc=|\bhref=|@import|url\(|\bfetch\(|XMLHttp|\bimport ")

    def test_no_text_ends_its_element(self) -> None:
        whole = made(BY_HAND, None, title="</script><b>&\u2028")
        self.assertEqual(whole.count("</script>"), 2)
        self.assertEqual(data_of(whole)["title"], "</script><b>&\u2028")

    def test_the_tool(self) -> None:
        done = run("draw", "-", "--page", "--guest", GUEST, "--title", "a run", given=FINISHED)
        self.assertEqual((done.returncode, done.stdout.decode()), (0, made(BY_HAND, GUEST)))

    def test_wrong_uses(self) -> None:
        self.one_line(run("draw", "-", "--page", "--guest", GUEST, given=BY_HAND.replace("turns 7", "turns 6")), 3)
        long = BY_HAND[:BY_HAND.index("block 0")] + "".join(
            f"block {stamp} thread 0 turns 4096 held - kind {'on' if stamp else 'start'} worker 0 pc 00100000 end cut\n"
            for stamp in range(page.MOST + 1)) + "end\n"
        self.one_line(run("draw", "-", "--page", given=long), 1, "--from and --to give a part")


@unittest.skipUnless(BROWSER, "no browser is there")
class InABrowser(Case):
    def browse(self, page_text: str, script: str = "", *words: str) -> tuple[str, str]:
        """What the page is after a script, as text; and what the browser says, with all of the console."""
        path = saved("page.html", page_text.replace("begin();\n</script>", "begin();\n" + script + "</script>"))
        done = subprocess.run([str(BROWSER), "--headless", "--no-sandbox", "--disable-gpu", "--virtual-time-budget=2000",
                               f"--user-data-dir={TEMPORARY / 'browser'}", "--window-size=1366,768", "--enable-logging=stderr",
                               *(words or ("--dump-dom",)), f"file://{path}"],
                              capture_output=True, check=True, timeout=300, text=True)
        self.assertNotIn("CONSOLE", done.stderr)
        return done.stdout, done.stderr

    def found(self, page_text: str, name: str) -> Any:
        """What a script of this folder finds in a page."""
        script = (ROOT / "tools" / "tests" / name).read_text()
        shown = re.search('<pre id="seen">(.*)</pre>', self.browse(page_text, script)[0])
        assert shown
        return json.loads(shown[1].replace("&lt;", "<").replace("&gt;", ">").replace("&amp;", "&"))

    def test_a_history_on_paper(self) -> None:
        found = self.found(made(BY_HAND, GUEST), "page-steps.js")
        seen = found["seen"]
        self.assertEqual([one["step"] for one in seen], list(range(7)))
        # Block 1: worker 0 has thread 0 with lock 0. Thread 1 has not begun.
        self.assertEqual([text.split() for text in seen[1]["workers"]], [["worker", "0", "0", "0"], ["worker", "1"]])
        self.assertEqual((seen[1]["home"], seen[1]["ready"].split()), ("with thread 0, worker 0", ["1", "not", "begun"]))
        self.assertIn("00000001 was 00000000", seen[1]["bytes"])
        # Block 2: thread 1 comes to its LOCK behind block 1, before worker 0 has done the release.
        self.assertEqual(seen[2]["workers"][1].split()[:3], ["worker", "1", "1"])
        self.assertEqual(seen[2]["home"], "0 with worker 0, which releases it")
        # Block 3: worker 0 runs the adopted section of thread 1, and thread 0 is ready.
        self.assertEqual([text.split() for text in seen[3]["workers"]], [["worker", "0", "1", "0"], ["worker", "1"]])
        self.assertIn("block 1 released it, and the same worker goes on with this section: adopted", seen[3]["says"])
        self.assertIn("The context came from worker 1, which ran its block 2.", seen[3]["says"])
        self.assertIn("00000002 was 00000001", seen[3]["bytes"])
        self.assertIn("x7 t2\t00000002 was 00000000", seen[3]["registers"])
        # Behind the last block both have ended, and the lock is free.
        self.assertEqual((seen[6]["ended"].split(), seen[6]["home"].split()), (["0", "exit", "1", "exit"], ["0", "free"]))
        # Shift and left arrow: to the section before; block 3 and then block 1 begin one.
        self.assertEqual([found[name] for name in ("back", "backTwice", "end", "section")], [3, 1, 6, 1])

    def test_hands(self) -> None:
        for guest in GUEST, None:
            hands = self.found(made(BY_HAND, guest), "page-hands.js")
            self.assertEqual((hands["slider"], hands["stamp"], hands["sections"], hands["passed"], hands["address"]),
                             (4, 2, [1, 3], 3, 5))
            # All but the explanations is on a screen of a laptop's size.
            width, height, main, _ = hands["screen"]
            self.assertEqual((width, main <= height, hands["seen"]), (1366, True, [True] * 3), hands)
            larger, words, beside, address = hands["lecture"]
            self.assertGreater(larger, 1.3)
            self.assertEqual((words, beside, address, hands["lectureSeen"], hands["after"]),
                             ("none", True, "#5-lecture", True, [True, "#5"]))

    def test_an_error_of_the_console_is_found(self) -> None:
        with self.assertRaises(AssertionError):
            self.browse(made(BY_HAND, None), "throw new Error('no');")

    def test_print(self) -> None:
        path = TEMPORARY / "page.pdf"
        self.browse(made(BY_HAND, GUEST), "", f"--print-to-pdf={path}")
        content = path.read_bytes()
        self.assertTrue(content.startswith(b"%PDF-"))
        self.assertIn(len(re.findall(rb"/Type\s*/Page\b", content)), (1, 2, 3))


# Threads 0 and 1 come to their LOCK, and worker 0 runs both sections: thread 1 waits in block 2.
WAITS = told("waits")
# The same, but with batch limit 0, and worker 1 gets the granted section after another block.
GRANTED = WAITS.replace("batch 4", "batch 0").replace("kind adopted worker 0", "kind granted worker 1")


def lanes(text: str, *words: Any) -> tuple[dict[str, str], str]:
    said = run("draw", "-", "--text", *words, given=text).stdout.decode()
    return dict(re.findall("^((?:thread|worker|lock) [0-9]+)(?: [^ ]+)? +(.*)$", said, re.M)), said


class Lanes(Case):
    def test_lock_lane_has_the_worker(self) -> None:
        rows, _ = lanes(WAITS)
        self.assertEqual(rows["lock 0"], "00")
        self.assertEqual(rows["thread 1"], "s0A.x")
        rows, said = lanes(GRANTED)
        self.assertEqual(rows["lock 0"], "01")
        self.assertIn("Moves of locks to another worker: lock 0: 1 in 2 sections.", said)
        # Block 2 stands between the release and the adopted section.
        self.assertEqual(lanes(BY_HAND)[0]["lock 0"], "000")

    def test_granted_lock_is_with_no_worker(self) -> None:
        moved = GRANTED.splitlines(keepends=True)
        moved[6], moved[8] = (moved[8].replace("block 5", "block 3"), moved[6].replace("block 3", "block 4"))
        moved[7] = moved[7].replace("block 4", "block 5")
        text = "".join([*moved[:7], moved[8], moved[7]])
        rows, _ = lanes(text)
        self.assertEqual(rows["lock 0"], "0-1")
        picture = run("draw", "-", given=text).stdout.decode()
        self.assertIn("lock 0, blocks 3 to 3: no worker has it, in the package of thread 1, to which it was handed",
                      picture)

    def test_waiting_lines_say_for_which_lock(self) -> None:
        picture = run("draw", "-", given=PHILOSOPHERS[1]).stdout.decode()
        for wanted in re.findall(r"waits for lock (\d)</title>", picture):
            self.assertIn(int(wanted), range(6))
        for part in re.findall(r"<g><title>thread \d, blocks [^<]*(?:waits for|shipped to) lock .*?</g>", picture):
            wanted = re.search(r"(?:waits for|shipped to) lock (\d)", part)[1]  # type: ignore[index]
            self.assertIn(f">{wanted}</text>", part)

    def test_a_thread_that_waits_at_the_end_of_a_cut_report(self) -> None:
        cut = "".join(WAITS.splitlines(keepends=True)[:6])
        self.assertIn("thread 1  ", run("draw", "-", "--text", given=cut).stdout.decode())
        self.assertIn("thread 1, blocks 2 to 2: wants lock 0", run("draw", "-", given=cut).stdout.decode())


def drawn(*of: Any) -> svg.Picture:
    return overview.Overview(*of).draw()


def picture(text: str, name: str, first: int = 0, last: int | None = None,
            draw: Callable[..., Any] = svg.detailed) -> str:
    """The SVG of some blocks, with the names of a guest."""
    line = timeline.of(report.Report(text.splitlines(keepends=True)))
    called = names.Names(line.text, guestfile.load(elf(name)) if name else None)
    return draw(line, first, len(line.marks) - 1 if last is None else last, called, "title").svg(line.text.guards)  # type: ignore[no-any-return]


class Pictures(Case):
    def test_names_of_symbols(self) -> None:
        for name, *wanted in rows("names"):
            text = history(name, 3, 2, 1, fuel=100)[1]
            for said in (picture(text, name), picture(text, name, draw=drawn)):
                for part in wanted:
                    self.assertIn(f">{part}</text>", said, name)

    def test_names_in_each_form(self) -> None:
        for form, part in (("--text", "lock 0 counter"), ("--trace", '"lock 0 counter"'), ("--page", '"adder(300)"')):
            text = history("counter", 2, 2, 1, fuel=100)[1]
            self.assertIn(part, run("draw", "-", "--guest", elf("counter"), form, given=text).stdout.decode())

    def test_a_guest_without_symbols_and_another_guest(self) -> None:
        self.assertEqual(*(run("draw -", *words, given=WAITS).stdout for words in ((), ("--guest", GUEST))))
        done = run("draw", "-", "--guest", elf("philosophers"), given=WAITS)
        self.one_line(done, 3, "report is of another guest: it has 2 threads and 1 locks, and the guest 5 and 6")

    def test_each_is_well_formed(self) -> None:
        for name in NAMES:
            blocks, text = history(name, 4, 1, 3, fuel=400)
            for said in (picture(text, name), picture(text, name, draw=drawn),
                         picture(text, name, min(5, len(blocks) - 1), min(30, len(blocks) - 1))):
                root = xml.etree.ElementTree.fromstring(said)
                self.assertEqual((root.tag, "<script" in said), ("{http://www.w3.org/2000/svg}svg", False))
            self.assertIn("away from the thread", picture(text, name))

    def test_overview_counts(self) -> None:
        blocks, text = PHILOSOPHERS
        said = picture(text, "", draw=drawn)
        columns = re.findall(r"<title>blocks (\d+) to (\d+): ((?:[a-z, ]+ [0-9.]+%(?:, )?)+)</title>", said)
        self.assertEqual((int(columns[0][0]), int(columns[-1][1])), (0, len(blocks) - 1))
        for first, last, shares in columns:
            part = blocks[int(first):int(last) + 1]
            self.assertAlmostEqual(sum(map(float, re.findall(r"([0-9.]+)%", shares))), 100, delta=0.5)
            adopted = re.search(r"adopted ([0-9.]+)%", shares)
            wanted = 100 * sum(block.kind == "adopted" for block in part) / len(part)
            self.assertAlmostEqual(float(adopted[1]) if adopted else 0, wanted, delta=0.05)

    def test_overview_moves_are_those_of_the_blocks(self) -> None:
        workers: dict[int, int] = {}
        moves = 0
        for block in PHILOSOPHERS[0]:
            for lock in block.held:
                moves += workers.get(lock, block.worker) != block.worker
                workers[lock] = block.worker
        said = picture(PHILOSOPHERS[1], "", draw=drawn)
        panel = said[said.index("Moves of a lock"):said.index("Threads that wait")]
        self.assertEqual(sum(map(int, re.findall(r"lock \d (\d+)(?=[,<])", panel))), moves)

    def test_long_runs_become_an_overview_and_windows_are_drawn(self) -> None:
        self.says("too many to draw each", run("draw - --most 50", given=PHILOSOPHERS[1]))
        said = run("draw - --from 100 --to 119", given=PHILOSOPHERS[1]).stdout.decode()
        self.assertEqual({*map(int, re.findall(r"<title>block (\d+):", said))}, set(range(100, 120)))


ARGUMENTS = {"process_name": ("name", str), "thread_name": ("name", str),
             "process_sort_index": ("sort_index", int), "thread_sort_index": ("sort_index", int)}
FLOW: dict[str, type] = {"cat": str, "ts": int, "id": int}
WORK: dict[str, type] = {"cat": str, "ts": int, "dur": int, "args": dict}
FIELDS: dict[str, dict[str, type]] = {"M": {"args": dict}, "X": WORK, "s": FLOW, "f": FLOW}


class Trace(Case):
    def check(self, path: Any, *words: Any) -> Any:
        """Checks the trace of a report, and answers its complete events and how many flows it has."""
        text = run("draw", path, "--trace", *words).stdout.decode("ascii")
        self.assertTrue(text.startswith('{"'), "by this Perfetto takes it for JSON")
        trace = json.loads(text)
        self.assertIn(trace.get("displayTimeUnit", "ms"), ("ms", "ns"))
        for event in trace["traceEvents"]:
            self.check_event(event)
        complete = [event for event in trace["traceEvents"] if event["ph"] == "X"]
        self.check_lanes(trace["traceEvents"], complete)
        return complete, self.check_flows(trace["traceEvents"], complete)

    def check_event(self, event: Any) -> None:
        for name, kind in {"name": str, "pid": int, "tid": int, **FIELDS[event["ph"]]}.items():
            value = event.get(name, {}) if name == "args" else event[name]
            self.assertIsInstance(value, kind, event)
            self.assertTrue(value or name in ("ts", "args"), event)
            self.assertTrue(kind is not int or value >= 0, event)
        if event["ph"] == "M":
            name, kind = ARGUMENTS[event["name"]]
            self.assertIsInstance(event["args"][name], kind)

    def check_lanes(self, events: Any, complete: Any) -> None:
        named = {name: [(event["pid"], event["tid"]) for event in events if event["name"] == name]
                 for name in ("process_name", "thread_name")}
        self.assertEqual(len({pid for pid, _ in named["process_name"]}), len(named["process_name"]))
        self.assertEqual(len({tid for _, tid in named["thread_name"]}), len(named["thread_name"]))
        ends: dict[Any, Any] = {}
        for event in sorted(complete, key=lambda event: event["ts"]):  # type: ignore[no-any-return]
            lane = event["pid"], event["tid"]
            self.assertIn(lane, named["thread_name"])
            self.assertLessEqual(ends.get(lane, 0), event["ts"], event)
            ends[lane] = event["ts"] + event["dur"]

    def check_flows(self, events: Any, complete: Any) -> Any:
        places = {(event["pid"], event["tid"], event["ts"]) for event in complete}
        flows: dict[Any, Any] = {}
        for event in events:
            if event["ph"] in "sf":
                self.assertIn((event["pid"], event["tid"], event["ts"]), places)
                flows.setdefault((event["cat"], event["name"], event["id"]), []).append(event)
        for begin, end in flows.values():
            self.assertEqual((begin["ph"], end["ph"], end["bp"]), ("s", "f", "e"))
            self.assertLess(begin["ts"], end["ts"])
        return len(flows)

    def test_runs_of_the_program_and_of_the_model(self) -> None:
        texts = [path.read_text() for path in sorted((DOCS / "pictures").glob("*.txt"))]
        texts += [history(name, 4, 8, 1)[1] for name in ("bank", "sleepers", "broken")]
        for text in texts:
            complete, arrows = self.check(saved("traced.txt", text))
            stamps = [event["ts"] for event in complete if event["pid"] == 2]
            self.assertEqual(stamps, list(range(text.count("\nblock "))))
            self.assertEqual(arrows, len(re.findall(" kind (?:adopted|granted) ", text)))

    def test_some_blocks(self) -> None:
        complete, _ = self.check(saved("traced.txt", PHILOSOPHERS[1]), "--from", "40", "--to", "99")
        self.assertTrue(all(40 <= event["ts"] and event["ts"] + event["dur"] <= 100 for event in complete))
        self.assertEqual(sum(event["pid"] == 2 for event in complete), 60)
