"""What the pages show of runs of the program: the reports that are kept beside the pictures are legal,
pictures, excerpts and tables are those of these reports, and the commands that the pages name run. And the
course: the tool run, the guests of the exercises, and the histories and guests of the answers."""
from __future__ import annotations

import csv
import os
import re
import shutil
import subprocess
from pathlib import Path

from tools.workbench import command, limits
from tools.workbench.checking import definitions
from tools.workbench.guest import guestfile
from tools.workbench.running import delegation
from .common import (ANSWERS, COMPILER, COURSE, DOCS, GUESTS, MADE_UP, NAMES, ROOT, TEMPORARY, Case, elf, process,
                     rows, run, saved, script, served)


PICTURES = DOCS / "pictures"
CRATE_PAGES = sorted(ROOT.glob("crates/*/README.md"))
GUIDE = DOCS / "GUIDE.md"
ARCHITECTURE, DECISIONS, GLOSSARY = (DOCS / f"{name}.md" for name in ("ARCHITECTURE", "DECISIONS", "GLOSSARY"))
README, VERIFICATION = ROOT / "README.md", DOCS / "VERIFICATION.md"
PAGES = [*ROOT.glob("*.md"), *DOCS.rglob("*.md"), GUESTS / "README.md", *(ROOT / "bench").rglob("*.md"), *CRATE_PAGES]
BEGINS = re.compile(r"\(?(cat|for|make|done|echo|printf) ?|\./(workbench|tclocks)[ -]|  |$")
LEFT_OUT = re.compile(r"\./tclocks-build|\./workbench (check|fuzz|refuse|endure|facts|bench)\b|\brt |make .*(-B|CC=)|PATH/TO|\.\.(?!/)"
                      r"|\b(GUEST|REPORT|FOLDER|FILE|HISTORY|RULE|NAME|W F B|G K)\b|apt-get|git |sums$|same$|\[|tclocks (demo|gen|nodes)|(?<!/)my\.elf"
                      r"|^\./(workbench|tclocks) [a-z]+$|^\./workbench judge \S+$|1 F B")
KEPT = "counter", "philosophers", "first", "first-alone", "by-waiter", "by-holder", "by-server"
COURSE_PAGE, KEY = DOCS / "COURSE.md", ANSWERS / "README.md"


class Kept(Case):
    def test_kept_reports_are_legal_and_the_pictures_are_made_of_them(self) -> None:
        for name in KEPT:
            said = "legal so far, 200 blocks" if name == "counter" else "a legal run, to the end of every thread"
            self.says(said, run("judge", elf(name if name in NAMES else "first"), PICTURES / f"{name}.txt"))
        subprocess.run([PICTURES / "make", TEMPORARY], check=True, stderr=subprocess.DEVNULL)
        for name in (*KEPT, "overview", "stays", "sweep", "orders"):
            self.assertEqual((PICTURES / f"{name}.svg").read_bytes(), (TEMPORARY / f"{name}.svg").read_bytes(), name)

    def test_lines_of_the_delegated_history(self) -> None:
        page = COURSE_PAGE.read_text()
        lines = [line for title in ("### A delegated history, line by line", "### Shipped with a lock in hand")
                 for line in re.findall("^block .*$", page[page.index(title):].split("\n### ")[0], re.M)]
        kept = [(PICTURES / f"{name}.txt").read_text().splitlines() for name in ("counter", "philosophers")]
        self.assertEqual(len(lines), 18)
        for line in lines:
            self.assertTrue(any(line in report for report in kept), line)

    def test_tables_and_lanes(self) -> None:
        summary = run("summary", PICTURES / "philosophers.txt").stdout.decode().splitlines(keepends=True)
        self.assertIn("```\n" + "".join(summary[2:4]) + "```", GUIDE.read_text())
        contexts = ("--block", "108", "--contexts")
        for words, page, first, count in (("--trace", "108"), GUIDE, 4, 1), (contexts, COURSE_PAGE, 2, 2):
            said = run("explain", elf("counter"), PICTURES / "counter.txt", *words).stdout.decode().splitlines()
            self.assertIn("\n" + "\n".join(said[first:first + count]) + "\n", page.read_text())
        lanes = run("draw", PICTURES / "first.txt", "--text").stdout.decode().split("\n\n")[1]
        self.assertIn(lanes, GUIDE.read_text())


class Course(Case):
    def test_each_exercise_has_its_minutes_and_its_answer(self) -> None:
        page, named = COURSE_PAGE.read_text(), r"(?m)^\*\*(\d+\. [^*]+)\*\*"
        exercises = re.findall(named, page)
        self.assertEqual([int(one.split(".")[0]) for one in exercises], [*range(1, 19)])
        self.assertEqual(re.findall(named, KEY.read_text()), exercises)
        row = r"(?m)^\| \[\d\. [^|]*\|[^|]*\| \d+ \|([^|]*)\|$"
        timed = [int(number) for cell in re.findall(row, page) for number in re.findall(r"(\d+) \(\d+", cell)]
        self.assertEqual(timed, [*range(1, 19)])

    def test_first_listing_is_what_its_command_prints(self) -> None:
        shown = re.search(r"(?s)```\n(tclocks 2\n.*?end\n)```", COURSE_PAGE.read_text())[1]  # type: ignore[index]
        printed = self.well("simulate", elf("first"), "1", "42", "0")
        lines = [line for line in printed.splitlines(keepends=True) if not line.startswith("x")]
        before, after = shown.split("...\n")
        self.assertTrue("".join(lines).startswith(before) and "".join(lines).endswith(after))
        self.assertEqual(before.count("block ") + after.count("block ") + 3, 12)

    def test_what_moves(self) -> None:
        """The table of the three histories by hand, by what `profile` counts."""
        for name in ("by-waiter", "by-holder", "by-server"):
            said = run("replay", elf("first"), PICTURES / f"{name}.txt", "--profile", "--model").stdout.decode()
            changes, moves = (sum(map(int, re.findall(rf"{word} (\d+)", said))) for word in ("changes", "moves"))
            self.assertIn(f"| [{name}](pictures/{name}.txt) | {changes} times | {moves} times |", COURSE_PAGE.read_text())

    def test_nobody_waits_while_the_holder_serves(self) -> None:
        """Two histories of exercise 8: with batch limit 0, and one that can't be."""
        said = re.search(r"`(worker 0 released [^`]*)`", KEY.read_text())[1]  # type: ignore[index]
        text = (PICTURES / "by-holder.txt").read_text()
        wrong = re.sub("(block 6 .*)taken", r"\1granted", text)
        self.one_line(run("judge", elf("first"), given=wrong), 3, said)
        granted = text.replace("batch 1", "batch 0").replace("adopted", "granted")
        self.says("a legal run, to the end of every thread", run("judge", elf("first"), given=granted))

    def test_means_of_the_orders(self) -> None:
        """The table of exercise 18, by the command that the page gives."""
        for bound, orders in (16, ["youngest"]), (256, ["entry", "nodes", "youngest"]):
            words = ("--model", "--runs", "10", "--bound", str(bound))
            rows = [*csv.DictReader(self.well("orders", elf("counter"), *words).splitlines())]
            for order in orders:
                means = (sum(int(row[name]) for row in rows if row["order"] == order) / 10
                         for name in ("adopted", "granted", "changes", "waiting", "longest_wait"))
                name = order if order == "entry" else f"{order}, {bound}"
                self.assertIn(f"\n| {name} | {' | '.join(f'{mean:.1f}' for mean in means)} |\n", KEY.read_text())

    def test_table_of_grades(self) -> None:
        """It is that of the guest of exercise 7 as it is given and as it is answered."""
        place = TEMPORARY / "grades"
        place.mkdir()
        shutil.copy(COURSE / "pair.elf", place / "given.elf")
        shutil.copy(ANSWERS / "pair.elf", place / "answered.elf")
        said = self.well("grade", place, "--never", "lock 3 word 0 != lock 3 word 1", "--reach", "lock 3 word 0 == 3")
        shown = re.search(r"(?s)```\n(guest  .*?)```", COURSE_PAGE.read_text())[1]  # type: ignore[index]
        self.assertEqual([line.split() for line in said.splitlines()], [line.replace(".c ", ".elf ").split() for line in shown.splitlines()])

    def test_sections_of_the_second_exercise(self) -> None:
        found = re.findall(r"(\w+): (\d+) of (\d+) turns|(\w+): (\d+) of (\d+) \(", KEY.read_text().split("**3. ")[0])
        self.assertEqual(len(found), 4)
        for row in found:
            name, held, whole = (word for word in row if word)
            blocks = re.findall(r"turns (\d+) held (\S+) ", self.well("simulate", elf(name.lower()), "1", "20000", "0"))
            self.assertEqual((sum(int(turns) for turns, locks in blocks if locks != "-"), sum(int(turns) for turns, _ in blocks)),
                             (int(held), int(whole)), name)


def anchors(page: Path) -> list[str]:
    found = []
    for heading in re.findall(r"(?m)^#+ (.*)$", re.sub(r"(?s)```.*?```", "", page.read_text())):
        plain = re.sub(r"[^\w\- ]", "", re.sub(r"\[(.*?)\]\(.*?\)", r"\1", heading).lower())
        found.append(plain.replace(" ", "-"))
    return found


class Pages(Case):
    def test_links_lead_somewhere(self) -> None:
        self.assertGreater(len(PAGES), 12)
        for page in PAGES:
            text = re.sub(r"(?s)```.*?```", "", page.read_text())
            for target in re.findall(r"\]\(([^)\s]+)\)", text):
                if "://" in target:
                    continue
                path, _, anchor = target.partition("#")
                found = (page.parent / path).resolve() if path else page
                self.assertTrue(found.exists(), f"{page.name}: {target}")
                if anchor:
                    self.assertIn(anchor, anchors(found), f"{page.name}: {target}")

    def test_pages_are_short(self) -> None:
        pages = {page for page in PAGES if page.parent != ROOT / "bench" / "results"}
        words = {page: len(page.read_text().split()) for page in (*pages, *ROOT.glob("crates/*/must-fail/*.md"))}
        *bounds, (_, together) = rows("pages")
        self.assertEqual(pages, {ROOT / page for page, _ in bounds})
        for page, most in bounds:
            self.assertLessEqual(words[ROOT / page], int(most), page)
        self.assertLessEqual(sum(words.values()), int(together))


class Contracts(Case):
    """What the pages name and quote of the contracts stands there, and the top call is told whole."""

    def test_they_stand_where_the_pages_say(self) -> None:
        for page, least in (README, 8), (VERIFICATION, 45), (ARCHITECTURE, 20), (COURSE_PAGE, 2), (KEY, 1), (GUIDE, 1):
            named = re.findall(r"`(\w+)`, \[(crates/[^\]]+):(\d+)\]\((?:\.\./)*(crates/[^)]+)\)", page.read_text())
            self.assertGreaterEqual(len(named), least, page)
            for name, path, line, target in named:
                is_there = re.compile(rf"\b(fn|ensures|record|pub) {name}\b")
                there = [at for at, text in enumerate((ROOT / path).read_text().splitlines(), 1) if is_there.search(text)]
                self.assertIn(int(line), there, f"{page.name}: {name} of {path}")
                self.assertEqual(path, target)

    def test_quotes_are_those_of_the_files(self) -> None:
        """But for comments and breaks of lines, each stands in a file that the page names."""
        for page, count in (README, 1), (VERIFICATION, 8):
            text = page.read_text()
            files = {ROOT / path for path in re.findall(r"\[(crates/[^\]]+):\d+\]", text)}
            there = [re.sub(r"\s+", " ", re.sub(r"(?m)^ *(//|--) .*\n", "", file.read_text())) for file in files]
            quotes = re.findall(r"(?s)```(?:antt|rt)\n(.*?)```", text)
            self.assertEqual(len(quotes), count)
            for quote in quotes:
                self.assertTrue(any(re.sub(r"\s+", " ", quote).strip() in file for file in there), quote)

    def test_each_clause_and_field_is_told(self) -> None:
        text = VERIFICATION.read_text()
        call = (ROOT / "crates/tc_main/src/top.rt").read_text().split("pub fn tclocks")[1]
        legal = (ROOT / "crates/tc_report/specs/Legal.antt").read_text().split("record IsLegalRun")[1]
        names = [*re.findall(r"ensures (\w+) ", call), *re.findall(r"  pub (\w+) : ", legal)]
        for law in "tc_core/src/theorem.rt", "tc_core/src/alive.rt", "tc_main/src/round_trip.rt", "tc_main/src/delegation.rt":
            names += re.findall(r"ensures (\w+) ", (ROOT / "crates" / law).read_text())
        self.assertGreater(len(names), 45)
        for name in {*names} - {"last", "written", "turns", "accepted", "whole", "goes"}:  # these are quoted or in words
            self.assertIn(f"`{name}`", text)

    def test_limits_of_the_main_theorems_stand_in_their_order(self) -> None:
        proved, limits_of_it = (re.findall(r"(?m)^- \*\*(.*?)\.\*\*", part_of(README, f"## {title}"))
                                for title in ("What is proved", "What is not proved"))
        self.assertTrue(4 <= len(proved) <= 6, proved)
        self.assertEqual(limits_of_it[:len(proved)], proved)

    def test_numbers_of_the_bench(self) -> None:
        """The README has the least and the greatest ratio to a peer that prints the history too."""
        rows = re.findall(r"(?m)^\| [\w, -]+ \| [^|]+ \| (.*) \|$", part_of(ROOT / "bench" / "README.md", "## Beside ordinary mutexes"))
        ratios = sorted(re.findall(r"\d\.\d\d", " ".join(rows)), key=float)
        self.assertGreater(len(ratios), 6)
        self.assertIn(f" {ratios[0]} to {ratios[-1]} times ", README.read_text())

    def test_lines_of_the_picture(self) -> None:
        lines = re.findall(r"(?m)^block .*$", README.read_text())
        self.assertEqual(len(lines), 2)
        self.assertLessEqual({*lines}, {*(PICTURES / "counter.txt").read_text().splitlines()})

    def test_counts_are_those_of_the_sources(self) -> None:
        words = "No One Two Three Four Five Six Seven Eight Nine Ten Eleven Twelve".split()
        code = "".join(file.read_text() for file in ROOT.glob("crates/*/src/**/*.rt"))
        text = "".join(page.read_text() for page in (README, VERIFICATION, ARCHITECTURE, DECISIONS))
        offers = re.findall(r"const MAX_OFFERS: u32 = (\d+);", code)[0]
        piece = re.findall(r"const BLOCKS: usize = (\d)_(\d+);", code)[0]
        most = max(map(int, re.findall(r"(?m)^blocks (\d+)$", (ROOT / "crates/answers/stdin").read_text())))
        for said in (f"{words[code.count('unsafe {')]} calls are `unsafe`", f"{words[code.count('unsafe {')]} calls take bytes",
                     f"the {words[len(limits.SHAPES)].lower()} forms", f"{offers} offers", f"{','.join(piece)} blocks",
                     f"Facts of {words[len([*ROOT.glob('crates/answers/data/*')])].lower()} guests", f"a log of {most:,} blocks"):
            self.assertIn(said, text)

    def test_mutants_are_few(self) -> None:
        for crate in (ROOT / "crates").iterdir():
            self.assertLessEqual(len([*crate.glob("must-fail/*.edit")]), 8, crate.name)


class Guide(Case):
    """The guide has the forms, limits, refusals, tools and guests that the tools know, and its first guest is the one there."""

    def test_arguments_and_their_limits(self) -> None:
        text = GUIDE.read_text()
        self.assertIn(limits.USAGE.replace("|", "\\|"), text)
        for shape in limits.SHAPES:
            self.assertIn(f"\n| `{shape}` |", text)
        for name in "workers", "fuel", "batch", "rounds", "bound", "size":
            self.assertIn("({:,} to {:,})".format(*limits.NUMBERS[name]), text, name)
        for most in limits.FILE_BYTES, limits.HISTORY_BYTES, limits.GUARD_BYTES[1], limits.TURNS:
            self.assertIn(f"{most:,}", text)

    def test_refusals_calls_kinds_faults_and_statuses(self) -> None:
        text = GUIDE.read_text()
        for number, name in (*enumerate(limits.REFUSALS), (17, "ShortInput")):
            self.assertIn(f"\n| {number} | {name} | ", text)
        for number, call in limits.CALLS.items():
            self.assertRegex(text, rf"\n\| {number} \| {call}( x10)? \| ")
        for kind in limits.KINDS:
            self.assertIn(f"`{kind}`", text)
        for begin, end, numbers in ("### Faults", "### Fuel", range(1, 13)), ("## Statuses", "## Tools", range(limits.REJECTED + 1)):
            rows = re.findall(r"(?m)^\| (\d+) \| ", text[text.index(begin):text.index(end)])
            self.assertEqual(rows, [*map(str, numbers)])

    def test_tools(self) -> None:
        """Each has its line, in the groups of --help."""
        text = GUIDE.read_text()
        tools = text[text.index("## Tools"):text.index("### Examples")]
        groups = re.findall(r"(?m)^\*\*([a-z ]+)\*\*", tools)
        self.assertEqual(groups, list(dict.fromkeys(one.group for one in command.EVERY.values())))
        for group, part in zip(groups, re.split(r"(?m)^\*\*[a-z ]+\*\*", tools)[1:]):
            named = {word.split(" ")[0] for word in re.findall(r"`([^`]+)`", part)}
            for one in command.EVERY.values():
                self.assertTrue(one.group != group or named >= set(one.name.split()), one.name)

    def test_guests(self) -> None:
        rows = re.findall(r"(?m)^\| \[(\w+)\]\(\.\./guests/\w+\.[cS]\) \| (\d+), (\d+) \|", GUIDE.read_text())
        self.assertEqual(sorted(name for name, _, _ in rows), NAMES)
        for name, threads, guards in rows:
            guest = guestfile.load(elf(name)).guest
            self.assertEqual((len(guest.entries), len(guest.guards)), (int(threads), int(guards)), name)

    def test_the_first_guest(self) -> None:
        text = GUIDE.read_text()
        source = (GUESTS / "first.c").read_text().partition("\n")[2]
        self.assertIn(f"```c\n{source}```", text)
        report = (PICTURES / "first-alone.txt").read_text().splitlines()
        lines = re.search(r"(?s)```\n(tclocks 2\n.*?\n)```", text)[1].splitlines()  # type: ignore[index]
        self.assertEqual([line for line in report if line in lines], lines)
        early = run("simulate", elf("first"), "1", "30", "0").stdout.decode()
        self.assertEqual(early.count(" end spent\n"), 2)
        self.assertIn(f"`{re.search('(?m)^lock 0 .*$', early)[0]}`", text)  # type: ignore[index]


def part_of(page: Path, title: str) -> str:
    """What stands under a heading, up to the next one of its level or above."""
    level = title.split(" ")[0]
    return re.split(rf"(?m)^#{{1,{len(level)}}} ", page.read_text().split(f"\n{title}\n")[1])[0]


class Architecture(Case):
    """The page for whoever changes the code has the crates, calls, files and contracts that there are."""

    CRATES = {line.split(":")[0].split()[0]: line.split(":")[1].split()
              for line in (ROOT / "crates.txt").read_text().splitlines() if ":" in line and line[0].islower()}
    FILES = [*ROOT.glob("crates/*/src/*.rt"), *ROOT.glob("crates/*/specs/*.antt")]

    def test_each_crate_stands_above_what_it_uses(self) -> None:
        rows = re.findall(r"(?m)^\| \[(\w+)\]\(\.\./crates/(\w+)/", part_of(ARCHITECTURE, "## The crates"))
        named = [name for name, folder in rows if name == folder]
        self.assertEqual(sorted(named), sorted(self.CRATES))
        figure = part_of(ARCHITECTURE, "## The way of the data").split("```")[1].splitlines()
        place = {word: -at for at, line in enumerate(figure) for word in line.split() if word in self.CRATES}
        self.assertGreater(len(place), 25)
        for name, uses in self.CRATES.items():
            for below in {*uses} & {*named}:
                self.assertLess(named.index(below), named.index(name))
                self.assertTrue(name not in place or place[below] < place[name], f"{name} stands on {below}")

    def test_calls_of_an_adopted_section(self) -> None:
        there = {name for file in self.FILES for name in re.findall(r"\bfn (\w+)", file.read_text())}
        rows = re.findall(r"(?m)^\| \d+ \| [01] \|([^|]*)\|([^|]*)\|([^|]*)\|$",
                          part_of(ARCHITECTURE, "## One adopted section, call by call"))
        self.assertEqual(len(rows), 14)
        named = {word for row in rows for word in re.findall(r"`(?:\w+::)?([a-z]\w+)`", row[0])}
        self.assertEqual(named - there, set())
        events = {word for row in rows for word in re.findall(r"`(\w+)`", row[2])}
        self.assertLessEqual(events, set(self.events()))

    def events(self) -> list[str]:
        return re.findall(r"(?m)^    (\w+) \{", (ROOT / "crates/tc_core/src/event.rt").read_text())

    def test_events_and_clauses(self) -> None:
        """Each event has its row, and each clause of the theorems on lists of events has one."""
        rows = re.findall(r"(?m)^\| `(\w+)` \|[^|]*\|[^|]*\|$", part_of(ARCHITECTURE, "### Events"))
        self.assertEqual(rows, self.events())
        for law in "tc_core/src/theorem.rt", "tc_core/src/alive.rt", "tc_told/src/realization.rt":
            clauses = re.findall(r"ensures (\w+) ", (ROOT / "crates" / law).read_text())
            named = re.findall(rf"(?m)^\| `(\w+)`, \[crates/{law}:", ARCHITECTURE.read_text())
            self.assertEqual(sorted(named), sorted(clauses))

    def test_places_of_changes(self) -> None:
        rows = re.findall(r"(?m)^\| [^|]* \| ([^|]*) \|$", part_of(ARCHITECTURE, "## Where a change belongs"))
        self.assertGreater(len(rows), 25)
        for row in rows:
            for crate, names in re.findall(r"(tc_\w+) ((?:`\w+`(?:, )?)+)", row):
                for name in re.findall(r"\w+", names):
                    file = f"specs/{name}.antt" if name[0].isupper() else f"src/{name}.rt"
                    self.assertTrue((ROOT / "crates" / crate / file).exists(), f"{crate} {name}")
            for name in re.findall(r"[\w/]+\.(?:py|c)\b", row):
                places = ROOT / name, ROOT / "tools" / "workbench" / name
                self.assertTrue(any(place.exists() for place in places), name)

    def test_words_of_the_code(self) -> None:
        self.assertLessEqual(GLOSSARY.read_text().count("\n| "), 62)
        rows = re.findall(r"(?m)^\| ([^|`]+?)(?: \((`[^)]*)\))? \|", part_of(GLOSSARY, "## Other words"))[1:]
        self.assertEqual([word for word, _ in rows], sorted((word for word, _ in rows), key=str.lower))
        text = "".join(file.read_text() for file in self.FILES)
        for name in re.findall(r"`(\w+)`", "".join(names for _, names in rows)):
            self.assertRegex(text, rf"\b{name}\b")


def counted(crate: Path) -> tuple[int, int, int]:
    """The lines of a crate's code, definitions and proofs, without its tests: neither blank, nor a comment, nor an import."""
    left_out = re.compile(r"\s*($|//|--|(pub )?(ghost )?use )")
    return tuple(sum(not left_out.match(line) for path in crate.glob(which) if path.name != "tests.rt"  # type: ignore[return-value]
                     for line in path.read_text().splitlines())
                 for which in ("src/**/*.rt", "specs/**/*.antt", "proofs/**/*.antt"))


class Crates(Case):
    """The pages of crates, and what a page says of the size of a crate."""

    def test_the_callers_stand_in_the_sources(self) -> None:
        sources = [re.sub(r"\s+", " ", path.read_text()) for path in ROOT.glob("crates/*/src/**/*.rt")]
        self.assertGreaterEqual(len(CRATE_PAGES), 5)
        for page in CRATE_PAGES:
            text = page.read_text()
            self.assertLessEqual(text.count("\n"), 60, page)
            callers = re.findall(r"(?s)```rust\n(.*?)```", text)
            self.assertTrue(callers, page)
            for caller in callers:
                plain = re.sub(r"\s+", " ", caller).strip()
                self.assertTrue(any(plain in source for source in sources), f"{page}: {caller[:80]}")

    def test_the_example_is_as_small_as_the_page_says(self) -> None:
        code, specs, proofs = counted(ROOT / "crates" / "tc_youngest")
        self.assertLessEqual(code + specs + proofs, 250)
        self.assertIn(f"{code} lines of code, {specs} of definitions and {proofs} of proofs", (DOCS / "HOWTO.md").read_text())


class Definitions(Case):
    """The page of what must be believed has what the contract of the top call rests on, and nothing else."""

    def test_the_tables_have_the_words(self) -> None:
        specs, code, kit = re.split(r"\n\| Of the (?:code|toolchain) \|", (DOCS / "DEFINITIONS.md").read_text().split("\nSigns are")[0])
        believed = definitions.believed()
        for crate, files, words in re.findall(r"(?m)^\| (tc_\w+) ((?:`\w+`,? )+)\|([^|]*)\|", specs):
            rows = [f"{crate} {file}" for file in re.findall(r"\w+", files)]
            there = set().union(*(believed.pop(row) for row in rows))
            self.assertEqual(there, set(re.findall(r"`([\w-]+)`", words)), rows)
        for crate, words in re.findall(r"(?m)^\| (tc_\w+) \| (.*) \|$", code):
            rest = [place for place in believed if place.startswith(f"{crate} ")]
            there, named = set().union(*map(believed.pop, rest)), set(re.findall(r"`([A-Z]\w+)`", words))
            self.assertEqual(there, named, f"{', '.join(rest)}: a file of definitions needs a row of its own")
        self.assertEqual(set().union(*believed.values()), set(re.findall(r"`(\w+)`", kit)))


def fewer(text: str) -> str:
    """A command with fewer samples, and a sweep with one short run of each."""
    short = r"\1 --fuel 2000" + " --runs 1" * ("--runs" not in text)
    return re.sub(r"--runs \d{2,}", "--runs 4", re.sub(r"(\./workbench sweep \S+(?!.*--strips))", short, text))


def commands_of(page: Path) -> list[str]:
    """The commands of a page, in their order: whole listings of commands, and what stands in a line."""
    found = []
    for listing, inline in re.findall(r"(?s)```[^\n]*\n(.*?)```|`([^`\n]*)`", page.read_text()):
        lines = listing.splitlines()
        if listing and all(BEGINS.match(line) for line in lines) and any("./" in line or line.startswith("make") for line in lines):
            found += [listing] if re.search(r"(?m)^(for|done|limit)|\\$|\|$|\|\n", listing) else lines
        elif re.match(r"(\(cat [^)]*\) \| )?\./(workbench|tclocks) \w|make -", inline):
            found.append(inline)
    return found


class Commands(Case):
    """Every command that the pages, the course and its answers name runs as it is written, in a checkout of
    its own, beside a program that is made up and answers by the model. What wants the proved program, the
    toolchain or hours, or has a word in capitals for something of the reader's, is looked at for its
    subcommand alone; of many samples a few are made."""

    def test_each_subcommand_that_is_named_is_there(self) -> None:
        for page in PAGES:
            for words in re.findall(r"\./workbench ((?:bench )?[a-z]+)", page.read_text()):
                self.assertIn(words, {*command.EVERY, "bench"}, page)

    def table_of_data_that_stays(self, page: str, said: str) -> None:
        """Its numbers are those of the command that the page gives."""
        lines = [f"| {row['batch']} | {int(row['taken']):,} | {int(row['adopted']):,} | {int(row['granted']):,} | "
                 f"{int(row['changes']):,} times | {int(row['away']):,} |" for row in csv.DictReader(said.splitlines())]
        self.assertIn("\n".join(lines), page)

    def test_they_run_as_they_are_written(self) -> None:
        root = TEMPORARY / "commands"
        for folder in "guests", "tools", "docs", "bench":
            shutil.copytree(ROOT / folder, root / folder, ignore=shutil.ignore_patterns("out", "tests"))
        for file in "workbench", "workbench.py":
            shutil.copy(ROOT / file, root)
        shutil.copy(script("tclocks", MADE_UP), root)
        (root / "my").mkdir()
        for name in "c", "elf":
            shutil.copy(ROOT / "guests" / f"first.{name}", root / "my" / f"my.{name}")
        count, seen = 0, set()
        for page in PAGES:
            for text in commands_of(page):
                if text in seen or LEFT_OUT.search(text) or not COMPILER and "make" in text:
                    continue
                seen.add(text)
                with self.subTest(page=page.name, command=text):
                    done = process("sh", "-c", fewer(text), cwd=root, stdin=subprocess.DEVNULL, timeout=300,
                                   env={**os.environ, "HOME": str(TEMPORARY)})
                    self.assertEqual(done.returncode, 0, done.stderr.decode()[-300:])
                    self.assertNotIn(b"Traceback", done.stderr)
                if "hot.elf" in text and "--strips" in text:
                    self.table_of_data_that_stays(page.read_text(), done.stdout.decode())
                count += 1
        self.assertGreater(count, 40)


BUILT = [COURSE / f"{name}.elf" for name in ("hot", "pair", "queue")] + [ANSWERS / f"{name}.elf" for name in ("pair", "queue")]


class Run(Case):
    """By the model, as a seed asks for: the program may be built here."""

    def test_it_is_what_simulate_prints(self) -> None:
        for words in ("1", "42", "0", "--seed", "0"), ("4", "20000", "8", "--seed", "3"):
            done = run("run", elf("first"), *words)
            self.assertEqual(done.stdout.decode(), self.well("simulate", elf("first"), *words))
            self.one_line(done, 0, "by the model")

    def test_the_program_where_it_is_built(self) -> None:
        by = script("echoing", '#!/bin/sh\necho "$@"\nwc -c\nexit 0\n')
        done = run("run", elf("exit"), "2", "100", "8", by=by)
        self.assertEqual((done.returncode, done.stdout), (0, b"run 2 100 8\n92\n"))
        self.assertEqual(done.stderr, b"workbench run: by the program\n")
        self.says("by the model", run("run", elf("exit"), "2", "100", "8", "--seed", "1", by=by))

    def test_statuses_of_the_program_are_passed_on(self) -> None:
        for status in (3, 4, 5, 7):
            by = script(f"status-{status}", f"#!/bin/sh\necho refused 1 TooShort\nexit {status}\n")
            done = run("run", elf("exit"), "1", "1", "0", by=by)
            self.assertEqual((done.returncode, done.stdout, done.stderr.count(b"\n")), (status, b"refused 1 TooShort\n", 2))

    def test_a_refused_file(self) -> None:
        done = run("run", saved("short.elf", b"short"), "1", "1", "0", "--seed", "0")
        self.assertEqual(done.stdout, b"refused 1 TooShort\n")
        self.one_line(done, 3)
        self.full("run", elf("first"), "1", "100", "0", "--seed", "0", lines=2)


def words_of(path: Path, text: bytes) -> list[list[int]]:
    """The words of each lock after a report."""
    locks = re.findall(r"^data [0-9a-f]{8} ([0-9a-f]+)$", text.decode(), re.M)
    assert len(locks) == len(guestfile.load(str(path)).guest.guards)
    return [[int.from_bytes(bytes.fromhex(lock)[at:at + 4], "little") for at in range(0, len(lock) // 2, 4)]
            for lock in locks]


class Guests(Case):
    def test_by_one_worker(self) -> None:
        """Numbers that the sources say; nobody is passed where each thread runs to its end."""
        for name, wanted in (("hot", [[1250 * sum(range(1, 9)), 10000]]), ("pair", [[6], [3], [3], [3, 3]]),
                             ("queue", [[6], [63, 0]])):
            text = run("simulate", COURSE / f"{name}.elf", "1", "20000", "0").stdout
            self.assertEqual(words_of(COURSE / f"{name}.elf", text), wanted)
            self.assertEqual(re.findall(rb"^thread \d+ (\w+)", text, re.M), [b"exit"] * text.count(b"\nthread "))

    def test_histories_of_the_answers(self) -> None:
        for folder, name, wanted in ((COURSE, "pair", [[6], [3], [3], [1, 0]]), (COURSE, "queue", [[6], [63, 4]]),
                                     (ANSWERS, "pair", None)):
            guest = folder / f"{name}.elf"
            found = words_of(guest, self.well("finish", guest, ANSWERS / f"{name}.txt", "--on").encode())
            self.assertEqual(found[3][0] == found[3][1] if wanted is None else found, wanted or True)
        # With the lock of the desk taken first, the others can't draw before customer 0 is served.
        done = run("finish", ANSWERS / "queue.elf", ANSWERS / "queue.txt")
        self.one_line(done, 3, "would take lock 0, which thread 0 has")

    def test_delegation_of_the_queues(self) -> None:
        """Under the desk's lock nothing is adopted of the numbers' lock, and nothing granted of the desk's."""
        for seed in range(6):
            text = run("simulate", ANSWERS / "queue.elf", "4", "20000", "8", "--seed", str(seed)).stdout.decode()
            self.assertNotIn(" held 0 kind adopted", text)
            self.assertIsNone(re.search(r" held (0,)?1 kind granted", text))

    def test_built_files_are_those_of_the_sources(self) -> None:
        version = COMPILER and process(COMPILER, "--version").stdout
        if not version or b" 12.2.0" not in version:
            self.skipTest("there is no gcc 12.2.0 for RISC-V")
        for place, built in enumerate(BUILT):
            folder = TEMPORARY / f"built-{place}"
            folder.mkdir()
            shutil.copy(built.with_suffix(".c"), folder)
            subprocess.run(["make", "-s", "-f", GUESTS / "kit" / "guest.mk", "MARCH=rv32i", built.name], cwd=folder, check=True)
            self.assertEqual((folder / built.name).read_bytes(), built.read_bytes(), built)

    def test_history_on_nodes(self) -> None:
        """It is legal, and its sections stand as a line picks them with the bound 2, and with no other."""
        text = re.search(r"(?s)```\n(run workers 4 fuel 20000 batch 8\nthread .*?)```", COURSE_PAGE.read_text())[1]  # type: ignore[index]
        done = run("finish", elf("counter"), given=text)
        self.says("legal so far, 16 blocks", done)
        text = done.stdout.decode()
        found = "".join(re.findall(r"thread (\d) .* kind adopted worker 0 ", text))
        for bound in range(6):
            hall = delegation.Hall(guestfile.load(elf("counter")).guest, 4, 100, 8, 0, nodes=2, bound=bound)
            picked = served(hall, {thread: thread % 2 for thread in range(6)}, ("12345", "", "2", "4", "", "", ""))
            self.assertEqual(picked == found, bound == 2, bound)
