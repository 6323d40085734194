"""The command tclocks, over a folder with a toolchain and a program that are made up: what it runs, and that it passes
on all that the program does; and its words, against the program's own rules. The script that builds the program, over
the same folder. And the gate .ci/run, over one with an rt and a workbench that are made up."""
from __future__ import annotations

import os
import pathlib
import re
import shutil
import signal
import subprocess
import sys
import tempfile
import time
import unittest

from tools.workbench import limits
from .common import ROOT, Folder, process, rows


# The program's own line.
USAGE = re.search(r'let line =\s+"(usage: [^"]*)\\n"', (ROOT / "crates/tc_main/src/answer.rt").read_text()).group(1).encode() + b"\n"  # type: ignore[union-attr]
# Words that ask for something, and words that ask for nothing: those of the program's own table, in which the
# first line is that of no words, `_` is a blank in a word, and `?` a byte that no text has; and some more.
FORMS = ("run 1 1 0", "run 8 65536 256", "run 4 20000 8", "gen 1", "gen 2000", "demo 1 1", "demo 2000 8",
         "nodes 1 0 1 1 0", "nodes 8 256 8 65536 256", "nodes 2 4 4 2000 8", "replay 1 1 1 0", "replay 1048576 8 65536 256",
         "profile 1 1 1 0", "profile 1048576 8 65536 256")
ROWS = re.findall(r"^answer usage\n\| usage: .*\n((?:ask.*\n)+)\n", (ROOT / "crates/answers/stdin").read_text(), re.M)[0]
WRONG = [[word.encode().replace(b"_", b" ").replace(b"?", b"\xff") for word in line.split()]
         for line in (*(row[3:] for row in ROWS.splitlines()), "run -1 1 0", "run 1 1 99999999999999999999", "-h", "gen ٣")]
WRONG += [b"gen", b"1\n"], [b"gen", b""]


class Command(Folder):
    """Runs of the built program."""

    def setUp(self) -> None:
        super().setUp()
        self.build()

    def test_what_is_built_is_run_without_a_word(self) -> None:
        """Where a source of another crate is newer too."""
        self.assertEqual(self.command("cat", given=b"bytes\0"), (0, b"bytes\0", ""))
        self.write("crates/tc_tests/src/lib.rt", "// newer\n")
        self.assertEqual(self.command("cat", given=b"x"), (0, b"x", ""))

    def test_statuses_are_passed_on_and_three_have_a_line(self) -> None:
        for number in range(8):
            self.answers(number, b"", number in (2, 4, 5), "status", str(number))

    def test_a_signal_ends_the_program_too(self) -> None:
        for how in (signal.SIGINT, signal.SIGTERM, signal.SIGHUP):
            started = self.begin("wait")
            self.assertEqual(started.stdout.readline(), b"here\n")  # type: ignore[union-attr]
            time.sleep(0.3)
            started.send_signal(how)
            self.assertEqual(started.communicate(timeout=20), (b"", b""))
            self.assertEqual(started.returncode, -how)
            self.assertEqual(self.running("crates"), "")

    def test_closed_streams_are_passed_on(self) -> None:
        for closed, status in (("<&-", 1), (">&-", 1), ("2>&-", 0)):
            done = self.shell(f'exec "$0" cat {closed}')
            self.assertEqual((done.returncode, done.stdout), (status, b"x" * (not status)))

    def test_a_newer_source_is_not_passed_over(self) -> None:
        self.write("crates/tc_io/src/lib.rt", "// newer\n")
        said = self.answers(0, b"sources: run 1 1 0\nx", 1, "run", "1", "1", "0", given=b"x")
        self.assertRegex(said, r"^tclocks: the program is out of date: crates/tc_io/src/lib.rt is newer .*NOT PROVED.*\n$")

    def test_an_old_program_or_the_sources_run_where_they_are_asked_for(self) -> None:
        self.write("crates/tc_io/src/lib.rt", "// newer\n")
        said = self.answers(0, b"x", 1, "cat", given=b"x", TCLOCKS_PROGRAM="old")
        self.assertRegex(said, r"^tclocks: the program is out of date.*\n$")
        self.answers(127, b"", 1, "cat", given=b"x", TCLOCKS_PROGRAM="built")
        self.answers(0, b"sources: demo 1 1\n", 1, "demo", "1", "1", TCLOCKS_PROGRAM="sources")
        self.assertEqual(self.command("cat", TCLOCKS_PROGRAM="new")[0], 126)

    def test_a_tool_takes_no_program_that_is_out_of_date(self) -> None:
        asked = [sys.executable, "-B", "-c", "from tools.workbench import tool; from tools.workbench.running import program; "
                 "tool.run('check', lambda _: program.need(), [])"]
        self.assertEqual(process(*asked, cwd=self.root, env=self.environment).returncode, 0)
        self.write("crates/low/src/lib.rt", "// newer\n")
        done = process(*asked, cwd=self.root, env=self.environment)
        self.assertEqual((done.returncode, done.stderr.count(b"\n")), (2, 1))
        self.assertIn(b"workbench check: the program is out of date: crates/low/src/lib.rt is newer", done.stderr)
        self.environment["TCLOCKS_PROGRAM"] = "old"
        self.assertEqual(process(*asked, cwd=self.root, env=self.environment).returncode, 0)
        self.assertNotIn("try", self.count())


class Unproved(Folder):
    """Runs of the sources, where there is no program."""

    def test_words_input_output_and_status_are_the_programs_and_one_line_is_said(self) -> None:
        said = self.answers(0, b"sources: run 1 3 0\nbytes\0", 1, "run", "1", "3", "0", given=b"bytes\0")
        self.assertRegex(said, r"^tclocks: the program is not built; this run is NOT PROVED .*tclocks-build.*minutes.*\n$")
        self.answers(3, b"refused\n", 1, "run", "3", "3", "0", given=b"x")
        self.assertEqual(self.count(), ["try", "try"])

    def test_only_a_run_reads(self) -> None:
        with subprocess.Popen(["sleep", "30"], stdout=subprocess.PIPE) as silent:
            for words in (("demo", "1", "1"), ("gen", "1")):
                done = process(self.root / "tclocks", *words, stdin=silent.stdout, env=self.environment, timeout=20)
                self.assertEqual((done.returncode, done.stdout), (0, b"sources: " + " ".join(words).encode() + b"\n"))
            silent.kill()

    def test_a_history_is_read_behind_the_file(self) -> None:
        given = bytes(1048577) + b"block 0"
        for form in "replay", "profile":
            out = f"sources: {form} 1048576 1 1 0\n".encode() + given
            self.answers(0, out, 1, form, "1048576", "1", "1", "0", given=given)
        self.assertEqual(self.command("run", "1", "1", "0", given=given)[1], b"sources: run 1 1 0\n" + given[:1048577])

    def test_an_input_that_pauses_is_read_to_its_end(self) -> None:
        done = self.shell('(echo a; sleep 3; echo b) | "$0" run 1 1 0')
        self.assertEqual(done.stdout, b"sources: run 1 1 0\na\nb\n")

    def test_streams_that_fail_have_the_programs_statuses(self) -> None:
        for words, shell, status in rows("streams"):
            done = self.shell(f'exec "$0" {words} {shell}')
            self.assertEqual(done.returncode, int(status), (words, shell, done.stderr))
        self.assertEqual(self.left_over(), [])

    def test_wrong_words_start_nothing(self) -> None:
        self.assertGreater(len(WRONG), 50)
        for words in WRONG:
            self.assertEqual(self.command(*words), (1, USAGE, ""), words)
        self.assertEqual(self.count(), [])

    def test_forms_are_run(self) -> None:
        for words in FORMS:
            self.assertEqual(self.command(*words.split())[1][:9], b"sources: ", words)

    def test_what_a_run_without_proof_can_not_do_is_said(self) -> None:
        for words, text, lines in (("run 7 1 0", "more than 1 MiB", 2), ("run 7 2 0", "longer than the minute", 2),
                                   ("run 7 3 0", "could not run the sources", 3)):
            self.assertIn(text, self.answers(126, b"", lines, *words.split(), given=b"x"))
        self.assertEqual(self.left_over(), [])

    def test_a_signal_ends_it_and_leaves_nothing(self) -> None:
        for how in (signal.SIGINT, signal.SIGTERM, signal.SIGHUP):
            with self.begin("run", "8", "1", "0") as started:
                started.stdin.close()  # type: ignore[union-attr]
                self.wait_for("count")
                started.send_signal(how)
                self.assertEqual(started.wait(timeout=20), -how)
            self.assertEqual((self.left_over(), self.running("bin/rt")), ([], ""))
            (self.root / "count").unlink()

    def test_without_the_toolchain(self) -> None:
        (self.root / "bin/rt").unlink()
        self.environment["PATH"] = f"{self.root / 'bin'}:/usr/bin:/bin"
        self.answers(127, b"", 1, "run", "1", "1", "0")
        self.assertEqual(self.command("--help"), (1, USAGE, ""))
        self.assertEqual(self.command("run", "1", "1", "0", TCLOCKS_PROGRAM="built")[0], 127)

    def test_without_bash(self) -> None:
        if not pathlib.Path("/bin/dash").exists():
            self.skipTest("there is no dash")
        self.assertIn("bash", self.answers(126, b"", 1, "cat", shell=("/bin/dash",)))


class Rules(unittest.TestCase):
    """The rules of words in the script are those of the program."""

    def setUp(self) -> None:
        self.script = (ROOT / "tclocks").read_text()

    def test_the_usage_line_is_that_of_the_program(self) -> None:
        self.assertIn(f'\nusage="{USAGE.decode().strip()}"\n', self.script)
        self.assertEqual(limits.USAGE, USAGE.decode().strip())

    def test_each_form_of_the_usage_line_has_its_limits(self) -> None:
        forms = re.findall(r'^    "([a-z]+)((?: \d+-\d+)+)"$', self.script, re.M)
        told = [form.split()[1:] for form in re.search(r'usage="usage: (.*)"', self.script).group(1).split(" | ")]  # type: ignore[union-attr]
        self.assertEqual([[name, len(some.split())] for name, some in forms],
                         [[form[0], len(form) - 1] for form in told])

    def test_limits_are_those_of_the_program(self) -> None:
        constants = {}
        for path in ("tc_isa/src/limits.rt", "tc_elf/src/limits.rt", "tc_build/src/generate.rt", "tc_main/src/policy.rt", "tc_main/src/words.rt"):
            for name, value in re.findall(r"pub const (\w+): \w+ = ([\d_]+);", (ROOT / "crates" / path).read_text()):
                constants[name] = int(value.replace("_", ""))
        named = {name: value for name, value in constants.items() if name.startswith("MAX_")}
        workers, fuel, batch, rounds, passes = (
            named[name] for name in ("MAX_WORKERS", "MAX_FUEL", "MAX_BATCH", "MAX_ROUNDS", "MAX_PASSES"))
        options = f"1-{workers} 1-{fuel} 0-{batch}"
        for form in (f"run {options}", f"gen 1-{rounds}", f"demo 1-{rounds} 1-{workers}", f"nodes 1-{workers} 0-{passes} {options}",
                     f"replay 1-{named['MAX_FILE']} {options}", f"profile 1-{named['MAX_FILE']} {options}"):
            self.assertIn(f'    "{form}"\n', self.script)
        self.assertIn(f"\nmost={named['MAX_FILE'] + 1}\n", self.script)
        self.assertIn(f"\nhistory={named['MAX_HISTORY']}\n", self.script)

    def test_the_built_program_answers_so(self) -> None:
        program = ROOT / "crates/tclocks/out/tclocks"
        if not program.exists():
            self.skipTest("the program is not built")
        for words in WRONG:
            done = process(program, *words, stdin=subprocess.DEVNULL)
            self.assertEqual((done.returncode, done.stdout, done.stderr), (1, USAGE, b""), words)
        for form in FORMS:
            self.assertNotEqual(process(program, *form.split(), stdin=subprocess.DEVNULL).returncode, 1, form)


class Building(Folder):
    def times(self) -> list[str]:
        return (self.root / "times").read_text().split("\n")

    def assert_clean(self) -> None:
        self.assertFalse((self.root / "out/lanes").exists())
        self.wait_until(lambda: not self.running("bin/rt"), 3)  # a process that was ended may be there for a moment

    def test_all_libraries_and_then_the_program_are_built_and_it_says_how_far_it_is(self) -> None:
        status, out, said = self.build("--jobs", "4")
        self.assertEqual((status, out), (0, b""), said)
        self.assertEqual(sorted(path.parts[-4] for path in (self.root / "crates").glob("*/out/rlib/stamp")),
                         ["low", "middle", "side", "tc_io"])
        self.assertTrue((self.root / "crates/tclocks/out/tclocks").exists())
        for part in ("0 of 5 crates are done, for 0:00 so far; proving low", "4 of 5 crates are done.*proving tclocks",
                     "the program is proved and built, in 0:0"):
            self.assertRegex(said, part)
        self.assert_clean()
        self.assertFalse((self.root / "out/build-logs").exists())

    def test_crates_that_do_not_stand_on_one_another_are_beside_one_another(self) -> None:
        free = re.search(r"MemAvailable: +(\d+) kB", pathlib.Path("/proc/meminfo").read_text())
        if not free or int(free[1]) < 13_000_000:
            self.skipTest("the memory that is free is enough for one proof alone")
        for pair in ("low side", "middle tc_io"):
            self.assertEqual(self.build("--jobs", "4", MEET=pair)[0], 0)
        times = self.times()
        self.assertLess(times.index("ended low"), times.index("begun middle"))

    def test_one_processor_does_one_after_the_other(self) -> None:
        self.build("--jobs", "1")
        self.assertEqual([line.split()[0] for line in self.times() if line], ["begun", "ended"] * 4)

    def test_two_builds_at_once_are_one_after_the_other(self) -> None:
        first, second = (self.begin(script="tclocks-build") for _ in range(2))
        said = [one.communicate(b"", timeout=60)[1].decode() for one in (first, second)]
        self.assertEqual((first.returncode, second.returncode), (0, 0))
        self.assertEqual(sum("another build is running here" in one for one in said), 1)

    def test_an_interrupted_build_leaves_nothing_that_runs_and_keeps_what_was_proved(self) -> None:
        for how in (signal.SIGINT, signal.SIGTERM, signal.SIGHUP):
            started = self.begin(script="tclocks-build", SLEEP="20")
            self.wait_for("out/lanes/low/crates/low/out/rlib")
            self.wait_until(lambda: self.running("bin/rt"))
            started.send_signal(how)
            _, said = started.communicate(timeout=20)
            self.assertEqual(started.returncode, 130)
            self.assertIn("the build was interrupted", said.decode())
            self.assertFalse((self.root / "crates/tclocks/out/tclocks").exists())
            self.assertTrue((self.root / "crates/low/out/rlib").exists())
            self.assert_clean()
        self.assertEqual(self.command("run", "1", "1", "0")[1], b"sources: run 1 1 0\n")

    def test_a_reader_of_what_is_said_that_ends_ends_the_build(self) -> None:
        subprocess.run(["sh", "-c", '"$0" 2>&1 | head -1', self.root / "tclocks-build"], check=True,
                       env={**self.environment, "SLEEP": "5"}, stdout=subprocess.DEVNULL, timeout=60)
        self.assert_clean()

    def test_a_place_that_can_not_be_written_is_said_in_one_line(self) -> None:
        self.write("out", "no folder")
        self.answers(126, b"", 1, script="tclocks-build")

    def test_a_failed_proof_names_its_log(self) -> None:
        status, _, said = self.build(FAILING="middle")
        self.assertEqual(status, 126)
        log = re.search(r"middle could not be built; what the toolchain said is in (.*)\n", said).group(1)  # type: ignore[union-attr]
        self.assertEqual(pathlib.Path(log).read_text(), "no proof of middle\n")
        self.assert_clean()
        self.assertEqual(self.build()[0], 0)

    def test_sources_that_change_during_a_build_are_newer_than_the_program(self) -> None:
        started = self.begin(script="tclocks-build")
        self.wait_for("times")
        self.write("crates/side/src/lib.rt", "// changed\n")
        started.communicate(b"", timeout=60)
        self.assertIn("out of date", self.command("run", "1", "1", "0")[2])

    def test_without_the_toolchain(self) -> None:
        (self.root / "bin/rt").unlink()
        self.answers(127, b"", 1, script="tclocks-build", PATH="/usr/bin:/bin")

    def test_words(self) -> None:
        for words in (("--jobs",), ("--jobs", "0"), ("--jobs", "x"), ("now",), ("--version", "now")):
            self.answers(1, b"", 1, *words, script="tclocks-build")
        status, out, _ = self.build("--help")
        self.assertEqual((status, b"./tclocks-build" in out), (0, True))
        self.assertEqual(self.count(), [])

    def test_no_word_of_the_program_builds(self) -> None:
        for words in (("--help",), ("--version",), ("stop",), ("demo", "1", "1"), ("gen", "1"), ("run", "1", "1", "0")):
            self.command(*words)
        self.assertEqual(set(self.count()), {"try"})

    def test_the_version_is_the_same_everywhere(self) -> None:
        """It is named in CITATION.cff, and told by the script, the README and the changes."""
        named = re.search(r"(?m)^version: (\S+)$", (ROOT / "CITATION.cff").read_text()).group(1)  # type: ignore[union-attr]
        said = subprocess.run([ROOT / "tclocks-build", "--version"], stdout=subprocess.PIPE, check=True).stdout.decode()
        self.assertRegex(said, rf"^tclocks {re.escape(named)}( \(.+\))?\n$")
        self.assertTrue(f"version {named}" in (ROOT / "README.md").read_text(), named)
        self.assertRegex((ROOT / "CHANGELOG.md").read_text(), rf"(?m)^## {re.escape(named)}$")


class Gate(unittest.TestCase):
    def setUp(self) -> None:
        folder = tempfile.TemporaryDirectory()
        self.addCleanup(folder.cleanup)
        self.root = pathlib.Path(folder.name)
        self.environment = {**os.environ, "PATH": str(self.root / "bin")}
        for name in ".ci", "bin":
            (self.root / name).mkdir()
        shutil.copy(ROOT / ".ci" / "run", self.root / ".ci")
        for name in "bash", "dirname", "mktemp", "rm", "tee", "sed", "tail", "sh", "cat", "python3":
            (self.root / "bin" / name).symlink_to(shutil.which(name) or "/none")

    def script(self, name: str, text: str) -> None:
        path = self.root / name
        path.write_text(f"#!/bin/sh\n{text}\n")
        path.chmod(0o755)

    def gate(self, rt: str, workbench: str = "echo '1 passed, 0 failed'") -> tuple[int, list[str]]:
        self.script("bin/rt", f'[ "$1" = ci ] && [ $# = 1 ] || exit 9\n{rt}')
        self.script("workbench", f'[ "$*" = "check tools" ] || exit 9\necho tested\n{workbench}')
        done = process("bash", self.root / ".ci" / "run", stdin=subprocess.DEVNULL, env=self.environment)
        self.assertEqual(done.stderr, b"")
        return done.returncode, done.stdout.decode().splitlines()

    def test_both_pass(self) -> None:
        status, lines = self.gate("echo one; echo two >&2; echo '512 passed, 0 failed (12 from before)'; echo 'rt: ok'",
                                  "echo '20 passed, 0 failed'")
        self.assertEqual(status, 0)
        self.assertEqual(sorted(lines[:2]), ["one", "two"])
        self.assertEqual(lines[2:], ["512 passed, 0 failed (12 from before)", "rt: ok", "tested", "20 passed, 0 failed",
                                     "532 passed, 0 failed"])

    def test_a_failure_fails_the_gate(self) -> None:
        """Of rt, whereupon no tool is tested, or of the tools."""
        for rt, workbench, last in rows("gate"):
            status, lines = self.gate(rt, workbench)
            self.assertEqual((status, lines[-1], "tested" in lines), (1, last, workbench != "-"), (rt, workbench))

    def test_without_python(self) -> None:
        (self.root / "bin" / "python3").unlink()
        status, lines = self.gate("echo '10 passed, 0 failed'")
        self.assertEqual((status, lines[-1]), (0, "10 passed, 0 failed"))
        self.assertNotIn("tested", lines)

    def test_it_is_run_from_elsewhere_without_standard_input(self) -> None:
        self.gate("echo '10 passed, 0 failed'")
        done = process("sh", "-c", 'cd / && bash "$0" <&-', self.root / ".ci" / "run", env=self.environment)
        self.assertEqual((done.returncode, done.stdout.splitlines()[-1]), (0, b"11 passed, 0 failed"))
