"""What the tests of the tools share: guests, histories, and how a tool is run. Expected values come
from docs, from facts.json and from guests whose runs are known on paper."""
from __future__ import annotations

import json
import multiprocessing
import os
import pathlib
import shutil
import signal
import subprocess
import sys
import tempfile
import time
import unittest
import warnings
from typing import IO, Any, Callable, Iterable

from tools.workbench import command, places, progress
from tools.workbench.guest import guestfile, made
from tools.workbench.reports import report
from tools.workbench.running import delegation, program

ROOT, GUESTS, COURSE = places.ROOT, places.GUESTS, places.COURSE
DOCS, ANSWERS = ROOT / "docs", ROOT / "docs" / "answers"
COMPILER = shutil.which("riscv64-unknown-elf-gcc")
FACTS = json.loads((GUESTS / "facts.json").read_text())
NAMES = sorted(FACTS)
FOLDER = tempfile.TemporaryDirectory()
TEMPORARY = pathlib.Path(FOLDER.name)


def told(name: str) -> str:
    """A history, or another text of the folder histories."""
    return (ROOT / "tools/tests/histories" / f"{name}.txt").read_text()


def rows(name: str) -> list[list[str]]:
    """The rows of a table of the folder tables, in which \\n is an end of line."""
    lines = (ROOT / "tools/tests/tables" / f"{name}.txt").read_text().splitlines()
    return [line.replace("\\n", "\n").split(" | ") for line in lines if not line.startswith("#")]


# lui x5,0x20; lock(0); x7 = load, plus 1, store; unlock(0); exit.
ONE = (0x000202B7, 0x00000513, 0x00100893, 0x00000073, 0x0002A383, 0x00138393, 0x0072A023,
       0x00000513, 0x00200893, 0x00000073, 0x05D00893, 0x00000073)
BY_HAND = told("by-hand")
PROFILE = told("by-hand-profile")


# A program that is made up: it answers by the model, and to `replay` of so much fuel with another report. It has as
# many workers as it gets threads.
MADE_UP = f"""#!/usr/bin/env -S PYTHONPATH={ROOT} {sys.executable}
import sys, threading
from tools.workbench.guest import model
from tools.workbench.judging import rejecting
from tools.workbench.running import delegation
form, *numbers = sys.argv[1:]
given, numbers = sys.stdin.buffer.read(), [*map(int, numbers)]
if form == "run":
    try:
        for worker in range(1, numbers[0]):
            threading.Thread(target=int).start()
    except RuntimeError:
        numbers[0] = worker
    run, blocks = delegation.delegated(model.Guest(given), numbers[1], numbers[0], numbers[2])
    status, text = 0, "\\n".join(run.lines(blocks)) + "\\n"
else:
    status, text = rejecting.Given(numbers[0], numbers[1:], given).answer(form)
sys.stdout.write(text.replace("fuel 13 ", "fuel 14 ", form == "replay"))
sys.exit(status)
"""


def built(code: Any, threads: tuple[int, ...], guards: int, data: bytes = b"") -> bytes:
    """A guest's file with guards of one word; threads are the places where they enter, in words."""
    note = made.note([(made.CODE + 4 * place, 0) for place in threads],
                     [(made.DATA + 4 * lock, 4) for lock in range(guards)])
    return made.elf(note, code, data or bytes(4 * guards), 4 * guards)


def saved(name: str, content: bytes | str) -> str:
    path = TEMPORARY / name
    path.parent.mkdir(parents=True, exist_ok=True)
    path.write_bytes(content if isinstance(content, bytes) else content.encode("ascii"))
    return str(path)


def script(name: str, text: str) -> str:
    """The path of a program that is made up."""
    path = saved(name, text)
    os.chmod(path, 0o755)
    return path


def elf(name: str) -> str:
    return str(GUESTS / f"{name}.elf")


def inside(asked: list[str], files: Iterable[IO[bytes]], by: str | None) -> None:
    """Runs a tool in a process that is a copy of this one."""
    for number, file in enumerate(files):
        os.dup2(file.fileno(), number)
    sys.stdin, sys.stdout, sys.stderr = open(0), open(1, "w"), open(2, "w")
    sys.argv[1:] = asked
    if by:
        program.PATH, program.COMMAND = pathlib.Path(by), pathlib.Path("false")
    signal.alarm(600)
    warnings.simplefilter("ignore")  # which a test asks for, and a tool does not
    command.main()


def run(tool: str, *words: pathlib.Path | str, given: bytes | str = b"", stdout: IO[bytes] | None = None,
        by: str | None = None) -> subprocess.CompletedProcess[bytes]:
    """Runs a tool by a copy of this process, which has the modules; `by` stands for the built program."""
    asked = [*tool.split(), *map(str, words)]
    with tempfile.TemporaryFile() as read, tempfile.TemporaryFile() as out, tempfile.TemporaryFile() as said:
        read.write(given if isinstance(given, bytes) else given.encode())
        read.seek(0)
        given_to = asked, (read, stdout or out, said), by
        child = multiprocessing.get_context("fork").Process(target=inside, args=given_to)
        child.start()
        child.join()
        for file in out, said:
            file.seek(0)
        return subprocess.CompletedProcess(asked, child.exitcode or 0, None if stdout else out.read(), said.read())


def process(*words: Any, **more: Any) -> subprocess.CompletedProcess[bytes]:
    """Runs a process of its own to its end."""
    return subprocess.run(words, check=False, capture_output=True, **more)


GUEST = saved("one.elf", built(ONE, (0, 0), 1))
FINISHED = run("finish", GUEST, given=BY_HAND).stdout


def history(name: str, workers: int, batch: int, seed: int | None, fuel: int = 20000) -> tuple[list[report.Block], str]:
    made_run, blocks = delegation.delegated(guestfile.load(elf(name)).guest, fuel, workers, batch, seed)
    return blocks, "\n".join(made_run.lines(blocks)) + "\n"


def served(hall: delegation.Hall, workers: dict[int, int], come: Iterable[str]) -> str:
    """Whom worker 0 passes lock 0 of counter on to, each time when some threads, of these workers, have come."""
    found, hall.line[0] = "", [0]
    for threads in come:
        for thread in map(int, threads):
            hall.line[0].append(thread)
            hall.linked.add((thread, 0))
            hall.shipped[thread] = [workers[thread], 0]
        found += str(hall.next_in_line(0, delegation.Worker(0)))
        hall.line[0].remove(int(found[-1]))
    return found


class Case(unittest.TestCase):
    def one_line(self, done: subprocess.CompletedProcess[bytes], status: int, text: str = "") -> None:
        """It ended with this status and one line on standard error, and no traceback; and said a text."""
        self.assertEqual((done.returncode, done.stderr.count(b"\n")), (status, 1), done.stderr)
        self.assertNotIn(b"Traceback", done.stderr + (done.stdout or b""))
        self.assertIn(text, ((done.stdout or b"") + done.stderr).decode())

    def says(self, text: str, done: subprocess.CompletedProcess[bytes]) -> None:
        self.assertIn(text, (done.stdout + done.stderr).decode())

    def well(self, tool: str, *words: pathlib.Path | str, **more: Any) -> str:
        """What a tool prints, which ends with status 0 and says nothing else."""
        done = run(tool, *words, **more)
        self.assertEqual((done.returncode, done.stderr), (0, b""), (tool, words, done.stdout[-300:]))
        return done.stdout.decode()

    def full(self, tool: str, *words: pathlib.Path | str, lines: int = 1, **more: Any) -> None:
        """A tool whose output goes to a full disk."""
        with open("/dev/full", "wb") as full:
            done = run(tool, *words, stdout=full, **more)
        self.assertEqual((done.returncode, done.stderr.count(b"\n")), (4, lines), done.stderr)


class Folder(unittest.TestCase):
    """A checkout with a toolchain and a program that are made up, for the tests of the command tclocks and of
    the script that builds it."""

    def setUp(self) -> None:
        progress.heed_signals()
        self.folder = tempfile.TemporaryDirectory()
        self.addCleanup(self.folder.cleanup)
        self.root = pathlib.Path(self.folder.name).resolve()
        for crate in ("low", "side", "middle", "tc_io", "tc_tests", "tclocks"):
            self.write(f"crates/{crate}/src/lib.rt", f"// {crate}\n")
        self.write("guests/exit.elf", "")
        own = ("__init__.py", "limits.py", "places.py", "progress.py", "tool.py", "running/__init__.py",
               "running/program.py", "help/tclocks-build.txt")
        names = ["tclocks", "tclocks-build", "CITATION.cff", "tools/__init__.py"]
        names += [f"tools/workbench/{name}" for name in own]
        made_up = {"bin/rt": "bin/rt", "program": "program", "listed-crates": "crates.txt"}
        copies = {ROOT / name: name for name in names}
        copies.update({ROOT / "tools/tests/made-up" / name: place for name, place in made_up.items()})
        for path, place in copies.items():
            (self.root / place).parent.mkdir(parents=True, exist_ok=True)
            shutil.copy(path, self.root / place)
        (self.root / "tmp").mkdir()
        self.environment = {**os.environ, "PATH": f"{self.root / 'bin'}:{os.environ['PATH']}", "SLEEP": "0.5",
                            "COUNT": str(self.root / "count"), "TIMES": str(self.root / "times"), "FAILING": "", "MEET": "",
                            "PROGRAM": str(self.root / "program"), "TMPDIR": str(self.root / "tmp")}
        self.environment.pop("TCLOCKS_PROGRAM", None)

    def write(self, name: str, text: str) -> None:
        path = self.root / name
        path.parent.mkdir(parents=True, exist_ok=True)
        path.write_text(text)

    def begin(self, *words: bytes | str, shell: tuple[str, ...] = (), script: str = "tclocks",
              **more: Any) -> subprocess.Popen[bytes]:
        return subprocess.Popen([*shell, self.root / script, *words], env={**self.environment, **more},
                                stdin=subprocess.PIPE, stdout=subprocess.PIPE, stderr=subprocess.PIPE)

    def shell(self, text: str) -> subprocess.CompletedProcess[bytes]:
        """Runs a line of the shell, in which $0 is the command."""
        return process("sh", "-c", text, self.root / "tclocks", input=b"x", env=self.environment)

    def command(self, *words: bytes | str, given: bytes = b"", **more: Any) -> tuple[int, bytes, str]:
        """The status, the output and what was said."""
        started = self.begin(*words, **more)
        out, said = started.communicate(given, timeout=60)
        return started.returncode, out, said.decode()

    def build(self, *words: str, **more: Any) -> tuple[int, bytes, str]:
        return self.command(*words, script="tclocks-build", **more)

    def answers(self, status: int, out: bytes, lines: int, *words: str, **more: Any) -> str:
        """The command ends with this status and output. Answers what it says, which are so many lines."""
        ended, written, said = self.command(*words, **more)
        self.assertEqual((ended, written, said.count("\n")), (status, out, lines), (words, said))
        return said

    def count(self) -> list[str]:
        """What the toolchain was asked for by the command."""
        path = self.root / "count"
        return [line.split()[0] for line in path.read_text().splitlines()] if path.exists() else []

    def wait_for(self, name: str) -> None:
        """Waits until a file or a folder is there."""
        self.wait_until((self.root / name).exists)

    def wait_until(self, holds: Callable[[], object], seconds: float = 50) -> None:
        until = time.monotonic() + seconds
        while not holds():
            self.assertLess(time.monotonic(), until)
            time.sleep(0.05)

    def left_over(self) -> list[Any]:
        """What is left of runs without proof."""
        return sorted(path.name for path in (self.root / "tmp").iterdir())

    def running(self, what: str) -> str:
        return process("pgrep", "-f", f"sh {self.root}/{what}").stdout.decode()
