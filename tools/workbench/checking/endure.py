"""Runs of the program in bad surroundings."""
from __future__ import annotations

import contextlib
import fcntl
import os
import pathlib
import resource
import shutil
import signal
import statistics
import subprocess
import tempfile
import time
from typing import Any, Callable

from .. import limits, progress, tool
from ..guest import made
from ..judging import rejecting
from ..reports.report import Wrong
from ..running import program

MOST_MEMORY = 900  # of the largest guest, in MB, as bench/README.md says
NOISE = 1.25  # of a peak: which worker does what differs
SOME_PIPE = 4096  # bytes: the program waits at the end for who reads its report
F_SETPIPE_SZ = 1031
COUNTING = ("run", "2", "2000", "8")
SLEEPING = ("run", "8", "65536", "0")


def need(holds: object, text: str) -> None:
    if not holds:
        raise Wrong(text)


def sleeping(threads: int) -> bytes:
    """The largest guest, with 32 threads: each takes the last four of 32 locks and sleeps with them
    until its fuel is spent, in blocks of one turn. The data fill the memory that a file may have."""
    words = made.code("LOCK 28; LOCK 29; LOCK 30; LOCK 31; addi 10 0 0; addi 17 0 3")
    words += [made.ECALL] * limits.RUN["fuel"][1]
    memory = limits.FILE_BYTES - 4 * len(words)
    guards = [(made.DATA + 4 * lock, 4) for lock in range(limits.GUARDS[2])]
    return made.elf(made.note([(made.CODE, 0)] * threads, guards, 2), words, b"", memory)


class Place:
    """A folder with a copy of the program, and an empty one in which it runs."""

    def __init__(self, folder: pathlib.Path) -> None:
        self.program, self.empty = folder / "tclocks", folder / "empty"
        shutil.copy(program.PATH, self.program)
        self.empty.mkdir()
        self.guest = folder / "guest.elf"

    def processes(self) -> list[str]:
        """The processes that run this copy."""
        found = []
        for link in pathlib.Path("/proc").glob("[0-9]*/exe"):
            with contextlib.suppress(OSError):  # it has ended, or is another user's
                found += [link.parent.name] * (os.readlink(link) == str(self.program))
        return found

    def is_clean(self) -> None:
        need(not self.processes(), "a process is left")
        need(not list(self.empty.iterdir()), f"a file is left: {list(self.empty.iterdir())}")

    def start(self, file: bytes, words: tuple[str, ...], **more: Any) -> subprocess.Popen[bytes]:
        self.guest.write_bytes(file)
        env = {"HOME": str(self.empty), "TMPDIR": str(self.empty)}
        streams: dict[str, Any] = {"stdout": subprocess.PIPE, "stderr": subprocess.PIPE, **more}
        with open(self.guest, "rb") as given:
            return subprocess.Popen([self.program, *words], stdin=given, cwd=self.empty, env=env, **streams)

    def run(self, file: bytes, words: tuple[str, ...], **more: Any) -> tuple[int, bytes]:
        """Runs it to its end: its status, and what it wrote."""
        process = self.start(file, words, **more)
        written, said = process.communicate(timeout=120)
        need(not said, f"it said {said!r}")
        return process.returncode, written

    def peak(self, file: bytes, words: tuple[str, ...]) -> int:
        """Its peak memory in kB, when its first byte was written: all memory of the report is taken by then."""
        read, write = os.pipe()
        fcntl.fcntl(write, F_SETPIPE_SZ, SOME_PIPE)
        process = self.start(file, words, stdout=write, stderr=subprocess.DEVNULL)
        os.close(write)
        with open(read, "rb", buffering=0) as report:
            need(report.read(1) == b"t", "no report")
            lines = pathlib.Path(f"/proc/{process.pid}/status").read_text().splitlines()
            end = b""
            for part in iter(lambda: report.read(1 << 20), b""):
                end = (end + part)[-4:]
        need((process.wait(), end) == (0, b"end\n"), f"status {process.returncode}, it ends with {end!r}")
        return next(int(line.split()[1]) for line in lines if line.startswith("VmHWM:"))


def runs_in_a_row(place: Place, runs: int) -> str:
    file = made.counting(4)
    peaks = []
    with progress.Progress("endure", "runs in a row", runs) as shown:
        for _ in shown.each(range(runs)):
            peaks.append(place.peak(file, COUNTING))
            place.is_clean()
    shown.end()
    some = max(1, runs // 10)
    first, last = statistics.median(peaks[:some]), statistics.median(peaks[-some:])
    need(last <= first * NOISE, f"peak memory of {first} kB at first, {last} kB at last")
    return f"{runs} runs, peak memory {first:.0f} kB at first, {last:.0f} kB at last"


def largest_guest(place: Place, _: int) -> str:
    peak = place.peak(sleeping(32), SLEEPING) / 1000
    need(peak <= MOST_MEMORY, f"it takes {peak:.0f} MB, more than {MOST_MEMORY}")
    return f"{peak:.0f} MB on 8 workers"


def reader_that_ends(place: Place, _: int) -> str:
    for size in (0, 1, 4096, 100_000):
        process = place.start(sleeping(1), SLEEPING)
        assert process.stdout and process.stderr
        process.stdout.read(size)
        process.stdout.close()
        said = process.stderr.read()
        process.stderr.close()
        need((process.wait(), said) == (4, b""), f"status {process.returncode}, not 4, after {size} bytes")
    return "status 4"


def full_and_closed_streams(place: Place, _: int) -> str:
    place.guest.write_bytes(made.counting(2))
    for streams, words, status in (
            (">/dev/full", COUNTING, 4), (">/dev/full", ("stop",), 1), ("<&-", COUNTING, 2), (">&-", COUNTING, 4),
            ("2>&-", COUNTING, 0), ("<&- >&-", COUNTING, 2), (">&- 2>&-", COUNTING, 4), ("<&- >&- 2>&-", COUNTING, 2)):
        script = f'exec "$0" "$@" < "$FILE" {streams}'
        done = subprocess.run(["sh", "-c", script, place.program, *words], cwd=place.empty,
                              capture_output=True, check=False, env={"FILE": str(place.guest)})
        need(done.returncode == status, f"{streams}: status {done.returncode}, not {status}")
        need(not done.stderr, f"{streams}: it said {done.stderr!r}")
        need(done.stdout.endswith(b"end\n") == (status == 0), f"{streams}: it wrote {len(done.stdout)} bytes")
    return "status 2 without standard input, 4 without standard output or on a full disk, 1 there for the usage line"


def limit(megabytes: int) -> Callable[[], None]:
    return lambda: resource.setrlimit(resource.RLIMIT_AS, (megabytes << 20, megabytes << 20))


def little_memory(place: Place, _: int) -> str:
    """How much is enough differs from run to run."""
    refused = []
    for megabytes in (16, 32, 64, 128, 256, 512):
        status, written = place.run(sleeping(8), SLEEPING, preexec_fn=limit(megabytes))
        is_whole = status == 0 and written.endswith(b"\nend\n")
        need(is_whole or (status, written) == (5, b""), f"status {status} with {len(written)} bytes in {megabytes} MB")
        refused += [megabytes] * (status == 5)
    need(16 in refused, "16 MB are enough")
    return f"status 5 and nothing written in {', '.join(map(str, refused))} MB"


def signals(place: Place, _: int) -> str:
    progress.heed_signals()
    file = sleeping(8)
    for number in (signal.SIGINT, signal.SIGTERM, signal.SIGHUP, signal.SIGKILL):
        for delay in (0.001, 0.03, 0.3):
            process = place.start(file, SLEEPING)
            time.sleep(delay)
            process.send_signal(number)
            process.communicate(timeout=60)
            need(process.returncode == -number, f"{number.name}: status {process.returncode}")
            place.is_clean()
    return "it ends at once"


def histories(place: Place, _: int) -> str:
    file = sleeping(1)
    words = "replay", str(len(file)), *SLEEPING[1:]
    report = place.run(file, SLEEPING)[1]
    history = rejecting.history_of(report.decode("ascii"))
    need(place.run(file + history, words) == (0, report), "replay does not print the report of the run")
    with open("/dev/full", "wb") as full:
        for given, status in ((history, 4), (history[:-1], limits.REJECTED)):
            done = place.run(file + given, words, stdout=full)[0]
            need(done == status, f"a full disk: status {done}, not {status}")
    ended = place.run(file + history, words, preexec_fn=limit(16))
    need(ended == (5, b""), f"status {ended[0]} with {len(ended[1])} bytes in 16 MB")
    place.guest.write_bytes(file)
    os.truncate(place.guest, len(file) + limits.HISTORY_BYTES + 1)
    with open(place.guest, "rb") as long:
        asked = subprocess.run([place.program, *words], stdin=long, capture_output=True, cwd=place.empty, check=False)
    need((asked.returncode, asked.stdout) == (3, b"refused 0 TooLarge\n"), f"too long: status {asked.returncode}, {asked.stdout[:80]!r}")
    return "the report of the run, status 4 and 6 on a full disk, 5 in 16 MB, 3 where it is too long"


TRIALS = (runs_in_a_row, largest_guest, reader_that_ends, full_and_closed_streams, little_memory, signals, histories)


def tried(trial: Callable[[Place, int], str], folder: pathlib.Path, runs: int) -> bool:
    place, failed = Place(folder), None
    try:
        said = trial(place, runs)
        place.is_clean()
    except (Wrong, subprocess.TimeoutExpired) as wrong:
        failed = wrong
    progress.say(f"{getattr(trial, '__name__')}: {f'FAILED: {failed}' if failed else f'passed, {said}'}")
    return not failed


def main(words: list[str]) -> int | None:
    parser = tool.words("endure")
    parser.number("runs", (1, 1_000_000), usual=1000, metavar="RUNS", nargs="?")
    runs, passed = parser.parse_args(words).runs, 0
    program.need()
    count = 0
    with progress.Progress("endure", "trials", len(TRIALS)) as shown:
        for count, trial in shown.each(enumerate(TRIALS, 1)):
            with tempfile.TemporaryDirectory() as folder:
                passed += tried(trial, pathlib.Path(folder).resolve(), runs)
    done = count - shown.interrupted
    print(f"{passed} passed, {done - passed} failed")
    shown.end()
    return tool.WRONG if passed < len(TRIALS) else tool.DONE
