"""One run of the program, or of another one beside it, and what it took."""
from __future__ import annotations

import argparse
import contextlib
import os
import re
import shutil
import subprocess
import tempfile
import time
from pathlib import Path
from typing import IO, Any, Iterable, Iterator, NamedTuple

from .. import limits, tool
from ..running import program
from .table import Failed

HERE = Path(__file__).resolve().parent
TURNS = re.compile(rb"^block \d+ thread \d+ turns (\d+) ")
# What ./tclocks adds to the environment of the program.
ADDED = {"GLIBC_TUNABLES": "glibc.malloc.hugetlb=1"}


class Took(NamedTuple):
    """The seconds from the start to the end, those that the process was running, and its peak memory in bytes."""
    seconds: float
    busy: float
    peak: int


def words(bench: str, known: Iterable[str], usual: str, *first: str, **numbers: Any) -> tool.Words:
    """The parser of a bench's words: guests, the program, where the raw results go; and numbers of a run, as -b or
    -f, or -r for how many runs there are: of each what is usual (a list where it may be several, as 1,4), what it
    says, and another least one."""
    parser = tool.words(f"bench {bench}", *first)
    parser.add_argument("guests", metavar="GUEST", nargs="*", help=f"{', '.join(known)}; {usual} if left out")
    parser.add_argument("-p", dest="program", metavar="PROGRAM", type=Path,
                        help="the program to measure (the one that ./tclocks-build has built)")
    parser.add_argument("--results", metavar="FILE", help="keep the raw results there; bench table prints them")
    for name, (given, says, *least) in numbers.items():
        low, high = limits.RUN.get(name, (1, 9999))
        some = least[0] if least else low, high
        if isinstance(given, list):
            parser.add_argument(f"-{name[0]}", dest=name, metavar=f"{name.upper()},..", default=given,
                                type=tool.numbers(*some), help=f"{says} ({','.join(map(str, given))})")
        else:
            parser.number(f"-{name[0]}", some, f"{says} ({given})", given, name.upper(), dest=name)
    return parser


def parsed(parser: tool.Words, given: list[str], known: Iterable[str], cores: Iterable[int] = ()) -> argparse.Namespace:
    """What the words ask for, of guests that are known; the program that is asked for is the one that runs
    from here on. Trouble where it is not there, or was not built."""
    asked = parser.parse_intermixed_args(given)
    wrong = [name for name in asked.guests if name not in known]
    if wrong:
        parser.error(f"there is no guest {wrong[0]!r}")
    if cores and asked.core not in cores:
        parser.error(f"there is no processor {asked.core} here")
    if asked.program is not None:
        if not (asked.program.is_file() and os.access(asked.program, os.X_OK)):
            raise tool.Trouble(tool.INPUT, f"{asked.program}: there is no such program")
        program.PATH = asked.program.absolute()
    elif getattr(asked, "folder", None) is None:
        program.need()
    return asked


def compiled(source: str, folder: str, *words: str) -> Path:
    """A source of this folder, compiled into another one: its path."""
    if not shutil.which("cc"):
        raise tool.Trouble(tool.INPUT, "this needs a C compiler, and cc is not on the PATH")
    made = Path(folder) / Path(source).stem
    done = subprocess.run(["cc", "-O2", *words, "-o", made, HERE / source], stdout=subprocess.PIPE, stderr=subprocess.STDOUT,
                          check=False)
    if done.returncode:
        said = done.stdout.decode(errors="replace").splitlines() or [f"status {done.returncode}"]
        raise tool.Trouble(tool.INPUT, f"cc does not compile {source}: {said[0]}")
    return made


def run(words: tuple[Any, ...], given: IO[bytes], written: IO[bytes], path: Path | None = None,
        surroundings: dict[str, str] | None = None) -> tuple[int, Took]:
    """Runs the program, in the environment in which ./tclocks runs it, or what is at a path, over open files, each
    from its place on: its status, and what it took. Surroundings are more variables of the environment."""
    around: dict[str, str] = {**({} if path else ADDED), **os.environ, **(surroundings or {})}
    path = path or program.PATH
    streams = [(os.POSIX_SPAWN_DUP2, file.fileno(), number) for number, file in enumerate((given, written))]
    began = time.perf_counter()
    try:
        number = os.posix_spawn(path, [*map(str, (path, *words))], around, file_actions=streams)
    except OSError as error:
        raise tool.Trouble(tool.INPUT, f"{path}: {error.strerror}") from None
    _, ended, usage = os.wait4(number, 0)
    seconds = time.perf_counter() - began
    status = os.WEXITSTATUS(ended) if os.WIFEXITED(ended) else -os.WTERMSIG(ended)
    return status, Took(seconds, usage.ru_utime + usage.ru_stime, usage.ru_maxrss * 1024)


@contextlib.contextmanager
def over(file: bytes, words: tuple[Any, ...], path: Path | None = None,
         surroundings: dict[str, str] | None = None, said: str = "") -> Iterator[tuple[Took, IO[bytes]]]:
    """Runs it over the bytes of a file: what it took, and what it wrote. Failed, with what is said of the
    run, where its status is not 0."""
    with tempfile.TemporaryFile() as given, tempfile.TemporaryFile() as written:
        given.write(file)
        given.seek(0)
        status, took = run(words, given, written, path, surroundings)
        if status:
            named = " ".join(map(str, (path.name if path else "tclocks", *words)))
            raise Failed(f"{named} ended with status {status}{said}")
        written.seek(0)
        yield took, written


def counts(report: IO[bytes]) -> tuple[int, int, int]:
    """The turns and the blocks of a report, a file, and its bytes."""
    turns = blocks = size = 0
    for line in report:
        size += len(line)
        found = TURNS.match(line)
        if found:
            turns += int(found.group(1))
            blocks += 1
    return turns, blocks, size
