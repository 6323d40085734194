"""What the tools of this folder share: how they read, how they print, and how they end.

Their statuses are those of the program: 0 done, 1 the words are wrong, 2 the input can't be read, 3 it isn't what it
must be (refused, no report, not legal), 4 the output can't be written, 5 memory was refused. Each status above 0 comes
with one line on standard error."""
from __future__ import annotations

from pathlib import Path
import argparse
import contextlib
import errno
import gc
import os
import sys
from typing import Any, Callable, IO, Iterator, NoReturn

from . import limits

DONE, WORDS, INPUT, WRONG, OUTPUT, MEMORY, STOPPED = 0, 1, 2, 3, 4, 5, 130

LONGEST_LINE = 4096


class Trouble(Exception):
    """Why a tool ends early: its status and its line."""

    def __init__(self, status: int, text: str) -> None:
        super().__init__(text)
        self.status = status


class Words(argparse.ArgumentParser):
    """The words of a tool. Wrong ones are one line."""

    def error(self, message: str) -> NoReturn:
        raise Trouble(WORDS, f"{message}; {' '.join(self.format_usage().split())}")

    def number(self, name: str, limits: tuple[int, int], says: str | None = None, usual: int | None = None,
               metavar: str | None = "N", **more: Any) -> None:
        """A word that is a number in these limits."""
        self.add_argument(name, metavar=metavar, type=number(*limits), help=says, default=usual, **more)

    def report(self, says: str = "a report; - is standard input", **more: Any) -> None:
        """The word of a report's file."""
        self.add_argument("report", metavar="REPORT", help=says, **more)


def called(tool: str) -> str:
    """A tool's name as it is called: a subcommand of the workbench but for one that has a place of its own."""
    return tool if "/" in tool else f"workbench {tool}".rstrip()


def page(name: str) -> str:
    """A page of help: of a subcommand, whose first line is what it does, or on what several of them have."""
    return (Path(__file__).parent / "help" / f"{Path(name).name.replace(' ', '-')}.txt").read_text()


def words(tool: str, *first: str, more: str | None = None) -> Words:
    """The parser of a tool's words, with a guest's file and the numbers of a run where these come first. It says
    what stands on the tool's page, and at the end what stands on another one."""
    parser = Words(prog=called(tool), description=page(tool), epilog=page(more) if more else None,
                   allow_abbrev=False, formatter_class=argparse.RawDescriptionHelpFormatter)
    if "guest" in first:
        parser.add_argument("guest", metavar="GUEST", help="the guest's file")
    for name, (least, most) in limits.RUN.items() if "run" in first else ():
        parser.number(name, (least, most), f"{least} to {most}", metavar=name.upper())
    return parser


def of_run(asked: object) -> dict[str, int]:
    """The numbers of a run that were asked for, or that a report says."""
    return {name: getattr(asked, name) for name in limits.RUN if getattr(asked, name) is not None}


def number(least: int, most: int) -> Callable[[str], int]:
    """A type of a word: a number in these limits."""
    def read(word: str) -> int:
        if not (word.isascii() and word.isdigit() and len(word) < 12 and least <= int(word) <= most):
            raise argparse.ArgumentTypeError(f"{word!r} is no number from {least} to {most}")
        return int(word)
    return read


def numbers(least: int, most: int) -> Callable[[str], list[int]]:
    """A type of a word: numbers in these limits with commas between them, each once."""
    def read(word: str) -> list[int]:
        found = [*map(number(least, most), word.split(","))]
        if len({*found}) < len(found):
            raise argparse.ArgumentTypeError(f"{word!r} has a number twice")
        return found
    return read


@contextlib.contextmanager
def opened(path: Path | str) -> Iterator[IO[bytes]]:
    """A file for reading bytes, or Trouble; '-' is standard input."""
    try:
        if path == "-" and sys.stdin is None:
            raise OSError(errno.EBADF, "it is closed")
        with open(path, "rb") if path != "-" else sys.stdin.buffer as file:
            yield file
    except OSError as error:
        named = "standard input" if path == "-" else path
        raise Trouble(INPUT, f"{named}: {error.strerror or error}") from None


@contextlib.contextmanager
def writing(path: Path | str) -> Iterator[None]:
    """Trouble where what is at a path can't be written."""
    try:
        yield
    except OSError as error:
        raise Trouble(OUTPUT, f"{path}: {error.strerror}") from None


def read_bytes(path: Path | str, most: int = -1) -> bytes:
    """The first bytes of a file, at most so many; all of them where that is not said."""
    with opened(path) as file:
        return file.read(most)


def read_lines(path: str | Path) -> Iterator[str]:
    """The lines of a text one by one, with their ends of line; a longer one comes in parts."""
    with opened(path) as file:
        for line in iter(lambda: file.readline(LONGEST_LINE), b""):
            yield line.decode("ascii", "replace")


def write_file(path: Path | str, content: bytes | str) -> None:
    with writing(path), open(path, "wb") as file:
        file.write(content if isinstance(content, bytes) else content.encode("utf-8"))


def print_columns(rows: list[list[str]], adjust: Callable[[str, int], str] = str.rjust) -> None:
    """Prints rows of cells, each as wide as its column."""
    widths = [max(map(len, column)) for column in zip(*rows)]
    for row in rows:
        print("  ".join(map(adjust, row, widths)).rstrip())


def note(name: str, text: str) -> None:
    """One line on standard error."""
    if sys.stderr is not None:
        sys.stderr.write(f"{called(name)}: {text}\n")


def ended(name: str, status: int, text: str) -> int:
    note(name, text)
    if sys.stdout is not None:
        # What is still in the buffer can't be written; nothing tries it again at the end.
        os.dup2(os.open(os.devnull, os.O_WRONLY), sys.stdout.fileno())
    return status


def run(name: str, main: Callable[[list[str]], int | None], words: list[str]) -> None:
    """Runs a tool with its words, and ends with its status."""
    gc.disable()  # a million blocks are no cycles, and looking for some takes long
    try:
        if sys.stdout is None:
            raise Trouble(OUTPUT, "standard output: it is closed")
        status = main(words) or DONE
        sys.stdout.flush()
    except Trouble as trouble:
        # What was printed before is written; the trouble is what it ends with.
        with contextlib.suppress(OSError, AttributeError):
            sys.stdout.flush()
        status = ended(name, trouble.status, str(trouble))
    except OSError as error:
        status = ended(name, OUTPUT, f"standard output: {error.strerror}")
    except KeyboardInterrupt:
        status = ended(name, STOPPED, "interrupted")
    except MemoryError:
        status = ended(name, MEMORY, "memory was refused")
    sys.exit(status)
