"""How far long work is: one line on standard error that is written again and again, where that is a terminal."""
from __future__ import annotations

import os
import signal
import sys
import time
from types import TracebackType
from typing import Iterable, Iterator, TypeVar

from . import tool

EACH = 0.2  # seconds between two writings
Piece = TypeVar("Piece")


class Progress:
    """Shows what is done of some work while it goes on, in a `with`. An interrupt ends the block, and is kept: who
    has told what was found so far calls `end`."""

    def __init__(self, name: str, what: str, total: float | None = None) -> None:
        self.name, self.what, self.total, self.done = name, what, total, 0
        self.is_shown = sys.stderr is not None and sys.stderr.isatty()
        self.began = self.written = time.monotonic()
        self.interrupted = False

    def __enter__(self) -> Progress:
        self.show()
        return self

    def __exit__(self, kind: type[BaseException] | None, _: BaseException | None, __: TracebackType | None) -> bool:
        clear()
        self.interrupted |= kind is KeyboardInterrupt
        return kind is KeyboardInterrupt

    def each(self, work: Iterable[Piece]) -> Iterator[Piece]:
        """Each piece of work, which is done when the next one is asked for."""
        for one in work:
            yield one
            self.reach(self.done + 1)

    def reach(self, done: int) -> None:
        """So much is done in all."""
        self.done = done
        if self.is_shown and time.monotonic() >= self.written + EACH:
            self.show()

    def show(self) -> None:
        if self.is_shown:
            self.written = time.monotonic()
            width = os.get_terminal_size(sys.stderr.fileno()).columns or 80
            sys.stderr.write(f"\r{self.text(self.written - self.began)[:width - 1]}\x1b[K")
            sys.stderr.flush()

    def text(self, seconds: float) -> str:
        """The line after so many seconds: what is done, of how much where that is known, the rate, the time left."""
        of = "" if self.total is None else f" of {number(self.total)}"
        said = f"{tool.called(self.name)}: {self.done:,}{of} {self.what}"
        if self.done and seconds > 1:
            rate = self.done / seconds
            said += f", {number(rate)} a second"
            if self.total is not None and self.total >= self.done:
                said += f", {clock((self.total - self.done) / rate)} left"
        return said

    def end(self) -> None:
        """Ends the tool too where the work was interrupted."""
        if self.interrupted:
            raise KeyboardInterrupt


def clear() -> None:
    """Makes room for a line of the work's own."""
    if sys.stderr is not None and sys.stderr.isatty():
        sys.stderr.write("\r\x1b[K")
        sys.stderr.flush()


def say(text: str) -> None:
    """Prints a line while work goes on."""
    clear()
    print(text, flush=True)


def heed_signals() -> None:
    """Lets what is started be ended: a job in the background ignores some signals, and would hand that on."""
    for one in (signal.SIGINT, signal.SIGHUP, signal.SIGTERM):
        if signal.getsignal(one) == signal.SIG_IGN:
            signal.signal(one, signal.SIG_DFL)


def number(value: float) -> str:
    return f"{value:.1e}" if value >= 1e9 else f"{value:,.0f}" if value >= 10 else f"{value:.2g}"


def clock(seconds: float) -> str:
    """A time as 0:07, 12:30 or 2:05:00; of more than four days in days."""
    if seconds > 4 * 86400:
        return f"{number(seconds / 86400)} days"
    hours, rest = divmod(int(seconds), 3600)
    return f"{hours}:{rest // 60:02}:{rest % 60:02}" if hours else f"{rest // 60}:{rest % 60:02}"
