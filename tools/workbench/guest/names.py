"""What threads and locks are called: by the guest's symbols where its file is given, else by number.

A thread has the name of its entry's symbol, without the `_entry` of the kit, and its argument. A lock has the name of
its guard's symbol; guards that lie side by side in one symbol are its elements."""
from __future__ import annotations


from .. import tool
from ..reports import report
from . import guestfile, sources


class Names:
    def __init__(self, text: report.Report, file: guestfile.GuestFile | None = None) -> None:
        """The names of a report's threads and locks; `file` is the guest's, or None."""
        self.threads, self.workers, self.locks = [""] * text.threads, text.workers, [""] * text.guards
        if file is None:
            return
        if (len(file.guest.entries), len(file.guest.guards)) != (text.threads, text.guards):
            raise tool.Trouble(tool.WRONG, f"the report is of another guest: it has {text.threads} threads and "
                               f"{text.guards} locks, and the guest {len(file.guest.entries)} and "
                               f"{len(file.guest.guards)}")
        self.threads = [thread_name(file, *entry) for entry in file.guest.entries]
        self.locks = lock_names(file)

    def thread(self, number: int) -> str:
        return f"thread {number} {self.threads[number]}".rstrip()

    def lock(self, number: int) -> str:
        return f"lock {number} {self.locks[number]}".rstrip()

    def lanes(self) -> tuple[list[str], list[str], list[str]]:
        """The names of the lanes of threads, of workers and of locks."""
        return ([*map(self.thread, range(len(self.threads)))], [f"worker {number}" for number in range(self.workers)],
                [*map(self.lock, range(len(self.locks)))])


def thread_name(file: guestfile.GuestFile, entry: int, argument: int) -> str:
    name = sources.printable(file.name(entry))
    if name.endswith("_entry"):
        name = name[:-6]
    shown = str(argument) if argument < 10**7 else hex(argument)
    return f"{name}({shown})" if name else ""


def lock_names(file: guestfile.GuestFile) -> list[str]:
    """Names of the guards, as `counter`, `forks[2]` or `state+0x8`."""
    places: dict[str, list[tuple[int, int]]] = {}  # by name: offset and length
    found = []
    for start, length in file.guest.guards:
        name, _, offset = sources.printable(file.name(start)).partition("+0x")
        found.append((name, int(offset or "0", 16), length))
        places.setdefault(name, []).append(found[-1][1:])
    arrays = [name for name, some in places.items() if name and len(some) > 1
              and all(length == some[0][1] and at % length == 0 for at, length in some)]
    return [f"{name}[{at // length}]" if name in arrays else name + (f"+{at:#x}" if at else "")
            for name, at, length in found]
