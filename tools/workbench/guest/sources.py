"""Lines of a guest's source by address: addr2line, which comes with the compiler, reads the debug data of a
guest's file, where it has some."""
import contextlib
import functools
import os
import pathlib
import re
import shutil
import subprocess
from typing import Dict, List, NamedTuple, Optional

from .. import places
from . import elf32, guestfile

# The first that is on the PATH: that of the kit's compiler, and those that read files of any machine's.
READERS = ("riscv64-unknown-elf-addr2line", "riscv64-linux-gnu-addr2line", "llvm-addr2line")
SECONDS = 60  # that a reader may take
ANSWER = re.compile(r"^0x([0-9a-f]+)\n((?:(?!0x).*\n)*)", re.M)
FRAME = re.compile(r"^(.*):(\d+)(?: \(discriminator \d+\))?$", re.M)


class Place(NamedTuple):
    """A line of a source."""
    file: str
    line: int

    def __str__(self) -> str:
        return f"{self.file}:{self.line}"


class Sources:
    """The lines of a guest's source, and the texts of these lines."""

    def __init__(self, path: str, content: bytes, code: List[range]) -> None:
        """Of a file at a path with its bytes; addresses are those of the code."""
        self.path, self.code, self.trouble = path, code, ""
        self.folders = [pathlib.Path(os.path.dirname(path) or "."), places.KIT]
        self.is_there = any(section.name == ".debug_line" for section in elf32.sections(content))
        self.reader: Optional[str] = next(filter(None, map(shutil.which, READERS)), None)
        if self.is_there and self.reader is None:
            self.trouble = f"the guest has debug data, and none of {', '.join(READERS)} is on the PATH to read it"

    @functools.cached_property
    def frames(self) -> Dict[int, List[Place]]:
        """By the address of an instruction its places: of an inlined function's the innermost first."""
        if not self.is_there or self.reader is None:
            return {}
        asked = "".join(f"{address:#x}\n" for where in self.code for address in where[::4])
        try:
            done = subprocess.run([self.reader, "-a", "-i", "-e", self.path], input=asked.encode("ascii"),
                                  capture_output=True, check=False, timeout=SECONDS)
        except (OSError, subprocess.TimeoutExpired):
            return {}
        return {int(address, 16): [Place(name.replace("\\", "/").rsplit("/", 1)[-1], int(line)) for name, line in FRAME.findall(said)
                                   if name != "??" and int(line)]
                for address, said in ANSWER.findall(done.stdout.decode("utf-8", "replace"))}

    def text(self, pc: int) -> str:
        """An instruction's line with its source's text, or ''. Of a line of another file, as of an inlined
        function of a header, the unit's own line stands before it."""
        frames = self.frames.get(pc)
        if not frames:
            return ""
        inner = frames[0]
        own = next(place for place in frames if place.file == frames[-1].file)
        said = self.source(own)
        return printable((f"{own}" if own == inner else f"{own} ({inner})") + (f" {said}" if said else ""))

    def source(self, place: Place) -> str:
        """The text of a line, from a source of that name in the guest's folder or the kit."""
        text: List[str] = next(filter(None, (lines_of(folder / place.file) for folder in self.folders)), [])
        return text[place.line - 1].strip() if 0 < place.line <= len(text) else ""


def printable(text: str) -> str:
    """A text of a guest's file without what would steer a terminal."""
    return "".join(one if one.isprintable() else "?" for one in text)


@functools.lru_cache()
def lines_of(path: pathlib.Path) -> List[str]:
    """The lines of a source, or none where it is no file that can be read."""
    with contextlib.suppress(OSError, ValueError):
        return path.read_text("utf-8", "replace").splitlines() if path.is_file() else []
    return []


def load(path: str, guest_file: "guestfile.GuestFile") -> Sources:
    return Sources(path, guestfile.read(path), [where for where, flags, _ in guest_file.guest.ranges if flags & 1])
