"""The built program. Nothing here builds it: who needs it says in one line that it isn't there."""
from __future__ import annotations

import os
import pathlib
import subprocess
from typing import Any, Iterable

from .. import places, tool

PATH = places.ROOT / "crates" / "tclocks" / "out" / "tclocks"
COMMAND = places.ROOT / "tclocks"
YOUNGEST = places.ROOT / "crates" / "youngest" / "out" / "youngest"
YOUNGEST_BOUND = 8  # of that program, whose words are W F B
BUILD = "./tclocks-build proves and builds it"
NOT_BUILT = 127  # the command's own status


def missing() -> str | None:
    """Why there is no program to run: it isn't built, or a source is newer than it. None where there is one."""
    if not os.access(PATH, os.X_OK):
        return f"the program isn't built; {BUILD}"
    asked = subprocess.run([COMMAND], env={"TCLOCKS_PROGRAM": "built", **os.environ}, stdin=subprocess.DEVNULL,
                           stdout=subprocess.DEVNULL, stderr=subprocess.PIPE, check=False)
    return asked.stderr.decode().strip().partition(": ")[2] if asked.returncode == NOT_BUILT else None


def need() -> None:
    """Trouble where there is none."""
    why = missing()
    if why:
        raise tool.Trouble(tool.INPUT, why)


def missing_youngest(bound: int) -> str | None:
    """Why orders can't be compared by programs: youngest isn't built, has another bound, or as above."""
    if bound != YOUNGEST_BOUND:
        return f"the program youngest has the bound {YOUNGEST_BOUND}"
    if not os.access(YOUNGEST, os.X_OK):
        return "the program youngest isn't built; rt run in crates/youngest proves and builds it"
    return missing()


def run(words: Iterable[Any], file: bytes, to: int | None = subprocess.PIPE,
        path: pathlib.Path | None = None) -> tuple[int, str]:
    """The program's status and text for words and a file; with `to` None the text goes to standard output."""
    done = subprocess.run([path or PATH, *map(str, words)], input=file, stdout=to, check=False)
    return done.returncode, (done.stdout or b"").decode("ascii", "replace")


def keep(name: str, content: bytes) -> pathlib.Path:
    """Keeps bytes that were given to the program, for who looks at its answer. Answers where."""
    kept = places.GUESTS / "out" / name
    kept.parent.mkdir(exist_ok=True)
    kept.write_bytes(content)
    return kept
