"""The subcommands of the workbench, in groups with a line each."""
import importlib
import itertools
import sys
from typing import List, NamedTuple, Tuple

from . import tool


class Subcommand(NamedTuple):
    """A tool: its group, its words, and the module of its main, or what else of it runs the tool."""
    group: str
    name: str
    module: str

    @property
    def line(self) -> str:
        """What it does: the first line of its page."""
        return tool.page(self.name).splitlines()[0]


GROUPS = {
    "run": {"run": "running.run", "simulate": "running.run:simulate", "sweep": "running.sweep",
            "orders": "running.orders"},
    "look": {"draw": "drawing.draw", "summary": "reports.counts", "explain": "judging.explain"},
    "judge": {"judge": "judging.legal", "replay": "judging.rejecting", "finish": "judging.finish"},
    "explore": {"explore": "exploring.explore"},
    "teach": {"grade": "exploring.grade"},
    "check the program": {name: f"checking.{name}" for name in
                          ("check", "fuzz", "refuse", "endure", "facts", "definitions")},
    "measure": {f"bench {name}": f"benches.{name}" for name in
                ("run", "several", "together", "nodes", "peer", "replay", "table")}}
EVERY = {name: Subcommand(group, name, module) for group, some in GROUPS.items() for name, module in some.items()}
USAGE = "usage: workbench SUBCOMMAND [ARGUMENT ..] | workbench SUBCOMMAND --help"


def find(words: List[str]) -> Tuple[Subcommand, List[str]]:
    """The subcommand that words begin with, and the words behind it."""
    for count in 2, 1:
        name = " ".join(words[:count])
        if name in EVERY and len(words) >= count:
            return EVERY[name], words[count:]
    what = f"there is no subcommand {words[0]!r}" if words else "a subcommand is missing"
    if words and any(name.startswith(f"{words[0]} ") for name in EVERY):
        what = f"{words[0]} is one of {', '.join(name for name in EVERY if name.startswith(f'{words[0]} '))}"
    raise tool.Trouble(tool.WORDS, f"{what}; ./workbench --help lists them")


def show_help(words: List[str]) -> int:
    """Prints all subcommands by group, or says that words are wrong."""
    if words[:1] not in (["--help"], ["-h"], ["help"]):
        find(words)
    print(USAGE, "", "Tools over guests, reports and the program tclocks. Statuses are those of the program.", sep="\n")
    for title, group in itertools.groupby(EVERY.values(), lambda one: one.group):
        print(f"\n{title}:", *(f"  {one.name:{max(map(len, EVERY))}}  {one.line}" for one in group), sep="\n")
    return tool.DONE


def main() -> None:
    """Runs the subcommand of the words of the process, and ends with its status."""
    words = sys.argv[1:]
    try:
        one, rest = find(words)
    except tool.Trouble:
        tool.run("", show_help, words)
    module, _, function = one.module.partition(":")
    tool.run(one.name, getattr(importlib.import_module(f".{module}", __package__), function or "main"), rest)
