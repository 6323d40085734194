"""A run by the program or by the model."""
from __future__ import annotations

from argparse import Namespace

from .. import tool
from ..guest import guestfile, model
from ..judging import reasons
from . import delegation, program


ENDS = {tool.WRONG: "the file is refused; ./workbench explain GUEST says why", tool.OUTPUT: "standard output can't be written",
        tool.MEMORY: "memory was refused"}


def by_model(file: bytes, asked: Namespace, why: str | None) -> None:
    refused = guestfile.refusal(file)
    if refused:
        print(refused.line)
        raise tool.Trouble(tool.WRONG, ENDS[tool.WRONG])
    tool.note("run", "by the model" + ("" if asked.workers == 1 else f", in the interleaving of seed {asked.seed or 0}")
              + (f": {why}" if why else ""))
    run, blocks = delegation.delegated(model.Guest(file), asked.fuel, asked.workers, asked.batch, asked.seed or 0,
                                       *asked.nodes)
    print(*run.lines(blocks), sep="\n")


def simulate(words: list[str]) -> None:
    parser = tool.words("simulate", "guest", "run")
    parser.number("--seed", (0, 10**9), "the interleaving of several workers, 0 if it is not given", 0, None)
    asked = parser.parse_args(words)
    guest = guestfile.load(asked.guest).guest
    run, blocks = delegation.delegated(guest, asked.fuel, asked.workers, asked.batch, asked.seed)
    print(*run.lines(blocks), sep="\n")


def main(words: list[str]) -> None:
    parser = tool.words("run", "guest", "run")
    parser.number("--seed", (0, 10**9), "the model, in this interleaving (0)")
    parser.add_argument("--nodes", metavar=("G", "K"), nargs=2, type=tool.number(0, 256), default=(0, 0),
                        help="as ./tclocks nodes G K W F B")
    asked = parser.parse_args(words)
    wrong = reasons.usage([*map(str, ("nodes", *asked.nodes, asked.workers, asked.fuel, asked.batch))])
    if asked.nodes != (0, 0) and wrong:
        parser.error(wrong)
    file = guestfile.read(asked.guest)
    why = program.missing() if asked.seed is None else None
    if why or asked.seed is not None:
        by_model(file, asked, why)
    else:
        form = ("nodes", *asked.nodes) if asked.nodes[0] else ("run",)
        tool.note("run", "by the program")
        status = program.run((*form, asked.workers, asked.fuel, asked.batch), file, None)[0]
        if status:
            raise tool.Trouble(status, ENDS.get(status, f"the program ended with status {status}"))
