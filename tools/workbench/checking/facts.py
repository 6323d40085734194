"""Facts of each guest, from what the sources mean."""
from __future__ import annotations

import contextlib
import functools
import itertools
import json
import operator
import random
from typing import Any, Sequence

from .. import places, tool
from ..guest import model

INTERLEAVINGS = 20
FUEL = 20000


def words(*values: int) -> str:
    return "".join((value % 2**32).to_bytes(4, "little").hex() for value in values)


def facts(ends: Sequence[str], x10: Sequence[int | None], guards: Sequence[str] = (), sections: Sequence[int] = (),
          broken: list[int] | None = None, pc: Sequence[int | None] | None = None) -> dict[str, list[Any]]:
    return {"ends": list(ends), "x10": [value if value is None else value % 2**32 for value in x10],
            "pc": list(pc or ()) or [None] * len(ends), "guards": list(guards), "sections": list(sections),
            "broken": broken or [0] * len(guards)}


def exits(codes: list[int], guards: list[str], sections: list[int]) -> dict[str, list[Any]]:
    return facts(["exit"] * len(codes), codes, guards, sections)


def first() -> dict[str, list[Any]]:
    return exits([5, 7], [words(3 * 5 + 3 * 7, 6)], [6])


def counter() -> dict[str, list[Any]]:
    arguments = [1, 20, 300, 4000, 50000, 600000, 0xFFFFFFFF, 0x80000000]
    sums = [sum(argument + i for i in range(60)) for argument in arguments]
    return exits(sums, [words(sum(sums), 8 * 60)], [8 * 60])


def bank() -> dict[str, list[Any]]:
    accounts = [[1000 * (i + 1), 0, 0, 0] for i in range(8)]
    moved = []
    for teller in range(8):
        state, total = 11 * (teller + 1) + teller, 0
        for _ in range(40):
            drawn = []
            for _ in range(3):
                state = (state * 1103515245 + 12345) % 2**32
                drawn.append(state >> 16 & 0x7FFF)
            source, sink, amount = drawn[0] % 8, drawn[1] % 8, drawn[2] % 256
            sink = (sink + 1) % 8 if source == sink else sink
            for account, change in ((source, (-amount, 0, amount, 1)), (sink, (amount, amount, 0, 1))):
                accounts[account] = [a + b for a, b in zip(accounts[account], change)]
            total += amount
        moved.append(total)
    assert sum(account[0] for account in accounts) == 36000
    return exits(moved, [words(*account) for account in accounts], [account[3] for account in accounts])


def philosophers() -> dict[str, list[Any]]:
    return exits([12] * 5, [words(12, 12)] * 5 + [words(60, *[12] * 5)], [24] * 5 + [60])


def ring() -> dict[str, list[Any]]:
    items = [argument ^ i for argument in (0x11110000, 0x22220000, 0x33330000, 0x44440000,
                                           0x55550000, 0xFFFFFF00) for i in range(25)]
    both = functools.reduce(operator.xor, items)
    return exits([25] * 6, [words(150, 150, sum(items), sum(items), both, 0, *[0] * 6)], [300])


def buffer() -> dict[str, list[Any]]:
    items = [argument + i for argument in (100, 1000) for i in range(20)]
    sections = len(items) + 2 * 30 + 4
    return facts(["exit"] * 4, [None] * 4, [words(40, 40, sum(items), sum(items), 4, *[0] * 4)], [sections])


def sleepers() -> dict[str, list[Any]]:
    depths, counts, shared, slept = [1, 2, 3, 4, 4, 0], [0] * 4, [0] * 4, []
    for thread, depth in enumerate(depths):
        inside = sum((i + lock) % 2 for i in range(10) for lock in range(depth))
        slept.append(inside + 10 * (depth > 2) + 10)
        for lock in range(depth):
            counts[lock] += 10
            shared[lock] += (thread + 1) * sum(range(1, 11))
    return exits(slept, [words(a, b) for a, b in zip(counts, shared)], counts)


def matrix() -> dict[str, list[Any]]:
    right = [[(i * 31 + j * 17) % 101 - 50 for j in range(8)] for i in range(8)]
    left = [[1000 * (thread + 1) + i * 37 - 5000 for i in range(8)] for thread in range(8)]
    rows = [[sum(a * right[i][j] for i, a in enumerate(line)) for j in range(8)] for line in left]
    trace = sum(rows[i][i] for i in range(8))
    return exits([row[7] for row in rows], [words(8, trace, *[value for row in rows for value in row])], [8])


def sensors() -> dict[str, list[Any]]:
    arguments = [1, 20, 300, 4000, 50000, 600000, 0xFFFFFFFF, 0x80000000]
    codes, whole, kinds = [], 0, [0] * 7
    for thread, drawn in enumerate(arguments):
        total = 0
        for _ in range(24):
            drawn = (drawn * 1664525 + 1013904223) % 2**32
            raw = (drawn * 200001 >> 32) - 100000
            total += (raw * (0xC0000000 + thread) >> 32) + (raw * (thread - 0x40000000) >> 32)
            kinds[drawn // (1000 + thread) % 7] += 1
        parts = abs(total) // (thread + 2) * (-1 if total > 0 else 1)  # toward zero
        codes.append(parts * 100 + total + parts * (thread + 2))
        whole += total
    return exits(codes, [words(whole, 8 * 24, *kinds)], [8 * 24])


def stale() -> dict[str, list[Any]]:
    weight = 0
    for _ in range(7):
        coin = weighed = 10 + weight
        for _ in range(100):
            weighed = (weighed * 2 ^ coin) % 2**32
        weight += weighed
    return exits([weight, 3], ["." * 8 + words((7 + 3) % 4)], [7 + 2 * 3])


def broken() -> dict[str, list[Any]]:
    markers = [0, 1, 2, 2, 3, 4]  # the thread that marks each lock and ends while it holds it
    guards = [words(0xA0000000 + thread, 15) + "." * 8 for thread in markers]
    ends = ["fault 5", "fault 4", "fault 6", "spent", "exit"] + ["exit"] * 3
    return facts(ends, [None] * 4 + [5] + [None] * 3, guards + [words(0, 15, 0)], [16] * 6 + [15], [1] * 6 + [0])


def faults() -> dict[str, list[Any]]:
    numbers = [1, 2, 3, 4, 5, 6, 7, 8, 9, 10, 11, 12, 2, 9, 10, 2]
    x10 = [0x700 + thread for thread in range(16)]
    x10[9:12], x10[13:15] = [5, 1, 0], [256, 4]
    # How many instructions stand before the one at the end; None: it could not be fetched.
    before = [0, None, 2, 1, 3, 0, 2, 0, 1, 2, 8, 2, None, 5, 14, None]
    count = [1, 2, 3, 2, 4, 1, 3, 1, 2, 3, 9, 3, 1, 6, 15, 3]  # of the thread's code
    pc = [0x10000 + 4 * (sum(count[:thread]) + (n or 0)) for thread, n in enumerate(before)]
    pc[1], pc[12], pc[15] = 0x40000004, 0, 0x100000
    guards = [words(number * 0x11111111) for number in range(1, 6)]
    guards[1] = words(0x80000000)
    return facts([f"fault {number}" for number in numbers], x10, guards, [1] * 5, [1] * 5, pc)


def run(guest: model.Guest, chance: random.Random) -> model.Machine:
    """The machine after an interleaving that is drawn at random."""
    machine = model.Machine(guest, FUEL)
    while any(thread.end is None for thread in machine.threads):
        chosen = chance.choice(list(machine.able()))
        with contextlib.suppress(model.Illegal):
            for _ in range(chance.choice((1, 3, 20, 300))):
                if machine.turn(chosen) or machine.next_lock(machine.threads[chosen]) is not None:
                    break
    return machine


def main(given: list[str]) -> None:
    tool.words("facts").parse_args(given)
    table = {"exit": facts(["exit"], [0], pc=[0x10058])}
    for known_of in first, counter, bank, philosophers, ring, buffer, sleepers, matrix, sensors, stale, broken, faults:
        table[known_of.__name__] = known_of()
    for name, known in table.items():
        guest = model.Guest((places.GUESTS / f"{name}.elf").read_bytes())
        chance = random.Random(name)
        machines = [run(guest, chance) for _ in range(INTERLEAVINGS)]
        # How many turns each thread took to its end; None where it has none but for spent fuel.
        counts = [[None if thread.end == "spent" else FUEL - thread.fuel for thread in machine.threads]
                  for machine in machines]
        same = all(count == counts[0] for count in counts)
        known["turns"] = counts[0] if same else [None] * len(counts[0])
        for wrong in itertools.chain(*(model.differences(known, machine) for machine in machines)):
            raise tool.Trouble(tool.WRONG, f"{name}: {wrong}")
    lines = [f' "{name}": {{\n' + ",\n".join(f'  "{key}": {json.dumps(value)}'
             for key, value in known.items()) + "\n }" for name, known in table.items()]
    tool.write_file(places.GUESTS / "facts.json", "{\n" + ",\n".join(lines) + "\n}\n")
