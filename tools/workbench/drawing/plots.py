"""Pictures of a sweep as SVG: plots of its numbers over the batch limits, and strips of which worker had a
lock. Workers and kinds are told apart by shape as well as by colour."""
from __future__ import annotations

import itertools
import pathlib
from typing import Any, Callable, Iterator

from ..reports.report import several
from ..running import sweep
from .svg import COLOURS, box, document, label, titled

WIDE, HIGH, GAP, LEFT, TOP = 360, 170, 50, 56, 84  # of a panel, and the margins
CONTEXTS = "contexts to another node"  # of runs with nodes alone
KINDS = {"taken": "#CFCFCF", "adopted": "#0072B2", "granted": "#E69F00"}
STYLE = (pathlib.Path(__file__).parent / "plots.css").read_text().rstrip()
MARKS = ("M-3-3h6v6h-6z", "M0-4l4 7h-8z", "M0-4l4 4-4 4-4-4z", "M-4 0a4 4 0 1 0 8 0a4 4 0 1 0-8 0z")


def thousands(value: float) -> str:
    """A number as it is read: 3,742, or with few digits behind the point."""
    return f"{value:,.0f}" if value >= 100 or value == int(value) else f"{value:.3g}"


def round_up(value: float) -> float:
    """The next number with one or two leading digits that an axis may end with."""
    if value <= 0:
        return 1
    unit = 10 ** (len(str(int(value))) - 1) if value >= 1 else 10 ** -len(str(int(1 / value)))
    return float(next(step * unit for step in (1, 1.5, 2, 3, 4, 5, 6, 8, 10) if step * unit >= value))


def who(order: tuple[int, int, int]) -> str:
    """Whose line it is: workers, and nodes with the bound where there are nodes."""
    workers, nodes, bound = order
    return several(workers, "worker") + (f", {several(nodes, 'node')}, bound {bound}" if nodes else "")


class Sweep:
    """The runs of a sweep by workers, nodes and bound, and by batch limit."""

    def __init__(self, results: list[sweep.Result]) -> None:
        self.results = results
        self.orders = sorted({result.setting.order() for result in results})
        self.limits = sorted({result.setting.batch for result in results})
        self.nodes = any(order[1] for order in self.orders)

    def values(self, order: tuple[int, int, int], limit: int, number: Callable[..., Any]) -> tuple[float, float, float]:
        """The least, the mean and the greatest of what the runs with a setting have."""
        found = [number(result) for result in self.results
                 if (result.setting.order(), result.setting.batch) == (order, limit)]
        return min(found), sum(found) / len(found), max(found)


class Panel:
    """A plot over the batch limits, with its place and the greatest value of its axis."""

    def __init__(self, sweep: Sweep, number: int, title: str, top: float, above: int) -> None:
        self.sweep, self.top = sweep, round_up(top)
        self.x = LEFT + number % 2 * (WIDE + LEFT + GAP)
        self.y = above + number // 2 * (HIGH + 70)
        self.parts = [label(self.x, self.y - 10, title, "t")]
        for step in range(5):
            y = self.y + HIGH - HIGH * step / 4
            self.parts += [f'<path class="g" d="M{self.x:g} {y:g}h{WIDE}"/>',
                           label(self.x - 6, y + 3, thousands(self.top * step / 4), "axis end")]
        for place, limit in enumerate(sweep.limits):
            self.parts.append(label(self.middle(place), self.y + HIGH + 24, str(limit), "axis mid"))
        self.parts.append(label(self.x + WIDE, self.y + HIGH + 36, "batch limit", "axis end"))

    def middle(self, place: int) -> float:
        return self.x + WIDE * (place + 0.5) / len(self.sweep.limits)

    def height(self, value: float) -> float:
        return self.y + HIGH - HIGH * value / self.top

    def lines(self, number: Callable[..., Any], name: str, thin: bool = False) -> None:
        """A line for each number of workers (and of nodes), with the least and the greatest of the runs."""
        for which, order in enumerate(self.sweep.orders):
            if name == CONTEXTS and not order[1]:
                continue
            colour, points, shown = COLOURS[which % 7], [], []
            shift = 5 * (which - (len(self.sweep.orders) - 1) / 2)
            for place, limit in enumerate(self.sweep.limits):
                least, mean, most = self.sweep.values(order, limit, number)
                x = self.middle(place) + shift
                points.append(f"{x:.1f} {self.height(mean):.1f}")
                if not thin:
                    said = (f"{who(order)}, batch limit {limit}, {name}: {thousands(mean)} "
                            f"({thousands(least)} to {thousands(most)})")
                    shown.append(titled(said, [
                        f'<path stroke="{colour}" d="M{x:.1f} {self.height(least):.1f}V{self.height(most):.1f}"/>',
                        f'<path style="fill:{colour}" transform="translate({x:.1f} {self.height(mean):.1f})" '
                        f'd="{MARKS[which % 4]}"/>']))
            self.parts.append(f'<path class="{"thin" if thin else "w"}" stroke="{colour}" d="M{" L".join(points)}"/>')
            self.parts += shown

    def bars(self) -> None:
        """The kinds of sections, a bar for each number of workers (and of nodes)."""
        wide = WIDE / len(self.sweep.limits) / (len(self.sweep.orders) + 1)
        for place, limit in enumerate(self.sweep.limits):
            for which, order in enumerate(self.sweep.orders):
                x = self.middle(place) + wide * (which - len(self.sweep.orders) / 2)
                base = 0.0
                for kind, colour in KINDS.items():
                    _, mean, _ = self.sweep.values(order, limit, lambda result: result.sums()[kind])
                    if mean:
                        self.parts.append(titled(
                            f"{who(order)}, batch limit {limit}: {thousands(mean)} {kind}",
                            [box(x + 1, self.height(base + mean), wide - 2, HIGH * mean / self.top, colour)]))
                    base += mean
                below = "/".join(map(str, order if order[1] else order[:1]))
                self.parts.append(label(x + wide / 2, self.y + HIGH + 11, below, "axis mid"))


def orders_legend(sweep: Sweep, x: int, y: int) -> Iterator[str]:
    """A part for each line; with nodes they are long, and four stand in a row."""
    for which, order in enumerate(sweep.orders):
        if which and which % 4 == 0 and sweep.nodes:
            x, y = LEFT, y + 18
        colour = COLOURS[which % 7]
        yield f'<path class="w" stroke="{colour}" d="M{x:g} {y - 4:g}h22"/>'
        yield f'<path style="fill:{colour}" transform="translate({x + 11:g} {y - 4:g})" d="{MARKS[which % 4]}"/>'
        yield label(x + 27, y, who(order))
        x += 225 if sweep.nodes else 105


def ratio(one: str, other: str = "") -> Callable[[sweep.Result], float]:
    """A number of a run, in another one where that is named."""
    return lambda result: result.sums()[one] / (result.sums()[other] or 1 if other else 1)


def panels(name: str, results: list[sweep.Result]) -> str:
    sweep = Sweep(results)
    wanted: list[tuple[str | None, str, Callable[..., float], Callable[..., float] | None]] = [
              (None, "Sections by kind (a bar for each number of workers)", ratio("sections"), None),
              ("changes of worker", "Changes of a lock's worker (thin: had sections run at home)", ratio("changes"),
               ratio("home")),
              ("sections away", "Sections away from their thread's worker", ratio("away"), None),
              ("adopted in a row", "Adopted sections in a row (thin: the longest row)", ratio("adopted", "rows"),
               ratio("longest")),
              ("blocks waited", "Blocks between LOCK and section, each", ratio("waiting", "sections"), None)]
    if sweep.nodes:
        wanted.append((CONTEXTS, "Contexts to another node (thin: changes of a lock's node)",
                       ratio("other_node"), ratio("changes_of_node")))
    if results[0].seconds:
        wanted.append(("seconds", "Seconds", lambda result: float(result.seconds), None))
    setting, parts = results[0].setting, []
    above = TOP + (18 * ((len(sweep.orders) + 3) // 4) if sweep.nodes else 0)
    for number, (said, title, value, other) in enumerate(wanted):
        top = max(max(map(value, results)), max(map(other, results)) if other else 0)
        panel = Panel(sweep, number, title, top, above)
        if said is None:
            panel.bars()
        else:
            if other:
                panel.lines(other, said, thin=True)
            panel.lines(value, said)
        parts += panel.parts
    runs = max(result.setting.run for result in results)
    title = f"{name}, fuel {setting.fuel}, {runs} run{'s' * (runs > 1)} of each by the {setting.by}"
    kinds_at = (LEFT, above - TOP + 40) if sweep.nodes else (LEFT + 105 * len(sweep.orders) + 20, 40)
    head = [label(LEFT, 20, title, "h"), *orders_legend(sweep, LEFT, 40)]
    for place, (kind, colour) in enumerate(KINDS.items()):
        x, y = kinds_at[0] + 75 * place, kinds_at[1]
        head += [box(x, y - 8, 9, 9, colour), label(x + 13, y, kind)]
    return document(2 * (WIDE + LEFT + GAP), above + (len(wanted) + 1) // 2 * (HIGH + 70), STYLE, head + parts)


LANE, LONG = 13, 760  # of a strip: the height of a worker's lane, and how wide all sections are


def strips(name: str, results: list[sweep.Result], lock: int, most: int) -> str:
    """For each run a strip of which worker had a lock: a lane for each worker, over the lock's sections."""
    setting, parts, y = results[0].setting, [], 62
    shown = min(most, max(1, *(len(result.owners[lock]) for result in results)))
    differ = len({result.setting.order() for result in results}) > 1
    for result in results:
        numbers, workers = result.locks[lock], result.setting.workers
        text = (f"{f'{who(result.setting.order())}, ' if differ else ''}batch limit {result.setting.batch}: in "
                f"{thousands(numbers['sections'])} sections the lock changed its worker {thousands(numbers['changes'])} times")
        parts.append(label(LEFT, y, text, "t"))
        y += 8
        for worker in range(workers):
            parts.append(box(LEFT, y + LANE * worker, LONG, LANE - 1, "#f3f3f3"))
            parts.append(label(LEFT - 6, y + LANE * worker + 9, f"worker {worker}", "axis end"))
            parts.append(lane(result.owners[lock][:shown], worker, y + LANE * worker, LONG / shown))
        y += LANE * workers + 26
    parts.append(label(LEFT + LONG, y - 12, f"the first {thousands(shown)} sections of lock {lock}, one after another",
                       "axis end"))
    title = f"Who had the lock: {name}" + ("" if differ else f", {who(setting.order())}") + f", by the {setting.by}"
    head = [label(LEFT, 20, title, "h"), label(LEFT, 38, "Each box is a stretch of sections that one worker ran; where "
                                               "the next one stands in another lane, the lock's data moved.")]
    return document(LEFT + LONG + 20, y, STYLE, head + parts)


def lane(owners: bytearray, worker: int, y: int, unit: float) -> str:
    """The stretches of sections that a worker ran."""
    stretches, start = [], 0
    for owner, sections in itertools.groupby(owners):
        count = len(list(sections))
        if owner == worker:
            stretches.append(f"M{LEFT + start * unit:.1f} {y:g}h{count * unit:.2f}v{LANE - 1}h-{count * unit:.2f}z")
        start += count
    said = f"worker {worker}: {owners.count(worker)} of these sections, in {len(stretches)} stretch{'es' * (len(stretches) != 1)}"
    return titled(said, [f'<path style="fill:{COLOURS[worker % 7]}" d="{"".join(stretches)}"/>'])
