"""Rules on how a guest ends, as help/rules.txt has them: expressions that Python's own parser reads, with values of an
end in them."""
from __future__ import annotations

import ast
import operator
import re
from typing import Any, Callable, NamedTuple, Tuple

from ..guest.rv32im import signed

Value = Callable[["End"], int]  # of an end
VALUE = re.compile(r"\b(?:lock (\w+) (?:(word|signed) (\w+)|(sections|broken))"
                   r"|thread (\w+) (x10|signed x10|exit|spent|fault)|(faults|spent|broken))\b")
OPERATIONS: dict[type, Callable[..., int]] = {
    ast.Add: operator.add, ast.Sub: operator.sub, ast.Mult: operator.mul, ast.Eq: operator.eq, ast.NotEq: operator.ne,
    ast.Lt: operator.lt, ast.LtE: operator.le, ast.Gt: operator.gt, ast.GtE: operator.ge,
    ast.USub: operator.neg, ast.Not: operator.not_,
    ast.And: lambda *values: all(values), ast.Or: lambda *values: any(values)}
COUNTS: dict[str, Value] = {"faults": lambda end: sum(how.startswith("fault") for how, _ in end.threads),
          "spent": lambda end: sum(how == "spent" for how, _ in end.threads),
          "broken": lambda end: sum(broken for broken, _, _ in end.locks)}
MOST_NESTED = 50
WANTS = "; values are numbers, faults, spent, broken, lock L .. and thread T .. (./workbench explore --help)"


class WrongRule(Exception):
    """What is wrong with a rule's words."""


class End(NamedTuple):
    """How a guest ended: of each thread how and x10, of each lock broken flag, sections and bytes."""
    threads: Tuple[Tuple[str, int], ...]
    locks: Tuple[Tuple[int, int, bytes], ...]

    def order(self) -> tuple[Any, ...]:
        """What orders ends: those with faults come first, then with spent threads, then with broken locks."""
        return (*(-count(self) for count in COUNTS.values()), self)

    def word(self, lock: int, word: int) -> int:
        return int.from_bytes(self.locks[lock][2][4 * word:4 * word + 4], "little")


class Rule:
    """A rule on the ends of a guest with so many threads and locks of so many bytes."""

    def __init__(self, text: str, threads: int, sizes: list[int]) -> None:
        self.threads, self.sizes = threads, sizes
        self.values: dict[str, Value] = {}
        try:
            if text.count("(") > MOST_NESTED:
                raise RecursionError
            self.value = self.part(ast.parse(VALUE.sub(self.named, " ".join(text.split())), mode="eval").body)
        except SyntaxError as wrong:
            raise WrongRule(f"{text.strip()[:60]!r}: {wrong.msg}{WANTS}") from None
        except (ValueError, RecursionError, MemoryError):
            raise WrongRule("it is nested too deep, or a number is too long") from None

    def holds(self, end: End) -> bool:
        return bool(self.value(end))

    def named(self, found: re.Match[str]) -> str:
        """The name that stands for a value, which it then has."""
        name = f"value_{len(self.values)}"
        lock, of_word, word, of_lock, thread, of_thread, count = found.groups()
        if count:
            self.values[name] = COUNTS[count]
        elif thread:
            self.values[name] = of_thread_end(of_thread, below("thread", thread, self.threads))
        else:
            number = below("lock", lock, len(self.sizes))
            place = below("word", word, self.sizes[number] // 4) if of_word else 0
            self.values[name] = of_lock_end(of_word or of_lock, number, place)
        return name

    def part(self, node: ast.AST) -> Value:
        """What a part of the rule is of an end."""
        if isinstance(node, ast.Name) and node.id in self.values:
            return self.values[node.id]
        if isinstance(node, ast.Constant) and isinstance(node.value, int):
            number = int(node.value)
            return lambda end: number
        if isinstance(node, ast.Compare) and len(node.ops) > 1:
            raise WrongRule("a comparison stands behind a comparison: join two by 'and'")
        sign = type(node.ops[0] if isinstance(node, ast.Compare) else getattr(node, "op", None))
        if sign not in OPERATIONS:
            what = f"{node.id!r} is" if isinstance(node, ast.Name) else "one of its signs is"
            raise WrongRule(f"{what} none that a rule may have{WANTS}")
        parts = [self.part(one) for one in ast.iter_child_nodes(node) if isinstance(one, ast.expr)]
        return lambda end: OPERATIONS[sign](*(part(end) for part in parts))


def below(what: str, word: str, count: int) -> int:
    """The number that a word is, of a thing of which there are so many."""
    try:
        number = int(word, 0)
    except ValueError:
        raise WrongRule(f"behind '{what}' stands {word[:20]!r} and no number") from None
    if number >= count:
        raise WrongRule(f"there is no {what} {number}" + (f", but {what}s 0 to {count - 1}" if count else ""))
    return number


def of_lock_end(what: str, lock: int, word: int) -> Value:
    return {"word": lambda end: end.word(lock, word), "signed": lambda end: signed(end.word(lock, word)),
            "sections": lambda end: end.locks[lock][1], "broken": lambda end: end.locks[lock][0]}[what]


def of_thread_end(what: str, thread: int) -> Value:
    return {"x10": lambda end: end.threads[thread][1], "signed x10": lambda end: signed(end.threads[thread][1]),
            "fault": lambda end: int((end.threads[thread][0].split("fault ") + ["0"])[1]),
            }.get(what, lambda end: int(end.threads[thread][0] == what))
