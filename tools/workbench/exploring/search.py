"""Searches every interleaving of a guest, by the steps of sections.py, with each state kept once.

States are taken in the order of how many blocks lead to them, so a state is met first on a shortest way. With several
processes each keeps the states that fall to it by a checksum, and all take the states with the same number of blocks at
one time."""
from __future__ import annotations

import functools
import hashlib
import itertools
import marshal
import math
import multiprocessing
import random
import signal
import zlib
from array import array
from typing import Any, Callable, Iterable, NamedTuple, Tuple

from ..guest import model
from . import rules, sections, steps

ROOT = 2**64 - 1  # whence the first state is
ALONE = 20000  # so many states are searched by one process before others are started
WALKS = 256  # to the end, where not all was seen
AT_ONCE = 1000  # so many states each share takes before it looks whether to stop
VERSION = 1  # of what is kept of a search
DIGEST = 64  # bytes of a digest


class Way(NamedTuple):
    """An end with how one comes to it: the threads that have the sections, in their order, and how many
    blocks there are with those before the first sections."""
    end: rules.End
    threads: Tuple[int, ...]
    blocks: int


class Walk(NamedTuple):
    """A way by chance from a state that waits to the end: whence the state is, how it ends, the threads
    that have the sections behind the state, how many blocks there are, how many sections each thread has."""
    whence: int
    end: rules.End
    threads: Tuple[int, ...]
    blocks: int
    rounds: Tuple[int, ...]


class Share:
    """The part of the states that falls to one process."""

    def __init__(self, guest: model.Guest, fuel: int, number: int, shares: int, asked: list[str], whole: bool) -> None:
        self.sections = sections.Sections(guest, fuel, whole)
        self.number, self.shares = number, shares
        self.seen: set[bytes] = set()
        self.whence, self.waiting = array("Q"), {}  # type: array[int], dict[int, dict[bytes, int]]  # blocks: state: whence
        self.ends: list[tuple[bytes, int, int]] = []  # state, place in whence, blocks
        self.asked = {text: rules.Rule(text, self.sections.threads, [
            len(lock.bytes) for lock in self.sections.machine.locks]) for text in asked}

    def first(self) -> None:
        """Begins with the first state, where it falls to this share."""
        state, count = self.sections.first()
        if self.owner(state) == self.number:
            self.waiting[count] = {state: ROOT}
        self.sections.fresh.clear()  # all shares have these

    def owner(self, state: bytes) -> int:
        return zlib.crc32(state) % self.shares if self.shares > 1 else 0

    def next_count(self) -> int | None:
        return min(self.waiting, default=None)

    def whence_of(self, place: int) -> int:
        return self.whence[place]

    def take(self, parts: Any, states: Any) -> None:
        """Takes what other shares found: parts, and states with their numbers of blocks and whence."""
        for name, content, rounds in parts:
            self.sections.keep(name, content)
            if rounds is not None:
                self.sections.rounds.setdefault(name, rounds)
        self.sections.fresh.clear()
        size = sections.NAME * (self.sections.threads + self.sections.locks)
        for count, joined, whence in states:
            waiting = self.waiting.setdefault(count, {})
            for place, one in enumerate(array("Q", whence)):
                state = joined[place * size:(place + 1) * size]
                if state not in self.seen:
                    waiting.setdefault(state, one)

    def level(self, count: int, most: int) -> tuple[int, list[Any], list[list[Any]], dict[str, int]]:
        """Follows the states with so many blocks, at most so many of them. Answers how many, the new
        parts, the states for each share, and which rules hold of which end."""
        found: list[Any] = [{} for _ in range(self.shares)]
        followed, answers, before = 0, {}, len(self.ends)
        seen, waiting = self.seen, self.waiting.pop(count, {})
        found[self.number] = self.waiting
        while waiting and followed < most:
            state, whence = waiting.popitem()
            if state in seen:
                continue
            followed += 1
            place = (len(self.whence) * self.shares + self.number) * sections.MOST_THREADS
            seen.add(state)
            self.whence.append(whence)
            ended = True
            for thread in range(self.sections.threads):
                section = self.sections.result(state, thread)
                if section:
                    ended, new = False, self.sections.behind(state, sections.NAME * thread, section)
                    if new not in seen:
                        states = found[self.owner(new)].setdefault(count + section.blocks, {})
                        states.setdefault(new, place + thread)
            if ended:
                self.ends.append((state, len(self.whence) - 1, count))
        if waiting:
            self.waiting[count] = waiting
        for number in range(before, len(self.ends)):
            end = self.sections.end(self.ends[number][0])
            for text, rule in self.asked.items():
                if text not in answers and rule.holds(end):
                    answers[text] = number
        found[self.number] = {}
        rounds = self.sections.rounds
        fresh = [(name, content, rounds.get(name)) for name, content in self.sections.fresh]
        self.sections.fresh.clear()
        packed = [[(blocks, b"".join(some), array("Q", some.values()).tobytes()) for blocks, some in states.items()]
                  for states in found]
        return followed, fresh, packed, answers

    def kept(self) -> bytes:
        """All that this share found, as bytes; with the parts that the other shares were not told of, as those of walks."""
        return marshal.dumps((self.seen, self.whence.tobytes(), self.waiting, self.ends, self.sections.contents,
                              self.sections.rounds, self.sections.fresh))

    def go_on(self, kept: bytes) -> None:
        """Goes on from what a share had found."""
        (self.seen, whence, self.waiting, self.ends, self.sections.contents, self.sections.rounds,
         self.sections.fresh) = marshal.loads(kept)
        self.whence.frombytes(whence)

    def end(self, number: int) -> tuple[rules.End, int, int]:
        """How it ends in the end with a number, its place and its number of blocks."""
        state, place, count = self.ends[number]
        return self.sections.end(state), place, count

    def end_states(self) -> list[tuple[rules.End, int]]:
        return [(self.sections.end(state), number) for number, (state, _, _) in enumerate(self.ends)]

    def left(self) -> list[tuple[bytes, int, int]]:
        """The states that wait, each with whence it is and how many blocks lead to it."""
        return [(state, whence, blocks) for blocks, states in sorted(self.waiting.items())
                for state, whence in states.items() if state not in self.seen]

    def places(self, state: bytes) -> tuple[int, ...]:
        """How far the threads are in a state."""
        return tuple(self.sections.rounds[name] for name in self.sections.names(state)[0])

    def progress(self) -> tuple[int, set[tuple[int, ...]]]:
        """Of the states that wait: how many there are, and how far the threads are in them."""
        places = [self.places(state) for state, _, _ in self.left()]
        return len(places), set(places)

    def walked(self, seed: int, many: int) -> list[Walk]:
        """Walks from states that wait."""
        chance, waiting = random.Random(seed), self.left()
        return [self.walk(chance, *chance.choice(waiting)) for _ in range(many if waiting else 0)]

    def walk(self, chance: random.Random, state: bytes, whence: int, blocks: int) -> Walk:
        rounds = [*self.places(state)]
        weights, threads = [16 ** chance.uniform(-1, 1) for _ in rounds], []
        able = list(range(len(rounds)))
        while able:
            thread = chance.choices(able, [weights[number] for number in able])[0]
            found = self.sections.result(state, thread)
            if found:
                state = self.sections.behind(state, sections.NAME * thread, found)
                blocks += found.blocks
                threads.append(thread)
                rounds[thread] += 1
            elif self.sections.contents[state[sections.NAME * thread:][:sections.NAME]][0] != sections.RUNNING:
                able.remove(thread)
        return Walk(whence, self.sections.end(state), tuple(threads), blocks, tuple(rounds))


def serve(pipe: Any, *words: Any) -> None:
    """A process with a share: answers the calls that come through a pipe."""
    signal.signal(signal.SIGINT, signal.SIG_IGN)  # the process that asks ends, and the pipe with it
    share = None
    while True:
        try:
            name, given = pipe.recv()
            share = share or Share(*words)
            answer = getattr(share, name)(*given)
        except EOFError:
            return
        except (MemoryError, sections.Collision, steps.Elsewhere) as trouble:
            answer = trouble
        pipe.send(answer)


class Shares:
    """The shares of a search: one in this process, or several in processes of their own."""

    def __init__(self, guest: model.Guest, fuel: int, asked: list[str], shares: int, whole: bool = False) -> None:
        self.pipes, self.alone = [], None
        if shares == 1:
            self.alone = Share(guest, fuel, 0, 1, asked, whole)
        for number in range(shares if shares > 1 else 0):
            here, there = multiprocessing.Pipe()
            words = there, guest, fuel, number, shares, asked, whole
            multiprocessing.Process(target=serve, args=words, daemon=True).start()
            there.close()
            self.pipes.append(here)
        self.count = shares
        self.sizes = len(guest.entries), [length for _, length in guest.guards]

    def all(self, name: str, *given: Any) -> list[Any]:
        """What each share answers to a call; `given` has a list of words for each, or words for all."""
        words = given if given and isinstance(given[0], list) else [given] * self.count
        if self.alone:
            return [getattr(self.alone, name)(*words[0])]
        for pipe, some in zip(self.pipes, words):
            pipe.send((name, some))
        return [self.answer(pipe) for pipe in self.pipes]

    def one(self, number: int, name: str, *given: int) -> Any:
        if self.alone:
            return getattr(self.alone, name)(*given)
        self.pipes[number].send((name, given))
        return self.answer(self.pipes[number])

    @staticmethod
    def answer(pipe: Any) -> Any:
        try:
            answer = pipe.recv()
        except EOFError:
            raise MemoryError from None  # the system ended the process
        if isinstance(answer, Exception):
            raise answer
        return answer

    def close(self) -> None:
        for pipe in self.pipes:
            pipe.close()


class NoSearch(Exception):
    """A file is not that of a search of this guest, with this fuel and these rules."""


class Search:
    """A search with at most so many states: what it found.

    While it goes on `tell` is called with the number of states so far, and where that answers True it stops. `before`
    is what a search kept that stopped: this one goes on there, with at most so many states more.

    `whole` tells whether every interleaving was seen, and `states` how many states were. Where not all was, `walks` has
    some ways to the end, by chance, from where the search stopped."""

    def __init__(self, guest: model.Guest, fuel: int, asked: Iterable[str] = (), most: int = 10**6, processes: int = 1,
                 until_answered: bool = False, walks: int = WALKS, tell: Callable[[int], bool] = lambda states: False,
                 before: bytes | None = None) -> None:
        self.asked, self.until_answered, self.many, self.tell = list(asked), until_answered, walks, tell
        self.is_stopped = self.whole = False
        self.shares: Shares
        self.mark = hashlib.blake2b(repr((VERSION, guest.ranges, guest.entries, guest.guards, fuel, self.asked)).encode()).digest()
        try:
            if before is None:
                self.search(guest, fuel, most, processes, False)
            else:
                self.resume(guest, fuel, most, before)
        except steps.Elsewhere:
            self.shares.close()
            self.search(guest, fuel, most, processes if before is None else self.shares.count, True)

    def search(self, guest: model.Guest, fuel: int, most: int, processes: int, whole: bool) -> None:
        """Searches in this process, and where that takes long in several."""
        self.all_kept = whole
        for count, some in (1, min(most, ALONE) if processes > 1 else most), (processes, most):
            if count > 1:
                del self.shares  # its memory goes before others have copies of it
            self.shares = Shares(guest, fuel, self.asked, count, whole)
            self.states: int = 0
            self.answers: dict[str, tuple[int, int]] = {}
            self.shares.all("first")
            self.run(some)
            if self.is_answered() or self.states >= most:
                break
        self.finish()

    def is_answered(self) -> bool:
        """Whether nothing more is to be searched."""
        return self.whole or self.is_stopped or (self.until_answered and len(self.answers) == len(self.asked))

    def finish(self) -> None:
        """Walks to the end from where the search stopped."""
        self.walks: list[Walk] = []
        if not self.is_answered():
            words = [[seed, -(-self.many // self.shares.count)] for seed in range(self.shares.count)]
            self.walks += itertools.chain(*self.shares.all("walked", *words))

    def resume(self, guest: model.Guest, fuel: int, most: int, before: bytes) -> None:
        """Goes on where a search stopped, with as many processes as it had."""
        try:
            if before[:DIGEST] != hashlib.blake2b(before[DIGEST:]).digest():
                raise ValueError
            mark, self.all_kept, self.states, self.answers, parts = marshal.loads(before[DIGEST:])
        except (ValueError, EOFError, TypeError):
            raise NoSearch("it is no search that was kept, or is damaged") from None
        if mark != self.mark:
            raise NoSearch("it is a search of another guest, with other fuel or for other rules, or by another version")
        self.shares = Shares(guest, fuel, self.asked, len(parts), self.all_kept)
        self.shares.all("go_on", *[[part] for part in parts])
        self.run(self.states + most)
        self.finish()

    def kept(self) -> bytes:
        """What a later search goes on from."""
        content = marshal.dumps((self.mark, self.all_kept, self.states, self.answers, self.shares.all("kept")))
        return hashlib.blake2b(content).digest() + content

    def run(self, most: int) -> None:
        """Takes level after level, up to so many states, a large level in parts."""
        while True:
            counts = [number for number in self.shares.all("next_count") if number is not None]
            self.whole = not counts
            self.is_stopped = not self.whole and self.tell(self.states)
            if self.is_answered() or self.states >= most:
                return
            self.level(min(counts), min(most - self.states, AT_ONCE * self.shares.count))

    def level(self, blocks: int, most: int) -> None:
        """Follows the states with so many blocks, and lets each share take what falls to it."""
        found = self.shares.all("level", blocks, -(-most // self.shares.count))
        numbers = range(self.shares.count)
        for number, (followed, _, _, answers) in enumerate(found):
            self.states += followed
            for text, end in answers.items():
                self.answers.setdefault(text, (number, end))
        if self.shares.count > 1:
            self.shares.all("take", *[[
                [part for other in numbers if other != number for part in found[other][1]],
                [some for other in numbers for some in found[other][2][number]]] for number in numbers])

    def answer(self, text: str) -> Way | None:
        """A way to an end of which a rule holds, a shortest one where the search found it; or None."""
        if text in self.answers:
            return self.way(*self.answers[text])
        holds = rules.Rule(text, *self.shares.sizes).holds
        return next((self.behind(walk) for walk in self.walks if holds(walk.end)), None)

    def ends(self) -> list[tuple[rules.End, Any]]:
        """Every end that was found, in order, and what answers a way to it."""
        ends = {}
        for share, some in enumerate(self.shares.all("end_states")):
            for end, number in some:
                ends[end] = functools.partial(self.way, share, number)
        for walk in self.walks:
            ends.setdefault(walk.end, functools.partial(self.behind, walk))
        return sorted(ends.items(), key=lambda item: item[0].order())

    def way(self, share: int, number: int) -> Way:
        end, place, blocks = self.shares.one(share, "end", number)
        return Way(end, self.trace(self.shares.one(share, "whence_of", place)), blocks)

    def behind(self, walk: Walk) -> Way:
        return Way(walk.end, self.trace(walk.whence) + walk.threads, walk.blocks)

    def trace(self, whence: int) -> tuple[int, ...]:
        """The threads that have the sections up to a state, from whence it was found."""
        threads = []
        while whence != ROOT:
            place, thread = divmod(whence, sections.MOST_THREADS)
            threads.append(thread)
            place, share = divmod(place, self.shares.count)
            whence = self.shares.one(share, "whence_of", place)
        return tuple(reversed(threads))

    def left(self) -> int:
        """An estimate of how many states were not seen. A thread that has k sections to its end can be at
        k + 1 places, and as many states are taken to be at each choice of places as there are on average
        among those where the search stopped."""
        waiting, places = 0, set()  # type: int, set[Any]
        for count, some in self.shares.all("progress"):
            waiting, places = waiting + count, places | some
        return max(waiting, round(waiting / max(1, len(places)) * combinations(self.walks)) - self.states)


def combinations(walks: list[Walk]) -> float:
    """How many choices of places there are for the threads, by some ways to the end."""
    return float(math.prod(1 + sum(rounds) / len(walks) for rounds in zip(*(walk.rounds for walk in walks))))


def expected(guest: model.Guest, fuel: int, walks: int = 32) -> float:
    """How many choices of places there are for the threads, by ways from the beginning to the end: about as many
    states as a search meets where each choice is met with one state on average."""
    for whole in False, True:
        share = Share(guest, fuel, 0, 1, [], whole)
        try:
            share.first()
            return combinations(share.walked(1, walks))
        except steps.Elsewhere:
            pass
    return 1.0
