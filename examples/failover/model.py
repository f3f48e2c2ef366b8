#!/usr/bin/env python3
"""What a report must say of a trace, computed from the trace alone.

usage: model.py TRACE FRAMES INTERVAL ACCESSES HABITS TAKEOVER..

HABITS are ONCE-IN/HOLD, parted by commas. It prints ratios.csv, and then costs.csv without its last column, which is
a time. No code is shared with the report or with warmplay: histories are dictionaries of the two latest times, pools
are sets, and a victim is found by comparing all resident pages, by the definitions that scripts/definitions prints (the
greatest backward 2-distance leaves first, then the older latest reference, then the lesser page).
"""

import random
import sys
from collections import deque
from typing import Callable

NEVER = 0  # before every time: times are counted from 1
RATIO_OVER = 200
NAMES = ["primary", "cold", "history", "warmed"]
NAMES += ["restored", "restored 1", "restored 10", "last use", "1 of 2", "1 of 10"]

Habit = tuple[int, int]  # accesses in which a page's references count once, and for which its page cannot leave
Times = tuple[int, int]  # the second latest time of a page's references, and the latest; NEVER where there is none
Known = dict[int, Times]


def leaves_first(known: Known) -> Callable[[int], tuple[int, int, int]]:
    """Of two pages the lesser leaves first. A page without a second reference is infinitely far back."""
    return lambda page: (*known.get(page, (NEVER, NEVER)), page)


def united(known: Known, more: Known) -> Known:
    """Both together: of each page the two latest of all times."""
    both = dict(known)
    for page, times in more.items():
        latest = sorted({*both.get(page, ()), *times} - {NEVER})[-2:]
        both[page] = (latest[0] if len(latest) == 2 else NEVER, latest[-1])
    return both


class Pool:
    """A replica: what it knows, which pages are in its frames, and what its own worker did."""

    def __init__(self, frames: int, known: Known, habit: Habit) -> None:
        self.frames, self.known, self.resident = frames, dict(known), set[int]()
        self.loaded = self.referred = 0
        self.once_in, hold = habit
        self.counted: dict[int, int] = {}
        self.stays: deque[int] = deque(maxlen=hold - 1)  # the pages of the accesses before this one that still stay

    def refer(self, page: int, time: int) -> None:
        """A reference, later than all before it."""
        self.known[page] = (self.known.get(page, (NEVER, NEVER))[1], time)

    def access(self, page: int, time: int) -> bool:
        """An access; whether it found its page in a frame."""
        if page not in self.counted or self.counted[page] + self.once_in <= time:
            self.counted[page] = time
            self.referred += 1
            self.refer(page, time)
        found = page in self.resident
        if not found:
            self.load(page)
        self.stays.append(page)
        return found

    def load(self, page: int) -> None:
        """Puts a page into a frame; where all are full one leaves first."""
        self.loaded += 1
        if len(self.resident) == self.frames:
            self.resident.remove(min(self.resident.difference(self.stays), key=leaves_first(self.known)))
        self.resident.add(page)

    def warm(self, steps: int) -> None:
        """Loads this many of the hottest pages, at most one for each frame."""
        for page in sorted(self.known, key=leaves_first(self.known), reverse=True)[: self.frames][:steps]:
            self.load(page)

    def hits(self, accesses: list[tuple[int, int]]) -> int:
        """Makes these accesses: how many found their page in a frame."""
        return sum(self.access(page, time) for time, page in accesses)


def round_of(known: Known) -> list[Known]:
    """What one round sends: of each bucket, in rising order, its pages' times in pieces of up to 1000 pages."""
    pieces = []
    for bucket in range(64):
        pages = sorted(page for page in known if page % 64 == bucket)
        pieces += [{page: known[page] for page in pages[at : at + 1000]} for at in range(0, len(pages), 1000)]
    return pieces


def size(piece: Known) -> int:
    """The bytes of a frame with these entries: a header and a count, page and tag of each, ten for each time."""
    return 23 + sum(11 + 10 * sum(time != NEVER for time in times) for times in piece.values())


def heard(rounds: list[list[Known]], one_of: int) -> tuple[Known, int]:
    """What a replica knows that receives one of this many pieces, a round late and two rounds late, and the bytes of that."""
    dice = random.Random(1)
    pieces = [(place, piece) for place, sent in enumerate(rounds) for piece in sent]
    known: Known = {}
    came = 0
    for first in range(0, len(pieces), one_of):
        drawn = int(dice.random() * one_of)
        for place, piece in pieces[first : first + one_of][drawn : drawn + 1]:
            arrivals = sum(place + late < len(rounds) for late in (1, 2))
            came += arrivals * size(piece)
            known = united(known, piece) if arrivals else known
    return known, came


class Takeover:
    """The replicas at a takeover, and what they do afterwards."""

    def __init__(
        self, trace: list[tuple[int, int]], frames: int, interval: int, accesses: int, habit: Habit, moment: int
    ) -> None:
        self.frames, self.moment, self.habit = frames, moment, habit
        following = trace[moment : moment + accesses]
        self.blocks = [following[at : at + RATIO_OVER] for at in range(0, len(following), RATIO_OVER)]
        self.blocks = [block for block in self.blocks if len(block) == RATIO_OVER]
        primary = Pool(frames, {}, habit)
        rounds = []
        for time, page in trace[:moment]:
            primary.hits([(time, page)])
            if time % interval == 0 and time < moment:
                rounds.append(round_of(primary.known))
        primary.loaded = 0
        self.references = primary.referred
        self.sent = sum(size(piece) for sent in rounds for piece in sent)
        # what the primary knew at each round; nothing before the first
        told = [{page: times for piece in sent for page, times in piece.items()} for sent in rounds] or [{}]
        self.whole: Known = told[-1]
        self.came = {name: heard(rounds, one_of) for name, one_of in (("1 of 2", 2), ("1 of 10", 10))}
        self.pools = {"primary": primary, "cold": Pool(frames, {}, habit), "history": Pool(frames, self.whole, habit)}
        self.pools["warmed"] = self.warmed(self.whole, frames)
        for name, age in (("restored", 0), ("restored 1", 1), ("restored 10", 10)):
            self.pools[name] = self.warmed(told[-1 - age] if age < len(told) else told[0], frames)
        self.pools["last use"] = self.dumped(trace[: len(rounds) * interval])
        self.pools |= {name: self.warmed(known, frames) for name, (known, _came) in self.came.items()}
        self.loaded = {name: pool.loaded for name, pool in self.pools.items()}
        self.found = {name: [pool.hits(block) for block in self.blocks] for name, pool in self.pools.items()}

    def warmed(self, known: Known, steps: int) -> Pool:
        """A pool whose replica knows this, after this many warm-up steps."""
        pool = Pool(self.frames, known, self.habit)
        pool.warm(steps)
        return pool

    def dumped(self, accesses: list[tuple[int, int]]) -> Pool:
        """The pages of latest last use, each known by that use alone."""
        pool = Pool(self.frames, {}, self.habit)
        uses = {page: time for time, page in accesses}
        for page in sorted(uses, key=lambda page: uses[page])[-self.frames :]:
            pool.refer(page, uses[page])
            pool.load(page)
        return pool

    def is_near(self, hits: int, place: int) -> bool:
        """Whether this many hits in a block are within a hundredth of the primary's ratio, or above."""
        return 100 * (self.found["primary"][place] - hits) <= RATIO_OVER

    def steps_needed(self) -> str:
        """The first number of steps that is enough, or nothing."""
        for steps in range(0, self.frames + 1, max(1, self.frames // 50)):
            if self.is_near(self.warmed(self.whole, steps).hits(self.blocks[0]), 0):
                return str(steps)
        return ""

    def place(self, name: str) -> str:
        """What the lines of one policy begin with."""
        once_in, hold = self.habit
        return f"{self.frames},{self.moment},{once_in},{hold},{name}"

    def ratio_lines(self) -> list[str]:
        """The lines of ratios.csv."""
        return [f"{self.place(name)},{' '.join(map(str, self.found[name]))}" for name in NAMES]

    def cost_line(self, name: str) -> str:
        """The line of costs.csv of one policy, without the time."""
        near, reads = "", self.loaded[name]
        for place, hits in enumerate(self.found[name]):
            reads += RATIO_OVER - hits
            if self.is_near(hits, place):
                near = f"{RATIO_OVER * (place + 1)},{reads}"
                break
        deaf = name in ("primary", "cold", "last use")
        came = 0 if deaf else self.came[name][1] if name in self.came else self.sent
        sent = self.sent if came else 0
        references = self.references if name == "primary" else ""
        steps = self.steps_needed() if name == "warmed" else ""
        return f"{self.place(name)},{near or ','},{self.loaded[name]},{references},{sent},{came},{steps}"

    def cost_lines(self) -> list[str]:
        """The lines of costs.csv, without the times."""
        return [self.cost_line(name) for name in NAMES]


def accesses_of(path: str) -> list[tuple[int, int]]:
    """The time and the page of each access; pages are numbered in their order, as on the device."""
    with open(path, encoding="ascii") as lines:
        pages = [int(line.split()[1]) for line in lines]
    order = sorted(set(pages))
    numbers = dict(zip(order, range(len(order))))
    return [(time, numbers[page]) for time, page in enumerate(pages, start=1)]


def main() -> None:
    match sys.argv[1:]:
        case [path, frames, interval, accesses, words, *moments] if moments:
            habits = [(int(once_in), int(hold)) for once_in, hold in (word.split("/") for word in words.split(","))]
        case _:
            sys.exit(__doc__)
    trace = accesses_of(path)
    found = [
        Takeover(trace, int(frames), int(interval), int(accesses), habit, int(moment))
        for moment in moments
        for habit in habits
    ]
    places = "frames,takeover,once_in,hold,policy"
    print(f"{places},hits in each {RATIO_OVER} accesses")
    print("\n".join(line for takeover in found for line in takeover.ratio_lines()))
    print(f"{places},near_after,near_reads,loaded,references,gossip_sent,gossip_came,steps_needed")
    print("\n".join(line for takeover in found for line in takeover.cost_lines()))


if __name__ == "__main__":
    main()
