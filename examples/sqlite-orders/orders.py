#!/usr/bin/env python3
"""Turns the page trace of a database into a schedule, or into the answer that the schedule must get.

usage: orders.py schedule TRACE    prints a schedule for `warmplay play`
       orders.py answer TRACE      prints what `warmplay play` must print for it

Each line of the trace (`r PAGE` or `w PAGE`) is one reference of device 0 at replica 1, with the number of its line as its
time. Two workers take turns. Each flushes its buffer after every 25 references of its own, and once more at the end; then the
history is shown. The answer is computed from the trace alone: the two latest of the times at which each page was accessed.
"""

import sys
from collections import defaultdict
from typing import Iterator

REPLICA = 1
WORKERS = 2
BATCH = 25


def accesses(path: str) -> Iterator[tuple[int, int]]:
    """The time and the page of each access."""
    with open(path, encoding="ascii") as trace:
        for time, line in enumerate(trace, start=1):
            _kind, page = line.split()
            yield time, int(page)


def events(path: str) -> Iterator[str]:
    """The lines of the schedule before the last, in order."""
    buffered = [0] * WORKERS
    for time, page in accesses(path):
        worker = time % WORKERS
        yield f"ref {REPLICA} {worker + 1} 0:{page} {time}"
        buffered[worker] += 1
        if buffered[worker] == BATCH:
            yield f"flush {REPLICA} {worker + 1}"
            buffered[worker] = 0
    for worker in range(WORKERS):
        yield f"flush {REPLICA} {worker + 1}"


def shown(path: str) -> Iterator[str]:
    """The history that the last line shows."""
    times: dict[int, list[int]] = defaultdict(list)
    for time, page in accesses(path):
        times[page].append(time)
    for page, seen in sorted(times.items()):
        # the times of a page rise, since each access has a time of its own
        last, prev = seen[-1], seen[-2:-1]
        yield f"0:{page} last {last}@{REPLICA}" + "".join(f" prev {time}@{REPLICA}" for time in prev)
    yield f"end {len(times)}"


def main() -> None:
    match sys.argv[1:]:
        case ["schedule", path]:
            lines = [*events(path), f"show {REPLICA}"]
        case ["answer", path]:
            lines = ["ok" for _ in events(path)] + [*shown(path)]
        case _:
            sys.exit(__doc__)
    sys.stdout.write("".join(f"{line}\n" for line in lines))


main()
