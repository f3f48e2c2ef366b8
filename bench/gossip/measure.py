#!/usr/bin/env python3
"""Measures gossip, warm-up and the memory of a history against the same in plain Rust.

usage: measure.py [whole|raised] [PAGES..]      the numbers of pages (default: 1000 10000 100000 1000000)

With `whole` each program runs the warm-up to its end instead, 4,096 steps over 500,000 pages; with `raised` only offers are
measured that follow a raise of the horizon that dropped pages of one bucket. It needs the proved program `benches` and `rustc`.
Both programs run in turn, five times. Both must have the same results. It prints the lines of bench/runs.py.
"""

import os
import subprocess
import sys
import tempfile
from pathlib import Path
from typing import NamedTuple

HERE = Path(__file__).resolve().parent
sys.path.insert(0, str(HERE.parent))
from runs import Runs, compiled, program  # noqa: E402

RUNS = 5
BUCKETS = [1, 10, 64]
STEPS = 16
CHANGED = [0, 1, 10, 51, 64]
# An offer of which no bucket changed looks at no page, so it is made as often with any number of them: two are over before a cache is warm.
UNCHANGED_OFFERS = 2_000
LARGE = [500_000, 1_000_000, 2_000_000]
PER = {"ms": 1e6, "ns": 1}


class Ran(NamedTuple):
    made: str
    nanos: int
    peak: int  # its peak memory in bytes


def one_run(command: list) -> Ran:
    with subprocess.Popen(command, stdout=subprocess.PIPE, text=True) as started:
        made, spent = started.stdout.read().splitlines()
        _, status, used = os.wait4(started.pid, 0)
        started.returncode = os.waitstatus_to_exitcode(status)
    assert started.returncode == 0, command
    return Ran(made, int(spent.removesuffix(" ns")), used.ru_maxrss * 1024)


def tried(plain: Path, runs: int, *load: object) -> list[dict[str, Ran]]:
    """Runs of our program and of the plain one, in turn."""
    words = [str(it) for it in load]
    commands = {"ours": [program("benches"), "gossip"], "plain Rust": [plain]}
    found = [{name: one_run([*command, *words]) for name, command in commands.items()} for _ in range(runs)]
    assert len({ran.made for both in found for ran in both.values()}) == 1, found
    return found


def measure(plain: Path, case: str, unit: str, count: int, *load: object) -> None:
    """The time of each of this many things that the load does."""
    took = Runs()
    for both in tried(plain, RUNS, *load):
        for name, ran in both.items():
            took.add(case, name, unit, ran.nanos / count / PER[unit])
    took.print()


def whole_warm_up(plain: Path) -> None:
    measure(plain, "a warm-up of 4,096 steps, 500,000 pages", "ms", 1, "warm", 500_000, 4_096)


def raised(plain: Path, sizes: list[int]) -> None:
    for pages in sizes:
        offers = max(1, 2_000_000 // pages)
        measure(plain, f"an offer after a raise, {pages:,} pages", "ms", offers, "raised", pages, offers)


def by_size(plain: Path, sizes: list[int]) -> None:
    for pages in sizes:
        rounds = max(1, 20_000 // pages)
        for buckets in BUCKETS:
            measure(plain, f"a round, {buckets} buckets differ, {pages:,} pages", "ms", rounds, "round", pages, buckets, rounds)
        measure(plain, f"a warm-up step whose list is new, {pages:,} pages", "ms", STEPS, "warm", pages, STEPS)
        measure(plain, f"a warm-up step after a reference, {pages:,} pages", "ms", STEPS, "follow", pages, STEPS)
        for buckets in CHANGED:
            offers = max(1, 2_000_000 // pages) if buckets else UNCHANGED_OFFERS
            measure(plain, f"an offer, {buckets} buckets changed, {pages:,} pages", "ms", offers, "offer", pages, buckets, offers)
        measure(plain, f"two references to a page, {pages:,} pages", "ns", pages, "history", pages)


def room(plain: Path) -> None:
    """The peak memory of each, where that is more than this script's own: otherwise the system counts the script's instead."""
    took = Runs()
    for pages in LARGE:
        for both in tried(plain, 1, "history", pages):
            for name, ran in both.items():
                took.add(f"peak memory of a history, {pages:,} pages", name, "MB", ran.peak / 1e6)
    took.print()


def main() -> None:
    words = sys.argv[1:]
    sizes = [int(it) for it in words if it not in ("whole", "raised")] or [1_000, 10_000, 100_000, 1_000_000]
    with tempfile.TemporaryDirectory() as folder:
        plain = compiled(HERE / "plain.rs", Path(folder))
        if words[:1] == ["whole"]:
            whole_warm_up(plain)
            return
        if words[:1] != ["raised"]:
            by_size(plain, sizes)
            room(plain)
        raised(plain, sizes)


if __name__ == "__main__":
    main()
