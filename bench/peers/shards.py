#!/usr/bin/env python3
"""Measures hits by 1, 2 and 4 threads in one pool of 16 shards, ours from C beside RocksDB's caches, Berkeley DB's Mpool and a plain array; what
slow devices cost other calls of ours, and what shards cost a batch.

usage: shards.py LIBRARY [ROUNDS]      LIBRARY is the folder that scripts/c-library made; ROUNDS is 7 by default

README.md says what is compared. It needs what measure.py needs, and four processors that nothing else uses: the number of a run is `inf` where
the machine never ran all threads at once. Each round runs all in a drawn order. Of a run it prints the fastest slice, and the median one.
No round begins after five minutes, so that all ends within eight. It prints the lines of bench/runs.py.
"""

import ctypes
import math
import os
import random
import subprocess
import sys
import tempfile
import time
from pathlib import Path
from typing import NamedTuple

from measure import HERE, MEMORY, PAGE_SIZE, build, compiled, refuse
from runs import Runs

ROUNDS = 7
SECONDS = 300
SLICES = 200
FILE_PAGES = 65_536
SIZES = [1_024, 65_536]
THREADS = [1, 2, 4]
SHARDS = 16
SLOW_READS = 200
# of Linux's prctl: a process, and those that it begins, get no huge pages
PR_SET_THP_DISABLE = 41


class Row(NamedTuple):
    program: str
    kind: str
    shards: int
    is_attached: bool = True  # of ours: the one thread of a pool takes locks too
    most: int = max(THREADS)
    least_pages: int = min(SIZES)
    is_huge: bool = True


OURS, ARRAY = "ours", "a plain array"
ROWS = {
    "ours, one shard, no other handle": Row("ours", "pins", 1, False, 1),
    "ours, one shard": Row("ours", "pins", 1),
    "ours, no other handle": Row("ours", "pins", SHARDS, False, 1),
    OURS: Row("ours", "pins", SHARDS),
    "ours, with a reference": Row("ours", "references", SHARDS),
    "ours, without huge pages": Row("ours", "pins", SHARDS, least_pages=max(SIZES), is_huge=False),
    "RocksDB LRUCache": Row("rocks", "lru", SHARDS),
    "RocksDB HyperClockCache": Row("rocks", "clock", SHARDS),
    "Berkeley DB, for all threads": Row("mpool", "shared", 0),
    ARRAY: Row("array", "plain", 0),
}


class Cell(NamedTuple):
    row: str
    pages: int
    threads: int

    def case(self) -> str:
        return f"a hit, {self.pages:,} pages, threads: {self.threads}"


def without_huge_pages() -> None:
    if ctypes.CDLL(None).prctl(PR_SET_THP_DISABLE, 1, 0, 0, 0) != 0:
        raise OSError("prctl")


def ratio(one: float, other: float) -> float:
    """No number where one of them was not measured."""
    return one / other if math.isfinite(one) and math.isfinite(other) else math.inf


class Times:
    """Of each cell the nanoseconds of a call of each thread: those of the fastest slice and of the median one, of each run."""

    def __init__(self) -> None:
        self.took = Runs()

    def run(self, folder: Path, cell: Cell, file: Path) -> None:
        row = ROWS[cell.row]
        environment = dict(os.environ)
        environment.pop("OURS_ATTACHED", None)
        if row.is_attached:
            environment["OURS_ATTACHED"] = "1"
        words = [row.kind, "hits", str(cell.pages), str(SLICES), str(cell.threads), str(row.shards), file]
        before = None if row.is_huge else without_huge_pages
        command = [folder / row.program, *words]
        said = subprocess.run(command, stdout=subprocess.PIPE, check=True, text=True, env=environment, preexec_fn=before).stdout.split()
        self.took.add(cell.case(), cell.row, "ns", float(said[0]))
        self.took.add(f"{cell.case()}, median slice", cell.row, "ns", float(said[2]))

    def rate(self, row: str, pages: int, threads: int) -> float:
        """How many times as many calls as one thread makes, by medians."""
        one, all_of_them = (self.took.line(f"{Cell(row, pages, it).case()}, median slice", row).median for it in (1, threads))
        return ratio(one * threads, all_of_them)

    def print(self) -> None:
        growth = Runs()
        for pages in SIZES:
            for threads in THREADS[1:]:
                share = ratio(self.rate(OURS, pages, threads), self.rate(ARRAY, pages, threads))
                growth.add(f"growth by the array's, {pages:,} pages, threads: {threads}", OURS, "times", share)
        self.took.print()
        growth.print()


def number_of(program: Path, *words: str) -> float:
    """The first number that a program prints."""
    return float(subprocess.run([program, *words], stdout=subprocess.PIPE, check=True, text=True).stdout.split()[0])


def print_devices(folder: Path) -> None:
    """What slow devices leave to other calls: hits by those without them, reads under way at once, and syncs of a write-back."""
    took = Runs()
    slow, reads = folder / "slow_devices", folder / "slow_reads"
    for shards in (1, SHARDS):
        took.add(f"hits beside four threads' reads of 10 ms, shards: {shards}", OURS, "times", number_of(slow, "hits", str(shards)))
    for shards in (1, SHARDS, 64):
        took.add(f"reads of 1 ms under way, 16 threads, shards: {shards}", OURS, "times", number_of(reads, str(shards), "16", str(SLOW_READS)))
    batches = [number_of(slow, "batch", str(shards)) for shards in (64, 1)]
    took.add("a batch of 64 references over 64 shards, by one shard's", OURS, "times as long", batches[0] / batches[1])
    took.add("a write-back of 64 shards beside a writer", OURS, "syncs", number_of(slow, "syncs", "64"))
    took.print()


def build_slow(library: Path, folder: Path) -> None:
    for name in ("slow_reads", "slow_devices"):
        links: list[str | Path] = [f"-I{library}/include", HERE / f"{name}.c", f"-L{library}/lib", "-lwarm_c", "-lpthread"]
        compiled(["cc", "-std=c11", "-O2", "-Wall", "-Wextra", *links, "-o", folder / name], f"{name}.c needs our library")


def main() -> None:
    library, *rest = sys.argv[1:] or [""]
    if not library or len(rest) > 1 or not all(word.isdecimal() for word in rest):
        refuse(f"the words are wrong\n\n{__doc__}")
    rounds, start = int(rest[0]) if rest else ROUNDS, time.monotonic()
    with tempfile.TemporaryDirectory() as built, tempfile.TemporaryDirectory(dir=MEMORY) as memory:
        folder, file, root = Path(built), Path(memory) / "pages", Path(library).resolve()
        build(root, folder)
        build_slow(root, folder)
        with open(file, "wb") as pages:
            for number in range(FILE_PAGES):
                pages.write(number.to_bytes(8, "little") + bytes(PAGE_SIZE - 8))
        times, made = Times(), 0
        cells = [Cell(name, pages, threads) for pages in SIZES for threads in THREADS for name in ROWS]
        cells = [it for it in cells if it.threads <= ROWS[it.row].most and it.pages >= ROWS[it.row].least_pages]
        while made < rounds and (made == 0 or time.monotonic() - start < SECONDS):
            for cell in random.sample(cells, len(cells)):
                times.run(folder, cell, file)
            made += 1
        times.print()
        print_devices(folder)


if __name__ == "__main__":
    main()
