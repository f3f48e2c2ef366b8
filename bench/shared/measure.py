#!/usr/bin/env python3
"""Measures hits by 1, 2 and 4 threads in shards that they share (`SharedShards`, each shard behind a turn), beside shards and a node that one
thread has for itself and beside plain Rust with a Mutex around each shard.

usage: measure.py [HITS [ROUNDS]]      HITS of each thread, 1,000,000 by default; ROUNDS, 7

A hit is a pin, a read of eight bytes and an unpin of a resident page of 4,096 bytes, drawn evenly; by `SharedShards::look` all three are one
turn, as is one lock for a hit in plain Rust. It needs the proved program `bench_threads`, `rustc`, valgrind, 1 GB of memory and four processors
that nothing else uses. Each round runs all in a drawn order. The time is from the first thread's begin to the last thread's end, by the hits
of one thread. Programs that draw the same pages must print the same sum. Instructions are those of one thread, counted by callgrind: what a
run of twice as many hits takes more. It prints the lines of bench/runs.py.
"""

import random
import re
import subprocess
import sys
import tempfile
from pathlib import Path
from typing import NamedTuple

HERE = Path(__file__).resolve().parent
sys.path.insert(0, str(HERE.parent))
from runs import Runs, compiled, program  # noqa: E402

HITS = 1_000_000
ROUNDS = 7
COUNTED_HITS = 20_000
SIZES = [1_024, 65_536]
THREADS = [1, 2, 4]
SHARDS = 16


class Row(NamedTuple):
    program: str
    before: list[str]  # the arguments before the numbers of pages and hits, where `THREADS` stands for the number of threads
    after: list[str] = []


ROWS = {
    "a node": Row("ours", ["node"]),
    "`Shards`, one shard": Row("ours", ["alone", "1"]),
    "`Shards`, 16 shards": Row("ours", ["alone", str(SHARDS)]),
    "`SharedShards`, one shard": Row("ours", ["1", "THREADS"]),
    "`SharedShards`, 16 shards": Row("ours", [str(SHARDS), "THREADS"]),
    "`SharedShards::look`, one shard": Row("ours", ["look", "1", "THREADS"]),
    "`SharedShards::look`, 16 shards": Row("ours", ["look", str(SHARDS), "THREADS"]),
    "plain Rust, one shard": Row("plain", ["1", "alone"]),
    "plain Rust, 16 shards": Row("plain", [str(SHARDS), "alone"]),
    "plain Rust, one Mutex": Row("plain", ["1", "THREADS"]),
    "plain Rust, 16 Mutexes": Row("plain", [str(SHARDS), "THREADS"]),
    "plain Rust, 16 Mutexes, one lock for a hit": Row("plain", [str(SHARDS), "THREADS"], ["once"]),
}


class Cell(NamedTuple):
    row: str
    pages: int
    threads: int

    def case(self) -> str:
        return f"a hit, {self.pages:,} pages, threads: {self.threads}"

    def words(self, hits: int) -> list[str]:
        row = ROWS[self.row]
        before = [str(self.threads) if word == "THREADS" else word for word in row.before]
        return [*before, str(self.pages), str(hits), *row.after]


def is_played(row: Row, threads: int) -> bool:
    return threads == 1 or "THREADS" in row.before


class Bench(NamedTuple):
    programs: dict[str, list[str | Path]]
    hits: int

    def command(self, cell: Cell, hits: int) -> list[str | Path]:
        return [*self.programs[ROWS[cell.row].program], *cell.words(hits)]

    def one_run(self, cell: Cell) -> tuple[str, float]:
        """The sum of what was read, and the nanoseconds of a hit of each thread."""
        said = subprocess.run(self.command(cell, self.hits), stdout=subprocess.PIPE, check=True, text=True).stdout
        read, spent = said.splitlines()
        return read, int(spent.split()[0]) / self.hits

    def measure(self, cells: list[Cell], rounds: int) -> None:
        took = Runs()
        sums: dict[tuple[int, int], str] = {}
        for _ in range(rounds):
            for cell in random.sample(cells, len(cells)):
                read, spent = self.one_run(cell)
                took.add(cell.case(), cell.row, "ns", spent)
                assert sums.setdefault((cell.pages, cell.threads), read) == read, cell
        took.print()

    def counted(self, cell: Cell, hits: int) -> int:
        command = ["valgrind", "--tool=callgrind", "--callgrind-out-file=/dev/null", *self.command(cell, hits)]
        said = subprocess.run(command, stdout=subprocess.DEVNULL, stderr=subprocess.PIPE, check=True, text=True).stderr
        collected = re.search(r"Collected : (\d+)", said)
        assert collected, said
        return int(collected[1])

    def instructions(self, cell: Cell) -> float:
        return (self.counted(cell, 2 * COUNTED_HITS) - self.counted(cell, COUNTED_HITS)) / COUNTED_HITS

    def count(self, cells: list[Cell]) -> None:
        took = Runs()
        for cell in cells:
            took.add(f"a hit, {cell.pages:,} pages", cell.row, "instructions", self.instructions(cell))
        took.print()


def main() -> None:
    numbers = [int(word) for word in sys.argv[1:]]
    hits, rounds = (*numbers, *[HITS, ROUNDS][len(numbers) :])
    cells = [Cell(name, pages, threads) for pages in SIZES for threads in THREADS for name, row in ROWS.items() if is_played(row, threads)]
    with tempfile.TemporaryDirectory() as folder:
        bench = Bench({"ours": [program("bench_threads"), "shared"], "plain": [compiled(HERE / "plain.rs", Path(folder))]}, hits)
        bench.measure(cells, rounds)
        bench.count([it for it in cells if it.threads == 1])


if __name__ == "__main__":
    main()
