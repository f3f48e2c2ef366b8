#!/usr/bin/env python3
"""Measures visits to resident pages of a pool, pins of pages that are in no frame, the emptying of a full pool, and searches for pages,
against those in plain Rust.

usage: measure.py [NAME..]      empty, visits, misses, strides (default: all)

It needs the proved program `benches` and `rustc`. The programs run in turn, five times, for the emptying twenty times. All must print the
same checksum. The plain program finds its pages and its victims in up to four ways; docs/PERFORMANCE.md has the fastest. Strides are powers
of two up to 2^40. It prints the lines of bench/runs.py.
"""

import subprocess
import sys
import tempfile
from pathlib import Path

HERE = Path(__file__).resolve().parent
sys.path.insert(0, str(HERE.parent))
from runs import Runs, compiled, program  # noqa: E402

RUNS = 5
VISITS, MISSES = 5_000_000, 1_000_000
MANY = 65_536
MIXED, TREE, RANKS = "plain Rust, a hash that multiplies", "a winner tree", "a BTreeSet of ranks"
# how the plain program finds its pages and victims, and its words for it
INDEXES = {"plain Rust, a HashMap": [], MIXED: ["mixed"]}
PLAINS = {
    f"plain Rust, a HashMap, {TREE}": [],
    f"{MIXED}, {TREE}": ["mixed"],
    f"plain Rust, a HashMap, {RANKS}": ["ordered"],
    f"{MIXED}, {RANKS}": ["mixed", "ordered"],
}


def one_run(command: list) -> list[str]:
    return subprocess.run(command, stdout=subprocess.PIPE, check=True, text=True).stdout.splitlines()


def commands(plain: Path, words: list[str], plains: dict[str, list[str]]) -> dict[str, list]:
    return {"ours": [program("benches"), "pool", *words]} | {name: [plain, *words, *rest] for name, rest in plains.items()}


def measure_emptying(plain: Path) -> None:
    """A restart empties its pool."""
    took = Runs()
    programs = commands(plain, ["empty"], PLAINS)
    programs["ours"].append(str(MANY))
    for _ in range(4 * RUNS):
        for name, command in programs.items():
            took.add(f"a pool of {MANY:,} frames is emptied", name, "µs", int(one_run(command)[0].split()[0]) / 1000)
    took.print()


def measure_pins(case: str, programs: dict[str, list], count: int) -> None:
    """All programs must have read the same."""
    took = Runs()
    for _ in range(RUNS):
        read = set()
        for name, command in programs.items():
            line, spent = one_run(command)
            read.add(line)
            took.add(case, name, "ns", int(spent.split()[0]) / count)
        assert len(read) == 1, read
    took.print()


def measure_visits(plain: Path) -> None:
    measure_pins("a visit: pin, read, write, unpin", commands(plain, [str(VISITS)], INDEXES), VISITS)


def measure_misses(plain: Path) -> None:
    measure_pins("a miss", commands(plain, ["misses", str(MISSES)], PLAINS), MISSES)


def measure_strides(plain: Path) -> None:
    """One search, by which pages are in the frames."""
    took = Runs()
    programs = commands(plain, ["strides"], INDEXES)
    programs["ours"].append(str(MANY))
    for _ in range(RUNS):
        for name, command in programs.items():
            said = (line.split(": ") for line in one_run(command))
            spent = {which: int(nanos.split()[0]) / (16 * MANY) for which, nanos in said}
            took.add("a search, drawn pages", name, "ns", spent["drawn"])
            took.add("a search, the slowest stride", name, "ns", max(it for which, it in spent.items() if which.startswith("stride")))
            took.add("a search, one page of each device", name, "ns", spent["devices"])
    took.print()


LOADS = {"empty": measure_emptying, "visits": measure_visits, "misses": measure_misses, "strides": measure_strides}


def main() -> None:
    with tempfile.TemporaryDirectory() as folder:
        plain = compiled(HERE / "plain.rs", Path(folder))
        for name in sys.argv[1:] or list(LOADS):
            LOADS[name](plain)


if __name__ == "__main__":
    main()
