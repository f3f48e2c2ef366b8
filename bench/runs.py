"""What the scripts of bench/ share: where the programs are, and the form in which they print what they measured.

A line has a case, who ran it, a unit, the fastest run, the median, and each run's number in the order of the runs:

    join all, new, 1,000,000 pages | ours | ms | 75.9 | 77.1 | 77.1 75.9 80.3

The fastest run is the greatest number of a unit in MORE, and the least of any other. `inf` stands for a run that gave no number: threads that
never ran at once. bench/measured keeps these lines, and bench/tables reads them.
"""

import math
import os
import re
import statistics
import subprocess
from pathlib import Path
from typing import NamedTuple

BENCH = Path(__file__).resolve().parent
ROOT = BENCH.parent
# of these more is better: speeds, and how many times as good a thing is
MORE = {"MB/s", "M/s", "1/s", "times"}


def program(name: str) -> Path:
    """The proved program of a crate, which `rt run` leaves in its folder; or what the variable with its name in capitals names."""
    return Path(os.environ.get(name.upper(), ROOT / f"crates/{name}/out/{name}"))


def compiled(source: Path, folder: Path) -> Path:
    """A plain Rust program, in the folder."""
    made = folder / source.stem
    subprocess.run(["rustc", "-O", "--edition", "2024", "-o", made, source], check=True)
    return made


class Line(NamedTuple):
    """What one program needed for one case."""

    case: str
    who: str
    unit: str
    fastest: float
    median: float
    runs: tuple[float, ...]

    def __str__(self) -> str:
        return " | ".join((self.case, self.who, self.unit, shown(self.fastest), shown(self.median), " ".join(map(shown, self.runs))))


def shown(number: float) -> str:
    """Four digits of a number, or more before its point."""
    if math.isinf(number):
        return "inf"
    digits = 3 - math.floor(math.log10(abs(number))) if number else 0
    return f"{number:.{max(0, digits)}f}"


def line_of(case: str, who: str, unit: str, runs: list[float]) -> Line:
    """The runs are rounded first, so that a reader of the line finds the same. The median leaves out runs without a number, unless none has one."""
    runs = [float(shown(it)) for it in runs]
    best = max if unit in MORE else min
    numbers = [it for it in runs if math.isfinite(it)]
    middle = statistics.median(numbers) if numbers else math.inf
    return Line(case, who, unit, best(numbers, default=math.inf), middle, tuple(runs))


def read_line(text: str) -> Line:
    case, who, unit, fastest, median, runs = (it.strip() for it in text.split("|"))
    return Line(case, who, unit, float(fastest), float(median), tuple(map(float, runs.split())))


class Runs:
    """Each run's number, by the case and by who ran it."""

    def __init__(self) -> None:
        self.runs: dict[tuple[str, str], tuple[str, list[float]]] = {}

    def add(self, case: str, who: str, unit: str, number: float) -> None:
        self.runs.setdefault((case, who), (unit, []))[1].append(number)

    def line(self, case: str, who: str) -> Line:
        unit, runs = self.runs[case, who]
        return line_of(case, who, unit, runs)

    def print(self) -> None:
        """Prints the lines, by the case and its numbers, ours first; and begins anew."""
        for case, who in sorted(self.runs, key=lambda it: (by_numbers(it[0]), it[1] != "ours", it[1])):
            print(self.line(case, who), flush=True)
        self.runs.clear()


def by_numbers(case: str) -> list[tuple[int, int, str]]:
    """By what a case is sorted: its words, and its numbers by their size."""
    parts = re.split(r"(\d[\d,]*\d|\d)", case)
    return [(0, 0, it) if at % 2 == 0 else (1, int(it.replace(",", "")), "") for at, it in enumerate(parts)]
