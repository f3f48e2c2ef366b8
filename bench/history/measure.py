#!/usr/bin/env python3
"""Measures histories against the same in plain Rust.

usage: measure.py [PAGES..]      the numbers of pages (default: 1000 10000 100000 1000000)

It needs the proved program `benches` and `rustc`. Both programs run in turn, nine times. Both must have the same results. It prints the
lines of bench/runs.py.
"""

import subprocess
import sys
import tempfile
from pathlib import Path

HERE = Path(__file__).resolve().parent
sys.path.insert(0, str(HERE.parent))
from runs import Runs, compiled, program  # noqa: E402

RUNS = 9


def one_run(command: list, pages: int) -> tuple[dict[str, str], dict[str, int]]:
    """The program's results, and the nanoseconds of each."""
    said = subprocess.run([*command, str(pages)], stdout=subprocess.PIPE, check=True, text=True).stdout.splitlines()
    parts = [line.rsplit(": ", 1) for line in said]
    made = {what: it for what, it in parts if not it.endswith(" ns")}
    return made, {what: int(it[:-3]) for what, it in parts if it.endswith(" ns")}


def measure(plain: Path, pages: int) -> None:
    took = Runs()
    for _ in range(RUNS):
        made = {}
        for name, command in [("ours", [program("benches"), "history"]), ("plain Rust", [plain])]:
            made[name], spent = one_run(command, pages)
            for what, nanos in spent.items():
                took.add(f"{what}, {pages:,} pages", name, "ms", nanos / 1e6)
        assert all(made["plain Rust"][what] == it for what, it in made["ours"].items()), made
    took.print()


def main() -> None:
    counts = [int(it) for it in sys.argv[1:]] or [1_000, 10_000, 100_000, 1_000_000]
    with tempfile.TemporaryDirectory() as folder:
        plain = compiled(HERE / "plain.rs", Path(folder))
        for pages in counts:
            measure(plain, pages)


if __name__ == "__main__":
    main()
