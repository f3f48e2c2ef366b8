#!/usr/bin/env python3
"""Measures references per second that 1, 2 and 4 workers add to one replica, against a plain Rust replica behind a
std::sync::Mutex: a history alone, and a node.

usage: measure.py [idle|busy|both] [REFERENCES] [PAGES]      default: both, 1,000,000 per worker, 100,000

For `busy` as many other processes as there are processors keep them busy meanwhile. It needs the proved program `bench_threads` and
`rustc`. The programs run one after another, each time in a random order, eleven times. All must end with the same hottest pages. It prints
the lines of bench/runs.py.
"""

import random
import re
import subprocess
import sys
import tempfile
from pathlib import Path

HERE = Path(__file__).resolve().parent
sys.path.insert(0, str(HERE.parent))
from busy import all_processors_busy  # noqa: E402
from runs import Runs, compiled, program  # noqa: E402

OURS = [program("bench_threads"), "replica"]
RUNS = 11
CROWDS = [1, 2, 4]
PLAIN = ["history", "node"]
LINE = re.compile(r"workers (\d): (\d+) in (\d+) ns")


def one_run(command: tuple[list, list], workers: int, references: int, pages: int) -> tuple[int, float]:
    """The checksum of the hottest pages, and references per second. A command has words before its numbers, and after them."""
    before, after = command
    words = [*before, str(workers), str(references), str(pages), *after]
    said = subprocess.run(words, stdout=subprocess.PIPE, check=True, text=True).stdout
    _, made, spent = (int(it) for it in LINE.fullmatch(said.strip()).groups())
    return made, workers * references / spent * 1e9


def measure(load: str, commands: dict[str, tuple[list, list]], references: int, pages: int) -> None:
    took = Runs()
    for _ in range(RUNS):
        for workers in CROWDS:
            made = {}
            for name in random.sample(list(commands), len(commands)):
                made[name], speed = one_run(commands[name], workers, references, pages)
                took.add(f"references, {load}, workers: {workers}", name, "M/s", speed / 1e6)
            assert len(set(made.values())) == 1, made
    took.print()


def main() -> None:
    when = sys.argv[1] if len(sys.argv) > 1 else "both"
    assert when in ["idle", "busy", "both"], __doc__
    references = int(sys.argv[2]) if len(sys.argv) > 2 else 1_000_000
    pages = int(sys.argv[3]) if len(sys.argv) > 3 else 100_000
    with tempfile.TemporaryDirectory() as folder:
        plain = compiled(HERE / "plain.rs", Path(folder))
        commands = {"ours": (OURS, [])} | {f"a plain {name}": ([plain], [name]) for name in PLAIN}
        for is_busy in {"idle": [False], "busy": [True], "both": [False, True]}[when]:
            with all_processors_busy(is_busy):
                measure("busy" if is_busy else "idle", commands, references, pages)


if __name__ == "__main__":
    main()
